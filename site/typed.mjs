// Reads and converts what was typed, in the same way for amounts, dates and numbers.

import { inputRepair, statusMessage } from './library.mjs';
import { language, words } from './language.mjs';

// A full-width character in its usual width; 。 becomes a point, since input methods write it.
const usual = (it) => (it === '。' ? '.' : String.fromCharCode(it.charCodeAt(0) - 0xfee0));

/** What was typed, with each character in its usual width, which has the same place. */
export const inUsualWidth = (typed) => typed.replace(/[。\uff01-\uff5e]/g, usual);

/**
 * What was typed, without white space, and a function that converts a place in it to the place in
 * what was typed.
 */
export function withoutSpace(typed) {
  const text = typed.replace(/\s/g, '');
  const placeOf = ({ start, end }) => {
    const kept = /\S/g;
    for (let at = 0; at <= start; at++) kept.exec(typed);
    const first = kept.lastIndex - 1, charIndex = Array.from(typed.slice(0, first)).length;
    return { charIndex, start: first, end: first + end - start };
  };
  return { text, placeOf };
}

/** The message for a text that only needs more text. */
export const sayUnfinished = () => statusMessage('unfinished', language());

/** The message for a character that is not allowed at its place. */
export const sayWhere = (typed, { charIndex, start, end }) =>
  words('wrong', { place: charIndex + 1, character: typed.slice(start, end) });

/** The message for an error. */
export function reasonOf(error) {
  if (error.code === 'outOfMemory') return words('outOfMemory');
  if (error.messageIn) return error.messageIn(language());
  console.error(error);
  return words('failed', error);
}

// A longer text is not explained, since that takes longer than to read it.
const MOST_EXPLAINED = 10_000;

// The place of the character that the message for a refused text names: where the repair is, if
// there is one. `isBefore` says that something is missing before it.
function placeIn(text, error, input) {
  const repair = input && inputRepair(text, input), start = repair?.index ?? error.start;
  const end = start + String.fromCodePoint(text.codePointAt(start)).length;
  return { start, end, isBefore: repair?.change === 'insert' };
}

function refusalOf(typed, error, { text, placeOf }, { input, isBegun }) {
  const isMore = ['empty', 'unfinished'].includes(error.code);
  if (error.code !== 'incorrect') return { said: reasonOf(error), isFault: !isMore };
  if (isBegun?.(text)) return { said: sayUnfinished() };
  if (text.length > MOST_EXPLAINED) {
    const fault = placeOf ? placeOf(error) : error;
    return { said: sayWhere(typed, fault), fault };
  }
  const place = placeIn(text, error, input), said = reasonOf(error);
  if (!placeOf) return { said, fault: place };
  const fault = { ...place, ...placeOf(place) };
  // The first number of a message is the position.
  return { said: said.replace(/\d+/, fault.charIndex + 1), fault };
}

/**
 * Converts what was typed. `textOf` makes another text of it, if needed, `read` reads this, and
 * `answer` makes the result from the value. If the text is refused, the message is the library's.
 * `input` is the library's name for what is read, if it has one. `isBegun` says whether more text
 * can complete one that is refused.
 */
export function answerTyped(typed, { textOf = (text) => ({ text }), read, answer, ...how }) {
  if (typed.trim() === '') return {};
  const it = textOf(typed);
  try {
    return answer(read(it.text));
  } catch (error) {
    return refusalOf(typed, error, it, how);
  }
}
