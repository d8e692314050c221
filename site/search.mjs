// Marks the phrases and quantities of a text, lists them below it with their values, and writes
// them in figures, and the text as it is spoken.

import { Phrase, findPhrases, findQuantities, textToFigures, textToSpeech } from './library.mjs';
import { MOST_MARKED, atEachKey, copyButton, element, partsAround, say } from './field.mjs';
import { scripts, sentences, words } from './language.mjs';
import { methodChosen } from './numbers.mjs';
import { wordsOf } from './phrases.mjs';
import { reasonOf } from './typed.mjs';

const byId = (id) => document.getElementById(id);
const [text, said, found, replaced, spoken] =
  ['text', 'textSaid', 'found', 'replaced', 'spoken'].map(byId);
// The choices for searching and replacing.
const CHOICES = [
  'upper', 'about', 'oneCharacter', 'doubtful', 'expanded', 'canonical', 'compact', 'codes',
];
const [upper, about, oneCharacter, doubtful, expanded, canonical, compact, codes] =
  CHOICES.map(byId);
const mirror = document.querySelector('#searching .mirror');
const MOST_LISTED = 100;
// How many characters are searched at each key if a text is too long for marks.
const NEAR = 400;
let caret = 0;
// This many characters on either side of an item nearly always determine its extent, its kind and
// its doubt.
const SIGHT = 20;

const isLong = (typed) => typed.length > MOST_MARKED;
const wanted = () => (upper.checked ? { upper: true, greatest: 'ji' } : {});

function inFigures(typed) {
  const included = {
    about: about.checked, oneCharacter: oneCharacter.checked, doubtful: doubtful.checked,
  };
  const style = {
    expanded: expanded.checked, canonical: canonical.checked, compact: compact.checked,
    codes: codes.checked,
  };
  return textToFigures(typed, { ...wanted(), ...methodChosen(), ...included, ...style });
}

/** The text as it is spoken, in the script of the page. */
function inSpeech(typed) {
  const [script] = scripts();
  return textToSpeech(typed, { script, ...methodChosen() });
}

/** The figures of an expression, or the reason and the place of an error. */
function valueOf(it) {
  try {
    return { value: it.quantity(methodChosen()).toFigures() };
  } catch (error) {
    const { start = 0, end = it.text.length } = error;
    return { value: reasonOf(error), fault: { start, end } };
  }
}

const isLeft = ({ isAbout, isOneCharacter, doubt }) => (isAbout && !about.checked)
  || (isOneCharacter && !oneCharacter.checked)
  || doubt === 'part' || (doubt !== null && !doubtful.checked);

/** The value of an expression in words, with whether it is approximate and why it is doubtful. */
function shownOf(value, { isAbout, doubt }) {
  const shown = isAbout ? words('valueAbout', { value }) : value;
  return doubt ? words('valueInDoubt', { value: shown, doubt: words(`doubt_${doubt}`) }) : shown;
}

/** Whether a phrase is a half after one character, such as 一个半小时. */
function isShortHalf({ kind, text: own }) {
  if (kind !== 'half') return false;
  const [number] = findQuantities(own, wanted());
  return number.isOneCharacter;
}

/** The class of a phrase, as of an expression, and the text that is shown for it. */
function judgePhrase(it) {
  const shown = wordsOf(it), all = { start: 0, end: it.text.length };
  if (it.state === 'refused') return { name: 'fault', shown, fault: all };
  if (it.state === 'doubtful') return { name: doubtful.checked ? 'doubtful' : 'left', shown };
  return { name: isShortHalf(it) && !oneCharacter.checked ? 'left' : '', shown };
}

/**
 * The class of an expression, and the text that is shown for it. The classes are: refused; left as
 * it is, since approximate, one-character or doubtful expressions were not requested; doubtful,
 * since it is approximate, may be part of something or has a doubt; or none of these.
 */
function judgeExpression(it) {
  const { value, fault } = valueOf(it);
  if (fault) return { name: 'fault', shown: value, fault };
  const shown = shownOf(value, it);
  if (isLeft(it)) return { name: 'left', shown };
  if (it.doubt) return { name: 'doubtful', shown };
  return it.standsAlone
    ? { name: it.isAbout ? 'doubtful' : '', shown }
    : { name: 'doubtful', shown: words('valueDoubtful', { value: shown }) };
}

const judge = (it) => (it instanceof Phrase ? judgePhrase : judgeExpression)(it);

function markOf(name, ...parts) {
  const it = element('mark', ...parts);
  it.className = name;
  return it;
}

/** Marks the items in the mirror of the text. */
function mark(typed, judged) {
  const parts = [];
  let at = 0;
  for (const [it, { name }] of judged) {
    parts.push(typed.slice(at, it.start), markOf(name, it.text));
    at = it.end;
  }
  mirror.replaceChildren(...parts, typed.slice(at));
}

/** Lists the items with their values or refusals. */
function list(judged) {
  const items = judged.slice(0, MOST_LISTED).map(([it, { name, shown, fault }]) => {
    const item = element('span', ...partsAround(it.text, fault, 'u'));
    return element('li', markOf(name, item, ' ', element('small', shown)));
  });
  found.replaceChildren(...items);
}

/** How many items there are, and how many of each class. */
function summaryOf(judged) {
  const all = judged.length, counts = { found: all, more: Math.max(all - MOST_LISTED, 0) };
  for (const [, { name }] of judged) {
    const key = { fault: 'foundFault', left: 'foundLeft', doubtful: 'foundDoubtful' }[name];
    if (key) counts[key] = (counts[key] ?? 0) + 1;
  }
  return ['found', 'foundLeft', 'foundDoubtful', 'foundFault', 'more']
    .filter((key) => key === 'found' || counts[key])
    .map((key) => words(key, { count: counts[key] })).join(' · ');
}

/** The phrases and expressions of a text; for a long text only those near the caret. */
function itemsOf(typed) {
  if (!isLong(typed)) return Array.from(findPhrases(typed, wanted()));
  const from = Math.max(text.selectionStart - NEAR / 2, 0), near = typed.slice(from, from + NEAR);
  const isWhole = ({ start, end }) => (start > SIGHT || from === 0)
    && (end < NEAR - SIGHT || from + NEAR >= typed.length);
  return Array.from(findPhrases(near, wanted())).filter(isWhole);
}

function show(typed) {
  const judged = itemsOf(typed).map((it) => [it, judge(it)]);
  if (isLong(typed)) mirror.replaceChildren();
  else mark(typed, judged);
  text.parentElement.classList.toggle('long', isLong(typed));
  list(judged);
  replaced.textContent = isLong(typed) ? '' : inFigures(typed);
  spoken.textContent = isLong(typed) ? '' : inSpeech(typed);
  replaced.closest('section').hidden = typed === '';
  if (typed === '') return '';
  const near = isLong(typed) ? words('long', { count: NEAR }) : '';
  return sentences(near, summaryOf(judged));
}

/** Searches the text again. */
export function search() {
  caret = text.selectionStart;
  try {
    say(text, said, show(text.value), false);
  } catch (error) {
    say(text, said, reasonOf(error), true);
  }
}

/** Adds the buttons that copy the text in figures and as it is spoken, in the language of the page. */
export function offerCopy() {
  for (const [shown, anew] of [[replaced, inFigures], [spoken, inSpeech]]) {
    shown.parentElement.querySelector('button')?.remove();
    shown.after(copyButton(words(shown.id), () => anew(text.value)));
  }
}

// While an input method composes, the mirror still contains the text, since it determines the
// height of the field. A long text has no mirror, and is searched again when the caret moves.
atEachKey(text, search, () => mirror.replaceChildren(isLong(text.value) ? '' : text.value));
for (const it of ['keyup', 'pointerup']) {
  text.addEventListener(it, () => {
    if (isLong(text.value) && text.selectionStart !== caret) search();
  });
}
for (const it of CHOICES) byId(it).addEventListener('change', search);
