// Numbers: figures to numerals, and numerals to figures. They may have decimals and be percentages
// or fractions, unless an integer type or plain digits are chosen.

import { KINDS, METHODS, toBigInt, toChinese, toQuantity } from './library.mjs';
import { inEachScript, words } from './language.mjs';
import { answerTyped, inUsualWidth } from './typed.mjs';

const [kind, way] = ['kind', 'way'].map((it) => document.getElementById(it));
// In the order of the menu.
const WAYS = ['any', 'digits', 'tenThousand', 'low', 'middle', 'high'];

/** Offers the integer types and the ways, in the language of the page. */
export function offerChoices() {
  const offer = (select, names) => {
    const chosen = select.value;
    select.replaceChildren(...names.map(([it, name]) => new Option(name, it)));
    if (chosen) select.value = chosen;
  };
  offer(kind, [['', words('anyKind')], ...KINDS.map((it) => [it, it])]);
  offer(way, WAYS.map((it) => [it, words(it)]));
}

/** The chosen method for reading and writing quantities, if any. */
export const methodChosen = () => (METHODS.includes(way.value) ? { method: way.value } : {});

const kindChosen = () => kind.value || 'i128';

function figuresOf(text) {
  if (kind.value === '' && way.value !== 'digits') {
    return toQuantity(text, methodChosen()).toFigures();
  }
  return String(toBigInt(text, { kind: kindChosen(), way: way.value }));
}

function numeralsOf(quantity) {
  const textOf = (options) => {
    if (kind.value === '' && way.value !== 'digits') {
      return quantity.toChinese({ ...methodChosen(), ...options });
    }
    if (quantity.form !== 'whole') {
      throw Object.assign(new RangeError(), { messageIn: () => words('notWhole') });
    }
    return toChinese(quantity.numerator, { kind: kindChosen(), way: way.value, ...options });
  };
  return ['lower', 'upper'].flatMap((it) =>
    inEachScript((script) => textOf({ script, case: it }), `_${it}`));
}

// Suffixes that may complete a number that is refused as it is, such as 1,4, 三点, 三分 and 一亿二千.
const ENDS = ['0', '00', '000', '一', '之一', '分之一', '万', '十万', '百万', '一万'];
// A longer text is not tried with them, since each call reads all of it.
const MOST_TRIED = 1000;

/** Whether a refused text can be read, or is only too large, with one of the suffixes. */
const isBegun = (read) => (text) => text.length <= MOST_TRIED && ENDS.some((end) => {
  try {
    read(text + end);
    return true;
  } catch (error) {
    return error.code !== 'incorrect';
  }
});

const answerNumber = (typed, read, answer) => answerTyped(typed, {
  textOf: (it) => ({ text: inUsualWidth(it) }), read, answer, isBegun: isBegun(read),
});

export const writeNumber = (typed) => answerNumber(
  typed, (text) => toQuantity(text).trimmed(), (quantity) => ({ rows: numeralsOf(quantity) }));
export const readNumber = (typed) => answerNumber(
  typed, figuresOf, (figures) => ({ rows: [{ name: words('number'), text: figures }] }));
