// Answers the questions of test.py, one per line; test.py describes them.
import { readFileSync } from 'node:fs';

import {
  Phrase, Quantity, amountToChinese, chineseToAmountAsTypedBigInt, chineseToAmountBigInt,
  chineseToDate, chineseToSignedAmountAsTypedBigInt, chineseToSignedAmountBigInt, dateToChinese,
  explainNumber, explainQuantity, findNumbers, findPhrases, findQuantities, inputExpected,
  inputMessage, inputRepair, numberMessage, quantitiesToFigures, quantityMessage,
  replaceQuantities, signedAmountToChinese, textToFigures, textToSpeech, toBigInt, toChinese,
  toQuantity, findUnspoken,
  yuanToFenBigInt,
} from './chinese-number.mjs';

// The names in this binding for words of the questions, and the reverse.
const OTHERS = { naive: 'digits', simple: 'simplified' };
const named = (word) =>
  OTHERS[word] ?? word.replace(/_([a-z])/g, (_, letter) => letter.toUpperCase());
const snake = (name) => name.replace(/[A-Z]/g, (it) => `_${it.toLowerCase()}`);

// What a word of a form, or of an option for replacing, sets; `plain` and `none` set nothing.
const SETS = {
  plain: {}, currency: { currency: true }, round_yuan: { yuan: '圆' },
  upright_closing: { closing: '正' }, bracketed_sign: { bracketedSign: true },
  none: {}, about: { about: true },
  one: { oneCharacter: true }, doubtful: { doubtful: true }, expanded: { expanded: true },
  canonical: { canonical: true }, compact: { compact: true }, codes: { codes: true },
};
const optionsOf = (words) => Object.assign({}, ...words.split('+').map((it) => SETS[it]));

function told(call) {
  try {
    return `ok ${call()}`;
  } catch (error) {
    return `err ${error.message}`;
  }
}

const printAs = (print) => (script, form, fen) =>
  print(BigInt(fen), { script: named(script), ...optionsOf(form) });

function readDate(text) {
  const { year, month, day } = chineseToDate(text);
  const digits = (part, count) => String(part).padStart(count, '0');
  return `${digits(year, 4)}-${digits(month, 2)}-${digits(day, 2)}`;
}

function printDate(script, date) {
  const [year, month, day] = date.split('-').map(Number);
  return dateToChinese({ year, month, day }, { script: named(script) });
}

function quantityOf(words) {
  const [, numerator, denominator, form] = /^(.*)\/(.*) (.*)$/.exec(words);
  return new Quantity(BigInt(numerator), BigInt(denominator), form);
}

const exact = ({ numerator, denominator }) => `${numerator}/${denominator}`;
const shown = (quantity) => `${exact(quantity)} ${quantity.form}`;

function flagsOf(found) {
  const flags = {
    plain: found.isPlain, alone: found.standsAlone, about: found.isAbout,
    one: found.isOneCharacter,
  };
  return Object.keys(flags).filter((it) => flags[it]).join(' ');
}

const numeralsUnlessFraction = (found) => {
  const quantity = found.quantity();
  return quantity.form === 'fraction' ? undefined : quantity.toChinese();
};

// The text with each run replaced by its description.
function inPlace(search, text, tell) {
  let done = '', at = 0;
  for (const found of search(text)) {
    done += `${text.slice(at, found.start)}[${tell(found)}]`;
    at = found.end;
  }
  return done + text.slice(at);
}

// The value of a phrase of each kind in words.
const fromTo = ([first, last]) => `${first}..${last}`;
const VALUES = {
  date: ({ year = '?', month = '?', day = '?' }) => `${year}-${month}-${day}`,
  years: fromTo,
  months: fromTo,
  days: fromTo,
  time: ({ hour, minute, second, hourOfDay = '?' }) => `${hour}:${minute}:${second} =${hourOfDay}`,
  duration: ({ hours, minutes, seconds }) => `${hours}:${minutes}:${seconds}`,
  half: exact,
  length: exact,
  score: ([one, other]) => `${one}:${other}`,
  range: (ends) => fromTo(ends.map(exact)),
  money: exact,
};

function phrases(text) {
  const tell = ({ kind, state, text: own, value }) =>
    [kind, state, own, value === null ? '-' : VALUES[kind](value)].join(' ');
  return Array.from(findPhrases(text)).filter((it) => it instanceof Phrase).map(tell).join('\t');
}

function expected(input, text) {
  const { charIndex, mayEnd, whiteSpace, characters } = inputExpected(text, named(input));
  const words = [charIndex, mayEnd ? 'end' : '-', whiteSpace ? 'space' : '-', characters.join('')];
  return words.join(' ').trimEnd();
}

function repair(input, text) {
  const { change = 'none', charIndex, character } = inputRepair(text, named(input)) ?? {};
  return [change, charIndex, character].join(' ').trimEnd();
}

const calls = {
  read: (kind, way, text) => toBigInt(text, { kind, way: named(way) }),
  print: (kind, way, script, letterCase, number) => toChinese(BigInt(number),
    { kind, way: named(way), script: named(script), case: letterCase }),
  read_amount: chineseToAmountBigInt,
  print_amount: (script, fen) => printAs(amountToChinese)(script, 'plain', fen),
  print_amount_as: printAs(amountToChinese),
  print_signed_amount: (script, fen) => printAs(signedAmountToChinese)(script, 'plain', fen),
  print_signed_amount_as: printAs(signedAmountToChinese),
  read_signed_amount: chineseToSignedAmountBigInt,
  read_typed_amount: chineseToAmountAsTypedBigInt,
  read_typed_signed_amount: chineseToSignedAmountAsTypedBigInt,
  yuan_to_fen: yuanToFenBigInt,
  read_date: readDate,
  print_date: printDate,
  find: (text) => inPlace(findNumbers, text, (found) => told(() => found.bigInt())),
  flags: (text) => inPlace(findNumbers, text, flagsOf),
  read_quantity: (way, text) => shown(toQuantity(text, { method: named(way) })),
  find_quantities: (text) => inPlace(findQuantities, text,
    (found) => told(() => shown(found.quantity()))),
  doubts: (text) => inPlace(findQuantities, text, (found) => found.doubt ?? 'none'),
  print_quantity: (way, script, letterCase, words) => quantityOf(words).toChinese(
    { method: named(way), script: named(script), case: letterCase }),
  quantity_figures: (words) => quantityOf(words).toFigures(),
  trim_quantity: (words) => shown(quantityOf(words).trimmed()),
  quantities_to_figures: (flags, text) => quantitiesToFigures(text, optionsOf(flags)),
  text_to_figures: (flags, text) => textToFigures(text, optionsOf(flags)),
  text_to_speech: (script, text) => textToSpeech(text, { script: named(script) }),
  find_unspoken: (text) => inPlace(findUnspoken, text, (found) => found.text),
  phrases,
  replace_quantities: (flags, text) =>
    replaceQuantities(text, numeralsUnlessFraction, optionsOf(flags)),
  expected,
  repair,
  explain: (kind, way, text) => snake(explainNumber(text, { kind, way: named(way) }) ?? 'none'),
  explain_quantity: (way, text) => snake(explainQuantity(text, { method: named(way) }) ?? 'none'),
  input_message: (language, input, text) => inputMessage(text, named(input), language),
  number_message: (language, kind, way, text) =>
    numberMessage(text, language, { kind, way: named(way) }),
  quantity_message: (language, way, text) =>
    quantityMessage(text, language, { method: named(way) }),
};

for (const line of readFileSync(0, 'utf8').split('\n').slice(0, -1)) {
  const [name, ...words] = line.split('\t');
  console.log(told(() => calls[name](...words)));
}
