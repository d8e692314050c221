// node messages.mjs: the message of a TypeError shows the wrong value, shortened, whatever value it
// is. test_web.py copies the binding next to this file.
import assert from 'node:assert/strict';
import * as face from './chinese-number.mjs';

const { INPUTS, KINDS, LANGUAGES, METHODS, QUANTITY_FORMS, UNITS, WAYS, Quantity } = face;
const LONG = 'x'.repeat(1_000_000), CUT = `${'x'.repeat(60)}...`;
const throws = () => {
  throw new Error('called');
};
class Throwing {
  toString() {
    return throws();
  }

  get [Symbol.toStringTag]() {
    return throws();
  }
}
const traps = { get: throws, getPrototypeOf: throws, has: throws };
const { proxy, revoke } = Proxy.revocable([], {});
revoke();

// Each kind of value, and what a message shows of it.
const VALUES = [
  [undefined, 'undefined'], [null, 'null'], [true, 'true (a boolean)'], [5, '5 (a number)'],
  [-0.5, '-0.5 (a number)'], [NaN, 'NaN (a number)'], [1e300, '1e+300 (a number)'],
  [-5n, '-5n (a BigInt)'], [-(2n ** 127n), `${-(2n ** 127n)}n (a BigInt)`],
  [2n ** 127n, 'a long BigInt'], [10n ** 100_000n, 'a long BigInt'],
  ['', '"" (a string)'], ['"\n\ud800', '"\\"\\n\\ud800" (a string)'],
  ['x'.repeat(60), `"${'x'.repeat(60)}" (a string)`], [LONG, `"${CUT}" (a string)`],
  [Symbol('x'), 'Symbol(x) (a symbol)'], [Symbol.iterator, 'Symbol(Symbol.iterator) (a symbol)'],
  [Symbol(LONG), `${`Symbol(${LONG}`.slice(0, 60)}... (a symbol)`],
  [throws, 'a function'], [Throwing, 'a function'], [new Proxy(throws, traps), 'a function'],
  [[], 'an array'], [['一'], 'an array'], [Array(1e6).fill(LONG), 'an array'], [{}, 'an object'],
  [Object.create(null), 'an object'], [{ toString: throws, valueOf: throws }, 'an object'],
  [new Throwing(), 'an object'], [new Proxy({}, traps), 'an object'], [proxy, 'an object'],
  [{ toString: null, [Symbol.toPrimitive]: throws }, 'an object'],
  [new Date(NaN), 'an object (Date)'], [Promise.resolve('一'), 'an object (Promise)'],
  [Object('一'), 'an object (String)'], [new Map(), 'an object (Map)'],
  [{ [Symbol.toStringTag]: LONG }, `an object (${CUT})`],
  [{ [Symbol.toStringTag]: 'a]\nb' }, 'an object (a]\nb)'],
];

const typeOf = (value) => (value === null ? 'null' : typeof value);
const without = (...types) => VALUES.filter(([value]) => !types.includes(typeOf(value)));
const refuses = (call, message) => assert.throws(call, { name: 'TypeError', message });

const figures = 'expected a string of figures, a BigInt or a whole Number';
const decimals = 'the number of decimals must be a whole Number from 0 up';
for (const [values, message, call] of [
  [without('string'), 'expected a string', (it) => face.toNumber(it)],
  [without('string'), 'expected a string', (it) => face.chineseToAmount(it)],
  [without('string'), 'expected a string', (it) => face.chineseToDate(it)],
  [without('string'), 'expected a string', (it) => face.toQuantity(it)],
  [without('string'), 'expected a string', (it) => face.findNumbers(it)],
  [without('string'), 'expected a string', (it) => face.findPhrases(it)],
  [without('string'), 'expected a string', (it) => face.textToFigures(it)],
  [without('string'), 'expected a string', (it) => face.inputExpected(it, 'amount')],
  [without('string'), 'expected a string', (it) => face.numberMessage(it, 'en')],
  [without('bigint', 'number'), 'expected a BigInt or a safe integer', (it) => face.toChinese(it)],
  [without('bigint', 'number'), 'expected a BigInt or a safe integer',
    (it) => face.amountToChinese(it)],
  [without('bigint', 'number'), 'expected a BigInt or a safe integer',
    (it) => Quantity.fraction(1, it)],
  [without('string', 'bigint', 'number'), figures, (it) => face.yuanToFen(it)],
  [without('undefined', 'number'), decimals, (it) => Quantity.decimal(1, it)],
  [without('undefined', 'string'), `kind must be one of ${KINDS.join(', ')}`,
    (kind) => face.toNumber('一', { kind })],
  [without('undefined', 'string'), `way must be one of ${WAYS.join(', ')}`,
    (way) => face.toChinese(1, { way })],
  [without('undefined', 'string'), `method must be one of ${METHODS.join(', ')}`,
    (method) => face.replaceQuantities('一', () => '', { method })],
  [without('undefined', 'string'), `unit must be one of ${UNITS.join(', ')}`,
    (greatest) => face.findQuantities('一', { greatest })],
  [without('string'), `input must be one of ${INPUTS.join(', ')}`,
    (input) => face.inputRepair('壹', input)],
  [without('string'), `language must be one of ${LANGUAGES.join(', ')}`,
    (language) => face.inputMessage('壹', 'date', language)],
  [without('string'), `language must be one of ${LANGUAGES.join(', ')}`,
    (language) => new face.DateError('unfinished').messageIn(language)],
  [without('string'), `form must be one of ${QUANTITY_FORMS.join(', ')}`,
    (form) => new Quantity(1, 2, form)],
  [without('undefined', 'boolean'), 'upper must be true or false',
    (upper) => face.findNumbers('一', { upper })],
  [without('undefined', 'object'), 'options must be an object', (it) => face.toNumber('一', it)],
  [without('object', 'function'), 'expected an object with year, month and day',
    (it) => face.dateToChinese(it)],
  [without('function'), 'replacement must be a function', (it) => face.replaceQuantities('12', it)],
  [without('undefined', 'string'), 'replacement must return a string or undefined',
    (it) => face.replaceQuantities('12', () => it)],
]) {
  assert(values.length > 10);
  for (const [value, shown] of values) refuses(() => call(value), `${message}, not ${shown}`);
}

refuses(() => face.toChinese(1.5), 'expected a BigInt or a safe integer, not 1.5 (a number)');
refuses(() => face.toNumber('一', { kind: 'u7' }),
  `kind must be one of ${KINDS.join(', ')}, not "u7"`);
refuses(() => face.amountToChinese(1, { closing: LONG }),
  `closing must be one of 整, 正, not "${CUT}"`);
refuses(() => face.toNumber('一', ['u8']), 'options must be an object, not an array');
refuses(() => ['三', '一'].map(face.toNumber), 'options must be an object, not 0 (a number)');
refuses(() => face.toNumber('一', { [LONG]: 1 }), `unknown option "${CUT}"`);
refuses(() => face.yuanToFen(15.5),
  'a Number of yuan must be a safe integer, not 15.5; for others, give a string');
refuses(() => Quantity.percent(1, -1), `${decimals}, not -1 (a number)`);

const day = 'expected an object with year, month and day', date = { year: 2026, month: 1, day: 15 };
for (const [it, message] of [
  [new Date(), `${day}, not an object (Date)`], [[2026, 1, 15], `${day}, not an array`],
  ['2026-01-15', `${day}, not "2026-01-15" (a string)`],
  [{ ...date, day: '15' }, 'year, month and day must be whole Numbers, not 2026 (a number), '
    + '1 (a number), "15" (a string)'],
  [Object.create(date),
    'year, month and day must be whole Numbers, not undefined, undefined, undefined'],
]) {
  refuses(() => face.dateToChinese(it), message);
}
