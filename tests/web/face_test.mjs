// node face_test.mjs NUMERAL: compares the binding with the native program NUMERAL, line by line,
// and the modules' calls with the C header. Amounts, dates, running text and quantities, for which
// the program has no lines, are compared with RULES. test_web.py copies the binding, the header and
// the rows next to this file.
import assert from 'node:assert/strict';
import { spawnSync } from 'node:child_process';
import { existsSync, readFileSync } from 'node:fs';
import * as face from './files/chinese-number.mjs';

const { CASES, CHANGES, DOUBTS, FAULTS, INPUTS, KINDS, LANGUAGES, METHODS } = face;
const { QUANTITY_FORMS, SCRIPTS, UNITS, WAYS } = face;
const { PHRASE_KINDS, PHRASE_STATES } = face;
const { AmountError, DateError, Found, FoundQuantity, NumeralError, Phrase } = face;
const { findNumbers, toBigInt, toChinese, toNumber, chineseToDate, dateToChinese } = face;
const { amountToChinese, chineseToAmount, chineseToAmountBigInt } = face;
const { signedAmountToChinese, chineseToSignedAmount, chineseToSignedAmountBigInt } = face;
const { chineseToAmountAsTyped, chineseToAmountAsTypedBigInt } = face;
const { chineseToSignedAmountAsTyped, chineseToSignedAmountAsTypedBigInt } = face;
const { yuanToFen, yuanToFenBigInt } = face;
const { Quantity, findQuantities, quantitiesToFigures, replaceQuantities, toQuantity } = face;
const { findPhrases, findUnspoken, textToFigures, textToSpeech } = face;
const { explainNumber, explainQuantity, inputExpected, inputMessage, inputRepair } = face;
const { answerLine, numberMessage, quantityMessage, statusMessage } = face;

const [program] = process.argv.slice(2);
const textOf = (path) => readFileSync(new URL(path, import.meta.url), 'utf8');
const READINGS = 60_000, PRINTINGS = 30_000, AMOUNTS = 20_000, DATES = 20_000, TEXTS = 20_000;
const QUANTITIES = 20_000, INPUT_TEXTS = 5_000;
const LETTERS = Array.from('零〇一二三四五六七八九十百千萬万億亿兆京垓秭壹貳叁肆伍陸柒捌玖拾佰仟兩两負负正個角分廿'
  + ' \t　x1１⼀é￿😀𠀀');
const DIGITS = '零〇一二三四五六七八九兩两壹貳貮贰參叁叄参肆伍陸陆柒捌玖0123456789';
const NAMED_WAYS = WAYS.filter((it) => it !== 'any');

// The program's words are the names with underscores, except for plain digits and simplified.
const OTHERS = { digits: 'naive', simplified: 'simple' };
const word = (it) => OTHERS[it] ?? it.replace(/[A-Z]/g, (capital) => `_${capital.toLowerCase()}`);
const widthOf = (kind) => Number(kind.slice(1));
const isSigned = (kind) => kind.startsWith('i');
const holds = (kind, it) =>
  (isSigned(kind) ? BigInt.asIntN : BigInt.asUintN)(widthOf(kind), it) === it;
const isSafe = (it) => BigInt(Number.MIN_SAFE_INTEGER) <= it && it <= Number.MAX_SAFE_INTEGER;

// The way in which any is read: as plain digits where the text is those, without its white space
// and a sign of a signed type.
function wayOf(kind, way, text) {
  if (way !== 'any') return way;
  const rest = text.replace(/\s/g, '').replace(isSigned(kind) ? /^[負负正]/ : '', '');
  return Array.from(rest).every((it) => DIGITS.includes(it)) ? 'digits' : 'tenThousand';
}

// The way in which any writes: in the simplified script by middle, below 10 ** 16.
function writtenWayOf(way, script, number) {
  if (way !== 'any') return way;
  const isShort = -(10n ** 16n) < number && number < 10n ** 16n;
  return script === 'simplified' && isShort ? 'middle' : 'tenThousand';
}

// A generator that gives the same numbers each time (xorshift).
let state = 88172645463325252n;
function below(count) {
  state ^= BigInt.asUintN(64, state << 13n);
  state ^= state >> 7n;
  state ^= BigInt.asUintN(64, state << 17n);
  return Number((state >> 11n) % BigInt(count));
}
const one = (list) => list[below(list.length)];

// A number of approximately the kind's width, or just past it.
function someNumber(kind) {
  let bits = 0n;
  for (let i = 0; i < 5; i++) bits = (bits << 32n) | BigInt(below(2 ** 32));
  bits = BigInt.asUintN(1 + below(widthOf(kind) + 1), bits);
  // Round numbers have the zeros that spellings omit.
  if (below(3) === 0) bits -= bits % 10n ** BigInt(below(1 + bits.toString().length));
  return isSigned(kind) && below(2) ? -bits : bits;
}

const someText = () => Array.from({ length: below(12) }, () => one(LETTERS)).join('');

function changed(spelling, letters = LETTERS) {
  const parts = Array.from(spelling);
  for (let left = below(3); left > 0; left--) {
    parts.splice(below(parts.length + 1), below(2), ...(below(3) ? [one(letters)] : []));
  }
  return parts.join('');
}

// A numeral of the kind, or of another one, as it was printed or changed; or any text.
function someNumeral(kind, way) {
  const number = someNumber(one([kind, 'i128']));
  if (below(4) === 0 || !holds('i128', number)) return someText();
  const ways = way === 'any' ? ['digits', 'tenThousand', 'any'] : [way, one(NAMED_WAYS)];
  try {
    const look = { way: one(ways), script: one(SCRIPTS), case: one(CASES) };
    return changed(toChinese(number, look));
  } catch {
    return someText();
  }
}

const counts = { ok: 0, err: 0, 'bad line': 0, marked: 0, behindPairs: 0, unsafe: 0 };

// The face's answer as the program writes it. A character at fault has to stand where the error
// says, as the text is decoded by the language's own iteration.
function answered(call, text) {
  try {
    const answer = `ok ${call()}`;
    counts.ok++;
    return answer;
  } catch (error) {
    assert(error instanceof NumeralError, String(error.stack));
    counts[error.code === 'notHeld' ? 'bad line' : 'err']++;
    if (error.code === 'incorrect') lookAtTheFault(error, Array.from(text), text);
    return error.code === 'notHeld' ? 'bad line' : `err ${error.message}`;
  }
}

function lookAtTheFault(error, characters, text) {
  assert.equal(error.start, characters.slice(0, error.charIndex).join('').length);
  assert.equal(text.slice(error.start, error.end), characters[error.charIndex]);
  counts.marked++;
  counts.behindPairs += error.end !== error.charIndex + 1;
}

// The number of a text as a Number is that as a BigInt, where it is safe.
function readsTheSame(text, options) {
  const whole = toBigInt(text, options);
  if (isSafe(whole)) assert.equal(toNumber(text, options), Number(whole));
  else {
    counts.unsafe++;
    assert.throws(() => toNumber(text, options), { code: 'unsafe', kind: options.kind });
  }
  return whole;
}

function aPrinting() {
  const [kind, way, script, letterCase] = [KINDS, WAYS, SCRIPTS, CASES].map(one);
  const number = someNumber(one([kind, kind, one(KINDS)]));
  const named = word(writtenWayOf(way, script, number));
  const line = `print ${kind} ${named} ${word(script)} ${letterCase} ${number}`;
  return [line, answered(() => toChinese(number, { kind, way, script, case: letterCase }))];
}

function aReading() {
  const [kind, way] = [KINDS, WAYS].map(one), text = someNumeral(kind, way);
  const line = `read ${kind} ${word(wayOf(kind, way, text))} ${text}`;
  return [line, answered(() => readsTheSame(text, { kind, way }), text)];
}

function answersOf(lines) {
  const how = { encoding: 'utf8', maxBuffer: 1 << 28 };
  const ran = spawnSync(program, { input: `${lines.join('\n')}\n`, ...how });
  assert.equal(ran.status, 0, String(ran.error ?? ran.stderr));
  return ran.stdout.split('\n').slice(0, -1);
}

function compareWithTheProgram() {
  const ours = [
    ...Array.from({ length: PRINTINGS }, aPrinting), ...Array.from({ length: READINGS }, aReading),
  ];
  const lines = ours.map(([line]) => line), theirs = answersOf(lines);
  assert.equal(theirs.length, ours.length);
  assert.deepEqual(lines.map((it) => answerLine(it)), theirs);
  assert.deepEqual(lines.map((it) => answerLine(Buffer.from(it))), theirs);
  const differ = ours.map(([line, answer], i) => [line, theirs[i], answer].join(' | '))
    .filter((_, i) => theirs[i] !== ours[i][1]);
  assert.deepEqual(differ.slice(0, 20), [], `${differ.length} differ: line | program | face`);
  // That the lines are of every kind: a list of refusals alone would show little.
  for (const [answer, count] of Object.entries(counts)) assert(count > 1000, `${answer}: ${count}`);
  console.log(`${ours.length} lines, none differs:`, counts);
}

// Bytes that are not UTF-8, and what is neither a string nor bytes.
function tryOtherLines() {
  for (const line of ['', '\n', 'hello', [], [0xff], [...Buffer.from('read u8 naive 1'), 0xff]]) {
    assert.equal(answerLine(typeof line === 'string' ? line : Uint8Array.from(line)), 'bad line');
  }
  assert.equal(answerLine(`read u128 naive ${'零'.repeat(5_000_000)}五`), 'ok 5');
  refusesEach([5, 5n, null, undefined, ['read u8 naive 1'], new ArrayBuffer(2)], answerLine);
}

// The calls of the header, which are those that cn_c exports.
const calls = () => Array.from(textOf('chinese_number.h').matchAll(/^uint32_t (chinese_\w+)\(/gm),
  ([, name]) => name);

// The modules import nothing from their host, and export the calls of the header.
function lookAtTheModules() {
  for (const bits of [64, 32]) {
    const file = new URL(`files/chinese-number.${bits}.wasm`, import.meta.url);
    if (!existsSync(file) || !WebAssembly.validate(readFileSync(file))) continue;
    const compiled = new WebAssembly.Module(readFileSync(file));
    assert.deepEqual(WebAssembly.Module.imports(compiled), []);
    assert.deepEqual(WebAssembly.Module.exports(compiled).map((it) => it.name).sort(),
      ['__heap_base', ...calls().sort(), 'memory']);
  }
}

const refuses = (code, call) =>
  assert.throws(call, (error) => error instanceof NumeralError && error.code === code);
const refusesEach = (list, call) => {
  for (const it of list) assert.throws(() => call(it), TypeError, String(it));
};
// What is in place of options: none of it is passed over.
const NO_OPTIONS = [
  'upper', 'u8', ['upper'], [], 5, 0, true, null, () => {}, { letterCase: 'upper' },
];

function tryEdges() {
  for (const kind of KINDS) {
    const half = 2n ** BigInt(widthOf(kind) - 1);
    const [least, greatest] = isSigned(kind) ? [-half, half - 1n] : [0n, 2n * half - 1n];
    for (const it of [least, greatest]) {
      assert.equal(toBigInt(toChinese(it, { kind }), { kind }), it);
    }
    for (const it of [least - 1n, greatest + 1n, least - 2n ** 128n, greatest + 2n ** 200n]) {
      refuses('notHeld', () => toChinese(it, { kind }));
    }
  }
  for (const it of [2 ** 53 - 1, -(2 ** 53 - 1)]) assert.equal(toNumber(toChinese(it)), it);
  for (const it of [2n ** 53n, -(2n ** 53n)]) {
    refuses('unsafe', () => toNumber(toChinese(it)));
    assert.equal(toBigInt(toChinese(it)), it);
  }
  refusesEach([1.5, NaN, Infinity, 2 ** 53, '1', null, undefined], (it) => toChinese(it));
  for (const read of [toNumber, toBigInt]) {
    refusesEach([120, null, undefined, ['一']], (it) => read(it));
  }
  assert.throws(() => toChinese(256, { kind: 'u8' }),
    { code: 'notHeld', kind: 'u8', message: 'u8 does not hold the number' });
  assert.throws(() => toNumber('三百', { kind: 'u8' }),
    { code: 'tooLarge', kind: 'u8', message: 'number is too large' });
  for (const it of ['', ' 　\n', '負', ' 正 ']) refuses('empty', () => toNumber(it));
  assert.equal(toNumber('\r\n一 '), 1);
  // Half a surrogate pair is one character, and it is at fault.
  for (const [text, charIndex, start, end] of [['一\ud800百', 1, 1, 2], ['一\udc00百', 1, 1, 2],
    ['😀一', 0, 0, 2], ['😀😀', 1, 2, 4]]) {
    assert.throws(() => toNumber(text), { code: 'incorrect', charIndex, start, end });
  }
  console.log('edges: as expected');
}

// The defaults are i128, any, the simplified script and the lower case.
function tryOptions() {
  assert.equal(toChinese(10n ** 12n), '一万亿');
  assert.equal(toChinese(10n ** 12n, { way: 'any', script: 'traditional' }), '一兆');
  assert.equal(Quantity.decimal(10n ** 13n, 1).toChinese(), '一万亿点零');
  assert.equal(toQuantity('一万亿点零', { method: 'any' }).toWhole(), 10n ** 12n);
  assert.equal(toChinese(-(10n ** 36n)), '负一涧');
  assert.equal(toBigInt('負一澗'), -(10n ** 36n));
  assert.equal(toChinese(-0), '零');
  assert.equal(JSON.stringify(['一百二', '一二〇', '负一'].map((it) => toNumber(it))), '[120,120,-1]');
  refusesEach(['u7', 'U8', 'toString', '__proto__', 0, null], (kind) => toNumber('一', { kind }));
  refusesEach(['ten_thousand', 'Any', null], (way) => toNumber('一', { way }));
  refusesEach(['ten_thousand', 'naive', null], (way) => toChinese(1, { way }));
  refusesEach(['simple', 'Simplified', null], (script) => toChinese(1, { script }));
  refusesEach(['Upper', null], (it) => toChinese(1, { case: it }));
  refusesEach([...NO_OPTIONS, { type: 'u8' }], (it) => toChinese(12, it));
  refusesEach([...NO_OPTIONS, { script: 'simplified' }], (it) => toNumber('一', it));
  assert.equal(toNumber('一', Object.assign(Object.create(null), { kind: 'u8' })), 1);
  // The further arguments that map passes are not options.
  assert.throws(() => ['三', '一'].map(toNumber), TypeError);
  console.log('options: as expected');
}

// The capitals of an amount, by its decimal places from the top.
function capitalsOf(fen) {
  const digits = String(fen).padStart(18, '0');
  let capitals = '', isGap = false;
  const put = (digit, unit) => {
    const gap = isGap && capitals && unit !== '角' ? '零' : '';
    if (digit !== '0') capitals += gap + '零壹贰叁肆伍陆柒捌玖'[digit] + unit;
    isGap = digit === '0';
  };
  for (const [at, sign] of ['万', '亿', '万', '元'].entries()) {
    const section = digits.slice(4 * at, 4 * at + 4);
    for (const [place, digit] of Array.from(section).entries()) {
      put(digit, ['仟', '佰', '拾', ''][place]);
    }
    if (section !== '0000' || (at !== 0 && at !== 2 && capitals)) capitals += sign;
  }
  if (fen === 0n) return '零元整';
  put(digits[16], '角');
  put(digits[17], '分');
  return digits[17] === '0' ? `${capitals}整` : capitals;
}

// The same as it was asked for.
function formed(capitals, { currency, yuan, closing }) {
  const written = capitals.replace('元', yuan).replace('整', closing);
  return currency ? `人民币${written}` : written;
}

const someForm = () => ({ currency: below(2) === 1, yuan: one('元圆'), closing: one('整正') });

function someAmount() {
  const fen = BigInt(below(2 ** 32)) * BigInt(below(2 ** 28)) % 10n ** BigInt(1 + below(18));
  if (below(2)) return fen;
  return BigInt(Array.from(String(fen), (it) => (below(2) ? it : '0')).join(''));
}

// What a text of an amount is answered: fen, 'unfinished', or the place of the character at fault.
function amountOf(text, read = chineseToAmountBigInt) {
  try {
    return read(text);
  } catch (error) {
    assert(error instanceof AmountError, String(error.stack));
    assert(['unfinished', 'incorrect'].includes(error.code), String(error.stack));
    if (error.code === 'unfinished') return error.code;
    lookAtTheFault(error, Array.from(text), text);
    return error.charIndex;
  }
}

// The same amount as a Number, if it is a safe integer.
function readsAsANumber(text, fen, read) {
  if (isSafe(fen)) assert.equal(read(text), Number(fen));
  else assert.throws(() => read(text), { name: 'AmountError', code: 'unsafe' });
}

// No beginning is refused; and what is refused at a character was not refused in front of it.
function refuseTheFirst(capitals) {
  const front = capitals.slice(0, below(capitals.length));
  assert.notEqual(typeof amountOf(front), 'number', front);
  const text = changed(capitals), at = amountOf(text);
  if (typeof at !== 'number') return;
  const characters = Array.from(text);
  assert.notEqual(typeof amountOf(characters.slice(0, at).join('')), 'number', text);
  assert.equal(amountOf(characters.slice(0, at + 1).join('')), at, text);
}

function compareAnAmount() {
  const fen = someAmount(), form = someForm(), capitals = amountToChinese(fen, form);
  assert.equal(capitals, formed(capitalsOf(fen), form));
  if (isSafe(fen)) assert.equal(amountToChinese(Number(fen), form), capitals);
  for (const script of SCRIPTS) {
    const text = amountToChinese(fen, { script, ...form });
    assert.equal(chineseToAmountBigInt(text), fen);
    readsAsANumber(text, fen, chineseToAmount);
  }
  refuseTheFirst(capitals);
}

function tryAmounts() {
  for (const [text, charIndex] of [['壹元整\n', 3], ['壹😀', 1], ['壹\ud800', 1]]) {
    assert.equal(amountOf(text), charIndex, text);
  }
  assert.equal(amountToChinese(1500), '壹拾伍元整');
  assert.equal(amountToChinese(123456n, { script: 'traditional' }), '壹仟貳佰參拾肆元伍角陸分');
  assert.equal(amountToChinese(1500, { script: 'traditional', currency: true, yuan: '圆' }),
    '人民幣壹拾伍圓整');
  for (let i = 0; i < AMOUNTS; i++) compareAnAmount();
  assert.throws(() => chineseToAmount('壹😀元'), { name: 'AmountError', code: 'incorrect',
    charIndex: 1, start: 1, end: 3, message: 'the amount is incorrect (position: 1)' });
  assert.throws(() => chineseToAmount('壹'),
    { code: 'unfinished', start: undefined, message: 'the amount is not finished' });
  for (const it of [10n ** 18n, 2n ** 64n - 1n, 2n ** 64n, 10n ** 30n]) {
    assert.throws(() => amountToChinese(it),
      { name: 'AmountError', code: 'tooLarge', message: 'number is too large' });
  }
  for (const it of [-1, -1n, -(2n ** 64n)]) {
    assert.throws(() => amountToChinese(it), { code: 'tooSmall',
      message: 'number is too small: signedAmountToChinese writes amounts below zero' });
  }
  for (const write of [amountToChinese, signedAmountToChinese]) {
    refusesEach([0.5, 2 ** 53, '1', true, null, undefined], (it) => write(it));
    refusesEach([...NO_OPTIONS, { case: 'upper' }, { script: 'Simplified' }, { currency: 1 },
      { yuan: '圆元' }, { closing: '' }, { bracketedSign: 1 }], (it) => write(1n, it));
  }
  refusesEach([{ bracketedSign: true }], (it) => amountToChinese(1n, it));
  for (const read of [chineseToAmount, chineseToSignedAmount, chineseToAmountAsTyped,
    chineseToSignedAmountAsTyped]) {
    refusesEach([1n, null, undefined, ['壹元整']], (it) => read(it));
  }
  console.log(`amounts: ${AMOUNTS} are written by their places and read back, and each refusal is `
    + 'of the first character at fault');
}

// Below zero stands a sign of the script in front. Either sign is read, and moves what is refused
// by one character.
function compareASignedAmount() {
  const fen = someAmount(), form = { script: one(SCRIPTS), ...someForm() };
  const capitals = amountToChinese(fen, form), sign = form.script === 'traditional' ? '負' : '负';
  assert.equal(signedAmountToChinese(fen, form), capitals);
  assert.equal(signedAmountToChinese(-fen, form), fen === 0n ? capitals : sign + capitals);
  const bracketed = { ...form, bracketedSign: true }, long = `（${sign}${sign === '负' ? '数' : '數'}）`;
  assert.equal(signedAmountToChinese(fen, bracketed), capitals);
  assert.equal(signedAmountToChinese(-fen, bracketed), fen === 0n ? capitals : long + capitals);
  for (const [text, wanted] of [[capitals, fen], [`负${capitals}`, -fen], [`負${capitals}`, -fen]]) {
    assert.equal(chineseToSignedAmountBigInt(text), wanted);
    readsAsANumber(text, wanted, chineseToSignedAmount);
  }
  const text = changed(capitals), plain = amountOf(text);
  const wanted = { bigint: (it) => -it, number: (it) => it + 1, string: (it) => it }[typeof plain];
  assert.equal(amountOf(`负${text}`, chineseToSignedAmountBigInt), wanted(plain), text);
}

function trySignedAmounts() {
  for (let i = 0; i < AMOUNTS; i++) compareASignedAmount();
  assert.equal(signedAmountToChinese(-1500), '负壹拾伍元整');
  for (const it of [1n - 10n ** 18n, 10n ** 18n - 1n]) {
    assert.equal(chineseToSignedAmountBigInt(signedAmountToChinese(it)), it);
  }
  for (const it of [10n ** 18n, 2n ** 63n, 2n ** 64n + 1n]) {
    assert.throws(() => signedAmountToChinese(it), { name: 'AmountError', code: 'tooLarge' });
    assert.throws(() => signedAmountToChinese(-it),
      { name: 'AmountError', code: 'tooSmall', message: 'number is too small' });
  }
  console.log(`amounts below zero: ${AMOUNTS} are those above it behind a sign, and read back`);
}

const NO_SPACES = LETTERS.filter((it) => !/\s/.test(it));

// A text as it is typed: of each character whether it is one of the text, or left out.
function typedOf(text) {
  const spaces = () => Array.from({ length: below(3) }, () => [one(' \t\n\r　\u00a0\u2003'), false]);
  const parts = Array.from(text).flatMap((it) => [[it, true], ...spaces()]);
  if (/^人民[币幣]/.test(text) && below(2)) {
    const behind = parts.findIndex((it, at) => it[1] && at > 0 && '币幣'.includes(it[0])) + 1;
    parts.splice(behind, 0, [one(':：'), false]);
  }
  return [...spaces(), ...(below(2) ? [['⊗', false]] : []), ...spaces(), ...parts];
}

// As it is typed, it may also have a sign, wherever the prefix is.
function compareASignedTypedAmount() {
  const fen = someAmount(), form = { script: one(SCRIPTS), ...someForm() };
  const capitals = amountToChinese(fen, { ...form, currency: false }), space = one(['', ' ', '　']);
  const sign = one(['负', '負', '（负数）', '（負數）', '(负数)', '(負數)']);
  const currency = one(['人民币', '人民幣：', '人民币:', '人民币（大写）', '人民幣（大寫）：']);
  const circle = one(['⊗', 'ⓧ']), fronts = [sign, `${sign}${currency}`, `${currency}${sign}`,
    `${circle}${sign}`, `${sign}${circle}${currency}`, `${circle}${currency}${sign}`];
  const text = one(fronts) + space + capitals;
  assert.equal(chineseToSignedAmountAsTypedBigInt(text), -fen, text);
  readsAsANumber(text, -fen, chineseToSignedAmountAsTyped);
  const positive = one(['', circle, currency, circle + currency]) + space + capitals;
  assert.equal(chineseToSignedAmountAsTypedBigInt(positive), fen, positive);
}

// It is answered as the text, and the place is that among all that is typed.
function compareATypedAmount() {
  const capitals = amountToChinese(someAmount(), { script: one(SCRIPTS), ...someForm() });
  const text = below(2) ? capitals : changed(capitals, NO_SPACES), parts = typedOf(text);
  const typed = parts.map(([it]) => it).join(''), plain = amountOf(text);
  const places = parts.flatMap(([, isKept], at) => (isKept ? [at] : []));
  const wanted = typeof plain === 'number' ? places[plain] : plain;
  assert.equal(amountOf(typed, chineseToAmountAsTypedBigInt), wanted, typed);
  if (typeof plain === 'bigint') readsAsANumber(typed, plain, chineseToAmountAsTyped);
}

function tryTypedAmounts() {
  for (let i = 0; i < AMOUNTS; i++) compareATypedAmount();
  for (let i = 0; i < AMOUNTS; i++) compareASignedTypedAmount();
  assert.throws(() => chineseToAmountAsTyped('⊗ 壹😀'), { name: 'AmountError', code: 'incorrect',
    charIndex: 3, start: 3, end: 5, message: 'the amount is incorrect (position: 3)' });
  console.log(`typed amounts: ${AMOUNTS} are answered as their texts without what is left out`);
}

const WIDE = Object.fromEntries(Array.from('0123456789,.¥', (it, at) => [it, '０１２３４５６７８９，．￥'[at]]));

// Figures of fen, in one of the forms that these have.
function someFigures(fen) {
  const digits = String(fen < 0n ? -fen : fen).padStart(3, '0'), places = digits.slice(-2);
  const yuan = digits.slice(0, -2).replace(/(?!^)(?=(?:...)+$)/g, below(2) ? ',' : '');
  const shorter = { '00': ['', '.0'] }[places] ?? (places[1] === '0' ? [`.${places[0]}`] : []);
  const all = one(['', '¥']) + yuan + one([`.${places}`, `.${places}00`, ...shorter]);
  return (fen < 0n ? one('-−') : '') + Array.from(all, (it) => (below(4) ? it : WIDE[it])).join('');
}

function tryFigures() {
  for (let i = 0; i < AMOUNTS; i++) {
    const fen = someAmount() * one([1n, -1n]), figures = someFigures(fen);
    assert.equal(yuanToFenBigInt(figures), fen, figures);
    readsAsANumber(figures, fen, yuanToFen);
  }
  for (const [yuan, fen] of [[15, 1500], [-15n, -1500], [0, 0], [-0, 0], ['0'.repeat(1000), 0]]) {
    assert.equal(yuanToFen(yuan), fen);
    assert.equal(yuanToFenBigInt(yuan), BigInt(fen));
  }
  assert.equal(yuanToFenBigInt(2 ** 53 - 1), (2n ** 53n - 1n) * 100n);
  assert.throws(() => yuanToFen('15.005'), { name: 'AmountError', code: 'incorrect', charIndex: 5,
    start: 5, end: 6, message: 'the amount is incorrect (position: 5)' });
  assert.throws(() => yuanToFen('¥1😀'), { code: 'incorrect', charIndex: 2, start: 2, end: 4 });
  assert.throws(() => yuanToFen('15.'),
    { code: 'unfinished', start: undefined, message: 'the amount is not finished' });
  for (const it of [10n ** 16n, -(10n ** 30n), '1'.repeat(1_000_000)]) {
    assert.throws(() => yuanToFen(it),
      { name: 'AmountError', code: 'tooLarge', message: 'number is too large' });
  }
  assert.throws(() => yuanToFen(15.5), { name: 'TypeError', message: /give a string$/ });
  refusesEach([0.1, 2 ** 53, NaN, Infinity, true, null, undefined, ['15'], {}, Object('15')],
    (it) => yuanToFen(it));
  console.log(`figures: ${AMOUNTS} are read as the fen that they are of`);
}

const CAPITALS = '零壹贰叁肆伍陆柒捌玖';
const OF_DATES = Array.from(`${CAPITALS}拾年月日貳參叄陸〇一 😀`);

// The forms of a month and of a day, by the rule for dates; what is written is the first of them.
const ofTens = (it) =>
  (it < 10 ? '' : `${CAPITALS[Math.floor(it / 10)]}拾`) + (it % 10 ? CAPITALS[it % 10] : '');
function monthForms(month) {
  const form = `${ofTens(month)}月`;
  if ([1, 2, 10].includes(month)) return [`零${form}`];
  return month > 10 ? [form] : [form, `零${form}`];
}
const dayForm = (day) => `${day < 10 || day % 10 === 0 ? '零' : ''}${ofTens(day)}日`;
const yearForm = (year) => `${Array.from(String(year), (it) => CAPITALS[it]).join('')}年`;

function daysOf(year, month) {
  const last = new Date(0);
  last.setUTCFullYear(year, month, 0);
  return last.getUTCDate();
}

// What may stand behind 年 in a common year and in a leap year: each text with its month and day,
// and each beginning of one.
const [OF_COMMON, OF_LEAP] = [2025, 2024].map((year) => {
  const ends = new Map(), begun = new Set();
  for (let month = 1; month <= 12; month++) {
    for (let day = 1; day <= daysOf(year, month); day++) {
      for (const form of monthForms(month)) ends.set(form + dayForm(day), { month, day });
    }
  }
  for (const it of ends.keys()) {
    for (let length = 0; length <= it.length; length++) begun.add(it.slice(0, length));
  }
  return { ends, begun };
});
const ofYear = (digits) => {
  const year = Number(Array.from(digits, (it) => CAPITALS.indexOf(it)).join(''));
  return { year, ...(daysOf(year, 2) === 29 ? OF_LEAP : OF_COMMON) };
};

function beginsADate(text) {
  const [digits, ...rest] = text.split('年');
  if (digits.length > 4 || digits[0] === '零') return false;
  if (Array.from(digits).some((it) => !CAPITALS.includes(it))) return false;
  return rest.length === 0 || (digits !== '' && ofYear(digits).begun.has(rest.join('年')));
}

// What a text of a date is answered: the date, 'unfinished', or the place of the character at
// fault.
function wantedDateOf(text) {
  const plain = { 貳: '贰', 參: '叁', 叄: '叁', 陸: '陆' };
  const characters = Array.from(text, (it) => plain[it] ?? it);
  for (let at = 0; at < characters.length; at++) {
    if (!beginsADate(characters.slice(0, at + 1).join(''))) return at;
  }
  const [digits, rest] = characters.join('').split('年');
  if (rest === undefined) return 'unfinished';
  const { year, ends } = ofYear(digits);
  return ends.has(rest) ? { year, ...ends.get(rest) } : 'unfinished';
}

function dateOf(text) {
  try {
    return chineseToDate(text);
  } catch (error) {
    assert(error instanceof DateError, String(error.stack));
    assert(['unfinished', 'incorrect'].includes(error.code), String(error.stack));
    return error.code === 'incorrect' ? error.charIndex : error.code;
  }
}

function compareADate() {
  const year = 1 + below(one([9999, 3000, 30])), month = 1 + below(12);
  const date = { year, month, day: 1 + below(daysOf(year, month)) };
  const capitals = dateToChinese(date);
  assert.equal(capitals, yearForm(year) + monthForms(month)[0] + dayForm(date.day));
  for (const script of SCRIPTS) {
    assert.deepEqual(chineseToDate(dateToChinese(date, { script })), date);
  }
  for (const it of [capitals.slice(0, below(capitals.length)), changed(capitals, OF_DATES)]) {
    assert.deepEqual(dateOf(it), wantedDateOf(it), it);
  }
}

// Beside the rows, numbers that would be others if a part of their bits were taken.
function refuseNoDates() {
  const rows = textOf('rows/no_dates.tsv').split('\n').slice(1, -1);
  for (const [year, month, day] of [...rows.map((line) => line.split('\t').map(Number)),
    [2026, 257, 1], [2026, 1, 2 ** 32 + 1], [2 ** 32 + 2026, 1, 1], [-2026, 1, 1], [1e300, 1, 1]]) {
    assert.throws(() => dateToChinese({ year, month, day }),
      { name: 'DateError', code: 'notADate', message: 'there is no such date' });
  }
}

function tryDates() {
  assert.equal(dateOf('贰零贰陆年零壹月壹拾伍日\n'), 12);
  assert.equal(dateToChinese({ year: 2026, month: 2, day: 13 }, { script: 'traditional' }),
    '貳零貳陸年零貳月壹拾參日');
  for (let i = 0; i < DATES; i++) compareADate();
  assert.throws(() => chineseToDate('伍😀年'), { name: 'DateError', code: 'incorrect', charIndex: 1,
    start: 1, end: 3, message: 'the date is incorrect (position: 1)' });
  assert.throws(() => chineseToDate('伍年'),
    { code: 'unfinished', start: undefined, message: 'the date is not finished' });
  refuseNoDates();
  const date = { year: 2026, month: 1, day: 15 };
  refusesEach([new Date(2026, 0, 15), Object.create(date), [2026, 1, 15], '2026-01-15', null,
    undefined, { ...date, day: undefined }, { ...date, day: 1.5 }, { ...date, year: 2026n },
    { ...date, month: '1' }], (it) => dateToChinese(it));
  refusesEach([date, null, undefined], (it) => chineseToDate(it));
  refusesEach([...NO_OPTIONS, { case: 'upper' }, { script: 'Simplified' }],
    (it) => dateToChinese(date, it));
  console.log(`dates: ${DATES} are written by the rule and read back, and as many texts beside `
    + 'them are answered by it');
}

const READERS = {
  amount: chineseToAmountBigInt,
  signedAmount: chineseToSignedAmountBigInt,
  typedAmount: chineseToAmountAsTypedBigInt,
  typedSignedAmount: chineseToSignedAmountAsTypedBigInt,
  date: chineseToDate,
  figures: yuanToFenBigInt,
};
const OF_INPUTS = Array.from('零壹贰貳叁拾佰仟万億元圆角分整正年月日人民币（(负数）大写⊗ⓧ:：¥，.-−0９ 　\ufeff一Ox😀\ud800');

// The refusal of a text, if it is refused.
function refusalOf(read, text) {
  try {
    read(text);
    return undefined;
  } catch (error) {
    assert(error instanceof Error && error.messageIn, String(error.stack));
    return error;
  }
}

function someInput(input) {
  if (below(4) === 0) return Array.from({ length: below(6) }, () => one(OF_INPUTS)).join('');
  const fen = someAmount(), form = { script: one(SCRIPTS), ...someForm() };
  const date = { year: 1 + below(9999), month: 1 + below(12), day: 1 + below(28) };
  const text = { date: dateToChinese(date, { script: form.script }), figures: someFigures(-fen) }[input]
    ?? one([amountToChinese, signedAmountToChinese])(fen, form);
  return changed(below(2) ? text : text.slice(0, below(text.length)), OF_INPUTS);
}

// What may come next is what the reader does not refuse there.
function compareTheExpected(input, text, error) {
  const read = READERS[input], isWrong = error?.code === 'incorrect';
  const begun = isWrong ? text.slice(0, error.start) : text;
  const { charIndex, index, mayEnd, whiteSpace, characters } = inputExpected(text, input);
  assert.deepEqual([charIndex, index], [Array.from(begun).length, begun.length], text);
  assert.equal(mayEnd, [undefined, 'tooLarge'].includes(refusalOf(read, begun)?.code), text);
  assert.equal(new Set(characters).size, characters.length);
  for (const it of new Set([...OF_INPUTS, ...characters])) {
    const isExpected = characters.includes(it) || (whiteSpace && /[ 　]/.test(it));
    assert.equal(refusalOf(read, begun + it)?.code !== 'incorrect', isExpected, begun + it);
  }
}

// After a repair a text goes on past its wrong character, or is complete if it was not finished.
function compareTheRepair(input, text, error) {
  const repair = inputRepair(text, input);
  if (!['unfinished', 'incorrect'].includes(error?.code)) assert.equal(repair, undefined);
  if (!repair) return 0;
  const { change, charIndex, index, character } = repair, characters = Array.from(text);
  assert(CHANGES.includes(change) && (character === '') === (change === 'delete'));
  assert.equal(index, characters.slice(0, charIndex).join('').length);
  characters.splice(charIndex, change === 'insert' ? 0 : 1, character);
  const anew = characters.join(''), next = refusalOf(READERS[input], anew);
  if (error.code === 'unfinished') assert.equal(next, undefined, text);
  else if (next?.code === 'incorrect') {
    assert(anew.length - next.start <= text.length - error.end, text);
  }
  return 1;
}

// A message is the same from the error and from the call, and there is none if the text is right.
function compareTheMessages(error, messageIn) {
  for (const language of LANGUAGES) {
    const message = messageIn(language);
    assert.equal(error?.messageIn(language) ?? '', message);
    assert.equal(message === '', error === undefined);
    assert.match(message, language === 'en' ? /^$|\.$/ : /^$|。$/);
  }
}

function compareAnInput() {
  const input = one(INPUTS), text = someInput(input), error = refusalOf(READERS[input], text);
  compareTheExpected(input, text, error);
  compareTheMessages(error, (language) => inputMessage(text, input, language));
  return compareTheRepair(input, text, error);
}

// A text is explained exactly if it is refused.
function compareAReason() {
  const kind = one(KINDS), way = one(WAYS), text = someNumeral(kind, way), options = { kind, way };
  const error = refusalOf((it) => toBigInt(it, options), text);
  const fault = explainNumber(text, options);
  compareTheMessages(error, (language) => numberMessage(text, language, options));
  if (['empty', 'tooLarge', 'tooSmall'].includes(error?.code)) assert.equal(fault, error.code);
  else assert.equal(fault !== undefined, error !== undefined, text);
  const method = one(METHODS), other = refusalOf((it) => toQuantity(it, { method }), text);
  compareTheMessages(other, (language) => quantityMessage(text, language, { method }));
  const reason = explainQuantity(text, { method });
  assert.equal(reason !== undefined, other !== undefined, text);
  for (const it of [fault, reason]) assert(it === undefined || FAULTS.includes(it));
}

function tryReasons() {
  for (let i = 0; i < TEXTS; i++) compareAReason();
  for (const [text, fault] of [['', 'empty'], ['百五', 'start'], ['一角', 'character'],
    ['一百十', 'units'], ['三個', 'ge'], ['一萬二萬', 'groups'], ['三百', undefined]]) {
    assert.equal(explainNumber(text), fault, text);
  }
  assert.equal(explainNumber('三百', { kind: 'u8' }), 'tooLarge');
  assert.equal(explainNumber('一二', { way: 'low' }), 'digits');
  for (const [text, fault] of [['一千零十', undefined], ['十十', 'repeatedTen'], ['一亿零万', 'afterZero'],
    ['二两', 'weight'], ['一百五万', 'twoReadings'], ['零分之一', 'denominator']]) {
    assert.equal(explainQuantity(text), fault, text);
  }
  const [found] = findNumbers('共五六十歲');
  assert.equal(refusalOf(() => found.number(), '').messageIn('zh-Hans'),
    numberMessage('五六十', 'zh-Hans', { way: 'tenThousand' }));
  refusesEach([1, null, undefined, ['一']], (it) => explainNumber(it));
  refusesEach([...NO_OPTIONS, { way: 'ten' }, { method: 'any' }], (it) => explainNumber('一', it));
  refusesEach([...NO_OPTIONS, { method: 'digits' }], (it) => explainQuantity('一', it));
  refusesEach([...NO_OPTIONS, { way: 'ten' }], (it) => numberMessage('一', 'en', it));
  refusesEach([...NO_OPTIONS, { method: 'digits' }], (it) => quantityMessage('一', 'en', it));
  console.log(`reasons: ${TEXTS} texts are explained, twice each, exactly if they are refused`);
}

// The errors of what could not be written have the message of their code.
function tryMessages() {
  let repaired = 0;
  for (let i = 0; i < INPUT_TEXTS; i++) repaired += compareAnInput();
  assert(repaired > INPUT_TEXTS / 10);
  assert.equal(inputMessage('壹佰贰元整', 'amount', 'zh-Hans'), '第3个字“贰”前缺“零”。');
  assert.deepEqual(inputRepair('壹佰贰元整', 'amount'),
    { change: 'insert', charIndex: 2, index: 2, character: '零' });
  for (const [call, status] of [[() => amountToChinese(-1), 'tooSmall'],
    [() => amountToChinese(10n ** 18n), 'tooLarge'],
    [() => toChinese(256, { kind: 'u8' }), 'notHeld'],
    [() => dateToChinese({ year: 2026, month: 2, day: 30 }), 'notADate'],
    [() => Quantity.fraction(1, 0), 'notAQuantity'],
    [() => toNumber('一京'), 'tooLarge'], [() => yuanToFen(10n ** 15n), 'tooLarge']]) {
    compareTheMessages(refusalOf(call, ''), (language) => statusMessage(status, language));
  }
  assert.equal(new NumeralError('outOfMemory').messageIn('zh-Hans'), 'out of memory');
  assert.equal(statusMessage('unfinished', 'zh-Hans'), '还没写完。');
  const error = refusalOf(chineseToAmount, '壹佰元'), wrong = ['EN', 'zh', 0, null, undefined];
  refusesEach(wrong, (it) => error.messageIn(it));
  refusesEach(wrong, (it) => new NumeralError('outOfMemory').messageIn(it));
  refusesEach(wrong, (it) => inputMessage('', 'amount', it));
  refusesEach(wrong, (it) => statusMessage('tooLarge', it));
  refusesEach(['unsafe', 3, null, undefined], (it) => statusMessage(it, 'en'));
  const messageOf = (text, input) => inputMessage(text, input, 'en');
  for (const call of [inputExpected, inputRepair, messageOf]) {
    refusesEach(['signed_amount', 0, null, undefined], (it) => call('壹', it));
    refusesEach([1n, null, undefined, ['壹']], (it) => call(it, 'amount'));
  }
  console.log(`messages: of ${INPUT_TEXTS} inputs, ${repaired} have a repair, which takes them further`);
}

const UNIT_CHARACTERS = ['個个', '十拾', '百佰', '千仟', '萬万', '億亿', '兆', '京', '垓', '秭', '穰',
  '溝沟', '澗涧', '正', '載载', '極极'];
const UPPER = '壹貳贰貮參叁叄参肆伍陸陆柒捌玖拾佰仟';
const RUNNING = Array.from('二三5七個个十百千萬億兆京正載極參陸拾兩〇05第回，。 \n😀é');

// The runs of a text, as RULES has them: of each the characters' indices.
function runsOf(characters, { upper, greatest }) {
  const rank = (it) => UNIT_CHARACTERS.findIndex((units) => units.includes(it));
  const isWanted = (it) => it !== undefined && (upper || !UPPER.includes(it))
    && (DIGITS.includes(it) || (rank(it) >= 0 && rank(it) <= UNITS.indexOf(greatest)));
  const belongs = (at) => isWanted(characters[at]) && (rank(characters[at]) !== 0
    || (rank(characters[at + 1]) >= 4 && isWanted(characters[at + 1])));
  const isAscii = (it) => it >= '0' && it <= '9';
  const isParted = (one, other) =>
    DIGITS.includes(one) && DIGITS.includes(other) && isAscii(one) !== isAscii(other);
  const runs = [];
  for (let at = 0; at < characters.length; at++) {
    if (!belongs(at)) continue;
    const goesOn = at > 0 && belongs(at - 1) && !isParted(characters[at - 1], characters[at]);
    if (goesOn) runs.at(-1).push(at);
    else runs.push([at]);
  }
  return runs;
}

// The result of a call, or why and where it refuses.
function answerOf(call) {
  try {
    return call();
  } catch (error) {
    assert(error instanceof NumeralError, String(error.stack));
    return [error.code, error.charIndex, error.start, error.end];
  }
}

// A number that was found is answered as its text is: with units, where it is not plain.
function compareANumber(found, options) {
  const { text } = found, units = options.way === 'any' ? 'tenThousand' : options.way;
  const all = { ...options, way: found.isPlain ? 'digits' : units };
  const number = answerOf(() => toNumber(text, all));
  assert.deepEqual(answerOf(() => found.number(options)), number, text);
  const whole = answerOf(() => toBigInt(text, all));
  assert.deepEqual(answerOf(() => found.bigInt(options)), whole, text);
  assert.equal(found.value(options), Array.isArray(number) ? null : number, text);
}

function compareTheNumbersOf(characters) {
  const wanted = { upper: below(2) === 1, greatest: one(UNITS) };
  const options = { kind: one(KINDS), way: one(WAYS.slice(1)) };
  const string = characters.join('');
  const theirs = runsOf(characters, wanted).map((run) => {
    const parts = run.map((at) => characters[at]);
    const start = characters.slice(0, run[0]).join('').length, end = start + parts.length;
    return { start, end, text: parts.join(''), isPlain: parts.every((it) => DIGITS.includes(it)) };
  });
  const ours = Array.from(findNumbers(string, wanted));
  const told = ours.map(({ start, end, text, isPlain }) => ({ start, end, text, isPlain }));
  assert.deepEqual(told, theirs, string);
  for (const it of ours) {
    assert.equal(string.slice(it.start, it.end), it.text);
    compareANumber(it, options);
  }
  return ours.length;
}

const textsIn = (text, options) => Array.from(findNumbers(text, options), (it) => it.text);

// Other calls in between take the room that is lent, and two searches go side by side.
function searchSideBySide() {
  const some = findNumbers('一二 三十 五'), other = findNumbers(`${'文'.repeat(200_000)}七百`);
  const next = (search) => search.next().value?.number();
  assert.deepEqual([next(some), next(other), toChinese(120)], [12, 700, '一百二十']);
  assert.deepEqual([some, some, some, other].map(next), [30, 5, undefined, undefined]);
}

function tryRunningText() {
  for (const [text, numbers] of [['第二十三回', ['二十三']],
    ['二零二五年十一月二十三日', ['二零二五', '十一', '二十三']], ['買2兩，5萬，一〇', ['2', '兩', '5萬', '一〇']],
    ['三個人有三個億，低三個百分點', ['三', '三個億', '三', '百']], ['他五六十歲', ['五六十']],
    ['二十 三十', ['二十', '三十']], ['正在參加', []], ['', []]]) {
    assert.deepEqual(textsIn(text), numbers, text);
  }
  assert.deepEqual(textsIn('正在參加', { upper: true, greatest: 'ji' }), ['正', '參']);
  let numbers = 0;
  for (let i = 0; i < TEXTS; i++) {
    numbers += compareTheNumbersOf(Array.from({ length: below(24) }, () => one(RUNNING)));
  }
  assert(numbers > TEXTS);
  searchSideBySide();
  const many = Array.from(findNumbers('十é😀'.repeat(300_000)));
  assert(many.length === 300_000 && many.every((it, at) => it.start === 4 * at));
  console.log(`running text: ${numbers} numbers in ${TEXTS} texts stand where RULES says, and are `
    + 'answered as by toNumber');
}

function tryFound() {
  // Half a surrogate pair parts a text, and keeps positions.
  const places = Array.from(findNumbers('二\ud800十\udc00😀三'), (it) => [it.start, it.end]);
  assert.deepEqual(places, [[0, 1], [2, 3], [6, 7]]);
  const values = Array.from(findNumbers('百分之五十，一涧', { greatest: 'ji' }), (it) => it.value());
  assert.deepEqual(values, [null, 50, null]);
  const [unitInFront] = findNumbers('正33', { upper: true, greatest: 'ji' });
  assert.throws(() => unitInFront.number(), { code: 'incorrect', charIndex: 1 });
  assert.equal(unitInFront.doubt, undefined);
  const [found] = findNumbers('😀五六十歲'), [hundreds, plain] = findNumbers('三百，一');
  assert(found instanceof Found);
  assert.throws(() => found.number(), { code: 'incorrect', charIndex: 0, start: 0, end: 1 });
  assert.throws(() => hundreds.number({ kind: 'u8' }), { code: 'tooLarge', kind: 'u8' });
  // Options are looked at by the call, and not at the first number.
  refusesEach([...NO_OPTIONS, { upper: 1 }, { greatest: 'ZHAO' }, { greatest: 6 }, { kind: 'u8' }],
    (it) => findNumbers('一', it));
  refusesEach([1, null, undefined, ['一']], (it) => findNumbers(it));
  for (const name of ['number', 'bigInt', 'value']) {
    refusesEach([...NO_OPTIONS, { way: 'ten' }, { kind: 'u7' }, { script: 'simplified' }],
      (it) => plain[name](it));
  }
  console.log('found numbers: as expected');
}

// A quantity of a form, of which one in four has a denominator that is not of it.
function someQuantity() {
  const numerator = BigInt.asIntN(128, someNumber('i128')), form = one(QUANTITY_FORMS);
  if (form === 'fraction' || below(4) === 0) {
    return new Quantity(numerator, 1n + BigInt.asUintN(127, someNumber('u128')), form);
  }
  if (form === 'percent') return Quantity.percent(numerator, below(37));
  return Quantity.decimal(numerator, form === 'whole' ? 0 : below(39));
}

// The figures of a quantity, by cutting its digits at the point.
function figuresOf({ numerator, denominator, form }) {
  const isOfForm = { whole: /^1$/, decimal: /^10+$/, percent: /^100+$/, fraction: /^$/ }[form];
  if (!isOfForm.test(denominator)) return `${numerator}/${denominator}`;
  const decimals = String(denominator).length - (form === 'percent' ? 3 : 1);
  const [, sign, digits] = /^(-?)(.*)$/.exec(numerator);
  const all = digits.padStart(decimals + 1, '0'), point = all.length - decimals;
  const behind = all.slice(point).replace(/0+$/, '');
  return sign + all.slice(0, point) + (behind && `.${behind}`) + (form === 'percent' ? '%' : '');
}

// What is written is read back; its figures are those of its digits, and read as it is trimmed.
function compareAQuantity() {
  const quantity = someQuantity(), { numerator, denominator, form } = quantity;
  const [method, script, letterCase] = [METHODS.slice(1), SCRIPTS, CASES].map(one);
  const text = quantity.toChinese({ method, script, case: letterCase });
  const read = toQuantity(text, { method });
  assert.deepEqual([read.numerator, read.denominator], [numerator, denominator], text);
  const figures = quantity.toFigures(), trimmed = quantity.trimmed();
  assert.equal(figures, figuresOf(quantity));
  if (!figures.includes('/')) assert(toQuantity(figures).equals(trimmed), figures);
  assert.equal(trimmed.numerator * denominator, numerator * trimmed.denominator);
  const rest = numerator % denominator;
  assert.equal(quantity.toWhole(), rest === 0n ? numerator / denominator : null);
  assert(quantity.equals(new Quantity(numerator, denominator, form)));
}

function tryQuantities() {
  for (let i = 0; i < QUANTITIES; i++) compareAQuantity();
  const greatest = 2n ** 127n - 1n, half = Quantity.percent(50);
  for (const it of [greatest, -greatest - 1n]) assert.equal(toQuantity(String(it)).numerator, it);
  assert.equal(toQuantity(`${2n ** 128n - 1n}分之1`).denominator, 2n ** 128n - 1n);
  for (const [kind, call] of [['i128', () => Quantity.decimal(greatest + 1n, 0)],
    ['i128', () => Quantity.decimal(-greatest - 2n, 0)], ['u128', () => Quantity.fraction(1, -1)],
    ['u128', () => Quantity.fraction(1, 2n ** 128n)], ['u128', () => Quantity.decimal(1, 39)],
    ['u128', () => Quantity.percent(1, 37)], ['u128', () => Quantity.percent(1, 1e9)]]) {
    assert.throws(call, { name: 'NumeralError', code: 'notHeld', kind });
  }
  assert.throws(() => Quantity.fraction(1, 0),
    { name: 'NumeralError', code: 'notAQuantity', message: 'the denominator is 0' });
  assert.throws(() => toQuantity('😀１x'),
    { code: 'incorrect', kind: undefined, charIndex: 2, start: 3, end: 4 });
  assert.throws(() => Quantity.decimal(10n ** 16n, 0).toChinese({ method: 'low' }),
    { code: 'tooLarge', kind: undefined, message: 'number is too large' });
  assert(!half.equals(Quantity.fraction(50, 100)) && !half.equals(Quantity.percent(500, 1)));
  assert.throws(() => {
    half.numerator = 1n;
  }, TypeError);
  refuseNoQuantities(half);
  console.log(`quantities: ${QUANTITIES} are read back as written, and their figures are theirs`);
}

function refuseNoQuantities(half) {
  refusesEach([1.5, 2 ** 53, '1', null, undefined], (it) => Quantity.fraction(it, 1));
  refusesEach([1.5, 2 ** 53, '1', null, undefined], (it) => Quantity.fraction(1, it));
  refusesEach([-1, 1.5, NaN, 1n, '1', null], (it) => Quantity.percent(1, it));
  refusesEach(['half', 0, null, undefined], (it) => new Quantity(1, 2, it));
  refusesEach([1n, null, undefined, ['一']], (it) => toQuantity(it));
  refusesEach([...NO_OPTIONS, { way: 'low' }, { method: 'digits' }], (it) => toQuantity('一', it));
  refusesEach([...NO_OPTIONS, { way: 'low' }, { method: 'digits' }, { case: 'Upper' }],
    (it) => half.toChinese(it));
}

const RUNNING_QUANTITIES = Array.from(
  '二三十百万亿点分之几多负正25.,-％%，。到折 \n😀é\ufffd\ud800\udc00');

// The quantities of a text, each with its flags, in their places.
function compareTheQuantitiesOf(text) {
  const [about, oneCharacter, doubtful] = [below(2) === 1, below(2) === 1, below(2) === 1];
  const options = { upper: below(2) === 1, greatest: one(UNITS), method: one(METHODS) };
  const { method, ...wanted } = options, all = { ...options, about, oneCharacter, doubtful };
  let anew = '', at = 0, replaced = 0;
  for (const it of findQuantities(text, wanted)) {
    assert(it instanceof FoundQuantity && it.start >= at);
    assert.equal(text.slice(it.start, it.end), it.text);
    const quantity = answerOf(() => toQuantity(it.text, { method })), value = it.value({ method });
    assert.deepEqual(value ?? answerOf(() => it.quantity({ method })), quantity, it.text);
    if (value === null || (it.isAbout && !about) || (it.isOneCharacter && !oneCharacter)) continue;
    assert(it.doubt === null || DOUBTS.includes(it.doubt));
    if (it.doubt === 'part' || (it.doubt !== null && !doubtful)) continue;
    anew += text.slice(at, it.start) + figuresOf(value);
    at = it.end;
    replaced++;
  }
  anew += text.slice(at);
  const figures = (it) => it.quantity({ method }).toFigures();
  assert.equal(replaceQuantities(text, figures, all), anew);
  keepsAllElse(text, quantitiesToFigures(text, { ...all, ...styleOfSome() }));
  return replaced;
}

const styleOfSome = () => ({ expanded: below(2) === 1, canonical: below(2) === 1 });

// What is no part of an expression stays where it is, in order, also halves of surrogate pairs.
function keepsAllElse(text, anew) {
  const others = (string) => string.match(/[\n😀é\ufffd\ud800\udc00。]/g) ?? [];
  assert.deepEqual(others(anew), others(text));
}

function tryReplaced() {
  let replaced = 0;
  for (let i = 0; i < TEXTS; i++) {
    const characters = Array.from({ length: below(24) }, () => one(RUNNING_QUANTITIES));
    replaced += compareTheQuantitiesOf(characters.join(''));
  }
  assert(replaced > TEXTS);
  // A new text may be much longer, and more is found than one call of the module gives.
  for (const [part, figures] of [['1亿，', '100000000，'], ['文三百', '文300'], ['😀é一半', '😀é一半']]) {
    for (const count of [1, 64, 65, 300_000]) {
      const expanded = quantitiesToFigures(part.repeat(count), { expanded: true });
      assert.equal(expanded, figures.repeat(count));
    }
  }
  const text = '三亿，１,２８０，五一，八五折';
  assert.equal(quantitiesToFigures(text), '3亿，１,２８０，五一，八五折');
  assert.equal(quantitiesToFigures(text, { doubtful: true, canonical: true }),
    '3亿，1280，51，八五折');
  const twice = ({ text }) => (text === '-5' ? undefined : text + text);
  assert.equal(replaceQuantities('三百，-5，7', twice), '三百三百，-5，77');
  assert.equal(replaceQuantities('5％ 6', () => ''), ' ');
  // The function may search a text itself.
  const within = (found) => replaceQuantities(`(${found.text})`, (it) => it.quantity().toChinese());
  assert.equal(replaceQuantities('12和3', within), '(十二)和(三)');
  refuseNoReplacements();
  console.log(`replaced: ${replaced} quantities of ${TEXTS} texts, by the module and a function`);
}

function refuseNoReplacements() {
  const wrong = [...NO_OPTIONS, { about: 1 }, { oneCharacter: 'yes' }, { upper: 1 },
    { greatest: 'ZHAO' }, { method: 'digits' }, { kind: 'u8' }, { doubtful: 1 }];
  const noStyle = [...wrong, { expanded: 'yes' }, { canonical: 0 }, { style: 'kept' }];
  const noText = [...noStyle, { compact: true }, { codes: true }];
  refusesEach(noText, (it) => quantitiesToFigures('一', it));
  refusesEach([...noStyle, { compact: 1 }, { codes: 1 }], (it) => textToFigures('一', it));
  refusesEach([...NO_OPTIONS, { yao: 1 }, { script: 'simple' }, { upper: true }],
    (it) => textToSpeech('一', it));
  refusesEach([1, null, undefined, ['一']], (it) => textToSpeech(it));
  refusesEach([1, null, undefined, ['一']], (it) => findUnspoken(it));
  refusesEach([...wrong, { expanded: true }, { canonical: true }],
    (it) => replaceQuantities('文', () => '', it));
  refusesEach([...NO_OPTIONS, { method: 'low' }, { about: true }], (it) => findQuantities('一', it));
  refusesEach([1, null, undefined, ['一']], (it) => quantitiesToFigures(it));
  refusesEach([1, null, undefined, ['一']], (it) => replaceQuantities(it, () => ''));
  refusesEach([1, null, undefined, 'x'], (it) => replaceQuantities('12', it));
  refusesEach([1, null, 1n, ['x']], (it) => replaceQuantities('12', () => it));
  const failure = new Error('of the function');
  assert.throws(() => replaceQuantities('12', () => {
    throw failure;
  }), failure);
}

const RUNNING_PHRASES = Array.from('一二三十百万零半两年月日号点分秒时刻周上下午个小米到至比元块毛角钱斤 2635:-%，。多\n😀\ufffd\ud800');
const FORMS = ['二零二六年', '一月', '五日', '下午', '三点', '小时', '到五万', '百分之三', '3:2', '2026-01-15', '三块五'];

// Whether the parts of a text, in order, are apart.
const areApart = (items) => items.every((it, at) => at === 0 || items[at - 1].end <= it.start);
const touches = ({ start, end }) => (it) => start < it.end && it.start < end;

// The expressions in no phrase are those of findQuantities of which no phrase has a part; each
// phrase has a value unless it is refused, or is a sum that is no whole number of fen.
function comparePhrasesOf(text) {
  const wanted = { upper: below(2) === 1, greatest: one(UNITS) };
  const items = Array.from(findPhrases(text, wanted));
  const phrases = items.filter((it) => it instanceof Phrase);
  assert(areApart(items), text);
  for (const it of items) assert.equal(text.slice(it.start, it.end), it.text);
  const others = Array.from(findQuantities(text, wanted))
    .filter((it) => !phrases.some(touches(it)));
  assert.deepEqual(items.filter((it) => it instanceof FoundQuantity), others, text);
  for (const { kind, state, value } of phrases) {
    assert(PHRASE_KINDS.includes(kind) && PHRASE_STATES.includes(state));
    if (kind === 'money') assert(value === null || value.denominator === 100n, text);
    else assert.equal(value === null, state === 'refused', text);
    if (kind === 'range' && value) assert(value.every((it) => it instanceof Quantity), text);
  }
  keepsAllElse(text, textToFigures(text, { ...wanted, ...styleOfSome() }));
  return phrases.length;
}

// A phrase with its kind, state and value, of which quantities are in figures.
const tellPhrase = ({ kind, state, text, value }) => [text, kind, state,
  JSON.stringify(value, (_, it) => (it instanceof Quantity ? it.toFigures() : it))].join(' ');

const PHRASES = [
  ['二零二六年一月五日', 'date certain {"year":2026,"month":1,"day":5}'],
  ['二六年一月', 'date certain {"year":26,"month":1}'],
  ['二月二十九日', 'date certain {"month":2,"day":29}'], ['二月三十日', 'date refused null'],
  ['一九九五至二〇〇三年', 'years certain [1995,2003]'], ['三到五月', 'months certain [3,5]'],
  ['五到三月', 'months refused null'], ['十五至十八日', 'days certain [15,18]'],
  ['下午三点半', 'time certain {"hour":3,"minute":30,"second":0,"hourOfDay":15}'],
  ['三点半', 'time certain {"hour":3,"minute":30,"second":0}'],
  ['晚上十二点', 'time certain {"hour":12,"minute":0,"second":0,"hourOfDay":24}'],
  ['一小时二十分五秒', 'duration certain {"hours":1,"minutes":20,"seconds":5}'],
  ['一个半小时', 'half certain "1.5"'], ['一米七五', 'length certain "1.75"'],
  ['三比二', 'score certain [3,2]'], ['三到五万', 'range certain ["30000","50000"]'],
  ['3-5%', 'range certain ["3%","5%"]'], ['五到三', 'range refused null'],
  ['五到三万', 'range certain ["5","30000"]'], ['三块五毛二', 'money certain "3.52"'],
  ['五元', 'money doubtful "5"'], ['3.555元', 'money certain null'],
  ['九十九万亿元', 'money certain "99000000000000"'],
];

function tryPhrases() {
  for (const [text, wanted] of PHRASES) {
    assert.deepEqual(Array.from(findPhrases(text), tellPhrase), [`${text} ${wanted}`]);
  }
  const [early] = findPhrases('1000年前'), [tenths] = findPhrases('五到八折');
  assert.deepEqual([early.state, early.value], ['doubtful', { year: 1000 }]);
  assert.deepEqual([tenths.state, tenths.value.map((it) => it.toWhole())], ['doubtful', [5n, 8n]]);
  const decimals = Array.from(findPhrases('一个半小时，一米七五'), (it) => it.value);
  assert.deepEqual(decimals, [Quantity.decimal(15, 1), Quantity.decimal(175, 2)]);
  let phrases = 0;
  for (let i = 0; i < TEXTS; i++) {
    const some = Array.from({ length: below(12) }, () => one(below(4) ? RUNNING_PHRASES : FORMS));
    phrases += comparePhrasesOf(some.join(''));
  }
  assert(phrases > TEXTS / 4, `${phrases} phrases`);
  tryManyPhrases();
  tryTextsInFigures();
  console.log(`phrases: ${phrases} in ${TEXTS} texts, and the expressions that are in none`);
}

// More is found than one call of the module gives, and other calls go in between.
function tryManyPhrases() {
  for (const count of [1, 63, 64, 65, 128, 100_000]) {
    const many = Array.from(findPhrases('é😀三到五万，'.repeat(count)));
    assert(many.length === count && many.every((it, at) => it.start === 8 * at + 3));
    assert.deepEqual(many.at(-1).value.map((it) => it.toWhole()), [30_000n, 50_000n]);
  }
  const left = Array.from(findUnspoken('x8'.repeat(2000)), (it) => [it.start, it.text]);
  assert.deepEqual(left, Array.from({ length: 2000 }, (_, at) => [2 * at + 1, '8']));
  const some = findPhrases('三点半，5-8%'), other = findPhrases('\ud800一月五日');
  assert.deepEqual([some.next().value.kind, other.next().value.start], ['time', 1]);
  assert.equal(some.next().value.value[1].toFigures(), '8%');
  assert.deepEqual([some, other].map((it) => it.next().done), [true, true]);
}

function tryTextsInFigures() {
  const text = '二零二六年一月五日下午三点半，三到五万元';
  assert.equal(textToFigures(text), '2026年1月5日下午3点半，3万到5万元');
  assert.equal(textToFigures(text, { expanded: true }), '2026年1月5日下午3点半，30000到50000元');
  for (const [stays, options, anew] of [['二月三十日', { doubtful: true }, '二月三十日'],
    ['一个半小时', { oneCharacter: true }, '1个半小时'], ['五到八折', { doubtful: true }, '5到8折']]) {
    assert.deepEqual([textToFigures(stays), textToFigures(stays, options)], [stays, anew]);
  }
  for (const count of [1, 65, 100_000]) {
    assert.equal(textToFigures('三点半\ud800，'.repeat(count)), '3点半\ud800，'.repeat(count));
  }
  const wrong = [...NO_OPTIONS, { upper: 1 }, { greatest: 'ZHAO' }];
  refusesEach([...wrong, { method: 'digits' }, { doubtful: 1 }, { expanded: 'yes' }],
    (it) => textToFigures('一', it));
  refusesEach([...wrong, { method: 'low' }, { about: true }], (it) => findPhrases('一', it));
  for (const call of [textToFigures, findPhrases]) {
    refusesEach([1, null, undefined, ['一']], (it) => call(it));
  }
}

// A host that has no more memory, and one that has it again.
function tryWithoutMemory() {
  const { grow } = WebAssembly.Memory.prototype;
  const cause = new RangeError('no more memory'), longer = '零'.repeat(6_000_000);
  const withoutGrowth = () => {
    throw cause;
  };
  WebAssembly.Memory.prototype.grow = withoutGrowth;
  const refusal = { name: 'NumeralError', code: 'outOfMemory', message: 'out of memory', cause };
  assert.throws(() => toNumber(longer), { ...refusal, start: undefined });
  assert.throws(() => new Found(0, longer, 1).value(), refusal);
  for (const call of [quantitiesToFigures, textToFigures, findPhrases]) {
    assert.throws(() => call(longer), refusal);
  }
  assert.equal(toNumber('一百二'), 120);
  WebAssembly.Memory.prototype.grow = grow;
  assert.equal(toNumber(longer), 0);
  // A new instance is there, and none of the memory that it asks for.
  WebAssembly.Memory.prototype.grow = withoutGrowth;
  assert.throws(() => toNumber('零'.repeat(1_000_000)), refusal);
  assert.deepEqual([toNumber('七'), toChinese(120)], [7, '一百二十']);
  WebAssembly.Memory.prototype.grow = grow;
}

// How many instances of the module a call makes.
function instancesOf(call) {
  const { Instance } = WebAssembly;
  let made = 0;
  WebAssembly.Instance = function (...words) {
    made++;
    return new Instance(...words);
  };
  call();
  WebAssembly.Instance = Instance;
  return made;
}

// Texts longer than the memory that was there, and short ones behind them.
function tryLongTexts() {
  const long = ' '.repeat(1_000_000) + '一百二';
  assert.equal(toNumber(long), 120);
  assert.throws(() => toNumber(`${long}x`),
    { code: 'incorrect', charIndex: 1_000_003, start: 1_000_003, end: 1_000_004 });
  assert.throws(() => toNumber(`${'　'.repeat(1_000_000)}😀`),
    { code: 'incorrect', charIndex: 1_000_000, end: 1_000_002 });
  assert.equal(toNumber('零'.repeat(3_000_000) + '七', { way: 'digits' }), 7);
  assert.equal(toChinese(120), '一百二十');
  tryWithoutMemory();
  // The memory of a long text is left with its instance.
  const read = (count) => instancesOf(() => toNumber(`${'零'.repeat(count)}七`));
  const LONG = 6_000_000;
  const write = (count) => instancesOf(() => quantitiesToFigures('文'.repeat(count)));
  assert.deepEqual([LONG, LONG, 1, 1, LONG, LONG, 1].map(read), [0, 0, 1, 0, 0, 0, 1]);
  assert.deepEqual([LONG, LONG, 1, 1].map(write), [0, 0, 1, 0]);
  console.log('long texts: as expected, also if memory does not grow');
}

// Calls on a stack that is full, as far as the padding lets it be.
function onAFullStack(call, padding) {
  const fill = (...more) => {
    try {
      fill(...more);
    } catch (error) {
      if (!(error instanceof RangeError)) throw error;
    }
    return call();
  };
  try {
    fill(...Array(padding).fill(0));
  } catch (error) {
    const isOfStack = error instanceof RangeError || error instanceof WebAssembly.RuntimeError;
    assert(isOfStack, String(error.stack));
  }
}

// A call on a full stack ends inside the module, which then traps for good: the next call has to
// have a new instance.
function tryTraps() {
  const calls = [[() => toNumber('一百二'), 120], [() => toChinese(120), '一百二十'],
    [() => findPhrases('三到五万').next().value.value[1].toFigures(), '50000']];
  const made = instancesOf(() => {
    for (let padding = 0; padding < 200; padding++) {
      for (const [call, answer] of calls) {
        onAFullStack(call, padding);
        assert.equal(call(), answer);
      }
    }
  });
  assert(made > 0, 'no call trapped');
  console.log(`full stacks: ${made} new instances, and each next call answered`);
}

for (const it of [lookAtTheModules, compareWithTheProgram, tryOtherLines, tryEdges, tryOptions,
  tryAmounts, trySignedAmounts, tryTypedAmounts, tryFigures, tryDates, tryReasons, tryMessages, tryRunningText,
  tryFound, tryQuantities, tryReplaced, tryPhrases, tryLongTexts, tryTraps]) {
  it();
}
