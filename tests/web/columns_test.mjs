// node columns_test.mjs: compares each row of a column with the answer of the call for one row: over
// the words of tests/rows, numbers of all sizes, and texts of all lengths. test_web.py copies the
// binding and these rows next to this file.
import assert from 'node:assert/strict';
import { readFileSync, readdirSync } from 'node:fs';
import * as face from './files/chinese-number.mjs';

const { KINDS, SCRIPTS, WAYS } = face;
const ROWS = 3000;
const folder = new URL('rows/', import.meta.url);
const WORDS = readdirSync(folder).flatMap((name) => readFileSync(new URL(name, folder), 'utf8')
  .split('\n').flatMap((line) => line.split('\t').slice(1)));
const TEXTS = [...WORDS, '', '😀', '\ud83d', '\ude00', '一\ud83d', '\ufeff一', 'é', '壹'.repeat(41),
  '零'.repeat(20_000) + '五', '零'.repeat(60_000) + '五', ' 一 二', null];
const FEN = 10n ** 18n;

// A generator that gives the same numbers each time (xorshift).
let state = 88172645463325252n;
function below(count) {
  state ^= BigInt.asUintN(64, state << 13n);
  state ^= state >> 7n;
  state ^= BigInt.asUintN(64, state << 17n);
  return Number((state >> 11n) % BigInt(count));
}
const one = (list) => list[below(list.length)];
const many = (make, count = ROWS) => Array.from({ length: count }, make);

function someBits(most) {
  let bits = 0n;
  for (let width = 0; width < most; width += 32) bits = (bits << 32n) | BigInt(below(2 ** 32));
  return BigInt.asUintN(below(most + 1), bits);
}

function someWhole(most = 130) {
  const bits = someBits(most), number = below(3) ? bits : -bits;
  return below(2) && Number.isSafeInteger(Number(number)) ? Number(number) : number;
}

// The answer and the status that a row must have.
function wantedOf(call, row) {
  if (row === null) return [null, 'none'];
  try {
    return [call(row), 'done'];
  } catch (error) {
    if (error instanceof TypeError) throw error;
    return [null, error.code];
  }
}

function compare(column, call, rows, options = {}) {
  const wanted = Array.from(rows, (row) => wantedOf(call, row)), statuses = ['none', 'empty'];
  const answers = wanted.map(([answer]) => answer);
  assert.deepEqual(column(rows, { ...options, statuses }), answers);
  assert.deepEqual(statuses, wanted.map(([, status]) => status));
  const isRight = (_, at) => ['done', 'none'].includes(wanted[at][1]);
  const right = Array.from(rows).filter(isRight);
  const at = answers.findIndex((it, row) => !isRight(it, row));
  assert.deepEqual(column(right, options), answers.filter(isRight));
  if (at >= 0) throwsFor(at, () => column(rows, options), () => call(rows[at]));
  return new Set(statuses);
}

const thrownBy = (call) => {
  try {
    return assert.fail(`nothing is thrown, but ${call()} is returned`);
  } catch (error) {
    return error;
  }
};

// The first refused row throws the error of the call for one row.
function throwsFor(row, column, call) {
  const [found, wanted] = [column, call].map((it) => {
    const error = thrownBy(it);
    return { ...error, message: error.message, inChinese: error.messageIn('zh-Hans') };
  });
  assert.deepEqual(found, { ...wanted, row });
}

// The statuses that rows had.
const seen = new Set();
const tried = (...words) => compare(...words).forEach((status) => seen.add(status));

function tryNumbers() {
  for (const kind of KINDS) {
    const way = one(WAYS), reading = { kind, way }, texts = many(() => one(TEXTS));
    const options = { ...reading, script: one(SCRIPTS), case: one(['upper', 'lower']) };
    const numbers = many(() => (below(9) ? someWhole() : null));
    tried(face.toChineseColumn, (it) => face.toChinese(it, options), numbers, options);
    tried(face.toBigIntColumn, (it) => face.toBigInt(it, reading), texts, reading);
    tried(face.toNumberColumn, (it) => face.toNumber(it, reading), texts, reading);
  }
  // More texts than there is memory for at once, some of the most bytes.
  const long = many(() => someWhole(127)), texts = long.map((it) => face.toChinese(it));
  assert.deepEqual(face.toChineseColumn(long), texts);
  assert.deepEqual(face.toBigIntColumn(texts), long.map(BigInt));
  for (const most of [2n ** 128n - 1n, -(2n ** 127n)]) {
    const options = { kind: most < 0 ? 'i128' : 'u128', case: 'upper' };
    tried(face.toChineseColumn, (it) => face.toChinese(it, options), many(() => most), options);
  }
}

const TYPED = [Int8Array, Int16Array, Int32Array, BigInt64Array, Uint8Array, Uint16Array,
  Uint32Array, BigUint64Array];

function tryTypedArrays() {
  for (const type of TYPED) {
    const kind = `${type.name.includes('U') ? 'u' : 'i'}${8 * type.BYTES_PER_ELEMENT}`;
    const isBig = type.name.startsWith('Big'), [read, column] = isBig
      ? [face.toBigInt, face.toBigIntColumn] : [face.toNumber, face.toNumberColumn];
    const rows = type.from(many(() => (isBig ? someBits(64) : Number(someBits(32)))));
    for (const options of [{}, { kind }, { kind: 'u8' }, { kind: 'i64' }]) {
      tried(face.toChineseColumn, (it) => face.toChinese(it, options), rows.subarray(5), options);
    }
    const texts = many(() => one(TEXTS)), statuses = [], into = new type(ROWS + 1).fill(rows[0]);
    const wanted = texts.map((it) => wantedOf((text) => read(text, { kind }), it));
    assert.equal(column(texts, { into, statuses }), into);
    assert.deepEqual(statuses, wanted.map(([, status]) => status));
    const numbers = wanted.map(([answer]) => answer ?? (isBig ? 0n : 0));
    assert.deepEqual(into, type.from([...numbers, rows[0]]));
    refuses(() => column(['一'], { into: new type(1), kind: 'i128' }));
    refuses(() => column(['一', '一'], { into: new type(1) }));
  }
  const into = new Float64Array(2), numbers = face.toNumberColumn(['一百二', '负一亿'], { into });
  assert.deepEqual([numbers, numbers === into], [Float64Array.of(120, -1e8), true]);
  assert.deepEqual(face.toChineseColumn(Float64Array.of(5, -(2 ** 40))),
    [5, -(2 ** 40)].map((it) => face.toChinese(it)));
}

function tryAmounts() {
  const fen = many(() => (below(9) ? one([someWhole(70), someWhole(59)]) : null));
  fen.push(FEN, FEN - 1n, -FEN, 1n - FEN, 2n ** 63n, -(2n ** 63n), 2n ** 64n, -0, 0);
  for (const script of SCRIPTS) {
    for (const options of [{ script }, { script, currency: true, yuan: '圆', closing: '正' }]) {
      tried(face.amountToChineseColumn, (it) => face.amountToChinese(it, options), fen, options);
      const signed = { ...options, bracketedSign: below(2) === 1 };
      tried(face.signedAmountToChineseColumn, (it) => face.signedAmountToChinese(it, signed), fen,
        signed);
    }
  }
  const typed = BigInt64Array.from(many(() => someBits(64))), wide = BigUint64Array.from(typed);
  for (const rows of [typed, wide]) {
    tried(face.amountToChineseColumn, face.amountToChinese, rows);
    tried(face.signedAmountToChineseColumn, face.signedAmountToChinese, rows);
  }
  const written = many(() => face.signedAmountToChinese(BigInt.asIntN(59, someBits(59))));
  const texts = many(() => one([one(TEXTS), one(written)]));
  for (const name of ['chineseToSignedAmount', 'chineseToSignedAmountAsTyped', 'yuanToFen']) {
    const rows = name === 'yuanToFen'
      ? many(() => one([one(TEXTS), someWhole(60), `${below(10 ** 9)}.${below(10)}`])) : texts;
    tried(face[`${name}Column`], face[name], rows);
    tried(face[`${name}BigIntColumn`], face[`${name}BigInt`], rows);
  }
  const into = new BigInt64Array(2), cells = ['壹元整', null];
  assert.equal(face.chineseToSignedAmountBigIntColumn(cells, { into }), into);
  assert.deepEqual(into, BigInt64Array.of(100n, 0n));
  assert.deepEqual(face.yuanToFenColumn(['-1.5'], { into: new Float64Array(1) }),
    Float64Array.of(-150));
}

function tryDates() {
  const part = (most) => one([below(most), below(most), 2 ** 32 + 1, -1]);
  const some = () => ({ year: part(10_001), month: part(14), day: part(33) });
  const dates = many(() => (below(9) ? some() : null));
  for (const script of SCRIPTS) {
    tried(face.dateToChineseColumn, (it) => face.dateToChinese(it, { script }), dates, { script });
  }
  const right = { year: 2026, month: 1, day: 15 };
  tried(face.chineseToDateColumn, face.chineseToDate,
    many(() => one([one(TEXTS), face.dateToChinese(right)])));
}

const refuses = (call, row) => assert.throws(call,
  (error) => error instanceof TypeError && error.row === row);

function tryMistakes() {
  const columns = Object.keys(face).filter((it) => it.endsWith('Column')).map((it) => face[it]);
  assert.equal(columns.length, 13);
  for (const column of columns) {
    for (const rows of ['一', null, undefined, 5, { length: 1 }, new ArrayBuffer(8), new Set()]) {
      refuses(() => column(rows));
    }
    for (const options of [{ other: 1 }, { statuses: 'done' }, { into: new ArrayBuffer(8) },
      { into: new Uint8ClampedArray(8) }, [], 5, null]) refuses(() => column([], options));
    for (const bad of [undefined, true, {}, ['一'], 0.5, Symbol.iterator]) {
      for (const options of [{}, { statuses: [] }]) {
        refuses(() => column([null, null, bad, bad], options), 2);
      }
    }
    assert.deepEqual(column([]), []);
    assert.deepEqual(column([null]), [null]);
  }
  refuses(() => face.toChineseColumn([], { kind: 'u7' }));
  refuses(() => face.toNumberColumn([], { script: 'simplified' }));
  refuses(() => face.toChineseColumn([1], { into: [] }));
}

// A column between texts that need other memory.
function tryMemory() {
  const long = '零'.repeat(6_000_000), texts = many(() => face.toChinese(below(2 ** 40)));
  const numbers = texts.map((it) => face.toNumber(it));
  for (const count of [2 ** 24, 0, 2 ** 24]) {
    assert.deepEqual(face.toNumberColumn(texts), numbers);
    assert.equal(face.toNumber(`${long.slice(0, count)}七`), 7);
    assert.deepEqual(face.toChineseColumn(numbers), texts);
  }
  const rows = [`${long}七`, '一百二', `${long}x`], statuses = [];
  assert.deepEqual(face.toNumberColumn(rows, { statuses }), [7, 120, null]);
  assert.deepEqual(statuses, ['done', 'done', 'incorrect']);
}

for (const it of [tryNumbers, tryTypedArrays, tryAmounts, tryDates, tryMistakes, tryMemory]) it();
assert.deepEqual([...seen].sort(), ['done', 'empty', 'incorrect', 'none', 'notADate', 'notHeld',
  'tooLarge', 'tooSmall', 'unfinished', 'unsafe']);
console.log('columns: each row is answered as alone');
