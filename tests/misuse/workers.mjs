// Calls the JavaScript here and in 4 workers at once. All must give the same answers; prints how
// many did.
import { Worker, isMainThread, parentPort } from 'node:worker_threads';

import {
  amountToChinese, chineseToAmount, chineseToDate, findNumbers, toBigInt, toChinese,
} from '../../bindings/web/chinese-number.mjs';

const TEXTS = 2000, WORKERS = 4;
const PIECES = [...'一二三十百千萬亿零壹贰佰元圆整正角分年月日负兩個5- é𠀀\0', '\ud800', '\udc00'];

/** The result of a call, or its refusal. */
function answered(call, argument) {
  try {
    return JSON.stringify(call(argument), (_, it) => (typeof it === 'bigint' ? `${it}n` : it));
  } catch (error) {
    return `${error.name} ${error.code} ${error.message} ${error.start} ${error.end}`;
  }
}

/** One sum over the answers to texts and numbers of a fixed generator. */
function sumOfAnswers() {
  const readers = [toBigInt, chineseToAmount, chineseToDate, (text) => [...findNumbers(text)]];
  let state = 1, sum = 0;
  const below = (most) => {
    state = Math.imul(state, 1103515245) + 12345 & 0x7fffffff;
    return (state >> 8) % most;
  };
  for (let count = 0; count < TEXTS; count++) {
    const text = Array.from({ length: below(20) }, () => PIECES[below(PIECES.length)]).join('');
    const number = BigInt(below(2 ** 23)) * BigInt(below(2 ** 23)) ** 3n;
    const answers = readers.map((call) => answered(call, text));
    answers.push(answered(toChinese, number), answered(amountToChinese, number >> 33n));
    for (const character of answers.join('')) sum = Math.imul(sum, 31) + character.codePointAt(0) | 0;
  }
  return sum;
}

if (isMainThread) {
  const sums = Array.from({ length: WORKERS }, () => new Promise((resolve, reject) => {
    new Worker(new URL(import.meta.url)).on('message', resolve).on('error', reject);
  }));
  const wanted = sumOfAnswers();
  const alike = (await Promise.all(sums)).filter((sum) => sum === wanted);
  console.log(`${alike.length} of ${WORKERS} answer alike`);
} else {
  parentPort.postMessage(sumOfAnswers());
}
