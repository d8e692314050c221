import { NumeralError, toBigInt, toChinese, toNumber } from 'chinese-number-proved';
import { amountToChinese, chineseToAmount, chineseToAmountBigInt } from 'chinese-number-proved';
import { chineseToAmountAsTyped, chineseToAmountAsTypedBigInt } from 'chinese-number-proved';
import { chineseToSignedAmount, chineseToSignedAmountBigInt } from 'chinese-number-proved';
import { chineseToSignedAmountAsTyped } from 'chinese-number-proved';
import { explainNumber, explainQuantity, inputExpected, inputRepair } from 'chinese-number-proved';
import { inputMessage, numberMessage, quantityMessage } from 'chinese-number-proved';
import { LANGUAGES, statusMessage } from 'chinese-number-proved';
import { signedAmountToChinese, yuanToFen, yuanToFenBigInt } from 'chinese-number-proved';
import { chineseToDate, dateToChinese, findNumbers } from 'chinese-number-proved';
import { Quantity, findQuantities, toQuantity } from 'chinese-number-proved';
import { quantitiesToFigures, replaceQuantities } from 'chinese-number-proved';
import { Phrase, findPhrases, textToFigures } from 'chinese-number-proved';
import { findUnspoken, textToSpeech } from 'chinese-number-proved';
import { chineseToDateColumn, dateToChineseColumn, toBigIntColumn } from 'chinese-number-proved';
import { toChineseColumn, toNumberColumn, yuanToFenColumn } from 'chinese-number-proved';
import type { Column, RowStatus } from 'chinese-number-proved';
import type { BillDate, Kind, NumeralCode, Unit, Way } from 'chinese-number-proved';
import type { Doubt, FoundQuantity, Method, QuantityForm } from 'chinese-number-proved';
import type { AnyPhrase, ClockTime, PartialDate } from 'chinese-number-proved';
import type { PhraseKind, PhraseState } from 'chinese-number-proved';
import type { Change, Expected, Fault, Input, Language, Repair } from 'chinese-number-proved';
import { toNumber as other } from 'chinese-number-proved/files';
const way: Way = 'any', greatest: Unit = 'yi';
const value: number = toNumber('一', { kind: 'u64', way }), big: bigint = toBigInt('一', { way });
const text: string = toChinese(value, { way, script: 'simplified', case: 'upper' });
const amount: string = amountToChinese(big, { currency: true, yuan: '圆', closing: '正' });
const fen: number = chineseToAmount(amount), bigFen: bigint = chineseToAmountBigInt(amount);
const red: string = signedAmountToChinese(-fen, { closing: '正', bracketedSign: true });
const fens: number[] = [chineseToSignedAmountAsTyped(red), chineseToAmountAsTyped(amount)];
fens.push(chineseToSignedAmount('负壹元整'), yuanToFen(15));
const bigFens: bigint[] = [chineseToSignedAmountBigInt('负壹元整'),
  chineseToAmountAsTypedBigInt(amount), yuanToFenBigInt('-1,409.50'), yuanToFenBigInt(15n)];
const found = Array.from(findNumbers(amount, { upper: true, greatest }), (it) => it.value({ way }));
const numbers: (number | null)[] = found;
const date: BillDate = chineseToDate(dateToChinese({ year: 2026, month: 1, day: 15 }));
console.log(toChinese(big), amountToChinese(1500), fen, bigFen, numbers, date.year);
console.log(fens, bigFens);
const method: Method = 'low', quantity: Quantity = toQuantity('3.5万', { method });
const form: QuantityForm = quantity.form, upper: bigint = quantity.numerator;
const all: Quantity[] = [Quantity.decimal(35, 1), Quantity.percent(5n), Quantity.fraction(1, 3)];
const tenths: Quantity = new Quantity(upper, 10, form).trimmed();
const written: string = tenths.toChinese({ method, case: 'upper' });
const expressions: FoundQuantity[] = Array.from(findQuantities(written, { greatest }));
const isAbout: boolean[] = expressions.map((it) => it.isAbout || it.isOneCharacter);
const replaced: string = replaceQuantities(text, (it) => it.value()?.toFigures(), { about: true });
const doubts: (Doubt | null)[] = expressions.map((it) => it.doubt);
const figures: string = quantitiesToFigures(text, { doubtful: true, expanded: true, canonical: true });
console.log(all.map((it) => it.toWhole() ?? 0n), isAbout, replaced, doubts, figures);
const kinds: PhraseKind[] = [], states: PhraseState[] = [], others: FoundQuantity[] = [];
const dates: PartialDate[] = [], times: ClockTime[] = [], ends: Quantity[] = [];
for (const it of findPhrases('一月五日三点半，三到五万', { greatest })) {
  if (!(it instanceof Phrase)) {
    others.push(it);
    continue;
  }
  const phrase: AnyPhrase = it;
  kinds.push(phrase.kind);
  states.push(phrase.state);
  if (phrase.value === null) continue;
  if (phrase.kind === 'date') dates.push(phrase.value);
  if (phrase.kind === 'time') times.push(phrase.value);
  if (phrase.kind === 'range') ends.push(...phrase.value);
}
const spoken: string = textToSpeech(text, { script: 'traditional', yao: true });
const unspoken: FoundQuantity[] = Array.from(findUnspoken(text));
const rewritten: string = textToFigures(text, { about: true, compact: true, codes: true });
console.log(kinds, states, others, dates, times, ends, rewritten, spoken, unspoken);
const input: Input = 'typedSignedAmount', expected: Expected = inputExpected(red, input);
const keys: string[] = expected.mayEnd ? [] : expected.characters;
const repair: Repair | undefined = inputRepair(red, input);
const change: Change = repair?.change ?? 'delete';
const faults: (Fault | undefined)[] = [explainNumber('百五', { way }), explainQuantity('十十')];
const messages: string[] = LANGUAGES.flatMap((it: Language) => [inputMessage(red, 'amount', it),
  numberMessage('角', it, { way }), quantityMessage('角', it), statusMessage('tooLarge', it)]);
console.log(keys, change, faults, messages);
try {
  other(text);
} catch (error) {
  if (error instanceof NumeralError && error.code === 'incorrect') {
    const start: number | undefined = error.start, kind: Kind | undefined = error.kind;
    const code: NumeralCode = error.code, message: string = error.messageIn('zh-Hant');
    console.log(start, kind, code, message);
  }
}
const statuses: RowStatus[] = [], rows: (bigint | number | null)[] = [120, 5n, null];
const cells: Column<string> = toChineseColumn(rows, { kind: 'u8', script: 'traditional', statuses });
const read: Column<number> = toNumberColumn(cells), bigs: Column<bigint> = toBigIntColumn(cells, { way });
const held: Int32Array = toNumberColumn(cells, { into: new Int32Array(3), statuses });
const longs: BigInt64Array = toBigIntColumn(cells, { into: new BigInt64Array(3) });
const days: Column<BillDate> = chineseToDateColumn(dateToChineseColumn([date, null]));
const sums: Column<number> = yuanToFenColumn(['1,409.50', 15, 15n, null]);
console.log(read, bigs, held, longs, days, sums, toChineseColumn(longs), toChineseColumn(held));
// @ts-expect-error: a BigInt is no Number
toNumberColumn(cells, { into: new BigInt64Array(3) });
// @ts-expect-error: a column is an array
toChineseColumn(5);
// @ts-expect-error: only what is read is written into an array
toChineseColumn(rows, { into: [] });
// @ts-expect-error: no such option
toChinese(1, { letterCase: 'upper' });
// @ts-expect-error: a list is no options
toChinese(1, []);
// @ts-expect-error: no such way
toChinese(1, { way: 'naive' });
// @ts-expect-error: no such kind
toNumber('一', { kind: 'u7' });
// @ts-expect-error: what map hands on is no options
['一'].map(toNumber);
// @ts-expect-error: only an amount that may be negative has a sign
amountToChinese(1n, { bracketedSign: true });
// @ts-expect-error: no such input
inputExpected('壹', 'signed_amount');
// @ts-expect-error: no such language
inputMessage('壹', 'amount', 'zh');
// @ts-expect-error: a Number that is not safe has no status of the library
statusMessage('unsafe', 'en');
// @ts-expect-error: an amount has no case
amountToChinese(1n, { case: 'upper' });
// @ts-expect-error: fen are a number
amountToChinese('15');
// @ts-expect-error: yuan are figures or a number
yuanToFen(['15']);
// @ts-expect-error: a Date is an instant
dateToChinese(new Date());
// @ts-expect-error: plain digits are no method
toQuantity('一', { method: 'digits' });
// @ts-expect-error: no such form
new Quantity(1, 2, 'half');
// @ts-expect-error: a text in figures has no script
textToFigures('一', { script: 'simplified' });
// @ts-expect-error: a search has no method
findPhrases('一', { method: 'low' });
// @ts-expect-error: an expression is no phrase
const noKind: PhraseKind = 'expression';
// @ts-expect-error: a function writes its own text
replaceQuantities('一', () => '1', { expanded: true });
// @ts-expect-error: what stands in the place of an expression is a text
replaceQuantities('一', () => 1);
// @ts-expect-error: what is not for users has no name here
import type { MESSAGES } from 'chinese-number-proved';
