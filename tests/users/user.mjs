import { deepEqual, equal, throws } from 'node:assert/strict';
import * as face from 'chinese-number-proved';
import * as files from 'chinese-number-proved/files';
for (const { CASES, toBigInt, toChinese, toNumber, NumeralError, ...other } of [face, files]) {
  const { amountToChinese, chineseToAmount, AmountError, yuanToFen, findNumbers } = other;
  const { chineseToDate, dateToChinese, DateError } = other;
  const { Quantity, findQuantities, quantitiesToFigures, replaceQuantities, toQuantity } = other;
  const { FoundQuantity, Phrase, findPhrases, textToFigures } = other;
  deepEqual(CASES, ['upper', 'lower']);
  equal(toChinese(120, { script: 'traditional', case: 'upper' }), '壹佰貳拾');
  equal(JSON.stringify(['一百二', '一二〇'].map((it) => toNumber(it))), '[120,120]');
  equal(toBigInt('一澗', { kind: 'u128' }), 10n ** 36n);
  throws(() => toNumber('x', { kind: 'u8' }), (error) => error instanceof NumeralError
    && error.code === 'incorrect' && error.start === 0 && error.kind === 'u8');
  equal(amountToChinese(yuanToFen('12805.00')), '壹万贰仟捌佰零伍元整');
  equal(amountToChinese(1500, { currency: true, yuan: '圆', closing: '正' }), '人民币壹拾伍圆正');
  equal(chineseToAmount('壹佰元整'), 10000);
  equal(other.signedAmountToChinese(yuanToFen('-1,409.50')), '负壹仟肆佰零玖元伍角整');
  equal(other.chineseToSignedAmount('負壹佰圓整'), -10000);
  equal(other.chineseToAmountAsTyped('⊗人民币：壹佰 元整'), 10000);
  throws(() => chineseToAmount('壹佰元'), (error) => error instanceof AmountError
    && error.code === 'unfinished' && error.start === undefined);
  const date = { year: 2026, month: 1, day: 15 };
  equal(dateToChinese(date), '贰零贰陆年零壹月壹拾伍日');
  deepEqual(chineseToDate('貳零貳陸年零壹月壹拾伍日'), date);
  throws(() => dateToChinese({ ...date, day: 32 }), (error) => error instanceof DateError
    && error.code === 'notADate');
  const found = Array.from(findNumbers('😀百分之二十三'), (it) => [it.start, it.end, it.value()]);
  deepEqual(found, [[2, 3, null], [5, 8, 23]]);
  const half = toQuantity('12.5%');
  deepEqual([half.numerator, half.denominator, half.form], [125n, 1000n, 'percent']);
  equal(half.equals(Quantity.percent(125, 1)), true);
  equal(half.toChinese({ script: 'traditional' }), '百分之十二點五');
  equal(toQuantity('3.50万').trimmed().toWhole(), 35000n);
  const text = '😀共3.5万元，占12.5%，十几人';
  deepEqual(Array.from(findQuantities(text), (it) => [it.start, it.isAbout]),
    [[3, false], [10, false], [16, true]]);
  equal(quantitiesToFigures(text), text);
  equal(quantitiesToFigures(text, { expanded: true }), '😀共35000元，占12.5%，十几人');
  deepEqual(Array.from(findQuantities('五一，二十'), (it) => it.doubt), ['digits', null]);
  equal(replaceQuantities(text, (it) => it.value()?.toChinese(), { about: true }),
    '😀共三万五千点零元，占百分之十二点五，十几人');
  const meeting = '😀二零二六年一月五日下午三点半，三到五万元，二十人';
  equal(textToFigures(meeting), '😀2026年1月5日下午3点半，3万到5万元，20人');
  equal(textToFigures('三点五亿', { expanded: true }), '350000000');
  const [day, time, range, people] = findPhrases(meeting);
  equal(people instanceof FoundQuantity && people.value().toWhole(), 20n);
  deepEqual([day, time, range].map((it) => it instanceof Phrase && it.kind),
    ['date', 'time', 'range']);
  deepEqual([day.value, dateToChinese(day.value)],
    [{ year: 2026, month: 1, day: 5 }, '贰零贰陆年零壹月零伍日']);
  deepEqual(time.value, { hour: 3, minute: 30, second: 0, hourOfDay: 15 });
  deepEqual([range.start, range.end, range.value.map((it) => it.toFigures())],
    [17, 21, ['30000', '50000']]);
}
