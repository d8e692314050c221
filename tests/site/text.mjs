// The quantities that the page finds in a text, and long texts; a part of test.mjs.
import assert from 'node:assert/strict';
import { LANGUAGES } from './page.mjs';

// The quantities of a text, with their class, and what is said of each.
const TYPED = '共3.5万元，占12.5%，一般三百多人，他五六十歲，剩三分之一，A4，廿三，五一';
const FOUND = [
  ['3.5万元', '', 'money: 35000'], ['12.5%', '', '12.5%'], ['一', 'left', '1'],
  ['三百', 'left', 'about 300'],
  ['五六十', 'fault', 'A unit is missing between character 1, “五”, and “六”, or one of them is too '
    + 'many.'], ['三分之一', '', '1/3'], ['4', 'doubtful', '4?'], ['廿三', '', '23'],
  ['五一', 'left', '51? (a list of digits)'],
];
const IN_FIGURES = '共3.5万元，占12.5%，一般三百多人，他五六十歲，剩1/3，A4，23，五一';

// What is spoken is in the script of the page's language.
async function speaks(page) {
  for (const [language, wanted] of [['zh-Hans', '十五点三十分到'], ['zh-Hant', '十五點三十分到']]) {
    await page.speak(language);
    await page.type('text', '15:30到');
    assert.equal(await page.value('spoken.textContent'), wanted);
  }
}

const told = (page) => page.value('[textSaid.textContent, replaced.textContent]');

// They are marked in place, and listed with their figures or refusals; what is wrong or doubtful is
// not marked as the others are. And the text has its quantities in figures.
async function findsQuantities(page) {
  const marks = (id) => page.all(`${id} mark`, '[it.textContent, it.className]');
  await page.type('text', TYPED);
  assert.deepEqual(await marks('#searching .mirror'), FOUND.map(([it, name]) => [it, name]));
  assert.deepEqual(await marks('#found'), FOUND.map(([it, name, said]) => [`${it} ${said}`, name]));
  assert.equal(await page.value('found.querySelector("u").textContent'), '五');
  assert.equal(await page.value('text.nextElementSibling.textContent'), TYPED);
  assert.deepEqual(await told(page),
    ['Found: 9 · not replaced: 3 · doubtful: 1 · refused: 1', IN_FIGURES]);
  await page.check('about', true);
  assert.deepEqual(await told(page), ['Found: 9 · not replaced: 2 · doubtful: 2 · refused: 1',
    IN_FIGURES.replace('三百', '300')]);
  assert.deepEqual((await marks('#found'))[3], ['三百 about 300', 'doubtful']);
  await page.check('about', false);
  await page.check('oneCharacter', true);
  assert.equal((await told(page))[1], IN_FIGURES.replace('一般', '1般'));
  await page.check('oneCharacter', false);
  await page.check('doubtful', true);
  assert.deepEqual(await told(page), ['Found: 9 · not replaced: 2 · doubtful: 2 · refused: 1',
    IN_FIGURES.replace('五一', '51')]);
  assert.deepEqual((await marks('#found')).at(-1), ['五一 51? (a list of digits)', 'doubtful']);
  await page.check('doubtful', false);
}

// Phrases, each with its class, and what is said of it in each language.
const MEETING = '二零二六年一月五日下午三点半，三到五万元，一个半小时，二月三十日，五到八折，三比二，三块五，二十人';
const PHRASES = [
  ['二零二六年一月五日', '', '日期：2026年1月5日', '日期：2026年1月5日', 'date: year 2026 month 1 day 5'],
  ['下午三点半', '', '时刻：15:30:00', '時刻：15:30:00', 'time: 15:30:00'],
  ['三到五万', '', '范围：30000–50000', '範圍：30000–50000', 'range: 30000–50000'],
  ['一个半小时', 'left', '带半的数：1.5', '帶半的數：1.5', 'half: 1.5'],
  ['二月三十日', 'fault', '没有这样的日期', '沒有這樣的日期', 'not a valid date'],
  ['五到八', 'left', '范围：5–8？', '範圍：5–8？', 'range: 5–8?'],
  ['三比二', '', '比分：3:2', '比分：3:2', 'score: 3:2'],
  ['三块五', '', '金额：3.5', '金額：3.5', 'money: 3.5'], ['二十', '', '20', '20', '20'],
];

// They are listed with their kind and value, and the text has them in figures.
async function findsPhrases(page) {
  for (const language of LANGUAGES) {
    const at = await page.speak(language);
    await page.type('text', MEETING);
    assert.deepEqual(await page.all('#found mark', '[it.textContent, it.className]'),
      PHRASES.map(([it, name, ...said]) => [`${it} ${said[at]}`, name]));
  }
  const anew = '2026年1月5日下午3点半，3万到5万元，一个半小时，二月三十日，五到八折，3比2，3块5，20人';
  assert.deepEqual(await told(page), ['Found: 9 · not replaced: 2 · refused: 1', anew]);
  await page.check('doubtful', true);
  await page.check('oneCharacter', true);
  assert.deepEqual(await told(page), ['Found: 9 · doubtful: 1 · refused: 1',
    anew.replace('一个', '1个').replace('五到八', '5到8')]);
  await page.check('oneCharacter', false);
  await page.check('doubtful', false);
}

// Each doubt is explained in each language, and part of something is never replaced.
async function tellsDoubts(page) {
  const told = [];
  for (const language of LANGUAGES) {
    await page.speak(language);
    await page.type('text', '三十六计，五一，负二项，六点五折，下午三点五，三、四万');
    told.push(await page.all('#found small', `it.textContent.replace(/^[^?？]*[?？] ?/, '')`));
  }
  assert.deepEqual(told.map((it) => it.length), LANGUAGES.map(() => 7));
  assert.deepEqual(told[2], ['(part of a word)', '(a list of digits)', '(part of a term)',
    '(折, 成 or 半 follows)', '(a time)', '(one end of a range)', '(one end of a range)']);
  await page.check('doubtful', true);
  assert.equal(await page.value('replaced.textContent'),
    '36计，51，-2项，六点五折，下午3.5，三、4万');
  await page.check('doubtful', false);
}

// A text is read with the chosen method, and with ten thousand if there is none.
async function findsByChoices(page) {
  await page.check('expanded', true);
  await page.type('text', '1兆');
  for (const [way, it] of [['low', '1000000'], ['high', '10000000000000000'],
    ['digits', '1000000000000'], ['any', '1000000000000']]) {
    await page.choose('way', way);
    assert.deepEqual(await told(page), ['Found: 1', it]);
  }
  await page.check('expanded', false);
  assert.equal((await told(page))[1], '1兆');
  await page.type('text', '1,280');
  await page.check('canonical', true);
  assert.equal((await told(page))[1], '1280');
  await page.check('canonical', false);
  await page.type('text', '正在參加');
  assert.deepEqual(await told(page), ['Found: 0', '正在參加']);
  await page.check('upper', true);
  assert.equal((await told(page))[0], 'Found: 2 · not replaced: 1 · refused: 1');
}

// In a text no longer than 2,000 characters the mirror has the field's lines: it is as high and as
// wide, and the field does not scroll. A longer one is searched near the caret, and copied whole.
async function showsLongTexts(page) {
  for (const language of LANGUAGES) {
    await page.speak(language);
    await page.type('text', '');
    await page.insert(`${'文字二十三，'.repeat(60)}\n\n`);
    await page.painted();
    assert.deepEqual(await page.value(`((mirror) => [text.clientWidth - mirror.clientWidth,
      text.clientHeight - mirror.clientHeight, text.scrollHeight - text.clientHeight,
      text.scrollWidth - text.clientWidth])(text.nextElementSibling)`), [0, 0, 0, 0]);
  }
  await page.type('text', `三百${'字'.repeat(5000)}五十${'字'.repeat(5000)}七千`);
  const listed = () => page.all('#found mark span');
  assert.deepEqual(await listed(), ['七千']);
  assert.match(await page.value('textSaid.textContent'), /^Long text: .* Found: 1$/);
  // What the search saw in part is not listed: 十 of 五十.
  for (const [at, ...found] of [[0, '三百'], [5000, '五十'], [5203]]) {
    await page.value(`text.setSelectionRange(${at}, ${at});
      text.dispatchEvent(new Event('pointerup'))`);
    assert.deepEqual(await listed(), found);
  }
  assert.deepEqual(await page.copiesBy(`document.querySelector('.replaced button')`),
    ['Copied', `300${'字'.repeat(5000)}50${'字'.repeat(5000)}7000`]);
}

// How many ms of the page's thread a key takes in a field with so many characters: the least of
// some keys.
async function keyIn(page, id, fill, length) {
  const text = fill.repeat(length / fill.length + 1).slice(0, length), times = [];
  const busy = async () => (await page.send('Performance.getMetrics')).metrics
    .find((it) => it.name === 'TaskDuration').value * 1000;
  await page.value(`${id}.focus(); ${id}.value = ${JSON.stringify(text)}`);
  for (let i = 0; i < 5; i++) {
    const before = await busy();
    await page.insert('三');
    await page.painted();
    times.push(Math.round(await busy() - before));
  }
  await page.type(id, '');
  console.log(`a key in ${length} characters, ${id} ${fill.slice(0, 4)}: ${times.join(', ')} ms`);
  return Math.min(...times);
}

// A key takes less than a second in each field with 160,000 characters, and in a text that is just
// short enough for marks, also on a busy machine; on a quiet one it takes less than a tenth of that.
async function answersLongTexts(page) {
  const dense = '共3.5万元，占12.5%，一般三百多人，他五六十歲，', long = 160_000;
  await page.send('Performance.enable', { timeDomain: 'threadTicks' });
  for (const [id, fill, length] of [
    ['text', dense, 1_990], ['text', dense, long], ['text', '沒有數目的文字', long],
    ['numeral', '零', long], ['numeral', '一百', long], ['capitals', '壹', long],
    ['capitals', ' 　', long], ['dateCapitals', '贰零', long],
  ]) {
    const least = await keyIn(page, id, fill, length);
    assert(least < 1000, `a key in ${id} takes ${least} ms`);
  }
  await page.send('Performance.disable');
}

// A text with a million characters is read, and its position is shown.
async function readsVeryLongTexts(page) {
  await page.type('numeral', `${' '.repeat(1_000_000)}一百二`);
  assert.deepEqual((await page.answer('numeral')).rows, ['120']);
  await page.insert('x');
  assert.match((await page.answer('numeral')).said, /^Character 1000004, “x”/);
}

export const PARTS = [
  findsQuantities, findsPhrases, tellsDoubts, findsByChoices, showsLongTexts, answersLongTexts,
  readsVeryLongTexts, speaks,
];
