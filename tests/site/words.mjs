// What the page says and answers, in each of its languages; a part of test.mjs.
import assert from 'node:assert/strict';
import { LANGUAGES } from './page.mjs';
import { TEXTS } from '../../site/texts.mjs';

const FIELDS = ['figures', 'capitals', 'dateFigures', 'dateCapitals', 'number', 'numeral'];

// Each text exists in each language, with the same placeholders; the page uses no other text.
async function hasEachText(page) {
  for (const [key, texts] of Object.entries(TEXTS)) {
    assert.equal(texts.length, LANGUAGES.length, key);
    const [first, ...others] = texts.map((it) => it.match(/\{\w+\}/g)?.sort().join());
    for (const it of others) assert.equal(it, first, key);
    for (const it of texts) assert.notEqual(it.trim(), '', key);
  }
  const keys = (await page.all('*', 'it.dataset.text ?? it.dataset.placeholder')).filter(Boolean);
  assert(keys.length > 30);
  for (const it of keys) assert(it in TEXTS, it);
  const [hans, hant] = [0, 1].map((it) => Object.values(TEXTS).map((texts) => texts[it]).join(''));
  assert.doesNotMatch(hans, /[額寫轉檢數類進萬億]/);
  assert.doesNotMatch(hant, /[额写转检数类进万亿个这里没]/);
}

// The language is that of the address, else the first of the browser's that the page has.
async function speaksTheLanguage(page) {
  const titles = ['大写金额与中文数字', '大寫金額與中文數字', 'Chinese amounts and numerals'];
  for (const [browsers, address, language] of [
    ['zh-CN,zh', '', 'zh-Hans'], ['zh-SG', '', 'zh-Hans'], ['zh-TW,zh,en', '', 'zh-Hant'],
    ['zh-HK', '', 'zh-Hant'], ['en-GB', '', 'en'], ['fr,zh-TW', '', 'zh-Hant'], ['fr', '', 'en'],
    ['zh-CN', '?lang=en', 'en'], ['en', '?lang=zh-Hant', 'zh-Hant'], ['en', '?lang=zh', 'zh-Hans'],
    ['zh-CN', '?lang=', 'zh-Hans'], ['zh-TW', '?lang=de', 'zh-Hant'],
  ]) {
    await page.prefer(browsers);
    await page.open(address);
    const told = await page.value(`[document.documentElement.lang, document.title,
      document.querySelector('h1').textContent,
      document.querySelector('[name=description]').content,
      document.querySelector('#languages [aria-current=true]').lang, loading.hidden]`);
    const at = LANGUAGES.indexOf(language), title = titles[at];
    assert.deepEqual(told, [language, title, title, TEXTS.description[at], language, true],
      `${browsers} ${address}`);
  }
  await page.prefer('en');
}

// A switch changes the words in place and stays in the address; what was typed stays as it was.
async function switchesInPlace(page) {
  await page.open();
  await page.type('figures', '107000.53');
  await page.type('capitals', '壹拾伍元');
  await page.type('dateCapitals', '伍年零壹月壹拾伍日');
  const told = (name) => page.all(`#writingAmounts ${name}`);
  const amounts = ['壹拾万零柒仟元伍角叁分', '壹拾萬零柒仟元伍角參分'];
  for (const [language, copy, names, said] of [
    ['zh-Hant', '複製', ['繁體', '簡體'], '末尾缺「整」。'],
    ['zh-Hans', '复制', ['简体', '繁体'], '末尾缺“整”。'],
    ['en', 'Copy', ['Simplified', 'Traditional'], '“整” is missing at the end.'],
  ]) {
    await page.value(`document.querySelector('#languages [lang=${language}]').click()`);
    assert.deepEqual(await page.value('[location.search, figures.value]'),
      [`?lang=${language}`, '107000.53']);
    assert.equal(await page.value('document.documentElement.lang'), language);
    assert.deepEqual(await told('dt'), names);
    assert.deepEqual(await told('dd span'),
      language === 'zh-Hant' ? amounts.toReversed() : amounts);
    assert.equal((await page.answer('capitals')).said, said);
    assert.deepEqual(await page.all('dd button'), [copy, copy, copy]);
  }
  // A link with this address has its language, whatever the browser prefers.
  await page.prefer('zh-TW');
  await page.open(await page.value('location.search'));
  assert.equal(await page.value('document.documentElement.lang'), 'en');
  await page.prefer('en');
}

// What is answered, in the order of the scripts of the page's language.
const answers = (page) => page.eachRow('answered', async (at, id, typed, ...texts) => {
  const rows = LANGUAGES[at] === 'zh-Hant' ? texts.toReversed() : texts;
  const note = /^[-负]/.test(texts[0]) && ['figures', 'capitals'].includes(id);
  await page.gives(id, typed, { rows, said: note ? TEXTS.belowZero[at] : '' });
});

// Why a text is refused; the character that the message names is marked. Enter selects it, or moves
// the caret before it if something is missing there.
const refuses = (page) => page.eachRow('refused', async (at, id, row, ...texts) => {
  const [prefix, character, suffix] = row.split(/[[\]]/), said = texts[at];
  const typed = prefix + character + suffix;
  await page.gives(id, typed, { said, isFault: true, marked: [prefix, character] });
  await page.enter();
  const selected = /缺|missing/.test(said) ? 0 : character.length;
  assert.deepEqual(await page.caret(id), [prefix.length, prefix.length + selected], row);
});

// An unfinished text is not a fault, and the page says what may follow it.
async function leavesTheUnfinished(page) {
  await page.eachRow('unfinished', (at, id, typed, ...texts) =>
    page.gives(id, typed, { said: texts[at] }));
  for (const language of LANGUAGES) {
    await page.speak(language);
    for (const id of FIELDS) {
      for (const it of ['', ' ', '　']) await page.gives(id, it);
    }
  }
}

// No beginning of a printed text is a fault.
async function leavesBeginnings(page) {
  for (const [from, typed, to, read] of [
    ['number', '-170141183460469231731687303715884105727', 'numeral'],
    ['number', '-1409.05', 'numeral'], ['number', '12.5%', 'numeral'],
    ['figures', '9876543210987654.32', 'capitals'], ['figures', '107000.05', 'capitals'],
    ['figures', '-15', 'capitals', '-15.00'], ['dateFigures', '2026-10-20', 'dateCapitals'],
  ]) {
    for (const text of (await page.ask(from, typed)).rows) {
      const faults = await page.value(`Array.from('${text}', (_, at) => {
        ${to}.value = '${text}'.slice(0, at + 1);
        ${to}.dispatchEvent(new InputEvent('input'));
        return ${to}.ariaInvalid === 'true' ? ${to}.value : null;
      }).filter(Boolean)`);
      assert.deepEqual(faults, []);
      assert.deepEqual((await page.answer(to)).rows, [read ?? typed]);
    }
  }
}

// Why what has no character at fault is refused.
const saysWhy = (page) => page.eachRow('without a place', async (at, id, typed, ...texts) => {
  await page.gives(id, typed, { said: texts[at], isFault: true });
  assert(await page.value(`${id}.form.querySelector('.select').hidden`));
});

// An integer type and a way can be chosen; by default any type and any way will do.
async function goesByChoices(page) {
  assert.deepEqual(await page.value('[kind.value, way.value, choosing.open]'), ['', 'any', false]);
  assert.deepEqual((await page.ask('number', '100100000')).rows,
    ['一亿零一十万', '一億零一十萬', '壹亿零壹拾万', '壹億零壹拾萬']);
  assert.deepEqual((await page.ask('number', '−１，０００．５０')).rows.slice(0, 2),
    ['负一千点五', '負一千點五']);
  for (const [kind, way, id, typed, rows, said] of [
    ['u8', 'any', 'numeral', '三百', [], 'The number is too large.'],
    ['i8', 'any', 'numeral', '負一百二十九', [], 'The number is too small.'],
    ['i16', 'any', 'numeral', '負一百二十九', ['-129'], ''],
    ['u64', 'any', 'numeral', '一二〇', ['120'], ''],
    ['u64', 'any', 'number', '-1', [], 'The type cannot hold the number.'],
    ['u64', 'any', 'number', '1.5', [], 'This choice writes only whole numbers.'],
    ['', 'low', 'number', '10000000000000000', [], 'The number is too large.'],
    ['', 'low', 'numeral', '一兆', ['1000000'], ''],
    ['', 'high', 'numeral', '一兆', ['10000000000000000'], ''],
    ['', 'digits', 'numeral', '一二〇', ['120'], ''],
    ['', 'digits', 'number', '120', ['一二零', '一二零', '壹贰零', '壹貳零'], ''],
    ['', 'middle', 'number', '1000100000000',
      ['一万零一亿', '一萬零一億', '壹万零壹亿', '壹萬零壹億'], ''],
    ['', 'any', 'number', '1000100000000',
      ['一万零一亿', '一兆零一億', '壹万零壹亿', '壹兆零壹億'], ''],
    ['i64', 'any', 'number', '1000000000000', ['一万亿', '一兆', '壹万亿', '壹兆'], ''],
    ['u128', 'any', 'numeral', '三百四十澗', [`340${'0'.repeat(36)}`], ''],
  ]) {
    await page.choose('kind', kind);
    await page.choose('way', way);
    await page.gives(id, typed, { rows, said, isFault: said !== '' });
  }
  // A type chosen anew judges anew.
  await page.choose('way', 'any');
  await page.choose('kind', 'u64');
  assert.deepEqual((await page.ask('numeral', '負一')).marked, ['', '負']);
  await page.choose('kind', 'i16');
  assert.deepEqual((await page.answer('numeral')).rows, ['-1']);
}

// The form of an amount can be chosen.
async function writesForms(page) {
  for (const [id, typed, ...rows] of [
    ['currency', '15', '人民币壹拾伍元整', '人民幣壹拾伍元整'],
    ['roundYuan', '15', '壹拾伍圆整', '壹拾伍圓整'],
    ['uprightClosing', '15', '壹拾伍元正', '壹拾伍元正'],
    ['bracketedSign', '-15', '（负数）壹拾伍元整', '（負數）壹拾伍元整'],
  ]) {
    await page.type('figures', typed);
    await page.check(id, true);
    assert.deepEqual((await page.answer('figures')).rows, rows);
    await page.check(id, false);
  }
}

export const PARTS = [
  hasEachText, speaksTheLanguage, switchesInPlace, answers, refuses, leavesTheUnfinished,
  leavesBeginnings, saysWhy, goesByChoices, writesForms,
];
