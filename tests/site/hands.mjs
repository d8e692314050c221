// Using the page: the caret, input methods, marks, copies, keys, and what a screen reader says; a
// part of test.mjs.
import assert from 'node:assert/strict';
import { LANGUAGES, rowsOf } from './page.mjs';

// A key in the middle of the text, right or wrong, leaves the caret behind what it typed. Enter and
// the button alone move it: to the wrong character, or before the one where something is missing.
async function leavesTheCaret(page) {
  const told = async () => [await page.value('numeral.value'), await page.caret('numeral'),
    (await page.answer('numeral')).marked];
  await page.type('numeral', '一百二');
  await page.key('ArrowLeft', 37);
  await page.insert('x');
  assert.deepEqual(await told(), ['一百x二', [3, 3], ['一百', 'x']]);
  await page.key('ArrowLeft', 37);
  await page.key('ArrowLeft', 37);
  assert.deepEqual(await page.caret('numeral'), [1, 1]);
  await page.insert('千');
  assert.deepEqual(await told(), ['一千百x二', [2, 2], ['一千百', 'x']]);
  await page.enter();
  assert.deepEqual(await page.caret('numeral'), [3, 4]);
  // What is typed now takes the place of the fault.
  await page.insert('三');
  assert.deepEqual((await told()).slice(0, 2), ['一千百三二', [4, 4]]);
  await page.type('numeral', '一百二');
  await page.enter();
  assert.deepEqual(await page.caret('numeral'), [3, 3]);
  // The button does what Enter does, as on a phone.
  for (const [id, typed, ...at] of [['capitals', '壹佰贰元整', 2, 2], ['figures', '15.005', 5, 6]]) {
    await page.type(id, typed);
    await page.value(`document.activeElement.blur(); ${id}.form.querySelector('.select').click()`);
    assert.equal(await page.value('document.activeElement.id'), id);
    assert.deepEqual(await page.caret(id), at);
  }
}

// A form reports the message of its field by itself, and is submitted only with a right text.
async function reportsRefusals(page) {
  await page.value(`window.submitted = 0;
    for (const it of document.forms) it.addEventListener('submit', () => { submitted++; });`);
  for (const [id, right, ...others] of [
    ['figures', '-15', '15.005', '15.', '10000000000000000'], ['number', '120', '1e3', '1,4'],
    ['capitals', '壹佰元整', '壹佰贰元整', '壹佰元'], ['numeral', '一百二', '二十十', '負'],
    ['dateFigures', '2026-1-15', '2026-2-30', '2026-'],
    ['dateCapitals', '伍年零壹月壹拾伍日', '伍年壹月', '伍年'],
  ]) {
    for (const typed of others) {
      const { said } = await page.ask(id, typed);
      assert.notEqual(said, '');
      assert.equal(await page.value(`${id}.validationMessage`), said);
      assert.equal(await page.value(`${id}.form.reportValidity()`), false, typed);
      await page.enter();
      assert.equal(await page.value('submitted'), 0, typed);
    }
    for (const typed of [right, '']) {
      await page.type(id, typed);
      assert.equal(await page.value(`${id}.validationMessage`), '');
      await page.enter();
      assert.equal(await page.value('submitted'), 1, typed);
      await page.value('submitted = 0');
    }
  }
}

// What has not changed is not said again.
async function saysOnce(page) {
  await page.choose('kind', 'u8');
  await page.type('numeral', '三百');
  await page.value(`window.said = 0;
    const observer = new MutationObserver(() => { said++; });
    for (const it of numeral.form.querySelectorAll('output, dl')) {
      observer.observe(it, { childList: true, characterData: true, subtree: true });
    }`);
  await page.insert('一');
  assert.deepEqual([await page.value('numeral.value'), await page.value('said')], ['三百一', 0]);
  await page.insert('x');
  assert.equal(await page.value('said'), 1);
}

// What an input method composes is not judged before it is a text, and no mark stands over letters
// that move.
async function leavesComposition(page) {
  await page.type('numeral', '一');
  await page.compose('bai');
  assert.equal(await page.value('numeral.value'), '一bai');
  assert.deepEqual((await page.answer('numeral')).rows, ['1']);
  await page.insert('百');
  assert.deepEqual((await page.answer('numeral')).rows, ['100']);
  await page.type('numeral', 'x');
  await page.compose('bai');
  assert.equal((await page.answer('numeral')).marked, null);
  await page.insert('百');
  assert.deepEqual((await page.answer('numeral')).marked, ['', 'x']);
}

// The mark's box lies where the field has the character, by the field's own text measured on a
// canvas.
async function marksTheCharacter(page) {
  for (const language of LANGUAGES) {
    await page.speak(language);
    for (const [id, front, character, end] of [
      ['numeral', '三千兩', '白', '五十六'], ['numeral', '一億', 'x', '百二'],
      ['numeral', '', '😀', '一百'], ['numeral', '零'.repeat(60), 'x', '一'],
      ['numeral', '一 　', '𠀀', ''], ['figures', '15.00', '5', ''],
      ['capitals', '人民币：壹佰', '贰', '元整'],
    ]) {
      assert.deepEqual((await page.ask(id, front + character + end)).marked, [front, character]);
      await page.painted();
      const [left, right, isInside] = await page.value(`(() => {
        const style = getComputedStyle(${id});
        const pen = document.createElement('canvas').getContext('2d');
        pen.font = style.fontSize + ' ' + style.fontFamily;
        const field = ${id}.getBoundingClientRect();
        const mark = ${id}.form.querySelector('.mirror mark').getBoundingClientRect();
        const start = field.left + parseFloat(style.paddingLeft)
          + parseFloat(style.borderLeftWidth) - ${id}.scrollLeft;
        const off = (at, text) => at - start - pen.measureText(text).width;
        return [off(mark.left, '${front}'), off(mark.right, '${front}${character}'),
          mark.left >= field.left && mark.right <= field.right
            && mark.top >= field.top && mark.bottom <= field.bottom];
      })()`);
      assert(Math.abs(left) < 1.5 && Math.abs(right) < 1.5 && isInside,
        `the mark of ${front}${character} is off by ${left} and ${right}`);
    }
  }
}

// A long text scrolls, in narrow boxes too where no font has its characters, and the mirror with
// it, also where an input method wrote its end.
async function scrolls(page) {
  const together = () => page.value(`(({ scrollLeft }) => numeral.scrollLeft > 500
    && Math.abs(scrollLeft - numeral.scrollLeft) < 1)(numeral.nextElementSibling)`);
  await page.type('numeral', `${'零'.repeat(200)}xx`);
  await page.painted();
  assert(await together());
  await page.compose('y');
  await page.insert('y');
  await page.painted();
  assert(await together());
  // A mark that comes where there was none, in a field that does not scroll.
  await page.choose('way', 'digits');
  await page.choose('kind', 'i64');
  assert.equal((await page.ask('numeral', `負${'零'.repeat(200)}`)).marked, null);
  await page.choose('kind', 'u64');
  await page.painted();
  assert(await together());
  await page.key('Home', 36);
  await page.painted();
  assert.equal(await page.value('numeral.scrollLeft + numeral.nextElementSibling.scrollLeft'), 0);
}

// A phone offers digits and a point where these are enough.
async function offersDigits(page) {
  assert.deepEqual(await page.all('[inputmode=decimal]', 'it.id'), ['figures', 'dateFigures']);
}

// A button copies the text before it, and says so.
async function copies(page) {
  for (const language of LANGUAGES) {
    const at = await page.speak(language);
    await page.type('figures', '1,409.50');
    await page.type('capitals', '壹仟肆佰零玖元伍角');
    for (const [id, copied] of [['figures', '壹仟肆佰零玖元伍角整'], ['capitals', '1409.50']]) {
      const button = `${id}.form.querySelector('dd button')`;
      assert.equal(await page.value(`${button}.textContent`), ['复制', '複製', 'Copy'][at]);
      assert.deepEqual(await page.copiesBy(button), [['已复制', '已複製', 'Copied'][at], copied]);
    }
  }
  // Without a clipboard, as where there is no https, it selects the text, which it shows for that.
  await page.value(`Object.defineProperty(navigator, 'clipboard', { value: undefined })`);
  await page.type('text', `${'字'.repeat(3000)}三百`);
  for (const [button, selected] of [['#writingAmounts dd button', '壹仟肆佰零玖元伍角整'],
    ['.replaced button', `${'字'.repeat(3000)}300`]]) {
    await page.value(`document.querySelector('${button}').click()`);
    assert.equal(await page.value('String(getSelection())'), selected);
  }
}

// What was typed is text on the page, and never markup.
async function showsTextAlone(page) {
  const markup = '<img src=x onerror="document.title=1"><b>一</b>&lt;';
  const count = () => page.value(`document.querySelectorAll('img, b').length`);
  const { marked } = await page.ask('numeral', markup);
  assert.deepEqual([marked, await count()], [[markup.slice(0, -1), ';'], 0]);
  for (const id of ['figures', 'capitals', 'dateFigures', 'dateCapitals', 'number', 'text']) {
    await page.type(id, `一${markup}百`);
    assert.equal(await count(), 0);
  }
  assert.match(await page.value('replaced.textContent'), /<b>一<\/b>/);
  assert.equal(await page.value('document.title'), 'Chinese amounts and numerals');
}

// Tab leads through all that can be changed, in the order of the page, and a frame shows where one
// is; what is folded is opened by Enter.
async function goesByKeyboard(page) {
  await page.speak('zh-Hans');
  await page.type('capitals', '壹佰贰元整');
  await page.value('document.querySelector("#languages a").focus()');
  const at = () => page.value(`((it) => [it.id || it.textContent,
    getComputedStyle(it).outlineStyle !== 'none'])(document.activeElement)`);
  const names = ['繁體', 'English', 'figures', '写法', 'capitals', '选中这个字', 'dateFigures',
    'dateCapitals', '整数类型和读写方式', 'number', 'numeral', 'text', '查找和替换'];
  for (const it of names) {
    await page.key('Tab', 9);
    assert.deepEqual(await at(), [it, true]);
  }
  await page.enter();
  for (const it of ['upper', 'about', 'oneCharacter', 'doubtful', 'expanded', 'canonical', 'compact',
    'codes']) {
    await page.key('Tab', 9);
    assert.deepEqual(await at(), [it, true]);
  }
  // A language is chosen by Enter, and the copy button pressed by it.
  await page.value('document.querySelector("#languages [lang=zh-Hant]").focus()');
  await page.enter();
  assert.equal(await page.value('location.search'), '?lang=zh-Hant');
  await page.type('figures', '15');
  await page.key('Tab', 9);
  assert.deepEqual(await page.copiesBy('document.activeElement', page.enter),
    ['已複製', '壹拾伍元整']);
}

// What a screen reader is told of an element: by the browser's own tree of what it tells.
async function toldOf(page, selector) {
  const { root } = await page.send('DOM.getDocument');
  const { nodeId } = await page.send('DOM.querySelector', { nodeId: root.nodeId, selector });
  const { nodes: [{ role, name, description, properties = [] }] } =
    await page.send('Accessibility.getPartialAXTree', { nodeId, fetchRelatives: false });
  return { role: role.value, name: name?.value, description: description?.value,
    ...Object.fromEntries(properties.map((it) => [it.name, it.value.value])) };
}

async function tellsScreenReaders(page) {
  await page.send('Accessibility.enable');
  for (const language of LANGUAGES) {
    const at = await page.speak(language);
    await page.unfold();
    await page.type('figures', '15');
    for (const [selector, wanted, ...names] of rowsOf('named')) {
      const { role, name } = await toldOf(page, selector);
      assert.deepEqual([role, name], [wanted, names[at]]);
    }
    assert.equal((await toldOf(page, '#figures')).invalid, 'false');
    assert.equal((await toldOf(page, '#writingAmounts dl')).live, 'polite');
    for (const [id, typed] of [['figures', '1.005'], ['capitals', '元'], ['dateCapitals', '日'],
      ['dateFigures', '2025-02-29'], ['numeral', '三千兩白五十六'], ['number', '1e3']]) {
      const { said } = await page.ask(id, typed);
      const { invalid, description } = await toldOf(page, `#${id}`);
      assert.deepEqual([invalid, description], ['true', said]);
      const { role, live } = await toldOf(page, `#${id}Said`);
      assert.deepEqual([role, live], ['status', 'polite']);
    }
  }
  await page.send('Accessibility.disable');
}

export const PARTS = [
  leavesTheCaret, reportsRefusals, saysOnce, leavesComposition, marksTheCharacter, scrolls,
  offersDigits, copies, showsTextAlone, goesByKeyboard, tellsScreenReaders,
];
