// How the page looks, light and dark, wide and narrow; a part of test.mjs.
import assert from 'node:assert/strict';
import { LANGUAGES } from './page.mjs';

const FILLED = {
  figures: '1,409.50', capitals: '壹佰贰元整', dateFigures: '2026/1/15',
  dateCapitals: '贰零贰陆年零贰月零叁拾日', number: '100100000', numeral: '三千兩白五十六',
  text: '共3.5万元，占12.5%，一般三百多人，他五六十歲，A4纸，剩三分之一，-5度。',
};

// How much each part of the page stands out from what lies behind it; from lines 1.5 is taken off,
// since 3 is enough for them.
const CONTRASTS = `(() => {
  const parts = (color) => color.match(/[\\d.]+/g).map(Number);
  const brightness = (color) => color.map((it) => it / 255)
    .map((it) => (it <= 0.04045 ? it / 12.92 : ((it + 0.055) / 1.055) ** 2.4))
    .reduce((sum, it, i) => sum + it * [0.2126, 0.7152, 0.0722][i], 0);
  const ground = getComputedStyle(document.body).backgroundColor;
  // A colour that lets through what lies behind it, over the ground.
  const over = ([red, green, blue, share = 1]) =>
    [red, green, blue].map((it, i) => share * it + (1 - share) * parts(ground)[i]);
  const contrast = (color, behind = ground) => {
    const [less, more] = [color, behind].map((it) => brightness(over(parts(it))))
      .sort((a, b) => a - b);
    return (more + 0.05) / (less + 0.05);
  };
  const styleOf = (it, part) => getComputedStyle(document.querySelector(it), part);
  const words = ['body', 'label', 'dt', '#numeral', '#numeralSaid', 'nav a', 'summary',
    'dd button', '#found .left small'].map((it) => [it, contrast(styleOf(it).color)]);
  const marks = ['.fault', '.doubtful', '[class=""]'].map((it) => '#found mark' + it)
    .map((it) => [it, contrast(styleOf(it + ' small').color, styleOf(it).backgroundColor)]);
  const lines = [
    ['#numeral', 'borderTopColor'], ['dd button', 'borderTopColor'],
    ['#readingNumerals mark', 'textDecorationColor'],
    ['#searching .mirror mark', 'textDecorationColor'],
    ['#searching .mirror .doubtful', 'textDecorationColor'],
    ['#found u', 'textDecorationColor'], ['#found .left', 'outlineColor'],
    ['[aria-current=true]', 'outlineColor'],
  ].map(([it, what]) => [it + ' ' + what, contrast(styleOf(it)[what]) + 1.5]);
  const hint = ['hint', contrast(styleOf('#numeral', '::placeholder').color)];
  return [ground, [...words, ...marks, ...lines, hint]];
})()`;

// Light and dark: words stand out by 4.5 to 1 at the least, and lines by 3 to 1. What stands round
// the page has its colour.
async function standsOut(page) {
  await page.type('numeral', '三千兩白五十六');
  await page.type('figures', '15');
  await page.type('text', '二十三，五六十，一般，A4');
  const grounds = new Set();
  for (const scheme of ['light', 'dark']) {
    await page.scheme(scheme);
    const [ground, contrasts] = await page.value(CONTRASTS);
    for (const [what, it] of contrasts) assert(it >= 4.5, `${scheme}, ${what}: ${it}`);
    const themes = await page.value(`Array.from(document.querySelectorAll('[name=theme-color]'))
      .filter((it) => matchMedia(it.media).matches).map((it) => it.content)`);
    const hex = ground.match(/\d+/g).map((it) => Number(it).toString(16).padStart(2, '0'));
    assert.deepEqual(themes, [`#${hex.join('')}`]);
    grounds.add(ground);
  }
  assert.equal(grounds.size, 2);
  await page.scheme();
}

// Pictures of the page with all of its fields filled, in each language.
async function poses(page) {
  for (const language of LANGUAGES) {
    await page.speak(language);
    for (const [id, it] of Object.entries(FILLED)) await page.type(id, it);
    await page.value('text.blur()');
    for (const scheme of ['light', 'dark']) {
      await page.scheme(scheme);
      for (const width of [360, 880, 1280]) {
        await page.picture(`${language}-${scheme}-${width}.png`, width);
      }
    }
  }
  await page.scheme();
  await page.unsized();
}

// At 320 and 360 pixels nothing is cut off and nothing scrolls sideways, by the longest texts too,
// light and dark, with all that is folded open.
async function fitsAPhone(page) {
  for (const [language, width] of LANGUAGES.flatMap((it) => [[it, 320], [it, 360]])) {
    await page.speak(language);
    await page.look(width, 700);
    await page.unfold();
    const filled = { ...FILLED, number: '-170141183460469231731687303715884105727',
      figures: '9999999999999999.99', text: '第二十三回，五六十，一般'.repeat(20) };
    for (const [id, it] of Object.entries(filled)) await page.type(id, it);
    for (const scheme of ['light', 'dark']) {
      await page.scheme(scheme);
      const [widths, outside] = await page.value(`(() => {
        const { scrollWidth, clientWidth } = document.documentElement;
        const all = Array.from(document.body.querySelectorAll('*:not(mark)'));
        return [[clientWidth, scrollWidth],
          all.filter((it) => it.getBoundingClientRect().right > clientWidth)
            .map((it) => it.outerHTML)];
      })()`);
      assert.deepEqual([widths, outside], [[width, width], []], language);
    }
  }
  await page.scheme();
  await page.unsized();
}

export const PARTS = [standsOut, poses, fitsAPhone];
