// The page in a headless Chromium for test.mjs: opens it, types into it and looks at it.
import assert from 'node:assert/strict';
import { readFile, writeFile } from 'node:fs/promises';
import { join } from 'node:path';
import { openTab } from './browser.mjs';

export const LANGUAGES = ['zh-Hans', 'zh-Hant', 'en'];

const ROWS = (await readFile(new URL('page.tsv', import.meta.url), 'utf8')).split('\n')
  .filter((it) => it && !it.startsWith('# ')).map((it) => it.split('\t'));

/** The rows that begin with a word, without it. */
export const rowsOf = (what) => ROWS.filter((it) => it[0] === what).map((it) => it.slice(1));

// Waits until something holds, and gives the time.
const untilIn = (holds) => `new Promise((done, fail) => {
  const start = performance.now();
  const look = () => {
    if (${holds}) done(performance.now());
    else if (performance.now() - start > 20_000) fail(new Error(${JSON.stringify(`no ${holds}`)}));
    else setTimeout(look, 5);
  };
  look();
})`;
// The page has loaded, or says that it did not.
const LOADED = `((it) => it?.hidden || it?.textContent.includes(':'))(
  document.getElementById('loading'))`;

// What is below a field: the rows, the message, whether it is a fault, and what is marked.
const answerIn = (field) => `((form, mark) => ({
  rows: Array.from(form.querySelectorAll('dd span'), (it) => it.textContent),
  said: form.querySelector('output').textContent,
  isFault: ${field}.ariaInvalid === 'true',
  marked: mark && [mark.previousSibling.data, mark.textContent],
}))(${field}.form, ${field}.form.querySelector('.mirror mark'))`;
const NOTHING = { rows: [], said: '', isFault: false, marked: null };

/** What a user does: types, chooses and presses keys. */
function handsOf({ send, value, key }) {
  const insert = (text) => send('Input.insertText', { text });
  async function type(id, text) {
    await value(`${id}.focus(); ${id}.select()`);
    await (text ? insert(text) : key('Backspace', 8));
  }
  const change = (id, what) =>
    value(`${id}.${what}; ${id}.dispatchEvent(new Event('change', { bubbles: true }))`);
  return {
    insert,
    type,
    compose: (text) => send('Input.imeSetComposition',
      { text, selectionStart: text.length, selectionEnd: text.length }),
    choose: (id, it) => change(id, `value = '${it}'`),
    check: (id, isOn) => change(id, `checked = ${isOn}`),
    enter: () => key('Enter', 13, { text: '\r' }),
    unfold: () => value(`for (const it of document.querySelectorAll('details')) it.open = true`),
  };
}

/** What a user sees: the answers, and the page in a size and a scheme; pictures go to a folder. */
function eyesOf({ send, value }, pictures) {
  const painted = () =>
    value('new Promise((done) => requestAnimationFrame(() => requestAnimationFrame(done)))');
  const look = (width, height) => send('Emulation.setDeviceMetricsOverride',
    { width, height, deviceScaleFactor: 1, mobile: width < 480 });
  async function picture(name, width) {
    await look(width, 400);
    await look(width, await value('document.documentElement.scrollHeight'));
    await painted();
    const { data } = await send('Page.captureScreenshot', { format: 'png' });
    await writeFile(join(pictures, name), Buffer.from(data, 'base64'));
  }
  return {
    painted,
    look,
    picture,
    answer: (id) => value(answerIn(id)),
    all: (selector, what = 'it.textContent') =>
      value(`Array.from(document.querySelectorAll('${selector}'), (it) => ${what})`),
    caret: (id) => value(`[${id}.selectionStart, ${id}.selectionEnd]`),
    scheme: (it = '') => send('Emulation.setEmulatedMedia',
      { features: [{ name: 'prefers-color-scheme', value: it }] }),
    unsized: () => send('Emulation.clearDeviceMetricsOverride'),
  };
}

/** A tab for the page at an address, in a browser that prefers some languages. */
export async function openPage(browser, url, pictures, languages = 'en') {
  const tab = await openTab(browser, 720, 760);
  const hands = handsOf(tab), eyes = eyesOf(tab, pictures);
  const { userAgent } = await browser.send('Browser.getVersion');
  const prefer = (acceptLanguage) =>
    tab.send('Emulation.setUserAgentOverride', { userAgent, acceptLanguage });
  await prefer(languages);

  const until = (holds) => tab.value(untilIn(holds));
  async function open(more = '') {
    await tab.send('Page.navigate', { url: url + more });
    return until(LOADED);
  }
  async function speak(language) {
    await open(`?lang=${language}`);
    return LANGUAGES.indexOf(language);
  }
  async function ask(id, text) {
    await hands.type(id, text);
    return eyes.answer(id);
  }
  async function gives(id, text, wanted) {
    assert.deepEqual(await ask(id, text), { ...NOTHING, ...wanted }, text);
  }
  // Presses a button that copies; gives its first new label and what the clipboard then has. The
  // label comes after the copy and goes back after a while, so labels are kept from before.
  async function copiesBy(button, press = () => tab.value(`${button}.click()`)) {
    await tab.value(`window.labels = [];
      new MutationObserver(([{ target }]) => labels.push(target.textContent))
        .observe(${button}, { childList: true })`);
    await press();
    await until('labels.length');
    return tab.value('navigator.clipboard.readText().then((it) => [labels[0], it])');
  }
  // Looks at each row of page.tsv that begins with a word, in each language.
  async function eachRow(what, look) {
    for (const language of LANGUAGES) {
      const at = await speak(language);
      for (const row of rowsOf(what)) await look(at, ...row);
    }
  }
  return { ...tab, ...hands, ...eyes, prefer, until, open, speak, ask, gives, copiesBy,
    eachRow };
}
