// node test.mjs BITS CHROMIUM OUT [FLAG..]: types into the page in a headless Chromium, in each of
// its languages, and leaves pictures of it in OUT. BITS are those of the module's memory.
import assert from 'node:assert/strict';
import { readFile } from 'node:fs/promises';
import { openTab, serve, start } from './browser.mjs';
import { openPage } from './page.mjs';
import { PARTS as HANDS } from './hands.mjs';
import { PARTS as LOOKS } from './looks.mjs';
import { PARTS as TEXT } from './text.mjs';
import { PARTS as WORDS } from './words.mjs';

const [bits, program, out, ...flags] = process.argv.slice(2);
const MEMORY_64 = `WebAssembly.validate(
  Uint8Array.of(0, 0x61, 0x73, 0x6d, 1, 0, 0, 0, 5, 3, 1, 4, 1))`;
const POLICY = "default-src 'none'; script-src 'self' 'wasm-unsafe-eval'; style-src 'self'; "
  + "connect-src 'self'; img-src data:; form-action 'none'; base-uri 'none'; "
  + "require-trusted-types-for 'script'";

const site = await serve(bits);
const browser = await start(program, flags);

// Whether the browser has what the module needs, that is 64-bit memories, and then no page has to
// open without them.
async function runsTheModule() {
  const tab = await openTab(browser, 720, 760);
  await tab.send('Page.navigate', { url: `${site.url}index.css` });
  const runs = await tab.value(`fetch('../bindings/web/files/chinese-number.64.wasm')
    .then((it) => it.arrayBuffer()).then((it) => WebAssembly.validate(it))`);
  await tab.close();
  site.asked.splice(0);
  return runs;
}

// How long the page takes to open, each time with an empty cache of its own. Gives the last page.
async function opens() {
  const times = [];
  let page;
  for (let i = 0; i < 5; i++) {
    await page?.close();
    page = await openPage(browser, site.url, out);
    times.push(Math.round(await page.open()));
  }
  const asked = site.asked.splice(0);
  assert.equal(asked.length % 5, 0, 'a cache was not empty');
  const files = asked.slice(0, asked.length / 5), names = files.map((it) => it.name);
  const chosen = await page.value(MEMORY_64) ? 64 : 32;
  assert.deepEqual(names.filter((it) => it.endsWith('.wasm')),
    [`bindings/web/files/chinese-number.${chosen}.wasm`]);
  const bytes = files.reduce((sum, it) => sum + it.bytes, 0);
  console.log(`opens after ${times.join(', ')} ms with an empty cache; ${files.length} files, `
    + `${bytes} bytes`);
  assert(Math.min(...times) < 5000, 'the page takes five seconds to open, also on a busy machine');
  return page;
}

async function isStrict() {
  const html = await readFile(new URL('../../site/index.html', import.meta.url), 'utf8');
  const policy = html.match(/Content-Security-Policy" content="([^"]*)"/)[1];
  assert.equal(policy.replace(/\s+/g, ' '), POLICY);
}

// What is typed before the library has loaded is judged after it has.
async function judgesWhatCameEarly() {
  let goOn;
  const gate = new Promise((done) => {
    goOn = done;
  });
  const slow = await serve(bits, async (name, bytes) => {
    if (name.endsWith('.wasm')) await gate;
    return bytes;
  });
  const page = await openPage(browser, slow.url, out), { until, value } = page;
  await page.send('Page.navigate', { url: slow.url });
  await until(`document.title === 'Chinese amounts and numerals'`);
  await page.type('numeral', '一百x');
  await page.type('number', '120');
  assert.deepEqual((await page.answer('number')).rows, []);
  assert.deepEqual(await value('[loading.hidden, loading.textContent]'), [false, 'Loading…']);
  goOn();
  await until('loading.hidden');
  assert.deepEqual((await page.answer('numeral')).marked, ['一百', 'x']);
  assert.equal((await page.answer('number')).rows[0], '一百二十');
  assert.equal(await value('document.activeElement.id'), 'number');
  assert.deepEqual([await page.caret('number'), await page.caret('numeral')], [[3, 3], [3, 3]]);
  await page.close();
  slow.close();
}

// A page whose policy has no 'wasm-unsafe-eval', or that does not have the module, says that the
// library did not load.
async function saysWhatIsMissing() {
  const without = (name, bytes) => (name.endsWith('.html')
    ? Buffer.from(String(bytes).replace(" 'wasm-unsafe-eval'", '')) : bytes);
  const missing = (name, bytes) => {
    if (name.endsWith('.wasm')) throw new Error('missing');
    return bytes;
  };
  for (const [changed, words] of [[without, /^The library did not load: .*unsafe-eval/],
    [missing, /^The library did not load: .*\.wasm: 404/]]) {
    const other = await serve(bits, changed);
    const page = await openPage(browser, other.url, out);
    await page.open();
    assert.match(await page.value('loading.textContent'), words);
    await page.close();
    other.close();
  }
}

async function test() {
  const { product, jsVersion } = await browser.send('Browser.getVersion');
  console.log(`${product}, V8 ${jsVersion}`);
  if (!await runsTheModule()) {
    console.log('this browser has no 64-bit memories');
    return;
  }
  await isStrict();
  const page = await opens();
  const permissions = ['clipboardReadWrite', 'clipboardSanitizedWrite'];
  await browser.send('Browser.grantPermissions', { permissions, browserContextId: page.context });
  // Each part begins with the page as it opens in English.
  for (const it of [...WORDS, ...HANDS, ...TEXT, ...LOOKS]) {
    await page.speak('en');
    await it(page);
    assert.deepEqual(page.problems, [], it.name);
  }
  await page.close();
  await judgesWhatCameEarly();
  await saysWhatIsMissing();
  console.log('page: as expected');
}

try {
  await test();
} finally {
  await browser.close();
  site.close();
}
