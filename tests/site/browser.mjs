// The page served over HTTP, and a headless Chromium that is driven over its debugging pipe, for
// test.mjs.
import { spawn } from 'node:child_process';
import { mkdtemp, readFile, rm } from 'node:fs/promises';
import { createServer } from 'node:http';
import { tmpdir } from 'node:os';
import { extname, join } from 'node:path';
import { fileURLToPath } from 'node:url';

const TOP = fileURLToPath(new URL('../..', import.meta.url));
const SERVED = /^(site|bindings\/web\/files)\/[\w.-]+$/;
const KINDS = {
  '.html': 'text/html', '.css': 'text/css', '.mjs': 'text/javascript', '.wasm': 'application/wasm',
};

/**
 * Serves the page, with one module, whichever it asks for. `changed` may return other bytes for a
 * file, or wait.
 */
export async function serve(bits, changed = (name, bytes) => bytes) {
  const asked = [];
  const server = createServer(async (request, response) => {
    const { pathname } = new URL(request.url, 'http://localhost');
    const name = pathname.slice(1).replace(/\/$/, '/index.html');
    try {
      if (!SERVED.test(name)) throw new Error('no such file');
      const path = join(TOP, name.replace(/\d+(?=\.wasm$)/, bits));
      const bytes = await changed(name, await readFile(path));
      const type = KINDS[extname(name)] ?? 'application/octet-stream';
      response.writeHead(200, { 'content-type': type }).end(bytes);
      asked.push({ name, bytes: bytes.length });
    } catch {
      response.writeHead(404).end();
    }
  });
  await new Promise((done) => server.listen(0, '127.0.0.1', done));
  const url = `http://127.0.0.1:${server.address().port}/site/`;
  return { url, asked, close: () => server.close() };
}

/** Starts a Chromium with an empty profile. */
export async function start(program, flags = []) {
  const profile = await mkdtemp(join(tmpdir(), 'page-test-'));
  const sandbox = process.getuid() === 0 ? ['--no-sandbox'] : [];
  const words = ['--headless', ...sandbox, '--disable-gpu', '--remote-debugging-pipe',
    `--user-data-dir=${profile}`, ...flags];
  const child = spawn(program, words, { stdio: ['ignore', 'ignore', 'ignore', 'pipe', 'pipe'] });
  const ended = new Promise((done) => child.once('exit', done).once('error', done));
  const waiting = new Map(), listeners = [];
  let last = 0, kept = '';
  child.stdio[4].setEncoding('utf8').on('data', (more) => {
    const parts = (kept + more).split('\0');
    kept = parts.pop();
    for (const it of parts.map((part) => JSON.parse(part))) {
      if (it.id) waiting.get(it.id)(it);
      else listeners.forEach((listen) => listen(it));
    }
  });
  async function send(method, params = {}, sessionId) {
    const id = ++last;
    const answer = new Promise((done) => waiting.set(id, done));
    child.stdio[3].write(`${JSON.stringify({ id, method, params, sessionId })}\0`);
    const gone = ended.then(() => ({ error: { message: 'the browser has ended' } }));
    const { error, result } = await Promise.race([answer, gone]);
    if (error) throw new Error(`${method}: ${error.message}`);
    return result;
  }
  async function close() {
    child.kill();
    await ended;
    await rm(profile, { recursive: true, force: true, maxRetries: 5 });
  }
  return { send, close, listen: (listener) => listeners.push(listener) };
}

const textOf = ({ exception, text }) => exception?.description ?? text;

/** A tab with its own cache. */
export async function openTab(browser, width, height) {
  const { browserContextId } = await browser.send('Target.createBrowserContext');
  const { targetId } = await browser.send('Target.createTarget',
    { url: 'about:blank', browserContextId, width, height });
  const { sessionId } = await browser.send('Target.attachToTarget', { targetId, flatten: true });
  const send = (method, params) => browser.send(method, params, sessionId);
  const problems = [];
  browser.listen(({ method, params, sessionId: of }) => {
    if (of !== sessionId) return;
    if (method === 'Runtime.exceptionThrown') problems.push(textOf(params.exceptionDetails));
    if (method === 'Log.entryAdded' && params.entry.level === 'error') {
      problems.push(params.entry.text);
    }
  });
  for (const it of ['Runtime', 'Log', 'Page']) await send(`${it}.enable`);

  async function value(expression) {
    const { result, exceptionDetails } = await send('Runtime.evaluate',
      { expression, awaitPromise: true, returnByValue: true });
    if (exceptionDetails) throw new Error(textOf(exceptionDetails));
    return result.value;
  }
  async function key(name, code, more = {}) {
    const pressed = { key: name, code: name, windowsVirtualKeyCode: code };
    await send('Input.dispatchKeyEvent', { type: 'keyDown', ...pressed, ...more });
    await send('Input.dispatchKeyEvent', { type: 'keyUp', ...pressed });
  }
  const close = () => browser.send('Target.disposeBrowserContext', { browserContextId });
  return { send, value, key, problems, close, context: browserContextId };
}
