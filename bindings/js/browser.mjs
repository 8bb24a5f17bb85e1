/** A headless Chromium that is driven over a pipe, and a file server for it: no port of the browser, and no package. */
import { spawn } from 'node:child_process';
import { createServer } from 'node:http';
import { mkdtemp, readFile, rm } from 'node:fs/promises';
import { tmpdir } from 'node:os';
import { extname, join, normalize } from 'node:path';

const TYPES = { '.html': 'text/html', '.css': 'text/css', '.mjs': 'text/javascript', '.wasm': 'application/wasm', '.json': 'application/json' };
/** How long something may take to come, in milliseconds. */
const LONGEST = 20000;

/** Serves a folder at a port of its own: where, and how it ends. */
export async function serve(folder) {
  const server = createServer(async (request, response) => {
    const path = normalize(decodeURIComponent(new URL(request.url, 'http://localhost').pathname));
    try {
      const data = await readFile(join(folder, path));
      response.writeHead(200, { 'content-type': TYPES[extname(path)] ?? 'application/octet-stream' });
      response.end(data);
    } catch {
      response.writeHead(404);
      response.end();
    }
  });
  await new Promise(done => server.listen(0, '127.0.0.1', done));
  return { url: `http://127.0.0.1:${server.address().port}`, close: () => server.close() };
}

/** A browser with one page. */
export async function browser(flags = []) {
  const home = await mkdtemp(join(tmpdir(), 'chromium-'));
  const words = ['--headless=new', '--no-sandbox', '--disable-gpu', '--remote-debugging-pipe', `--user-data-dir=${home}`, '--window-size=1200,900'];
  const child = spawn(process.env.CHROMIUM ?? 'chromium', [...words, ...flags, 'about:blank'], { stdio: ['ignore', 'ignore', 'ignore', 'pipe', 'pipe'] });
  const ended = new Promise(done => child.on('exit', done));
  const waiting = new Map();
  const logs = [];
  let last = 0;
  let text = '';
  child.stdio[4].on('data', data => {
    const parts = (text + data).split('\0');
    text = parts.pop();
    parts.map(part => JSON.parse(part)).forEach(heard);
  });

  /** Takes an answer, or notes what the page reports. */
  function heard({ id, result, error, method, params }) {
    if (id) {
      const { done, failed } = waiting.get(id);
      waiting.delete(id);
      if (error) failed(new Error(error.message));
      else done(result);
    } else if (method === 'Runtime.exceptionThrown') {
      logs.push(params.exceptionDetails.exception?.description ?? params.exceptionDetails.text);
    } else if (method === 'Log.entryAdded' || method === 'Runtime.consoleAPICalled') {
      logs.push(params.entry?.text ?? params.args.map(it => it.value ?? it.description).join(' '));
    }
  }

  const send = (method, params = {}, sessionId = undefined) =>
    new Promise((done, failed) => {
      waiting.set(++last, { done, failed });
      child.stdio[3].write(`${JSON.stringify({ id: last, method, params, sessionId })}\0`);
    });
  const { targetInfos } = await send('Target.getTargets');
  const { sessionId } = await send('Target.attachToTarget', { targetId: targetInfos.find(it => it.type === 'page').targetId, flatten: true });
  const call = (method, params) => send(method, params, sessionId);
  for (const domain of ['Page', 'Runtime', 'DOM', 'Log', 'Accessibility']) await call(`${domain}.enable`);

  const page = {
    call,
    logs,
    /** What an expression gives in the page. */
    async run(expression) {
      const { result, exceptionDetails } = await call('Runtime.evaluate', { expression, awaitPromise: true, returnByValue: true });
      if (exceptionDetails) throw new Error(exceptionDetails.exception?.description ?? exceptionDetails.text);
      return result.value;
    },
    /** Waits until an expression holds in the page. */
    async until(expression) {
      for (const end = Date.now() + LONGEST; Date.now() < end; ) {
        if (await page.run(expression)) return;
        await new Promise(done => setTimeout(done, 20));
      }
      throw new Error(`it never came: ${expression}`);
    },
    async open(url) {
      await call('Page.navigate', { url });
      await page.until(`location.href === ${JSON.stringify(url)} && document.readyState === 'complete'`);
    },
    /** Chooses files in a control. */
    async choose(selector, ...files) {
      const { root } = await call('DOM.getDocument');
      const { nodeId } = await call('DOM.querySelector', { nodeId: root.nodeId, selector });
      await call('DOM.setFileInputFiles', { nodeId, files });
    },
    /** Presses a key. */
    async press(key, code = key, text = undefined) {
      await call('Input.dispatchKeyEvent', { type: 'keyDown', key, code, text, windowsVirtualKeyCode: { Tab: 9, Enter: 13, ' ': 32 }[key] });
      await call('Input.dispatchKeyEvent', { type: 'keyUp', key, code });
    },
    async picture() {
      return Buffer.from((await call('Page.captureScreenshot', { format: 'png' })).data, 'base64');
    },
    async close() {
      await send('Browser.close').catch(() => {});
      await ended;
      await rm(home, { recursive: true, force: true, maxRetries: 5 });
    },
  };
  return page;
}
