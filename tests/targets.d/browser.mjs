// A headless Chromium driven over its debugging pipe (file descriptors 3 and 4; messages in JSON, each ended by a zero byte).
import { spawn } from 'node:child_process';
import fs from 'node:fs';
import os from 'node:os';
import path from 'node:path';

const PATIENCE = 60000;

export class Browser {
  constructor(command) {
    this.folder = fs.mkdtempSync(path.join(os.tmpdir(), 'layout-page-'));
    const words = ['--headless=new', '--disable-gpu', '--no-first-run', '--remote-debugging-pipe', `--user-data-dir=${this.folder}`];
    // Chromium keeps no sandbox for root
    if (process.getuid?.() === 0) words.push('--no-sandbox');
    this.child = spawn(command, [...words, 'about:blank'], { stdio: ['ignore', 'ignore', 'pipe', 'pipe', 'pipe'] });
    this.waiting = new Map();
    this.listeners = [];
    this.next = 1;
    this.said = '';
    this.child.stderr.on('data', (bytes) => (this.said = (this.said + bytes).slice(-2000)));
    this.child.on('exit', () => this.fail(`Chromium ended: ${this.said}`));
    this.child.on('error', (error) => this.fail(String(error)));
    this.child.stdio[3].on('error', () => {}); // the exit says it
    let rest = '';
    this.child.stdio[4].setEncoding('utf8').on('data', (text) => {
      const messages = (rest + text).split('\0');
      rest = messages.pop();
      messages.forEach((message) => this.receive(JSON.parse(message)));
    });
  }

  fail(words) {
    for (const { refuse } of this.waiting.values()) refuse(new Error(words));
    this.waiting.clear();
  }

  receive({ id, result, error, method, params }) {
    if (id === undefined) return this.listeners.forEach((listener) => listener(method, params));
    const { answer, refuse } = this.waiting.get(id);
    this.waiting.delete(id);
    if (error) refuse(new Error(error.message));
    else answer(result);
  }

  send(method, params = {}) {
    const id = this.next++;
    const late = setTimeout(() => this.fail(`Chromium does not answer ${method}: ${this.said}`), PATIENCE);
    return new Promise((answer, refuse) => {
      this.waiting.set(id, { answer, refuse });
      this.child.stdio[3].write(JSON.stringify({ id, method, params, sessionId: this.session }) + '\0');
    }).finally(() => clearTimeout(late));
  }

  /** Opens a page; what it loads and what it says in the console is kept in requests and messages. */
  async open(url) {
    this.requests = [];
    this.messages = [];
    this.listeners.push((method, params) => {
      if (method === 'Network.requestWillBeSent') this.requests.push(params.request.url);
      if (method === 'Runtime.exceptionThrown') this.messages.push(JSON.stringify(params.exceptionDetails));
      if (method === 'Log.entryAdded') this.messages.push(params.entry.text);
      if (method === 'Page.javascriptDialogOpening') this.messages.push(`a dialog: ${params.message}`);
    });
    const { targetId } = await this.send('Target.createTarget', { url: 'about:blank' });
    this.session = (await this.send('Target.attachToTarget', { targetId, flatten: true })).sessionId;
    for (const domain of ['Page', 'Runtime', 'Network', 'Log']) await this.send(`${domain}.enable`);
    await this.send('Page.navigate', { url });
  }

  /** The value of an expression in the page. */
  async value(expression) {
    const { result, exceptionDetails } = await this.send('Runtime.evaluate', { expression, returnByValue: true, awaitPromise: true });
    if (exceptionDetails) throw new Error(`${expression}: ${exceptionDetails.exception?.description}`);
    return result.value;
  }

  /** Waits until an expression holds. */
  async until(expression) {
    for (let left = PATIENCE; left > 0; left -= 50) {
      if (await this.value(expression).catch(() => false)) return;
      await new Promise((done) => setTimeout(done, 50));
    }
    throw new Error(`it never came to ${expression}: ${this.messages.join('; ')}`);
  }

  /** Takes what a field holds away and types a text, as a keyboard does: the page is told by its own events. */
  async type(id, text) {
    await this.value(`(() => { const field = document.getElementById(${JSON.stringify(id)}); field.focus(); field.select(); })()`);
    await this.key('Delete');
    await this.send('Input.insertText', { text });
  }

  async key(key) {
    const code = { Delete: 46, Tab: 9, ArrowUp: 38, ArrowDown: 40 }[key];
    for (const type of ['rawKeyDown', 'keyUp']) {
      await this.send('Input.dispatchKeyEvent', { type, key, code: key, windowsVirtualKeyCode: code });
    }
  }

  async resize(width, height) {
    await this.send('Emulation.setDeviceMetricsOverride', { width, height, deviceScaleFactor: 1, mobile: false });
    await this.value('new Promise((done) => requestAnimationFrame(() => requestAnimationFrame(() => done(true))))');
  }

  /** The whole page as a picture. */
  async screenshot(file) {
    const { data } = await this.send('Page.captureScreenshot', { format: 'png', captureBeyondViewport: true });
    fs.writeFileSync(file, Buffer.from(data, 'base64'));
  }

  async print(file) {
    const { data } = await this.send('Page.printToPDF', { printBackground: false, paperWidth: 8.27, paperHeight: 11.69 });
    fs.writeFileSync(file, Buffer.from(data, 'base64'));
  }

  async close() {
    const ended = new Promise((done) => this.child.once('exit', done));
    await this.send('Browser.close').catch(() => this.child.kill());
    await ended;
    fs.rmSync(this.folder, { recursive: true, force: true });
  }
}
