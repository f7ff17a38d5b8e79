'use strict';
/* A Chromium without a window, by the protocol of its developer tools over two pipes: it needs no network. And a person who
 * uses the page in it by mouse and keys, and says what is shown. */
const { spawn } = require('node:child_process');
const fs = require('node:fs');
const os = require('node:os');
const path = require('node:path');

const PAGE = path.join(__dirname, '../out/web/index.html');
const SHIFT = 8;
const CONTROL = 2;

class Browser {
  #last = 0;
  #waiting = new Map();
  #session;

  constructor(program) {
    this.folder = fs.mkdtempSync(path.join(os.tmpdir(), 'displaymap-'));
    const words = [
      '--headless', '--no-sandbox', '--disable-gpu', '--disable-dev-shm-usage', '--hide-scrollbars', '--window-size=1100,800',
      '--remote-debugging-pipe', `--user-data-dir=${this.folder}`,
    ];
    process.once('exit', () => fs.rmSync(this.folder, { recursive: true, force: true, maxRetries: 9 }));
    this.process = spawn(program, words, { stdio: ['ignore', 'ignore', 'ignore', 'pipe', 'pipe'] });
    this.process.on('error', why => this.#fail(`${program}: ${why.message}`));
    this.process.on('exit', () => this.#fail('the browser ended'));
    let text = '';
    this.process.stdio[4].setEncoding('utf8').on('data', more => {
      const messages = (text + more).split('\0');
      text = messages.pop();
      for (const it of messages) this.#take(JSON.parse(it));
    });
  }

  #fail(why) {
    for (const it of this.#waiting.values()) it.reject(new Error(why));
    this.#waiting.clear();
  }

  #take({ id, error, result }) {
    const waiting = this.#waiting.get(id);
    if (!waiting) return; // an event
    this.#waiting.delete(id);
    if (error) waiting.reject(new Error(`${waiting.method}: ${error.message}`));
    else waiting.resolve(result);
  }

  send(method, params = {}) {
    const id = ++this.#last;
    this.process.stdio[3].write(`${JSON.stringify({ id, method, params, sessionId: this.#session })}\0`);
    return new Promise((resolve, reject) => this.#waiting.set(id, { method, resolve, reject }));
  }

  async open(url) {
    const { targetId } = await this.send('Target.createTarget', { url });
    this.#session = (await this.send('Target.attachToTarget', { targetId, flatten: true })).sessionId;
    await this.until(`location.href !== 'about:blank' && document.readyState === 'complete'`);
  }

  /** The value of an expression in the page. */
  async value(expression) {
    const asked = { expression, returnByValue: true, awaitPromise: true };
    const { result, exceptionDetails: why } = await this.send('Runtime.evaluate', asked);
    if (why) throw new Error(`${expression}: ${why.exception?.description ?? why.text}`);
    return result.value;
  }

  async until(expression) {
    while (!await this.value(expression)) await new Promise(resolve => setTimeout(resolve, 20));
  }

  /** A picture of the page, as bytes of PNG. */
  async picture() {
    return Buffer.from((await this.send('Page.captureScreenshot')).data, 'base64');
  }

  async close() {
    const ended = new Promise(resolve => this.process.on('exit', resolve));
    await this.send('Browser.close').catch(() => this.process.kill());
    await ended;
  }
}

const CODES = {
  Backspace: 8, Tab: 9, Enter: 13, PageUp: 33, PageDown: 34, End: 35, Home: 36, ArrowLeft: 37, ArrowUp: 38, ArrowRight: 39,
  ArrowDown: 40, Delete: 46,
};

class Person {
  constructor(browser) {
    this.browser = browser;
  }

  async press(key, modifiers = 0, commands = []) {
    const text = key === 'Enter' ? '\r' : key.length === 1 && !(modifiers & CONTROL) ? key : undefined;
    const event = { key, text, modifiers, commands, windowsVirtualKeyCode: CODES[key] ?? key.toUpperCase().charCodeAt(0) };
    await this.browser.send('Input.dispatchKeyEvent', { type: 'keyDown', ...event });
    await this.browser.send('Input.dispatchKeyEvent', { type: 'keyUp', ...event });
  }

  async presses(...keys) {
    for (const key of keys) await this.press(key);
  }

  async type(text) {
    for (const it of text) await this.press(it);
  }

  /** Puts in a text at once, as an input method does. */
  insert(text) {
    return this.browser.send('Input.insertText', { text });
  }

  /** Writes by an input method: first one text, and another at the end. */
  async compose(first, last) {
    const { length } = first;
    await this.browser.send('Input.imeSetComposition', { text: first, selectionStart: length, selectionEnd: length });
    await this.insert(last);
  }

  mouse(type, { x, y }, more = {}) {
    const buttons = type === 'mouseReleased' ? 0 : 1;
    return this.browser.send('Input.dispatchMouseEvent', { type, x, y, button: 'left', buttons, clickCount: 1, ...more });
  }

  /** Where a column of a row begins on the screen. */
  at(row, column) {
    return this.browser.value(`(() => {
      const ruler = $('ruler').getBoundingClientRect();
      return { x: ruler.left + ${column} * ruler.width / 100, y: sheet.getBoundingClientRect().top + (${row} + 0.5) * ROW };
    })()`);
  }

  async click(row, column, modifiers = 0) {
    const place = await this.at(row, column);
    await this.mouse('mousePressed', place, { modifiers });
    await this.mouse('mouseReleased', place, { modifiers });
  }

  async drag([row, column], [toRow, toColumn]) {
    await this.mouse('mousePressed', await this.at(row, column));
    await this.mouse('mouseMoved', await this.at(toRow, toColumn));
    await this.mouse('mouseReleased', await this.at(toRow, toColumn));
  }

  async clickOn(selector) {
    const place = await this.browser.value(`(() => {
      const it = document.querySelector(${JSON.stringify(selector)});
      it.scrollIntoView({ block: 'nearest' });
      const { left, top, width, height } = it.getBoundingClientRect();
      return { x: left + width / 2, y: top + height / 2 };
    })()`);
    await this.mouse('mousePressed', place);
    await this.mouse('mouseReleased', place);
  }

  /** Moves a slider by its keys. */
  async slide(id, value) {
    const least = await this.browser.value(`$('${id}').focus(), Number($('${id}').min)`);
    await this.press('Home');
    for (let it = least; it < value; it++) await this.press('ArrowRight');
    await this.settled();
    await this.browser.value('keys.focus()');
  }

  async note(text) {
    await this.browser.value(`$('note').select(), $('note').focus()`);
    if (text === '') await this.press('Backspace');
    else await this.insert(text);
  }

  async choose(sample) {
    await this.browser.value(`$('sample').value = '${sample}', $('sample').onchange(), keys.focus()`);
    await this.settled();
  }

  async chooseFile(id, file) {
    const { result } = await this.browser.send('Runtime.evaluate', { expression: `$('${id}')` });
    await this.browser.send('DOM.setFileInputFiles', { files: [file], objectId: result.objectId });
  }

  settled() {
    return this.browser.until('wrapping === 0');
  }

  // What the person sees

  /** The rows from one on, each as its kind, a bar and its text. */
  rows(from = 0, to = 100) {
    return this.browser.value(`[...document.querySelectorAll('.row')].slice(${from}, ${to})
      .map(it => it.dataset.kind + '|' + [...it.querySelectorAll('span')].map(it => it.textContent).join(''))`);
  }

  /** The pieces of a row, each as its kind, a colon and its text. */
  pieces(row) {
    return this.browser.value(`[...document.querySelectorAll('.row[data-number="${row}"] span')]
      .map(it => it.className + ':' + it.textContent)`);
  }

  /** How many cells each piece of a row takes on the screen. */
  cells(row) {
    return this.browser.value(`[...document.querySelectorAll('.row[data-number="${row}"] span')]
      .map(it => Math.round(it.getBoundingClientRect().width * 100 / $('ruler').getBoundingClientRect().width))`);
  }

  /** The caret's row and column as they are drawn. */
  caret() {
    return this.browser.value(`(() => {
      const [it, top, ruler] = [$('caret'), sheet, $('ruler')].map(it => it.getBoundingClientRect());
      return [Math.round((it.top - top.top) / ROW), Math.round((it.left - ruler.left) * 100 / ruler.width)];
    })()`);
  }

  /** The rows and columns that are drawn as selected. */
  selected() {
    return this.browser.value(`[...document.querySelectorAll('.selected')].map(it => {
      const [left, width] = [it.style.left, it.style.width].map(parseFloat);
      return [Number(it.closest('.row').dataset.number), left, left + width];
    })`);
  }

  changed() {
    return this.browser.value(`[...document.querySelectorAll('.changed')].map(it => Number(it.dataset.number))`);
  }

  things() {
    return this.browser.value(`[...document.querySelectorAll('#things li')].map(it => it.firstChild.data.trim())`);
  }

  status() {
    return this.browser.value(`$('status').textContent`);
  }

  text() {
    return this.browser.value('map.slice(0, map.textLength())');
  }
}

module.exports = { Browser, Person, PAGE, SHIFT, CONTROL };
