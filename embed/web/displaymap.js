'use strict';
/* The calls of ../displaymap.h, for JavaScript.
 *
 *     const module = await DisplayMap.load('displaymap.wasm');
 *     const map = new DisplayMap(module, 'fn main() {}\n');
 *     map.line({ fold: [1, 11, 12] });
 *     map.rows(0, 10);    // [{ number: 0, kind: 't', text: 'fn main() {⋯' }, ...]
 *
 * Offsets count bytes of the text in UTF-8, columns cells, and rows count from 0. `right` is the bias. A call that is refused
 * throws a Refusal, and the display is as it was. Any other error is the engine's, as at the end of its stack: then the
 * module's memory may be half written, and the module has to be loaded anew.
 *
 * The module has 64-bit addresses, so its pointers and lengths are BigInt. */

const REASONS = {
  1: 'not a command', 2: 'range is not in the text', 3: 'id is in use', 4: 'unknown id', 5: 'too long',
  6: 'number out of range', 7: 'text is empty or has a line break', 16: 'closed', 17: 'out of memory',
  18: 'journal is full', 19: 'not UTF-8', 20: 'no such row',
};

/* What a piece of a row comes from. `fold` is the placeholder of a fold, or of folds that are joined. */
const KINDS = ['text', 'tab', 'inlay', 'fold', 'block', 'indent'];
const PIECE_SIZE = 32; // bytes of a displaymap_piece

class Refusal extends Error {
  constructor(status) {
    super(REASONS[status] ?? `status ${status}`);
    this.status = status;
  }
}

class DisplayMap {
  static #encoder = new TextEncoder();
  static #decoder = new TextDecoder('utf-8', { ignoreBOM: true });
  #calls;
  #handle; // two words of the module's memory, zeroed: a closed handle
  #result; // three numbers, for what a call returns by pointer
  #buffer; // for bytes that are passed in or out
  #room = 0;

  /** Fetches the module. Any number of displays can use it. */
  static async load(url) {
    const bytes = await (await fetch(url)).arrayBuffer();
    return (await WebAssembly.instantiate(bytes)).instance.exports;
  }

  /** Opens a text: a string, or bytes in UTF-8. */
  constructor(module, text) {
    this.#calls = module;
    this.#handle = this.#allocate(32);
    this.#result = this.#handle + 16n;
    this.#bytes(this.#handle, 32).fill(0);
    try {
      this.#call('open', ...this.#pass(text));
    } catch (why) {
      this.close();
      throw why;
    }
  }

  /** Gives back all memory. The display can't be used after this. */
  close() {
    this.#calls.displaymap_close(this.#handle);
    this.#calls.free(this.#handle);
    if (this.#room) this.#calls.free(this.#buffer);
  }

  // Changes

  /** Does a line of a script, given as its object, and returns the lines of the answer. */
  line(request) {
    return this.lineOfBytes(JSON.stringify(request));
  }

  lineOfBytes(line) {
    this.#call('line', ...this.#pass(line));
    return this.#answer().split('\n').slice(0, -1);
  }

  /** Replaces the bytes from `start` to `end`. */
  edit(start, end, text) {
    this.#call('edit', start, end, ...this.#pass(text));
  }

  /** Wraps up to `runs` runs of lines that wait, and returns whether some still wait. */
  wrap(runs) {
    this.#call('wrap', runs, this.#result);
    return this.#bytes(this.#result, 1)[0] !== 0;
  }

  // The text and the rows

  textLength() {
    return this.#number('text_len');
  }

  slice(start, end) {
    this.#call('slice', start, end);
    return this.#answer();
  }

  rowCount() {
    return this.#number('row_count');
  }

  /** Up to `count` rows. A kind is 't' for a line's first row, 'w' for one that continues it, 'b' for a block's. */
  rows(first, count) {
    this.#call('rows', first, count);
    return this.#answer().split('\n').slice(0, -1).map((line, index) => {
      const bar = line.indexOf('|');
      return { number: first + index, kind: line[bar - 1], text: line.slice(bar + 1) };
    });
  }

  /** The pieces of a row: each one's kind, text, cells, and the offsets from its start to its end; of an inlay or a block
   * its id. */
  pieces(row) {
    let [count, room] = [64, 0];
    while (count > room) {
      room = count;
      this.#makeRoom(room * PIECE_SIZE);
      this.#call('pieces', row, this.#buffer, BigInt(room), this.#result);
      [count] = this.#words();
    }
    const pieces = Array.from({ length: count }, (_, index) => this.#piece(index));
    const texts = this.#answerBytes();
    let end = 0;
    return pieces.map(({ bytes, ...piece }) => {
      const start = end;
      end += bytes;
      return { ...piece, text: DisplayMap.#decoder.decode(texts.subarray(start, end)) };
    });
  }

  /** The rows that changed since this was last asked: those from `from` up to `to` then, for which there are `count` now. No
   * other row looks another, but the rows after these may be further on. At first no row makes place for all. */
  changedRows() {
    this.#call('changed_rows', this.#result);
    const [from, to, count] = this.#words();
    return { from, to, count };
  }

  // Offsets and places

  /** Where an offset is shown. */
  show(offset, right) {
    return this.#place('show', offset, right);
  }

  /** The nearest place at which some offset is shown. */
  clip({ row, column }, right) {
    return this.#place('clip', row, column, right);
  }

  /** The offset that a place shows: the least, or for right the greatest. */
  back({ row, column }, right) {
    return this.#number('back', row, column, right);
  }

  // Marks, which move with each edit

  get hasMarks() {
    return 'displaymap_mark' in this.#calls;
  }

  addMark(id, offset, right) {
    this.#call('add_mark', id, offset, right);
  }

  removeMark(id) {
    this.#call('remove_mark', id);
  }

  /** The offset of a mark. */
  mark(id) {
    return this.#number('mark', id);
  }

  // How values cross

  get memorySize() {
    return this.#calls.memory.buffer.byteLength;
  }

  #call(name, ...values) {
    const status = this.#calls[`displaymap_${name}`](this.#handle, ...values);
    if (status !== 0) throw new Refusal(status);
  }

  #number(name, ...values) {
    this.#call(name, ...values, this.#result);
    return this.#words()[0];
  }

  #place(name, ...values) {
    this.#call(name, ...values, this.#result);
    const [row, column] = this.#words();
    return { row, column };
  }

  #words() {
    return new Uint32Array(this.#calls.memory.buffer, Number(this.#result), 3);
  }

  // A view is made anew each time: the memory is another object once it grew.
  #bytes(at, length) {
    return new Uint8Array(this.#calls.memory.buffer, Number(at), length);
  }

  #allocate(length) {
    const at = this.#calls.malloc(BigInt(length));
    if (at === 0n) throw new Refusal(17);
    return at;
  }

  #makeRoom(length) {
    if (length <= this.#room) return;
    const larger = this.#allocate(2 * length);
    if (this.#room) this.#calls.free(this.#buffer);
    this.#buffer = larger;
    this.#room = 2 * length;
  }

  // Puts bytes where the module reads them, and returns their pointer and count.
  #pass(text) {
    const bytes = typeof text === 'string' ? DisplayMap.#encoder.encode(text) : text;
    this.#makeRoom(Math.max(bytes.length, 64));
    this.#bytes(this.#buffer, bytes.length).set(bytes);
    return [this.#buffer, BigInt(bytes.length)];
  }

  // The piece of this number in the buffer. No row has 2^32 bytes.
  #piece(index) {
    const at = Number(this.#buffer) + index * PIECE_SIZE;
    const [bytes, , kind, id, cells, start, end] = new Uint32Array(this.#calls.memory.buffer, at, 7);
    return { bytes, kind: KINDS[kind], id, cells, start, end };
  }

  #answerBytes() {
    const length = this.#calls.displaymap_answer(this.#handle, 0n, 0n, 0n);
    this.#makeRoom(Number(length));
    this.#calls.displaymap_answer(this.#handle, 0n, this.#buffer, length);
    return this.#bytes(this.#buffer, Number(length));
  }

  #answer() {
    return DisplayMap.#decoder.decode(this.#answerBytes());
  }
}
