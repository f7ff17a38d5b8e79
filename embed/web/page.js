'use strict';
/* An editor over the display map. The text lies in the display, and the page keeps no copy: it asks for the rows in view each
 * time it draws. What it keeps is where the caret is, and the ids of what was added. */

const SHORT = `fn main() {
\tlet items = read_items("basket.txt");
\tlet total = items.iter().map(|it| it.price * it.count).sum();
\t// 漢字 and 👍🏽 take two cells each, é takes one.
\tfor it in &items {
\t\tprintln!("{:>8} {}", it.price, it.name);
\t}
\tprintln!("{total}");
}
`;
const SCRIPTS = `English\tThe quick brown fox jumps over the lazy dog, and then over the fence.
日本語\tいろはにほへと ちりぬるを わかよたれそ つねならむ うゐのおくやま けふこえて あさきゆめみし ゑひもせす
한국어\t다람쥐 헌 쳇바퀴에 타고파
Ελληνικά\tΞεσκεπάζω την ψυχοφθόρα βδελυγμία
Tie\u0302\u0301ng Vie\u0323\u0302t\tletters with two marks each are one cluster
Emoji\t👩‍👩‍👧 🇫🇷 ☕️ 👍🏽
`;
const manyLines = () => {
  const line = number => `${'\t'.repeat(number % 4)}line ${number} of a text that is wrapped while you type`;
  return Array.from({ length: 100000 }, (_, number) => line(number)).join('\n');
};
const SAMPLES = { short: () => SHORT, scripts: () => SCRIPTS, many: manyLines };

const MOTIONS = { ArrowLeft: 'left', ArrowRight: 'right', ArrowUp: 'up', ArrowDown: 'down', Home: 'start', End: 'end' };
const ROW = 22; // pixels, as --row
const WRAP_TIME = 8; // milliseconds of wrapping between two frames
const FLASH_TIME = 1000; // milliseconds, as of .changed
const LONGEST = 400; // characters of a row that are drawn
const NOTHING = { from: 0, to: 0, begun: 0 };
const SEGMENTER = new Intl.Segmenter();

const $ = id => document.getElementById(id);
const [view, sheet, keys] = ['view', 'sheet', 'keys'].map($);

let module; // what displaymap.wasm exports
let map; // the display
let caret; // { offset, right, row, column, goal }: an offset and its bias, where it is shown, and where up and down aim
let anchor; // where the selection begins, likewise
let things; // what was added: { kind, id, label }
let nextId;
let flash; // the rows that flash, from one up to another, and since when
let said = ''; // why the last change was refused
let took = 0; // milliseconds of the last change
let wrapping = 0; // the frame in which wrapping goes on, 0 where no line waits

// The caret and the selection

function spotAt(offset, right) {
  const place = map.show(offset, right);
  return { offset, right, ...place, goal: place.column };
}

function spotOf(place, goal = place.column) {
  const offset = map.back(place, false);
  const left = map.show(offset, false);
  return { offset, right: left.row !== place.row || left.column !== place.column, ...place, goal };
}

// The anchor and the caret, in order.
function ends() {
  const isForward = anchor.row < caret.row || (anchor.row === caret.row && anchor.column <= caret.column);
  return isForward ? [anchor, caret] : [caret, anchor];
}

const isSelected = () => anchor.row !== caret.row || anchor.column !== caret.column;

// The bytes of the text that are selected.
function selection() {
  if (!isSelected()) return { start: caret.offset, end: caret.offset };
  const [first, last] = ends();
  return { start: map.back(first, false), end: map.back(last, true) };
}

// Puts the caret, and the anchor too unless the selection is to reach up to the caret.
function go(spot, selects) {
  caret = spot;
  if (!selects) anchor = spot;
  reveal();
  draw();
}

// Where a motion leads, as `move` of a script says. It is a question for which all lines are wrapped.
function moved(motion) {
  if (wrapping) settle(Infinity);
  const [answer] = map.line({ move: [caret.row, caret.column, caret.goal, motion] });
  const [row, column, goal] = answer.split(' ').map(Number);
  return spotOf({ row, column }, goal);
}

function move(motion, selects) {
  const leavesSelection = isSelected() && !selects && (motion === 'left' || motion === 'right');
  go(leavesSelection ? ends()[motion === 'left' ? 0 : 1] : moved(motion), selects);
}

function movePage(direction, selects) {
  const rows = direction * Math.floor(view.clientHeight / ROW);
  const row = Math.min(Math.max(caret.row + rows, 0), map.rowCount() - 1);
  go(spotOf(map.clip({ row, column: caret.goal }, false), caret.goal), selects);
}

// Changes

// Makes a change. The caret keeps its offset, unless `make` returns the one to which it goes.
function change(make) {
  const begun = performance.now();
  said = '';
  try {
    const offset = make();
    if (offset !== undefined) caret = anchor = { offset, right: false };
  } catch (why) {
    if (!(why instanceof Refusal)) throw why;
    said = `refused: ${why.message}`;
  }
  took = performance.now() - begun;
  settle();
  reveal();
  draw();
}

// Wraps lines that wait, for some milliseconds now and the rest in the next frames, so that keys come in between.
function settle(milliseconds = WRAP_TIME) {
  const end = performance.now() + milliseconds;
  let waits = true;
  while (waits && performance.now() < end) waits = map.wrap(8);
  [caret, anchor] = [caret, anchor].map(it => spotAt(it.offset, it.right));
  cancelAnimationFrame(wrapping);
  wrapping = waits ? requestAnimationFrame(() => { settle(); draw(); }) : 0;
}

// Puts a text in place of the selection. A CR LF in it becomes a LF.
function type(text) {
  change(() => {
    const { start, end } = selection();
    const before = map.textLength();
    map.edit(start, end, text);
    return end + map.textLength() - before;
  });
}

function erase(motion) {
  if (!isSelected()) caret = moved(motion);
  type('');
}

function add(kind, label, ...values) {
  change(() => {
    if (kind === 'pin') map.addMark(nextId, ...values);
    else map.line({ [kind]: [nextId, ...values] });
    things.push({ kind, id: nextId++, label });
  });
  showThings();
}

function remove(thing) {
  change(() => {
    if (thing.kind === 'pin') map.removeMark(thing.id);
    else map.line({ [`un${thing.kind}`]: thing.id });
    things.splice(things.indexOf(thing), 1);
  });
  showThings();
}

function addFold() {
  const { start, end } = selection();
  add('fold', `fold ${nextId}`, start, end);
}

function addInlay() {
  add('inlay', $('note').value, caret.offset, 'right', $('note').value);
}

function addBlock() {
  const line = map.slice(0, caret.offset).split('\n').length - 1;
  add('block', $('note').value, 'above', line, [$('note').value]);
}

function openText(text) {
  const opened = new DisplayMap(module, text);
  map?.close();
  map = opened;
  things = [];
  nextId = 1;
  flash = NOTHING;
  caret = anchor = spotAt(0, false);
  view.scrollTop = 0;
  setTab();
  setWidth();
  flash = NOTHING; // else all rows would, as they are new
  draw();
  showThings();
}

function setWidth() {
  change(() => {
    map.line({ width: $('wraps').checked ? $('width').valueAsNumber : 0 });
  });
  $('width').nextElementSibling.value = $('width').value;
}

function setTab() {
  change(() => {
    map.line({ tab: $('tab').valueAsNumber });
  });
  $('tab').nextElementSibling.value = $('tab').value;
}

// Drawing

function reveal() {
  const top = caret.row * ROW;
  if (top < view.scrollTop) view.scrollTop = top;
  if (top + ROW > view.scrollTop + view.clientHeight) view.scrollTop = top + ROW - view.clientHeight;
}

// Draws the rows in view. Those that changed since they were last drawn flash.
function draw() {
  if (wrapping && isSelected()) settle(Infinity);
  const begun = performance.now();
  const count = map.rowCount();
  sheet.style.height = `${count * ROW}px`;
  const rows = map.rows(Math.floor(view.scrollTop / ROW), Math.ceil(view.clientHeight / ROW) + 1);
  const changed = map.changedRows();
  if (changed.to > changed.from || changed.count > 0) flash = { from: changed.from, to: changed.from + changed.count, begun };
  const spans = selectedColumns(rows);
  sheet.replaceChildren(...rows.map(row => rowElement(row, spans.get(row.number))), ...pinElements(), caretElement());
  Object.assign(keys.style, placed(caret));
  showStatus(count, performance.now() - begun);
}

// The columns that are selected in the rows in view, by their number, as `select` of a script says.
function selectedColumns(rows) {
  if (!isSelected() || rows.length === 0) return new Map();
  const [first, last] = ends();
  const [top, bottom] = [rows[0].number, rows.at(-1).number + 1];
  if (first.row >= bottom || last.row < top) return new Map();
  const from = first.row < top ? [top, 0] : [first.row, first.column];
  const to = last.row >= bottom ? [bottom, 0] : [last.row, last.column];
  const [, ...lines] = map.line({ select: [...from, ...to] });
  return new Map(lines.map(line => {
    const [row, start, end] = line.split(/[ -]/).map(Number);
    return [row, { start, end }];
  }));
}

function element(name, className, style = {}, text = '') {
  const it = document.createElement(name);
  it.className = className;
  it.textContent = text;
  Object.assign(it.style, style);
  return it;
}

const placed = ({ row, column }) => ({ top: `${row * ROW}px`, left: `calc(var(--gutter) + ${column}ch)` });

function rowElement(row, selected) {
  const it = element('div', row.kind === 'b' ? 'row block' : 'row', { top: `${row.number * ROW}px` });
  it.dataset.number = row.number;
  it.dataset.kind = row.kind;
  const age = performance.now() - flash.begun;
  if (row.number >= flash.from && row.number < flash.to && age < FLASH_TIME) {
    it.classList.add('changed');
    it.style.animationDelay = `${-age}ms`; // so that it goes on where the row is drawn again
  }
  const cells = element('div', 'cells');
  for (const piece of boxesOf(row.number)) {
    cells.append(element('span', piece.kind, { width: `${piece.cells}ch` }, piece.text.slice(0, LONGEST)));
  }
  if (selected) {
    const { start, end } = selected;
    cells.append(element('div', 'selected', { left: `${start}ch`, width: `${end - start}ch` }));
  }
  it.append(cells);
  return it;
}

// Whether each letter of a text has one cell, whatever it is.
const isAscii = text => /^[ -~]*$/.test(text);

// The pieces of a row, as far as it is drawn. In the text a cluster that isn't one letter in one cell is a box of its own.
function boxesOf(row) {
  const boxes = [];
  let length = 0;
  for (const piece of map.pieces(row)) {
    if (length > LONGEST) break;
    length += piece.text.length;
    if (piece.kind !== 'text' || isAscii(piece.text)) boxes.push(piece);
    else boxes.push(...clustersOf(piece));
  }
  return boxes;
}

// The clusters of a piece of text, of which neighbours that are one letter in one cell are joined.
function clustersOf(piece) {
  const clusters = [];
  let [{ start, cells: left }, { column }] = [piece, map.show(piece.start, true)];
  for (const { segment: text } of SEGMENTER.segment(piece.text.slice(0, LONGEST))) {
    start += new TextEncoder().encode(text).length;
    const cells = start < piece.end ? map.show(start, false).column - column : left;
    [column, left] = [column + cells, left - cells];
    const isLetter = cells === 1 && [...text].length === 1;
    const last = clusters.at(-1);
    if (isLetter && last?.isLetter) {
      last.text += text;
      last.cells++;
    } else clusters.push({ kind: 'text', text, cells, isLetter });
  }
  return clusters;
}

function pinElements() {
  return things.filter(it => it.kind === 'pin').map(it => element('div', 'flag', placed(map.show(map.mark(it.id), false))));
}

function caretElement() {
  const it = element('div', '', placed(caret));
  it.id = 'caret';
  return it;
}

function showThings() {
  $('things').replaceChildren(...things.map(thing => {
    const it = element('li', `key ${thing.kind}`, {}, `${thing.label} `);
    const button = element('button', '', {}, '×');
    button.title = `remove this ${thing.kind}`;
    button.onclick = () => remove(thing);
    it.append(button);
    return it;
  }));
}

function showStatus(count, drew) {
  const { start, end } = selection();
  const memory = (map.memorySize / 2 ** 20).toFixed(1);
  const status = [
    `${start === end ? `byte ${start}` : `bytes ${start} to ${end}`} of ${map.textLength()}; `,
    `row ${caret.row}, column ${caret.column}; ${count} rows${wrapping ? ', and lines that wait' : ''}\n`,
    said || `the change took ${took.toFixed(2)} ms, drawing ${drew.toFixed(1)} ms; memory ${memory} MiB`,
  ];
  $('status').textContent = status.join('');
  $('status').classList.toggle('refused', said !== '');
}

// The mouse, the keyboard and the buttons

// The spot that is nearest to the mouse. #ruler lies over the first hundred cells of a row.
function pointed(event) {
  const ruler = $('ruler').getBoundingClientRect();
  const row = Math.max(Math.floor((event.clientY - sheet.getBoundingClientRect().top) / ROW), 0);
  const column = Math.max(Math.round((event.clientX - ruler.left) * 100 / ruler.width), 0);
  const left = map.clip({ row, column }, false);
  const right = map.clip({ row, column }, true);
  const isRight = right.row === row && (left.row !== row || right.column - column < column - left.column);
  return spotOf(isRight ? right : left);
}

view.onpointerdown = event => {
  const isOnBar = event.clientX - view.getBoundingClientRect().left > view.clientWidth;
  if (event.button !== 0 || isOnBar) return;
  event.preventDefault();
  keys.focus({ preventScroll: true });
  view.setPointerCapture(event.pointerId);
  go(pointed(event), event.shiftKey);
};
view.onpointermove = event => {
  if (view.hasPointerCapture(event.pointerId)) go(pointed(event), true);
};
view.onscroll = () => draw();

keys.onkeydown = event => {
  if (event.isComposing || event.altKey) return;
  const isCommand = event.ctrlKey || event.metaKey;
  const motion = MOTIONS[event.key];
  if (isCommand && event.key === 'a') {
    anchor = spotAt(0, false);
    go(spotAt(map.textLength(), true), true);
  } else if (isCommand && motion === 'start') go(spotAt(0, false), event.shiftKey);
  else if (isCommand && motion === 'end') go(spotAt(map.textLength(), true), event.shiftKey);
  else if (isCommand) return;
  else if (motion) move(motion, event.shiftKey);
  else if (event.key === 'PageUp' || event.key === 'PageDown') movePage(event.key === 'PageUp' ? -1 : 1, event.shiftKey);
  else if (event.key === 'Backspace') erase('left');
  else if (event.key === 'Delete') erase('right');
  else if (event.key === 'Tab' && !event.shiftKey) type('\t');
  else return;
  event.preventDefault();
};

// What is typed, pasted or composed comes into #keys, and goes on from there.
function takeKeys() {
  const text = keys.value;
  keys.value = '';
  if (text !== '') type(text);
}
keys.oninput = event => {
  if (!event.isComposing) takeKeys();
};
keys.addEventListener('compositionend', takeKeys);

keys.onbeforecopy = keys.onbeforecut = event => event.preventDefault(); // says that there is something to copy
keys.oncopy = keys.oncut = event => {
  const { start, end } = selection();
  event.clipboardData.setData('text/plain', map.slice(start, end));
  event.preventDefault();
  if (event.type === 'cut') type('');
};

$('width').oninput = $('wraps').oninput = setWidth;
$('tab').oninput = setTab;
$('fold').onclick = addFold;
$('inlay').onclick = addInlay;
$('block').onclick = addBlock;
$('pin').onclick = () => add('pin', `pin ${nextId}`, caret.offset, true);
$('sample').onchange = () => openText(SAMPLES[$('sample').value]());
$('file').onchange = async () => {
  const [file] = $('file').files;
  $('file').value = ''; // so that the same file may be chosen once more
  try {
    openText(new Uint8Array(await file.arrayBuffer()));
  } catch (why) {
    if (!(why instanceof Refusal)) throw why;
    said = `the file can't be opened: ${why.message}`;
    draw();
  }
};

// The first text has one of each kind.
async function start() {
  module = await DisplayMap.load(MODULE);
  openText(SHORT);
  $('pin').hidden = !map.hasMarks;
  const at = words => new TextEncoder().encode(SHORT.slice(0, SHORT.indexOf(words) + words.length)).length;
  add('inlay', ': u64', at('let total'), 'right', ': u64');
  add('block', 'prints the total', 'above', 7, ['    // prints the total']);
  add('fold', `fold ${nextId}`, at('&items {'), at('it.name);\n\t'));
  keys.focus({ preventScroll: true });
}

window.onerror = window.onunhandledrejection = event => {
  $('status').textContent = `The page can't go on; load it again. ${event.reason ?? event}`;
};
window.isReady = start();
