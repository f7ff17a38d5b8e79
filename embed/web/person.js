#!/usr/bin/env node
'use strict';
/* A scripted person at the page, in headless Chromium. What is shown is compared with what docs/DEFINITIONS.md says, worked by
 * hand. Then the module plays scripts whose output is known.
 *
 *     person.js CHROMIUM [FOLDER]...            each FOLDER has the files text, script and output
 *     person.js CHROMIUM --picture FILE         makes page.png instead */
const fs = require('node:fs');
const path = require('node:path');
const { Browser, Person, PAGE, SHIFT, CONTROL } = require('./browser.js');

let passed = 0;
let failed = 0;

function check(what, got, wanted) {
  if (JSON.stringify(got) === JSON.stringify(wanted)) {
    passed++;
    return;
  }
  failed++;
  console.log(`person: ${what}:\n  ${JSON.stringify(got)}\n  and not ${JSON.stringify(wanted)}`);
}

const FIRST = [
  't|fn main() {',
  't|    let items = read_items("basket.txt");',
  't|    let total: u64 = items.iter().map(|it| it.price * ',
  'w|    it.count).sum();',
  't|    // 漢字 and 👍🏽 take two cells each, é takes one.',
  't|    for it in &items {⋯}',
  'b|    // prints the total',
  't|    println!("{total}");',
  't|}',
  't|',
];
const NARROW = [
  't|fn main() {',
  't|    let items = ',
  'w|    read_items("basket.t',
  'w|    xt");',
  't|    let total: u64 = ',
  'w|    items.iter().map(|it',
  'w|    | it.price * ',
  'w|    it.count).sum();',
  't|    // 漢字 and 👍🏽 take ',
  'w|    two cells each, é ',
  'w|    takes one.',
  't|    for it in &items {⋯}',
  'b|    // prints the total',
  't|    println!("{total}");',
  't|}',
  't|',
];

async function opens(p) {
  check('the first rows', await p.rows(), FIRST);
  check('none of which flashes but what was folded last', await p.changed(), [5]);
  const withInlay = ['tab:    ', 'text:let total', 'inlay:: u64', 'text: = items.iter().map(|it| it.price * '];
  check('an inlay lies in its row', await p.pieces(2), withInlay);
  check('a row that goes on is indented', await p.pieces(3), ['indent:    ', 'text:it.count).sum();']);
  const withWide = ['tab:    ', 'text:// ', 'text:漢', 'text:字', 'text: and ', 'text:👍🏽', 'text: take two cells each, é takes one.'];
  check('wide clusters have boxes', await p.pieces(4), withWide);
  check('of two cells', await p.cells(4), [4, 3, 2, 2, 5, 2, 34]);
  check('a fold is a placeholder', await p.pieces(5), ['tab:    ', 'text:for it in &items {', 'fold:⋯', 'text:}']);
  check('a block is one piece', await p.pieces(6), ['block:    // prints the total']);
  check('what was added is listed', await p.things(), [': u64', 'prints the total', 'fold 3']);
  check('the caret is at the start', await p.caret(), [0, 0]);
  check('the status', (await p.status()).split('\n')[0], 'byte 0 of 263; row 0, column 0; 10 rows');
}

async function typing(p, text) {
  await p.click(0, 3);
  check('a click puts the caret', await p.caret(), [0, 3]);
  await p.type('my_');
  check('letters come in', await p.rows(0, 2), ['t|fn my_main() {', FIRST[1]]);
  check('the caret goes along', await p.caret(), [0, 6]);
  check('their row flashes', await p.changed(), [0]);
  await p.press('Backspace');
  await p.press('Delete');
  check('one goes on each side', await p.rows(0, 1), ['t|fn myain() {']);
  await p.type('m');
  await p.press('ArrowLeft');
  await p.press('Enter');
  check('a line is cut', await p.rows(0, 3), ['t|fn my', 't|main() {', FIRST[1]]);
  check('both rows flash, and none that only moved', await p.changed(), [0, 1]);
  check('the caret is on the new line', await p.caret(), [1, 0]);
  await p.press('Backspace');
  check('the lines are joined', await p.rows(0, 2), ['t|fn mymain() {', FIRST[1]]);
  check('the joined row flashes', await p.changed(), [0]);
  await p.presses('Backspace', 'Backspace');
  check('the text is as it was', await p.text(), text);

  await p.click(0, 2);
  await p.press('Tab');
  check('a tab reaches to the next stop', await p.pieces(0), ['text:fn', 'tab:  ', 'text: main() {']);
  check('the caret is after it', await p.caret(), [0, 4]);
  await p.press('Backspace');
  await p.click(0, 11);
  await p.insert('漢');
  check('a wide letter takes two cells', await p.caret(), [0, 13]);
  await p.insert('e');
  await p.insert('\u0301');
  check('a mark joins its letter', await p.caret(), [0, 14]);
  check('in one cell', await p.cells(0), [11, 2, 1]);
  await p.presses('Backspace', 'Backspace');
  check('each cluster goes at once', await p.text(), text);
  await p.compose('にほ', '日本');
  check('an input method puts in what it ends with', await p.rows(0, 1), ['t|fn main() {日本']);
  await p.presses('Backspace', 'Backspace');
}

async function moving(p) {
  const goes = async (key, row, column) => {
    await p.press(key);
    check(`${key} leads to row ${row}`, await p.caret(), [row, column]);
  };
  await p.click(1, 0);
  await goes('ArrowRight', 1, 4); // over a tab
  await goes('ArrowLeft', 1, 0);
  await goes('ArrowLeft', 0, 11);
  await p.click(2, 30);
  await goes('ArrowDown', 3, 20);
  await goes('ArrowDown', 4, 30);
  await goes('ArrowDown', 5, 24);
  await goes('ArrowDown', 7, 24); // past the block
  await goes('ArrowUp', 5, 24);
  await goes('ArrowUp', 4, 30);
  await goes('Home', 4, 0);
  await goes('End', 4, 52);
  await p.click(3, 10);
  await goes('Home', 3, 4); // after the indent
  await goes('End', 3, 20);
  await p.click(2, 13);
  await goes('ArrowRight', 2, 18); // over an inlay
  check('both sides of an inlay are one byte of the text', await p.browser.value('caret.offset'), 61);
  await p.click(5, 22);
  await goes('ArrowRight', 5, 23); // over a fold
  check('and those of a fold are 45 apart', await p.browser.value('caret.offset'), 192 + 45);
  await p.press('End', CONTROL);
  check('Control End leads to the end', await p.caret(), [9, 0]);
  await p.press('Home', CONTROL);
  check('Control Home leads to the start', await p.caret(), [0, 0]);
}

async function clicking(p) {
  const clicks = async (what, row, column, wanted) => {
    await p.click(row, column);
    check(`a click ${what}`, await p.caret(), wanted);
  };
  await clicks('on the start of a tab', 1, 1, [1, 0]);
  await clicks('on the end of a tab', 1, 3, [1, 4]);
  await clicks('past the end of a row', 0, 40, [0, 11]);
  await clicks('on the start of an inlay', 2, 15, [2, 13]);
  await clicks('on the end of an inlay', 2, 17, [2, 18]);
  await clicks('on an indent', 3, 1, [3, 4]);
  await clicks('on a block', 6, 5, [5, 24]);
  await clicks('below the last row', 12, 3, [9, 0]);
}

async function selecting(p, text) {
  await p.drag([1, 4], [2, 13]);
  check('a drag selects to the end of a row and on', await p.selected(), [[1, 4, 41], [2, 0, 13]]);
  check('and its bytes', (await p.status()).split(';')[0], 'bytes 13 to 61 of 263');
  await p.press('ArrowLeft');
  check('an arrow leaves the selection at its start', [await p.caret(), await p.selected()], [[1, 4], []]);
  await p.click(0, 0);
  for (let it = 0; it < 3; it++) await p.press('ArrowRight', SHIFT);
  check('Shift and arrows select', await p.selected(), [[0, 0, 3]]);
  await p.type('X');
  check('a letter replaces what is selected', await p.rows(0, 1), ['t|Xmain() {']);
  await p.press('Backspace');
  await p.type('fn ');
  await p.press('a', CONTROL);
  check('Control A selects all', (await p.status()).split(';')[0], 'bytes 0 to 263 of 263');
  await p.click(0, 7);
  await p.click(0, 3, SHIFT);
  check('Shift and a click select', await p.selected(), [[0, 3, 7]]);
  await p.press('c', CONTROL, ['copy']);
  await p.click(0, 11);
  await p.press('v', CONTROL, ['paste']);
  check('what is copied can be pasted', await p.rows(0, 1), ['t|fn main() {main']);
  for (let it = 0; it < 4; it++) await p.press('ArrowLeft', SHIFT);
  await p.press('x', CONTROL, ['cut']);
  check('and cut again', await p.text(), text);
}

async function folding(p) {
  await p.click(0, 3);
  await p.clickOn('#fold');
  check('a fold of nothing is refused', (await p.status()).split('\n')[1], 'refused: range is not in the text');
  check('and not listed', await p.things(), [': u64', 'prints the total', 'fold 3']);
  await p.drag([0, 3], [0, 7]);
  await p.clickOn('#fold');
  check('a word is folded', await p.pieces(0), ['text:fn ', 'fold:⋯', 'text:() {']);
  await p.clickOn('#things li:nth-child(4) button');
  check('and unfolded', await p.rows(), FIRST);
  await p.drag([0, 11], [1, 41]);
  await p.clickOn('#fold');
  check('a line is folded away', await p.rows(0, 2), ['t|fn main() {⋯', FIRST[2]]);
  check('and only its row flashes', await p.changed(), [0]);
  await p.clickOn('#things li:nth-child(4) button');
  check('the line is there again', await p.rows(), FIRST);
  check('both rows flash', await p.changed(), [0, 1]);
}

async function adding(p, text) {
  await p.click(0, 7);
  await p.note(': i32');
  await p.clickOn('#inlay');
  check('an inlay is shown', await p.pieces(0), ['text:fn main', 'inlay:: i32', 'text:() {']);
  check('and isn\'t in the text', await p.text(), text);
  await p.browser.value('keys.focus()');
  await p.type('s');
  check('it stays after what is typed', await p.rows(0, 1), ['t|fn mains: i32() {']);
  check('so does the caret', await p.caret(), [0, 8]);
  await p.press('Backspace');
  await p.clickOn('#things li:nth-child(4) button');
  await p.note('→整数');
  await p.clickOn('#inlay');
  check('an inlay can have wide letters', await p.pieces(0), ['text:fn main', 'inlay:→整数', 'text:() {']);
  check('of two cells each', await p.cells(0), [7, 5, 4]);
  await p.clickOn('#things li:nth-child(4) button');
  await p.note('');
  await p.clickOn('#inlay');
  check('an empty inlay is refused', (await p.status()).split('\n')[1], 'refused: text is empty or has a line break');

  await p.click(1, 8);
  for (const it of ['// one', '// two']) {
    await p.note(it);
    await p.clickOn('#block');
  }
  check('blocks are shown in order', await p.rows(0, 4), ['t|fn main() {', 'b|// one', 'b|// two', FIRST[1]]);
  check('and the caret below them', await p.caret(), [3, 8]);
  await p.clickOn('#things li:nth-child(4) button');
  await p.clickOn('#things li:nth-child(4) button');
  check('all is as it was', await p.rows(), FIRST);
}

async function pinning(p) {
  if (!await p.browser.value('map.hasMarks')) return;
  await p.click(0, 3);
  await p.clickOn('#pin');
  await p.click(0, 0);
  await p.type('pub ');
  const place = await p.browser.value(`document.querySelector('.flag').style.left`);
  check('a pin moves with the text', place, 'calc(var(--gutter) + 7ch)');
  for (let it = 0; it < 4; it++) await p.press('Backspace');
  await p.clickOn('#things li:nth-child(4) button');
  check('and is taken away', await p.browser.value(`document.querySelectorAll('.flag').length`), 0);
}

async function layingOut(p) {
  await p.click(2, 43);
  await p.slide('width', 24);
  check('rows at a width of 24', await p.rows(), NARROW);
  check('all flash, since each line is wrapped anew', await p.changed(), NARROW.map((_, row) => row));
  check('the caret is at the same letter', await p.caret(), [6, 6]);
  await p.type('x');
  check('after a letter only the rows of its line flash', await p.changed(), [4, 5, 6, 7]);
  await p.press('Backspace');
  await p.clickOn('#wraps');
  check('rows without a width', await p.rows(1, 4), [FIRST[1], FIRST[2] + FIRST[3].slice(6), FIRST[4]]);
  await p.clickOn('#wraps');
  check('rows are wrapped again', await p.rows(), NARROW);
  await p.slide('width', 64);
  await p.slide('tab', 8);
  check('tabs of eight cells', await p.rows(1, 4), FIRST.slice(1, 4).map(it => it.replace('|    ', '|        ')));
  check('are one piece each', (await p.cells(1)).slice(0, 1), [8]);
  await p.slide('tab', 4);
  check('all is as it was', await p.rows(), FIRST);
}

async function readingScripts(p) {
  await p.choose('scripts');
  check('wide letters are cut between any two', await p.rows(0, 4), [
    't|English The quick brown fox jumps over the lazy dog, and then ',
    'w|over the fence.',
    't|日本語  いろはにほへと ちりぬるを わかよたれそ つねならむ うゐの',
    'w|おくやま けふこえて あさきゆめみし ゑひもせす',
  ]);
  await p.click(2, 8);
  await p.press('ArrowRight');
  check('a wide letter is one step', await p.caret(), [2, 10]);
  await p.click(6, 2);
  await p.press('ArrowRight');
  check('a letter with two marks is one step', await p.caret(), [6, 3]);
  const before = await p.browser.value('map.textLength()');
  await p.press('Backspace');
  check('and goes at once', [await p.caret(), before - await p.browser.value('map.textLength()')], [[6, 2], 5]);
  await p.click(7, 8);
  await p.press('ArrowRight');
  check('a family is one step', await p.browser.value('map.slice(caret.offset, caret.offset + 5)'), ' 🇫🇷'.slice(0, 3));
}

async function readingMany(p) {
  const rows = async () => / (\d+) rows/.exec(await p.status())[1];
  await p.choose('many');
  check('each line is a row', await rows(), '100000');
  await p.browser.value(`$('width').value = 40, setWidth()`);
  await p.type('x');
  check('a letter comes in while lines wait', await p.browser.value('map.slice(0, 7)'), 'xline 0');
  await p.settled();
  check('each line is two rows', await rows(), '200000');
  await p.press('End', CONTROL);
  const last = ['t|            line 99999 of a text that is ', 'w|            wrapped while you type'];
  check('the last rows are drawn', (await p.rows()).slice(-2), last);
  check('at their place', await p.caret(), [199999, 34]);
  await p.press('PageUp');
  check('a page up, to the shorter row of line 99990', await p.caret(), [199981, 30]);
  await p.press('Home', CONTROL);
  await p.mouse('mouseWheel', await p.at(2, 2), { button: 'none', buttons: 0, deltaX: 0, deltaY: 220 });
  await p.browser.until('view.scrollTop === 220');
  check('the wheel scrolls', await p.browser.value(`document.querySelector('.row').dataset.number`), '10');
  await p.browser.value(`$('width').value = 64, setWidth()`);
}

async function openingFiles(p) {
  const opens = async bytes => {
    const file = path.join(p.browser.folder, 'file.txt');
    fs.writeFileSync(file, bytes);
    await p.chooseFile('file', file);
    await p.browser.value('new Promise(resolve => setTimeout(resolve, 100))');
  };
  await opens('a\r\nb\rc');
  check('each line break is one byte', await p.text(), 'a\nb\nc');
  check('and begins a row', await p.rows(), ['t|a', 't|b', 't|c']);
  await opens(Buffer.from([0x61, 0xff]));
  check('a file that isn\'t UTF-8 is refused', (await p.status()).split('\n')[1], 'the file can\'t be opened: not UTF-8');
  check('and the text stays', await p.text(), 'a\nb\nc');
}

// Plays a script on a text, both in base64, as ../play.c does.
function play(text, script) {
  const bytes = it => Uint8Array.from(atob(it), letter => letter.charCodeAt(0));
  const map = new DisplayMap(module, bytes(text));
  let output = '';
  const lines = atob(script).split('\n').filter(it => it.trim() !== '');
  for (const line of lines[0] === '{"script":2}' ? lines.slice(1) : lines) {
    try {
      output += map.lineOfBytes(bytes(btoa(line))).map(it => `${it}\n`).join('');
    } catch (why) {
      if (!(why instanceof Refusal)) throw why;
      output += `! ${why.status}\n`;
    }
  }
  map.close();
  return output;
}

async function plays(p, folder) {
  const [text, script] = ['text', 'script'].map(it => fs.readFileSync(path.join(folder, it), 'base64'));
  const wanted = fs.readFileSync(path.join(folder, 'output'), 'utf8').split('\n');
  const got = (await p.browser.value(`(${play})('${text}', '${script}')`)).split('\n');
  const line = wanted.findIndex((it, at) => it !== got[at]);
  check(`line ${line + 1} of the session in ${folder}`, [got.length, got[line]], [wanted.length, wanted[line]]);
}

// What page.png shows: one of each kind, a selection, and a row that has just come.
async function shows(p, file) {
  await p.slide('width', 52);
  await p.drag([1, 8], [2, 13]);
  await p.note('    // in cents');
  await p.clickOn('#block');
  fs.writeFileSync(file, await p.browser.picture());
}

async function seesAll(p) {
  const text = await p.text();
  await opens(p);
  await typing(p, text);
  await moving(p);
  await clicking(p);
  await selecting(p, text);
  await folding(p);
  await adding(p, text);
  await pinning(p);
  await layingOut(p);
  await readingScripts(p);
  await readingMany(p);
  await openingFiles(p);
}

async function main(program, ...words) {
  const browser = new Browser(program);
  await browser.open(`file://${PAGE}`);
  await browser.value('isReady');
  const p = new Person(browser);
  await p.settled();
  if (words[0] === '--picture') {
    await shows(p, words[1]);
  } else {
    await seesAll(p);
    for (const it of words) await plays(p, it);
  }
  await browser.close();
  end(failed ? `${failed} of ${passed + failed} checks failed` : `${passed} checks passed`, failed ? 1 : 0);
}

function end(why, status) {
  console.log(`person: ${why}`);
  process.exit(status);
}

setTimeout(() => end('the page takes too long', 1), 240000);
main(...process.argv.slice(2)).catch(why => end(why.stack, 1));
