// Writing: the part of a stream that is in the editor, what is changed in it, and what is marked there.

import { endsOf, pasted, placeOf, toBytes, toEscapes, toText } from './bytes.js';
import { desk, find, number, plural } from './desk.js';
import { Completion } from './completing.js';
import { Editor } from './editor.js';
import { openFind } from './finding.js';
import { helpAt } from './helping.js';
import { changed, changeOf } from './history.js';
import { listing, print } from './looking.js';
import { caretLeft, caretMoved, hoverByte } from './pointing.js';
import { rowAt } from './rows.js';
import { tellOnce } from './saying.js';
import { drawTabs } from './tabs.js';

// So many bytes of a stream are in the editor at a time.
const PART = 65536;

export const editor = new Editor(find('editor'));
editor.kinds = kinds;

export function fill(from, scrolled = false) {
  const { tab } = desk;
  tab.end = tab.language === 'label' && !tab.asBytes ? endsOf(tab.bytes) : null;
  const [start, end] = part(tab.bytes, from);
  Object.assign(tab, { from: start, to: end });
  const bytes = tab.bytes.subarray(start, end);
  const text = tab.end === null ? toEscapes(bytes) : toText(bytes, tab.end);
  if (scrolled) editor.change(text); else editor.text = text;
  tab.before = toBytes(text, tab.end).before;
  find('view').hidden = tab.language !== 'label';
  find('view').value = tab.end === null ? 'bytes' : 'text';
  find('parts').hidden = start === 0 && end === tab.bytes.length;
  find('part-where').textContent = `bytes ${number(start + 1)} to ${number(end)} of ${number(tab.bytes.length)}`;
  find('part-before').disabled = start === 0;
  find('part-after').disabled = end === tab.bytes.length;
  mark();
}

// A part of about PART bytes, which ends behind a line feed where there is one near its end, and in no character.
function part(bytes, from) {
  if (bytes.length <= PART) return [0, bytes.length];
  const cut = at => {
    if (at >= bytes.length) return bytes.length;
    const feed = bytes.lastIndexOf(0x0a, at - 1);
    if (feed >= at - PART / 4) return feed + 1;
    for (let n = 0; n < 3 && (bytes[at] & 0xc0) === 0x80; n++) at--;
    return bytes[at] === 0x0a ? at + 1 : at;
  };
  for (let at = 0; ;) {
    const next = cut(at + PART);
    if (next > from || next === bytes.length) return [at, next];
    at = next;
  }
}

// Another stream stands in a tab's place: by a change that can be taken back, of a key or not.
function put(tab, change, isTyped) {
  const grown = change.now.length - change.old.length;
  const end = change.at + change.old.length;
  tab.bytes = changed(tab.bytes, change);
  if (isTyped !== null) tab.history.keep(change, isTyped);
  // until the new listing is there, the old one moves along
  for (const row of tab.rows) {
    if (row.to > change.at) row.to = Math.max(change.at, row.to + (row.to >= end ? grown : 0));
    if (row.from > change.at) row.from = Math.max(change.at, row.from + (row.from >= end ? grown : 0));
  }
  tab.edits++;
  tab.chosen = null;
  drawTabs();
}

function edited() {
  const { tab } = desk;
  const { bytes, before } = toBytes(editor.text, tab.end);
  const change = changeOf(tab.bytes.subarray(tab.from, tab.to), bytes);
  tab.before = before;
  if (change) {
    tab.to += change.now.length - change.old.length;
    put(tab, { ...change, at: tab.from + change.at }, true);
    print();
  }
  editor.measure();
  mark();
  completion.look();
}

// Puts bytes in place of a tab's, as one change.
export function replace(tab, bytes) {
  const change = changeOf(tab.bytes, bytes);
  if (change) put(tab, change, false);
  if (tab !== desk.tab) return;
  fill(tab.from, true);
  print(true);
}

function step(change) {
  if (!change) return;
  const { tab } = desk;
  put(tab, change, null);
  const end = change.at + change.now.length;
  fill(change.at >= tab.from && end <= tab.from + PART ? tab.from : change.at, true);
  const place = placeOf(tab.before, Math.min(end, tab.to) - tab.from);
  editor.area.setSelectionRange(place, place);
  editor.reveal(place);
  print();
}

const undo = () => step(desk.tab.history.back());
const redo = () => step(desk.tab.history.again());

function insert(text) {
  document.execCommand('insertText', false, text);
}

editor.area.addEventListener('input', edited);
editor.area.addEventListener('beforeinput', event => {
  const act = { historyUndo: undo, historyRedo: redo }[event.inputType];
  if (act) {
    event.preventDefault();
    act();
  } else if (desk.tab.end === null && ['insertLineBreak', 'insertParagraph'].includes(event.inputType)) {
    event.preventDefault();
    insert('\\n\n');
  }
});
// Writes a text in place of what was typed before the cursor.
const completion = new Completion(find('choices'), editor, (text, typed) => {
  const { area } = editor;
  area.setSelectionRange(area.selectionStart - typed.length, area.selectionStart);
  insert(text);
  completion.close();
});

// A comment begins so, and has other signs in place of a command's.
const COMMENT = '^FX ';
const SIGN_AS = { '^': '‸', '~': '∼', '‸': '^', '∼': '~' };

// Makes comments of the lines that are chosen, or commands again.
function comment() {
  if (desk.tab.language !== 'label') {
    tellOnce('ESC/POS has no comments.');
    return;
  }
  const { area, starts } = editor;
  const first = editor.lineOf(area.selectionStart);
  const last = editor.lineOf(Math.max(area.selectionStart, area.selectionEnd - 1));
  const [from, to] = [starts[first], last + 1 < starts.length ? starts[last + 1] - 1 : editor.text.length];
  const lines = editor.text.slice(from, to).split('\n');
  const isComment = lines.every(it => it.startsWith(COMMENT) || !it.trim());
  const swap = (text, signs) => text.replace(signs, it => SIGN_AS[it]);
  const turned = it => (isComment ? swap(it.replace(COMMENT, ''), /[‸∼]/g) : COMMENT + swap(it, /[\^~]/g));
  const text = lines.map(it => (it.trim() ? turned(it) : it)).join('\n');
  area.setSelectionRange(from, to);
  insert(text);
  area.setSelectionRange(from, from + text.length);
}

const KEYS = { z: event => (event.shiftKey ? redo() : undo()), y: redo, f: () => openFind(), '/': comment };

editor.area.addEventListener('keydown', event => {
  if (!(event.ctrlKey || event.metaKey) || event.altKey) return;
  const act = KEYS[event.key.toLowerCase()];
  if (!act) return;
  event.preventDefault();
  act(event);
});
editor.area.addEventListener('paste', event => {
  const text = event.clipboardData.getData('text');
  if (desk.tab.end === null && text && !event.clipboardData.files.length) {
    event.preventDefault();
    insert(pasted(text));
  }
});
document.addEventListener('selectionchange', () => {
  if (document.activeElement !== editor.area || !desk.tab) return;
  caret();
  helpAt(desk.tab, caretByte());
  const row = rowAt(desk.tab.rows, caretByte());
  if (row >= 0 && row !== listing.current) listing.mark(row);
  caretMoved();
});

editor.area.addEventListener('blur', caretLeft);
editor.area.addEventListener('pointermove', event => {
  const place = event.buttons || !desk.tab ? -1 : editor.placeAt(event);
  hoverByte(place < 0 ? null : desk.tab.from + (desk.tab.before[place] ?? 0));
});
editor.area.addEventListener('pointerleave', () => hoverByte(null));

export const caretByte = () => desk.tab.from + (desk.tab.before[editor.area.selectionStart] ?? 0);

function caret() {
  const line = editor.lineOf(editor.area.selectionStart);
  find('caret').textContent = `line ${number(line + 1)}, behind byte ${number(caretByte())}`;
  find('length').textContent = plural(desk.tab.bytes.length, 'byte');
}

// How each character of the editor from one place to another is drawn: by the item that its byte belongs to.
function kinds(from, to) {
  const made = new Array(to - from);
  const { before, rows, from: start, end } = desk.tab ?? {};
  if (!before || before.length <= to) return made;
  let row = rows.length ? rowAt(rows, start + before[from]) : -1;
  for (let at = from; at < to; at++) {
    const byte = start + before[at];
    while (row >= 0 && row < rows.length && rows[row].to <= byte) row++;
    const it = row >= 0 && row < rows.length && rows[row].from <= byte ? rows[row] : null;
    let kind = it ? it.kind : '';
    if (it && kind === 'cmd') {
      kind = byte < it.from + it.name ? (byte === it.from && end !== null ? 'name sign' : 'name')
        : editor.text[at] === ',' && end !== null ? 'comma' : 'parameter';
    }
    if (end === null && (before[at + 1] === before[at] || (at && before[at - 1] === before[at]))) {
      kind = kind === 'data' ? kind : `${kind} escape`.trim();
    }
    made[at - from] = kind;
  }
  return made;
}

// What is to be seen in the editor: the chosen item, the fault and the remarks.
export function mark() {
  const { tab } = desk;
  const marks = [];
  const notes = [];
  const put = (from, to, kind, text) => {
    if (to < tab.from || from > tab.to) return;
    const start = placeOf(tab.before, Math.max(0, from - tab.from));
    const skip = tab.end === null && editor.text[start] === '\n' && to > from ? 1 : 0;
    const end = placeOf(tab.before, Math.min(to, tab.to) - tab.from);
    marks.push({ from: start + skip, to: Math.max(end, start + skip), kind });
    if (text) notes.push({ place: start + skip, kind, text });
  };
  for (const it of tab.remarks) if (it.place !== null) put(it.from, it.to, 'remark', it.text);
  if (tab.fault) {
    put(tab.fault.from, tab.fault.to, 'fault', `${tab.fault.number} ${tab.fault.text}`);
    const { at } = tab.explained;
    if (at >= 0 && at < tab.bytes.length) put(at, at + 1, 'wrong');
  }
  if (tab.chosen) put(tab.chosen.from, tab.chosen.to, 'chosen');
  editor.show(marks, notes);
  caret();
  if (tab.before.length > editor.area.selectionStart) helpAt(tab, caretByte());
}

/**
 * Shows bytes in the editor.
 * @param {boolean | 'selected'} focus  whether the cursor goes there, or the bytes are selected
 */
export function goTo(from, to, focus) {
  const { tab } = desk;
  if (from < tab.from || from > tab.to || (from === tab.to && to > from)) fill(from);
  const place = placeOf(tab.before, Math.max(0, from - tab.from));
  const skip = tab.end === null && editor.text[place] === '\n' ? 1 : 0;
  editor.reveal(place + skip);
  mark();
  if (focus) {
    const end = focus === 'selected' ? placeOf(tab.before, to - tab.from) : place + skip;
    editor.area.focus();
    editor.area.setSelectionRange(place + skip, Math.max(end, place + skip));
  }
}
