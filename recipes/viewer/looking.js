// Looking: what is printed and listed of the tab that is seen, its fault, and what a printer would print besides.

import { joined } from './bytes.js';
import { compareAgain } from './comparing.js';
import { desk, find, number, plural } from './desk.js';
import { Edges } from './edges.js';
import { Listing } from './listing.js';
import { named } from './names.js';
import { explained } from './mending.js';
import { Paper } from './paper.js';
import { askNoMore, caretMoved, chooseDot, dotsOf, hoverByte, hoverDot, tellDot } from './pointing.js';
import { lacking, outside, remarksOf } from './remarks.js';
import { Rows, rowAt } from './rows.js';
import { messages, say } from './saying.js';
import { Images, MOST_IMAGES, MOST_PAPER, sheetsOf } from './sheets.js';
import { goTo, mark } from './writing.js';

// A stream that takes so many milliseconds is printed when typing stops, so much later.
const SLOW = 150;
const PAUSE = 250;
// Of so many bytes of a stream it is said what isn't drawn.
const REMARKED = 1 << 18;
export const ENDED = 'the viewer was ended: save what you wrote, and start it again';
const FAULT = /^vp: (F\d) after (\d+) bytes?: (.*)$/;

export const listing = new Listing(find('listing'), row => named(row, desk.tab.language, desk.tab.bytes), chooseRow,
  row => hoverByte(row && row.kind !== 'fault' ? row.from : null));
export const paper = new Paper(find('paper'), { told: tellDot, chosen: chooseDot, over: hoverDot });
let printing = new AbortController();
let timer = 0;
let typed = 0;
// what is known of sheets, and of fields that were printed alone
const known = new Map();
const boxes = new Map();

// For those who measure: when the last key came and when its dots were drawn, and what is drawn where.
export const measured = { took: [] };

export function print(now = false) {
  clearTimeout(timer);
  printing.abort();
  askNoMore();
  printing = new AbortController();
  const one = desk.tab;
  if (!now) typed = performance.now();
  timer = setTimeout(() => printed(one, printing.signal), !now && one.last > SLOW ? PAUSE : 0);
}

// The stream that is printed of a tab, and how many bytes stand in it before the tab's own.
function sent({ bytes, lead }) {
  const first = lead && `^XA${lead}^XZ`;
  return { stream: first ? joined(first, bytes) : bytes, before: first.length };
}

// What a tab prints: its paper, its sheets, and what is said of it.
export async function images(one, signal) {
  const { stream, before } = sent(one);
  const read = new Images(one.language === 'label' ? MOST_IMAGES : Infinity, MOST_PAPER);
  const start = performance.now();
  const told = await desk.printer.print(stream, one.words, piece => read.take(piece), signal);
  const { bytes, images } = read.shown();
  const [, name, place, text] = FAULT.exec(told.line ?? '') ?? [];
  const fault = name ? { number: name, place: Math.max(0, Number(place) - before), text } : null;
  const isAll = !told.stopped && !told.late && !told.reached;
  const said = { images, fault, count: read.count, isAll, ms: performance.now() - start,
    guess: told.guess ?? one.language, error: !fault && told.line || null, ended: '' };
  if (told.status < 0 && !told.late) said.ended = `vp ended by signal ${-told.status}`;
  if (told.reached) said.ended = `it was cut off: ${told.reached}`;
  if (told.late) said.ended = `printing was ended after ${told.late} seconds`;
  if (images.length < said.count || told.stopped) said.ended = beyond(one, said);
  return { said, bytes, sheets: sheetsOf(images, bytes, one.language === 'receipt') };
}

function beyond(one, { images, count, isAll }) {
  if (one.language === 'receipt') return `the first ${MOST_PAPER >> 20} MB of the paper are shown; it prints more`;
  const shown = number(images.length);
  return isAll ? `the first ${shown} of ${number(count)} images are shown`
    : `the first ${shown} images are shown; it prints more than ${number(count)}`;
}

async function printed(one, signal) {
  const { edits } = one;
  const since = typed;
  const start = performance.now();
  try {
    const { said, bytes, sheets } = await images(one, signal);
    const last = performance.now() - start;
    Object.assign(one, { said, paper: bytes, sheets, drawn: edits, error: '', last });
    if (!said.fault && !said.error && sheets.length) one.good = sheets;
    if (!one.bytes.length) one.good = null;
  } catch (error) {
    if (error.name === 'AbortError') return;
    one.error = error instanceof TypeError ? ENDED : error.message;
  }
  if (one !== desk.tab) return;
  paper.drawn = () => {
    paper.drawn = () => {};
    if (since) measured.took.push(performance.now() - since);
    typed = since === typed ? 0 : typed;
  };
  show();
  try {
    if (desk.other) await compareAgain();
    await list(signal);
  } catch (error) {
    if (error.name !== 'AbortError') say(error.message);
  }
}

// Shows what is known of the tab. The paper that was printed without a fault stays, dimmed, where there is none now.
export function show() {
  const { tab } = desk;
  const { said } = tab;
  const isLess = said && (said.fault || said.error || !tab.sheets.length);
  const ghosts = isLess && tab.good !== tab.sheets ? tab.good : null;
  const total = said && said.count > said.images.length && tab.language === 'label'
    ? `${said.isAll ? '' : 'more than '}${number(said.count)}` : '';
  paper.show(tab.sheets, { others: desk.other?.sheets ?? null, ghosts, total });
  tab.fault = said?.fault ? placed(tab, said.fault) : null;
  tab.explained = tab.fault && explained(tab, tab.fault);
  if (said) {
    const count = said.images.length;
    const what = tab.language === 'label' ? plural(said.count, 'image') : plural(count, 'strip');
    find('printed').textContent = count ? `${what}, printed in ${said.ms.toFixed(0)} ms` : '';
    find('dot').textContent = ghosts ? 'dimmed: what was printed before' : count ? '' : 'nothing is printed';
  }
  messages();
  mark();
}

// A fault with the bytes that it is about.
function placed(tab, { number: name, place, text }) {
  const rows = tab.rows.filter(it => it.kind !== 'fault');
  const last = rows[rows.length - 1];
  const hit = name === 'F8' || name === 'F9' ? null : rows.find(it => it.place >= place && it.from < place);
  const from = hit && hit.to >= place ? Math.min(hit.from, place - 1)
    : name === 'F1' ? place - (text.split(' ').length > 3 ? 2 : 1)
      : name === 'F8' && last ? Math.min(last.to, place - 1) : place - 1;
  return { number: name, text, place, from: Math.max(0, from), to: Math.max(place, 0) };
}

// What vp lists

export async function list(signal) {
  const one = desk.tab;
  const { edits } = one;
  const { stream, before } = sent(one);
  const rows = new Rows(one.language, one.bytes, before, find('every').checked);
  const told = await desk.printer.list(stream, one.words, piece => rows.take(piece), signal);
  if (one !== desk.tab || one.edits !== edits) return;
  one.rows = rows.done();
  one.cut = rows.isCut ? `the listing goes on: its first ${number(one.rows.length)} lines are shown`
    : told.late ? `listing was ended after ${told.late} seconds` : told.status > 1 ? told.line : '';
  one.listed = edits;
  show();
  withFault(one);
  listing.set(one.rows);
  find('listing-foot').textContent = one.cut;
  caretMoved();
  if (desk.printer.remarks) {
    const found = await desk.printer.remarks(stream, one.words, signal);
    const own = found.filter(([place]) => place === null || place >= before)
      .map(([place, text]) => [place === null ? null : place - before, text]);
    tell(one, edits, one.language === 'label' ? [...own, ...outside(one.rows)] : own);
  } else {
    await ownRemarks(one, edits, signal);
  }
  one.told = one.edits === edits ? edits : one.told;
}

// Shows remarks of an edition, where that is still the one.
function tell(one, edits, found) {
  if (one !== desk.tab || one.edits !== edits) return;
  const known = new Set();
  const isNew = it => !known.has(it.join()) && known.add(it.join());
  // the fault is said already
  one.remarks = found.filter(it => !/^F\d /.test(it[1]) && isNew(it)).map(([place, text]) => remark(one, place, text));
  listing.draw();
  show();
}

// Remarks of the page itself: those of the listing at once, those of single fields when typing has stopped.
async function ownRemarks(one, edits, signal) {
  const bytes = one.bytes.subarray(0, REMARKED);
  const rows = one.rows.filter(it => it.kind !== 'fault' && it.to <= bytes.length);
  const found = remarksOf({ bytes, rows, language: one.language, lacks: await lacksOf(one) });
  if (bytes.length < one.bytes.length) found.unshift([null, `remarks are on the first ${number(bytes.length)} bytes`]);
  tell(one, edits, found);
  if (one.language !== 'label') return;
  await new Promise(done => { setTimeout(done, PAUSE); });
  if (signal.aborted) return;
  const edges = new Edges((stream, take) => desk.printer.print(stream, one.words, take, signal), boxes);
  const off = await edges.remarks({ rows, bytes, lead: one.lead });
  const place = it => it[0] ?? -1;
  tell(one, edits, [...found, ...off].sort((a, b) => place(a) - place(b)));
}

// What the sheets in use have no character for, by the font's letter.
async function lacksOf({ language, words }) {
  const lacks = {};
  for (const [letter, size] of [['a', [12, 24]], ['b', [9, 17]]].slice(0, language === 'receipt' ? 2 : 1)) {
    const sheet = await desk.printer.sheet(letter, words[letter]);
    if (!sheet) continue;
    if (!known.has(sheet)) known.set(sheet, lacking(sheet, size));
    lacks[letter] = known.get(sheet);
  }
  return lacks;
}

// A remark is on the item that its first byte begins, or stands in.
function remark(one, place, text) {
  const row = place === null ? null : one.rows[rowAt(one.rows, place)];
  const whole = row && row.from <= place && !row.count;
  if (whole) row.said ??= { kind: 'remark', text };
  return { place, text, from: place, to: place === null ? null : whole ? row.to : place + 1 };
}

function withFault(one) {
  const { fault } = one;
  if (!fault || one.cut) return;
  const row = ['F1', 'F8', 'F9'].includes(fault.number) ? null : one.rows.find(it => it.place >= fault.place);
  const text = `${fault.number} ${fault.text}`;
  if (row) row.said = { kind: 'fault', text };
  else one.rows.push({ ...fault, text, kind: 'fault', count: 0, name: 0 });
}

function chooseRow(n, enter) {
  const row = desk.tab.rows[n];
  desk.tab.chosen = row;
  goTo(row.from, row.to, enter);
  dotsOf(row.from);
}

// The tab's stream in another language.
export function readAs(language) {
  const { tab } = desk;
  Object.assign(tab, { language, remarks: [], rows: [] });
  tab.printAnew();
  lookActs.languageChanged();
  print(true);
}

export const lookActs = { readAs, languageChanged() {} };
