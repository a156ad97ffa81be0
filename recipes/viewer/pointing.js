// Pointing: the paper's dots and the bytes that draw them, found by clicks, by the pointer and by the cursor.

import { latin } from './bytes.js';
import { desk, find } from './desk.js';
import { paper } from './looking.js';
import { Origins } from './origins.js';
import { rowAt } from './rows.js';
import { say } from './saying.js';
import { Images, MOST_PAPER, isBlack, rowOf } from './sheets.js';
import { placeIn } from './units.js';
import { caretByte, editor, goTo } from './writing.js';

// The dots of the cursor and the box under the pointer are looked for once these have stood so long, in milliseconds,
// in streams and papers of up to so many bytes.
const STANDS = 120;
const SMALL = { stream: 1 << 18, paper: 4 << 20 };

// what is asked for the cursor and for the pointer: each goes on while the other asks
const askers = { cursor: new AbortController(), pointer: new AbortController() };
let caretTimer = 0;
let overTimer = 0;

async function printOf(stream, it) {
  const images = new Images(Infinity, 2 * MOST_PAPER);
  await desk.printer.print(stream, it.words, piece => images.take(piece), it.signal);
  return images.shown();
}

const rowsOfFronts = (stream, ends, it) => desk.printer.rows(stream, { ...it.words, ends }, it.signal);
const origins = new Origins(printOf, rowsOfFronts, desk.printer.fronts);

/** What is asked of dots is of no use any more. */
export function askNoMore() {
  for (const it of Object.values(askers)) it.abort();
}

function looked(signal) {
  const { bytes, rows, sheets, language, lead, words, edits } = desk.tab;
  return { bytes, rows: rows.filter(it => it.kind !== 'fault'), sheets, language, lead, words, signal,
    edition: JSON.stringify([desk.tab.id, edits, lead, words]) };
}

const isKnown = tab => tab.drawn === tab.edits && tab.listed === tab.edits;
const isSmall = ({ bytes, paper: printed }) => bytes.length <= SMALL.stream && printed.length <= SMALL.paper;

/** The cursor shows its dots, once it stands still. */
export function caretMoved() {
  clearTimeout(caretTimer);
  if (document.activeElement !== editor.area) return;
  if (!isSmall(desk.tab)) return;
  caretTimer = setTimeout(() => { if (document.activeElement === editor.area) dotsOf(caretByte()); }, STANDS);
}

export function caretLeft() {
  clearTimeout(caretTimer);
  askers.cursor.abort();
  paper.setMark(null);
}

/**
 * Looks for what a question finds of the tab as it is; undefined where it was another one meanwhile.
 * @param {'cursor' | 'pointer'} asker
 * @param {(it: object) => Promise<object | null>} question
 */
async function asked(asker, question) {
  const { tab } = desk;
  if (!isKnown(tab)) return undefined;
  askers[asker].abort();
  askers[asker] = new AbortController();
  const { signal } = askers[asker];
  const { edits } = tab;
  let found = null;
  try {
    found = await question(looked(signal));
  } catch (error) {
    // (what can't be found out isn't marked)
    if (error.name !== 'AbortError' && !(error instanceof TypeError)) say(error.message);
  }
  return signal.aborted || tab !== desk.tab || edits !== tab.edits ? undefined : found;
}

export async function dotsOf(byte) {
  if (desk.other) return;
  const found = await asked('cursor', it => origins.draws(it, byte));
  if (found !== undefined) paper.setMark(found);
}

/** A click on the paper goes to what drew it. */
export async function chooseDot(dot) {
  const { tab } = desk;
  const sheet = tab.sheets[dot.sheet];
  if (!isKnown(tab) || !sheet || rowOf(sheet, dot.y) < 0) return;
  clearTimeout(overTimer);
  find('dot').textContent = 'looking for what drew it…';
  const drew = await asked('cursor', it => origins.drew(it, dot));
  if (tab === desk.tab) tellDot(dot);
  if (!drew) return;
  tab.chosen = drew;
  goTo(drew.from, drew.to, true);
  dotsOf(drew.from);
}

/** The pointer over the paper shows the box of what drew it, and its commands. */
export function hoverDot(dot) {
  clearTimeout(overTimer);
  const sheet = dot && desk.tab.sheets[dot.sheet];
  if (!sheet || rowOf(sheet, dot.y) < 0 || desk.other || !isSmall(desk.tab)) {
    paper.setHover(null);
    return;
  }
  overTimer = setTimeout(async () => {
    const drew = await asked('pointer', it => origins.drew(it, dot));
    if (drew === undefined) return;
    const box = drew && await asked('pointer', it => origins.draws(it, drew.from));
    if (box === undefined) return;
    paper.setHover(box);
    if (drew) tellDot(dot, latin.decode(desk.tab.bytes.subarray(drew.from, Math.min(drew.to, drew.from + 60))));
  }, STANDS);
}

/** The pointer over the stream, or its listing, shows the box of what is drawn there; null where it is over none. */
export function hoverByte(byte) {
  clearTimeout(overTimer);
  if (byte === null || desk.other || !isSmall(desk.tab) || rowAt(desk.tab.rows, byte) < 0) {
    paper.setHover(null);
    return;
  }
  overTimer = setTimeout(async () => {
    const box = await asked('pointer', it => origins.draws(it, byte));
    if (box !== undefined) paper.setHover(box);
  }, STANDS);
}

export function tellDot(dot, what = '') {
  if (!dot) {
    find('dot').textContent = '';
    return;
  }
  const sheet = desk.tab.sheets[dot.sheet];
  const missing = !sheet || dot.x >= sheet.width || dot.y >= sheet.height || rowOf(sheet, dot.y) < 0;
  const which = paper.placed.length > 1 ? `image ${dot.sheet + 1}: ` : '';
  const [x, y] = [dot.x, dot.y].map(it => placeIn(it, desk.dpmm, paper.unit));
  const colour = missing ? 'no paper' : isBlack(sheet, dot.x, dot.y) ? 'black' : 'white';
  const by = what ? ` ${what.replace(/[\0-\x1f\x7f-\x9f]+/g, ' ')}` : '';
  find('dot').textContent = `${which}x ${dot.x}, y ${dot.y}: ${colour} (${x}, ${y} ${paper.unit})${by}`;
}
