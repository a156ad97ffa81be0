// What a paper's stream says besides its dots: remarks as the page makes them, and which bytes drew a dot.

import { Rows } from '../../recipes/viewer/rows.js';
import { Edges } from '../../recipes/viewer/edges.js';
import { Origins, isInk } from '../../recipes/viewer/origins.js';
import { lacking, remarksOf } from '../../recipes/viewer/remarks.js';
import { Images, MOST_PAPER, sheetsOf as sheetsOfImages } from '../../recipes/viewer/sheets.js';
import { rowsOfFronts } from '../../recipes/web/vp.js';
import { Clock, Reached, fed, tooMuch } from './bounds.js';
import { number } from './errors.js';
import { listed } from './listing.js';
import { machineOf, sheetsOf } from './machines.js';

// On so many bytes of a stream remarks are made.
const REMARKED = 1 << 18;
const CELLS = { a: [12, 24], b: [9, 17] };
// So many fronts of a receipt are asked for at once.
const FRONTS = 64;

// What is found of papers, each once.
const found = new WeakMap();
const once = (paper, name, make) => {
  if (!found.has(paper)) found.set(paper, {});
  const own = found.get(paper);
  own[name] ??= make();
  return own[name];
};

const rowsOn = paper => once(paper, 'rows', async () => {
  const rows = new Rows(paper.language, paper.stream, 0, false);
  const { language, whole, bounds: { mostSeconds } } = paper.settings;
  await listed(paper.stream, { language, whole, offsets: true, mostSeconds }, it => rows.take(it));
  return rows.done();
});

// Gives what a stream prints with a paper's settings to `take`, while that answers true.
async function printWith(paper, stream, take) {
  const machine = await machineOf(paper.settings);
  try {
    for await (const out of fed(machine, stream, new Clock(paper.settings.bounds.mostSeconds))) if (!take(out)) return;
  } catch (error) {
    throw error instanceof Reached ? tooMuch(error, machine.taken, null) : error;
  }
}

/** What a printer would print besides, or otherwise. */
export const remarksOn = paper => once(paper, 'remarks', async () => {
  const { language } = paper;
  const bytes = paper.stream.subarray(0, REMARKED);
  const rows = (await rowsOn(paper)).filter(it => it.to <= bytes.length);
  const lacks = Object.fromEntries(Object.entries(await sheetsOf(paper.settings))
    .map(([letter, sheet]) => [letter, lacking(sheet, CELLS[letter])]));
  const all = remarksOf({ bytes, rows, language, lacks });
  if (language === 'label') {
    const edges = new Edges((stream, take) => printWith(paper, stream, take), new Map());
    all.push(...await edges.remarks({ rows, bytes, lead: '' }));
  }
  if (bytes.length < paper.stream.length) all.push([null, `remarks are on the first ${number(bytes.length)} bytes`]);
  return all.sort((one, other) => (one[0] ?? -1) - (other[0] ?? -1)).map(([byte, text]) => ({ byte, text }));
});

const lookedAt = paper => once(paper, 'looked', async () => {
  const all = new Images();
  all.take(paper.toPBM());
  const { bytes, images } = all.shown();
  return { bytes: paper.stream, rows: await rowsOn(paper), language: paper.language, lead: '', edition: 'paper',
    sheets: sheetsOfImages(images, bytes, paper.language === 'receipt') };
});

const originsOn = paper => once(paper, 'origins', () => new Origins(async stream => {
  const some = new Images(Infinity, 2 * MOST_PAPER);
  await printWith(paper, stream, piece => some.take(piece));
  return some.shown();
}, async (stream, ends) => rowsOfFronts(await machineOf(paper.settings), stream, ends), FRONTS));

/**
 * The bytes that drew a dot: exact where they were printed alone and have ink there; else they are of the line that has
 * the dot, or of the field that is nearest to it.
 */
export async function drewOf(paper, { x, y, image, top, above }) {
  const looked = await lookedAt(paper);
  const isReceipt = paper.language === 'receipt';
  const dot = isReceipt ? { sheet: 0, x, y } : { sheet: image, x, y: y - top };
  const origins = originsOn(paper);
  const drew = await origins.drew(looked, dot);
  if (!drew) return null;
  const ink = await origins.draws(looked, drew.from);
  const isOwn = ink?.sheet === dot.sheet;
  const y0 = (isReceipt ? 0 : top) - above;
  const box = isOwn ? { x: ink.x, y: ink.y + y0, width: ink.width, height: ink.height } : null;
  return { from: drew.from, to: drew.to, bytes: paper.stream.slice(drew.from, drew.to), box,
    exact: Boolean(isOwn && ink.bits && isInk(ink, dot.x, dot.y)) };
}
