// Saving: the stream, and its paper as files or on a printer of your own, in its true size.

import { desk, find, number, save } from './desk.js';
import { pdf, png, svg } from './files.js';
import { paper } from './looking.js';
import { say } from './saying.js';
import { rowOf } from './sheets.js';
import { fileName, saveStream } from './tabs.js';

// So many dots go to a printer at once, and a page is so long at most, in millimetres.
const MOST_DOTS = 48e6;
const LONGEST = 2000;
const printRules = new CSSStyleSheet();
document.adoptedStyleSheets.push(printRules);

const stem = () => fileName(desk.tab).replace(/\.[^.]*$/, '').replace(/^\.*$/, '') || 'stream';

function imageOf(sheet) {
  const blank = new Uint8Array(sheet.stride);
  const rows = y => {
    const at = rowOf(sheet, y);
    return at < 0 ? blank : sheet.bytes.subarray(at, at + sheet.stride);
  };
  return { width: sheet.width, height: sheet.height, rows };
}

// The image in the middle of the window, and the name of its file.
function current() {
  const { sheets } = desk.tab;
  const n = Math.min(paper.current(), sheets.length - 1);
  return n < 0 ? null : { image: imageOf(sheets[n]), name: sheets.length > 1 ? `${stem()}-${n + 1}` : stem() };
}

// What isn't in a file, since it isn't shown, is said.
function sayRest() {
  if (desk.tab.said?.ended) say(`Of the file that was saved: ${desk.tab.said.ended}; recipes/show saves all of it`);
}

async function saveOne(end, made) {
  const one = current();
  if (!one) return;
  save(await made(one.image, desk.dpmm), `${one.name}.${end}`);
  sayRest();
}

find('save-stream').onclick = () => saveStream(desk.tab);
find('save-png').onclick = () => saveOne('png', png);
find('save-svg').onclick = () => saveOne('svg', svg);
find('save-pdf').onclick = async () => {
  if (!desk.tab.sheets.length) return;
  save(await pdf(desk.tab.sheets.map(imageOf), desk.dpmm), `${stem()}.pdf`);
  sayRest();
};
find('save-pbm').onclick = () => {
  save(desk.tab.paper, `${stem()}.pbm`);
  sayRest();
};

// The paper for a printer: each image is a page of its own size, in which each dot stands.

function pieceOf({ width, rows }, from, to) {
  const canvas = document.createElement('canvas');
  Object.assign(canvas, { width, height: to - from });
  const context = canvas.getContext('2d', { alpha: false });
  const seen = context.createImageData(width, to - from);
  const pixels = new Uint32Array(seen.data.buffer);
  for (let y = from, at = 0; y < to; y++) {
    const row = rows(y);
    for (let x = 0; x < width; x++) pixels[at++] = row[x >> 3] >> (7 - (x & 7)) & 1 ? 0xff000000 : 0xffffffff;
  }
  context.putImageData(seen, 0, 0);
  return canvas;
}

function fillPages() {
  const { sheets } = desk.tab;
  const pages = [];
  const rules = [];
  let left = MOST_DOTS;
  sheets.map(imageOf).forEach((image, n) => {
    const each = Math.min(LONGEST * desk.dpmm, 8000);
    for (let from = 0; from < image.height && left > 0; from += each) {
      const to = Math.min(image.height, from + each);
      left -= image.width * (to - from);
      const canvas = pieceOf(image, from, to);
      const [wide, high] = [image.width, to - from].map(it => `${it / desk.dpmm}mm`);
      const name = `paper-${n}-${from}`;
      Object.assign(canvas.style, { width: wide, height: high, page: name });
      rules.push(`@page ${name} { size: ${wide} ${high}; margin: 0 }`);
      pages.push(canvas);
    }
  });
  printRules.replaceSync(rules.join('\n'));
  find('print-out').replaceChildren(...pages);
  if (left <= 0) say(`the first ${number(pages.length)} pages are printed; recipes/show saves all of the paper`);
}

find('print').onclick = () => window.print();
addEventListener('beforeprint', fillPages);
addEventListener('afterprint', () => find('print-out').replaceChildren());
