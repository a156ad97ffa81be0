// Goldens: paper that was accepted, beside the test as a PNG and a JSON, and what is printed beside it.
//
// The PNG has all images under each other. The JSON has what it doesn't show: where each image ends, the line of the
// fault, what a printer would print besides, and the stream, packed as in links.

import { createHash, randomUUID } from 'node:crypto';
import { existsSync, mkdirSync, readFileSync, renameSync, rmSync, writeFileSync } from 'node:fs';
import { join } from 'node:path';
import { pathToFileURL } from 'node:url';
import { inflateSync } from 'node:zlib';
import { joined } from '../../recipes/viewer/bytes.js';
import { fragmentOf, fromLink, toLink } from '../../recipes/viewer/packing.js';
import { Compared } from './comparing.js';
import { here } from './here.js';
import { Picture, VpError } from './index.js';

// How long a name of a file may be without its end, and of how many bytes a stream is kept.
const [MOST_NAME, MOST_STREAM] = [100, 1 << 18];
const SIGNATURE = '89504e470d0a1a0a';

/** Whether this runs where nothing is accepted. */
export const isInCI = () => !['', '0', 'false'].includes(process.env.CI ?? '');

/** A name for files, of any text: of letters, digits and a few signs, other texts with a sum of theirs. */
export function fileName(text) {
  const plain = text.replace(/[^\w.+=@-]/g, '_').replace(/^[.-]+/, '').slice(0, MOST_NAME) || 'paper';
  return plain === text ? plain : `${plain}-${createHash('sha256').update(text).digest('hex').slice(0, 8)}`;
}

// Writes a file whole or not at all.
function keep(folder, name, data) {
  mkdirSync(folder, { recursive: true });
  const part = join(folder, `.vp-${randomUUID()}`);
  try {
    writeFileSync(part, data);
    renameSync(part, join(folder, name));
  } catch (error) {
    rmSync(part, { force: true });
    throw error;
  }
}

/** All images as one, on paper as wide as the widest. */
function stacked(images) {
  const width = Math.max(...images.map(it => it.width));
  const stride = Math.ceil(width / 8);
  const rows = new Uint8Array(stride * images.reduce((sum, it) => sum + it.height, 0));
  let at = 0;
  for (const image of images) {
    for (let y = 0; y < image.height; y++, at += stride) rows.set(image.row(y), at);
  }
  return new Picture(width, rows.length / stride, rows);
}

const broken = file => new VpError('golden',
  `${file} isn't as it was written here: remove it and accept it again, or take it back`);

/** The rows of a PNG that was made of stacked(); an error where another program wrote it. */
function unstacked(file) {
  if (!existsSync(file)) throw broken(file);
  const data = readFileSync(file);
  const bytes = new Uint8Array(data);
  const view = new DataView(bytes.buffer);
  const wrong = broken(file);
  if (data.toString('hex', 0, 8) !== SIGNATURE || data.toString('hex', 24, 29) !== '0100000000') throw wrong;
  const [width, height] = [view.getUint32(16), view.getUint32(20)];
  const stride = Math.ceil(width / 8);
  const packed = [];
  for (let at = 8; at + 12 <= bytes.length; at += 12 + view.getUint32(at)) {
    const isDots = data.toString('latin1', at + 4, at + 8) === 'IDAT';
    if (isDots) packed.push(bytes.subarray(at + 8, at + 8 + view.getUint32(at)));
  }
  const dots = inflateSync(joined(...packed));
  const rest = 0xff << (8 * stride - width) & 0xff;
  const rows = new Uint8Array(stride * height);
  for (let y = 0; y < height; y++) {
    const at = y * (stride + 1);
    if (dots[at] !== 0) throw wrong;
    for (let x = 0; x < stride; x++) rows[y * stride + x] = ~dots[at + 1 + x] & (x === stride - 1 ? rest : 255);
  }
  return { width, height, rows };
}

function cut({ rows, width }, sizes) {
  const stride = Math.ceil(width / 8);
  let at = 0;
  return sizes.map(text => {
    const [wide, high] = text.split(' x ').map(Number);
    const own = Math.ceil(wide / 8);
    const image = new Uint8Array(own * high);
    for (let y = 0; y < high; y++, at += stride) image.set(rows.subarray(at, at + own), y * own);
    return new Picture(wide, high, image);
  });
}

/** What is kept of a paper beside its dots. */
async function told(paper) {
  const { language, settings, stream } = paper;
  const isKept = stream && stream.length <= MOST_STREAM;
  return { language, width: settings.width, images: paper.images.map(it => `${it.width} x ${it.height}`),
    fault: paper.fault ? String(paper.fault) : null,
    remarks: stream ? [...new Set((await paper.remarks()).map(it => it.text))] : [],
    stream: isKept ? await toLink(stream) : null };
}

/** Why a paper isn't all that its stream would print, in words, unless that was accepted before. */
function lacksOf(now, known) {
  const isNew = it => !known?.remarks.includes(it);
  const said = [];
  if (now.fault && now.fault !== known?.fault) said.push(`it ends in a fault, ${now.fault}`);
  const remarks = now.remarks.filter(isNew);
  if (remarks.length) said.push(`of what a printer would print it lacks: ${remarks.slice(0, 9).join('; ')}`);
  return said.join('; ');
}

// What was accepted in this process, by its file.
const accepted = new Map();

export class Golden {
  /**
   * @param {string} folder  where goldens of a test's file stand
   * @param {string} name  the test's, and its paper's
   * @param {string} differs  where pictures of differences go
   */
  constructor(folder, name, differs) {
    this.folder = folder;
    this.name = fileName(name);
    this.differs = differs;
    this.png = join(folder, `${this.name}.png`);
    this.json = join(folder, `${this.name}.json`);
  }

  /** What is kept beside the dots; null where nothing was accepted yet. */
  known() {
    if (!existsSync(this.json)) return null;
    try {
      const known = JSON.parse(readFileSync(this.json, 'utf-8'));
      if ([known.images, known.remarks].every(Array.isArray)) return known;
    } catch (error) {
      if (!(error instanceof SyntaxError)) throw error;
    }
    throw broken(this.json);
  }

  /** Keeps a paper as what is expected from now on; answers why it doesn't, or ''. */
  async accept(paper, isIncomplete) {
    const sum = createHash('sha256').update(paper.toPBM()).digest('hex');
    if ((accepted.get(this.json) ?? sum) !== sum) {
      return `${this.name} was accepted already: a second paper of a test has a name, as toMatchPaper('second')`;
    }
    const now = await told(paper);
    const lacks = isIncomplete ? '' : lacksOf(now, this.known());
    if (lacks) return `not accepted: ${lacks}; toMatchPaper({ incomplete: true }) takes it over`;
    accepted.set(this.json, sum);
    if (paper.images.length) keep(this.folder, `${this.name}.png`, await stacked(paper.images).toPNG());
    else rmSync(this.png, { force: true });
    keep(this.folder, `${this.name}.json`, `${JSON.stringify(now, null, 2)}\n`);
    return '';
  }

  /** What differs from what is expected, as lines, or none; pictures stand then where they are said to. */
  async difference(paper, flag) {
    const known = this.known();
    if (!known) return [`no paper was accepted yet: ${flag} keeps it as ${this.png}`];
    const now = await told(paper);
    const lines = [];
    const expected = known.images.length ? cut(unstacked(this.png), known.images) : [];
    const compared = new Compared(expected, paper.images);
    if (!compared.isSame) lines.push(compared.said, ...await this.pictured(compared, paper, known));
    if (known.fault !== now.fault) {
      lines.push(`the fault is to be ${known.fault ?? 'none'} and is ${now.fault ?? 'none'}`);
    }
    const lists = [known, now].map(it => it.remarks.join('; ') || 'nothing');
    if (lists[0] !== lists[1]) lines.push(`what isn't drawn is to be ${lists[0]} and is ${lists[1]}`);
    if (lines.length) lines.push(`expected is ${this.png}; ${flag} takes over what is printed now`);
    else this.forget();
    return lines;
  }

  // A picture of what differs, and a page with a link that opens both.
  async pictured(compared, paper, known) {
    keep(this.differs, `${this.name}.png`, await compared.picture());
    const lines = [`see ${join(this.differs, `${this.name}.png`)}`];
    if (!paper.stream) return lines;
    const old = known.stream ? [{ name: 'expected', language: known.language, width: known.width,
      bytes: await fromLink(known.stream, MOST_STREAM) }] : [];
    const { language, stream: bytes, settings: { width } } = paper;
    const streams = [{ name: 'printed', language, width, bytes }, ...old];
    const link = (process.env.VP_PAGE || `${here}viewer.html`) + await fragmentOf(streams);
    keep(this.differs, `${this.name}.html`, pageOf(this.name, compared.said, link, old.length > 0));
    lines.push(`${pathToFileURL(join(this.differs, `${this.name}.html`)).href} opens both in the page`);
    return lines;
  }

  // What differed once doesn't any more.
  forget() {
    for (const end of ['png', 'html']) rmSync(join(this.differs, `${this.name}.${end}`), { force: true });
  }
}

const plain = text => text.replace(/[&<>"]/g, it => `&#${it.charCodeAt(0)};`);

const pageOf = (name, said, link, isBoth) => `<!DOCTYPE html>
<html lang="en"><meta charset="utf-8"><title>${plain(name)}</title>
<style>body { font: 1rem sans-serif; margin: 2rem } img { image-rendering: pixelated; max-width: 100% }</style>
<h1>${plain(name)}</h1>
<p>${plain(said)}</p>
<p><a href="${plain(link)}">Open ${isBoth ? 'both streams' : 'the stream'} in the page</a></p>
<p>Expected, printed, and both: red is missing, blue is new.</p>
<img src="${encodeURIComponent(name)}.png" alt="expected, printed, and both over each other">
`;
