// Two papers side by side: what differs, in words and as a picture. Images are aligned, so that a line of a receipt
// that was put in or left out moves no other.

import { latin } from '../../recipes/viewer/bytes.js';
import { colouredPng } from '../../recipes/viewer/files.js';
import { number, plural } from './errors.js';

// What a picture shows, by the places of the names.
const PALETTE = { white: [255, 255, 255], black: [0, 0, 0], outside: [214, 218, 224], same: [150, 150, 150],
  lost: [214, 30, 50], added: [0, 90, 220], near: [255, 240, 170] };
const COLOUR = Object.fromEntries(Object.keys(PALETTE).map((name, n) => [name, n]));
// Dots between the parts of a picture, and to where around a dot that differs the ground is yellow; rows at most, and
// those above the first difference where they are more.
const [GAP, HALO, MOST_ROWS, ROWS_BEFORE] = [16, 6, 4000, 200];
// Where several images changed, so many bytes are compared to find which became which.
const MOST_COMPARED = 1 << 25;
const BITS = Uint8Array.from({ length: 256 }, (_, n) => n.toString(2).replaceAll('0', '').length);

const isSame = (one, other) => one.width === other.width && one.height === other.height &&
  one.rows.every((it, n) => it === other.rows[n]);

const inkOf = rows => rows.reduce((sum, it) => sum + BITS[it], 0);

/** How much two images differ: their other dots, and two for each row that only one has. */
function weight(one, other) {
  if (!one || !other) return inkOf((one ?? other).rows) + 2 * (one ?? other).height;
  if (one.width !== other.width) return Infinity;
  const [short, long] = one.height < other.height ? [one, other] : [other, one];
  let sum = 2 * (long.height - short.height);
  for (let at = 0; at < long.rows.length; at++) sum += BITS[long.rows[at] ^ (short.rows[at] ?? 0)];
  return sum;
}

const keyOf = image => `${image.width} ${latin.decode(image.rows)}`;

/** The places of images that are there once in both, as many as keep their order: pairs of numbers. */
function anchors(old, now) {
  const places = images => {
    const found = new Map();
    images.map(keyOf).forEach((key, n) => found.set(key, found.has(key) ? -1 : n));
    return found;
  };
  const others = places(now);
  const both = [...places(old)].map(([key, n]) => [n, others.get(key) ?? -1]).filter(([n, m]) => n >= 0 && m >= 0);
  // the longest list whose second numbers rise: of each length the end that is least, and what came before it
  const ends = [];
  const before = new Map();
  for (const pair of both) {
    let [low, high] = [0, ends.length];
    while (low < high) {
      const middle = (low + high) >> 1;
      if (ends[middle][1] < pair[1]) low = middle + 1;
      else high = middle;
    }
    before.set(pair, ends[low - 1]);
    ends[low] = pair;
  }
  const kept = [];
  for (let it = ends[ends.length - 1]; it; it = before.get(it)) kept.push(it);
  return kept.reverse();
}

/** Images side by side, each beside the one that it became, with null where it has none: what differs least. */
function aligned(old, now) {
  const pairs = [];
  let [from, start] = [0, 0];
  for (const [n, m] of [...anchors(old, now), [old.length, now.length]]) {
    pairs.push(...between(old.slice(from, n), now.slice(start, m)));
    if (n < old.length) pairs.push([old[n], now[m]]);
    [from, start] = [n + 1, m + 1];
  }
  return pairs;
}

function between(old, now) {
  let [first, last] = [0, 0];
  const both = Math.min(old.length, now.length);
  while (first < both && isSame(old[first], now[first])) first++;
  while (last < both - first && isSame(old[old.length - 1 - last], now[now.length - 1 - last])) last++;
  const [lost, added] = [old.slice(first, old.length - last), now.slice(first, now.length - last)];
  const sizeOf = images => images.reduce((sum, it) => sum + it.rows.length, 0);
  const isMuch = sizeOf(lost) * added.length + sizeOf(added) * lost.length > MOST_COMPARED;
  const middle = isMuch ? Array.from({ length: Math.max(lost.length, added.length) },
    (_, n) => [lost[n] ?? null, added[n] ?? null]) : paired(lost, added);
  const same = (images, others) => images.map((it, n) => [it, others[n]]);
  return [...same(old.slice(0, first), now), ...middle,
    ...same(old.slice(old.length - last), now.slice(now.length - last))];
}

function paired(old, now) {
  const [gone, come] = [old, now].map(images => images.map(it => weight(it, null)));
  const best = Array.from({ length: old.length + 1 }, () => new Float64Array(now.length + 1));
  const way = Array.from({ length: old.length + 1 }, () => new Uint8Array(now.length + 1));
  for (let i = old.length; i >= 0; i--) {
    for (let j = now.length; j >= 0; j--) {
      const ways = [i < old.length && j < now.length ? weight(old[i], now[j]) + best[i + 1][j + 1] : Infinity,
        i < old.length ? gone[i] + best[i + 1][j] : Infinity, j < now.length ? come[j] + best[i][j + 1] : Infinity];
      best[i][j] = i === old.length && j === now.length ? 0 : Math.min(...ways);
      way[i][j] = ways.indexOf(best[i][j]);
    }
  }
  const pairs = [];
  for (let [i, j] = [0, 0]; i < old.length || j < now.length;) {
    const [down, right] = [[1, 1], [1, 0], [0, 1]][way[i][j]];
    pairs.push([down ? old[i] : null, right ? now[j] : null]);
    [i, j] = [i + down, j + right];
  }
  return pairs;
}

/** A row of an image: a colour for each dot, of as many as a picture's part has; of null none is paper. */
function dotsOf(image, y, width) {
  const dots = new Uint8Array(width).fill(COLOUR.outside);
  if (!image || y >= image.height) return dots;
  const row = image.row(y);
  for (let x = 0; x < image.width; x++) dots[x] = row[x >> 3] >> (7 - (x & 7)) & 1 ? COLOUR.black : COLOUR.white;
  return dots;
}

/** Sets what is near to what is set, along a line of a mask. */
function spread(mask, from, step, count) {
  const near = new Uint8Array(count);
  for (const [first, turn] of [[0, 1], [count - 1, -1]]) {
    let left = 0;
    for (let n = first; n >= 0 && n < count; n += turn) {
      if (mask[from + n * step]) left = HALO + 1;
      if (left > 0) near[n] = 1;
      left--;
    }
  }
  for (let n = 0; n < count; n++) mask[from + n * step] = near[n];
}

export class Compared {
  /**
   * @param {object[]} expected  images
   * @param {object[]} got
   */
  constructor(expected, got) {
    this.expected = expected;
    this.got = got;
    this.width = Math.max(8, ...[...expected, ...got].map(it => it.width));
    this.rows = [];
    // how many dots differ, in which rows of what is printed; images that are lost or added, and where
    this.dots = 0;
    this.changed = [];
    this.lost = [];
    this.added = [];
    // the first row of the picture with a difference
    this.first = -1;
    this.align();
  }

  align() {
    let at = 0;
    for (const [one, other] of aligned(this.expected, this.got)) {
      const high = Math.max(one?.height ?? 0, other?.height ?? 0);
      const isPlain = one && other && isSame(one, other);
      if (!isPlain && this.first < 0) this.first = this.rows.length;
      for (let y = 0; y < high; y++) {
        this.rows.push([one, other, y, isPlain]);
        if (isPlain || !one || !other) continue;
        const [old, now] = [one, other].map(it => dotsOf(it, y, this.width));
        const isOther = (it, x) => it !== now[x] && (it === COLOUR.black || now[x] === COLOUR.black);
        const count = old.reduce((sum, it, x) => (isOther(it, x) ? sum + 1 : sum), 0);
        if (count) this.changed.push(at + Math.min(y, other.height));
        this.dots += count;
      }
      if (!one || !other) (one ? this.lost : this.added).push([at, high]);
      at += other?.height ?? 0;
    }
  }

  get isSame() { return this.first < 0; }

  /** What differs, in words. */
  get said() {
    const said = [];
    if (this.dots) {
      said.push(`${plural(this.dots, 'dot')} differ${this.dots === 1 ? 's' : ''}, in ${rowsOf(this.changed)}`);
    }
    for (const [what, images] of Object.entries({ added: this.added, missing: this.lost })) {
      if (!images.length) continue;
      const high = plural(images.reduce((sum, it) => sum + it[1], 0), 'row');
      said.push(`${plural(images.length, 'image')} of ${high}${images.length > 1 ? ' in all' : ''} ` +
        `${images.length > 1 ? 'are' : 'is'} ${what}, at row ${number(images[0][0])}`);
    }
    const [tall, wide] = [images => images.reduce((sum, it) => sum + it.height, 0), images => images[0]?.width];
    if (tall(this.expected) !== tall(this.got)) {
      said.push(`${plural(tall(this.expected), 'row')} are expected and ${number(tall(this.got))} printed`);
    }
    if (this.expected.length && this.got.length && wide(this.expected) !== wide(this.got)) {
      said.push(`a width of ${wide(this.expected)} dots is expected and ${wide(this.got)} printed`);
    }
    if (!said.length && !this.isSame) said.push('images end in other rows');
    return said.join('; ');
  }

  /** A PNG: what is expected, what is printed, and both over each other. */
  async picture() {
    const top = this.rows.length > MOST_ROWS ? Math.max(0, this.first - ROWS_BEFORE) : 0;
    const rows = this.rows.slice(top, top + MOST_ROWS);
    const [part, wide] = [this.width + GAP, 3 * this.width + 2 * GAP];
    const data = new Uint8Array(Math.max(1, rows.length) * (wide + 1)).fill(COLOUR.outside);
    const near = new Uint8Array(rows.length * this.width);
    rows.forEach(([one, other, y, isPlain], n) => {
      const at = n * (wide + 1);
      const [old, now] = [one, other].map(it => dotsOf(it, y, this.width));
      data[at] = 0;
      data.set(old, at + 1);
      data.set(now, at + 1 + part);
      for (let x = 0; x < this.width; x++) {
        const [was, is] = [old[x] === COLOUR.black, now[x] === COLOUR.black];
        const isPaper = old[x] !== COLOUR.outside || now[x] !== COLOUR.outside;
        const colour = was && is ? COLOUR.same : was ? COLOUR.lost : is ? COLOUR.added : COLOUR.white;
        if (isPaper) data[at + 1 + 2 * part + x] = colour;
        if (!isPlain && old[x] !== now[x]) near[n * this.width + x] = 1;
      }
    });
    this.halo(data, 1 + 2 * part, wide + 1, near);
    return new Uint8Array(await (await colouredPng({ width: wide, height: Math.max(1, rows.length), data,
      palette: Object.values(PALETTE) }, 8)).arrayBuffer());
  }

  // The ground around dots that differ.
  halo(data, from, stride, near) {
    const high = near.length / this.width;
    for (let y = 0; y < high; y++) spread(near, y * this.width, 1, this.width);
    for (let x = 0; x < this.width; x++) spread(near, x, this.width, high);
    for (let y = 0; y < high; y++) {
      for (let x = 0; x < this.width; x++) {
        const place = y * stride + from + x;
        if (near[y * this.width + x] && data[place] === COLOUR.white) data[place] = COLOUR.near;
      }
    }
  }
}

const rowsOf = rows => (rows[0] === rows[rows.length - 1] ? `row ${number(rows[0])}`
  : `rows ${number(rows[0])} to ${number(rows[rows.length - 1])}`);
