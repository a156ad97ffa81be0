// Which bytes drew a dot, and which dots bytes draw: found by printing parts of the stream.
//
// Of a label each field is printed by itself, over white and over black, with what was set before it: its ink is where
// it changes one of them. Of a receipt fronts are printed: what a front prints stands, so the bytes between two fronts
// are those of the strips that the longer one has more. Fronts of a page are ended by FF.
//
// Bytes are {from, to}; dots are {sheet, x, y, width, height}, and of a label also `bits` in rows of `stride` bytes.

import { joined } from './bytes.js';
import { CONTENT } from './remarks.js';
import { MOST_PAPER, isBlack, rowOf, sheetsOf, stripOf } from './sheets.js';
import { rowAt } from './rows.js';

const SETTINGS = ['^PW', '^LL', '^LH', '^LR', '^PO', '^PM', '^CF', '^FW', '^BY'];
const AT_FIRST = '^PW832^LL1218^LH0,0^LRN^PON^PMN^CF0,9,5^FWN^BY2,3.0,10';
// What counts as it stands at the format's end, not where a field is closed.
const AT_END = ['^PW', '^LL', '^PO', '^PM'];
const MOST_COPIES = 99_999_999;
// So far from a dot the next one is looked for, so many fronts are printed at once, and so much paper for one click.
const NEAR = 12;
const FRONTS = 4;
const MOST_INK = 192 << 20;
const FORM_FEED = 0x0c;

// The formats of a label: how many images each prints, and its fields with what was set before each.
function formatsOf(rows) {
  const formats = [];
  let set = new Map();
  let open = null;
  let field = null;
  const begin = row => { field = { start: row.to, from: -1, to: 0, set, has: false }; };
  for (const row of rows) {
    if (row.kind === 'skip' || row.text[0] !== '^') continue;
    const name = row.text.slice(0, 3);
    if (!open) {
      if (name !== '^XA') continue;
      open = { fields: [], copies: 1, end: null };
      begin(row);
      continue;
    }
    if (CONTENT.includes(name)) field.has = true;
    if (SETTINGS.includes(name)) set = new Map(set).set(name, row);
    else if (name === '^PQ') open.copies = Math.min(MOST_COPIES, Number(/^\^PQ(\d+)/.exec(row.text)?.[1] ?? 1) || 1);
    else if (row.kind === 'cmd' && field.from < 0 && name !== '^XZ') field.from = row.from;
    if (name !== '^FS' && name !== '^XZ') continue;
    field.to = name === '^FS' ? row.to : row.from;
    if (field.has) open.fields.push(field);
    begin(row);
    if (name === '^XZ') {
      formats.push({ ...open, end: set, images: open.fields.length ? open.copies : 0 });
      open = null;
    }
  }
  return formats;
}

export class Origins {
  // `print` gives the paper of a stream as {bytes, images}, `count` how many rows fronts of it print, `fronts` of which
  // are asked for at once. What is looked at is {bytes, rows, sheets, language, lead,
  // edition}: `lead` is what is set before it, and the edition another one where anything is.
  constructor(print, count, fronts) {
    Object.assign(this, { print, count, fronts });
    this.forget(null);
  }

  forget(edition) {
    if (edition === this.edition) return;
    Object.assign(this, { edition, formats: null, inks: new Map(), rowsOf: new Map() });
  }

  // The bytes that drew a dot; null where none is found.
  async drew(it, dot) {
    if (!it.rows.length) return null;
    this.forget(it.edition);
    return it.language === 'label' ? this.field(it, dot) : this.line(it, dot);
  }

  // The dots that the bytes around a place draw.
  async draws(it, byte) {
    const n = rowAt(it.rows, byte);
    if (n < 0) return null;
    this.forget(it.edition);
    return it.language === 'label' ? this.fieldDots(it, byte) : this.lineDots(it, it.rows[n], n);
  }

  // Labels

  formatOf(it, image) {
    this.formats ??= formatsOf(it.rows);
    let first = 0;
    for (const format of this.formats) {
      if (image < first + format.images) return { format, first };
      first += format.images;
    }
    return null;
  }

  async field(it, { sheet, x, y }) {
    const found = this.formatOf(it, sheet);
    if (!found) return null;
    const { fields } = found.format;
    const inks = await this.inksOf(it, found.format, fields, it.sheets[sheet]);
    let best = null;
    let far = Infinity;
    fields.forEach((field, n) => {
      const ink = inks[n];
      if (!ink) return;
      const away = isInk(ink, x, y) ? 0 : apart(ink, x, y);
      const value = away === 0 ? (isInk(ink, x, y) ? -1 : ink.width * ink.height) : 1e9 + away;
      if (away <= NEAR && value <= far) { best = field; far = value; }
    });
    return best && { from: best.from, to: best.to };
  }

  async fieldDots(it, byte) {
    this.formats ??= formatsOf(it.rows);
    let first = 0;
    for (const format of this.formats) {
      const field = format.fields.find(one => one.start <= byte && byte < one.to);
      const sheet = it.sheets?.[first];
      if (field && sheet) {
        const [ink] = await this.inksOf(it, format, [field], sheet);
        return ink && { sheet: first, ...ink };
      }
      first += format.images;
    }
    return null;
  }

  // The ink of these fields, each printed twice.
  async inksOf(it, format, fields, sheet) {
    const size = 2 * sheet.stride * sheet.height;
    const missing = fields.filter(field => !this.inks.has(field)).slice(-Math.max(1, Math.floor(MOST_INK / size)));
    const each = Math.max(1, Math.floor(MOST_PAPER / 2 / size));
    for (let at = 0; at < missing.length; at += each) {
      const some = missing.slice(at, at + each);
      const { bytes, images } = await this.print(joined(...some.flatMap(field => aloneTwice(it, format, field))), it);
      some.forEach((field, n) => {
        const over = images[2 * n + 1] && [images[2 * n], images[2 * n + 1]];
        this.inks.set(field, over ? inkOf(bytes, ...over) : null);
      });
    }
    return fields.map(field => this.inks.get(field) ?? null);
  }

  // Receipts

  // How many rows fronts of the stream print, each of so many bytes.
  async rows(it, counts) {
    const asked = [...new Set(counts)].filter(at => at > 0 && !this.rowsOf.has(at)).sort((one, other) => one - other);
    if (asked.length) {
      const found = await this.count(it.bytes, asked, it);
      asked.forEach((at, n) => this.rowsOf.set(at, found[n]));
    }
    return counts.map(at => (at > 0 ? this.rowsOf.get(at) : 0));
  }

  // The shortest front that prints so many rows: among those that end with a line of the listing, then within it.
  async front(it, rows) {
    const ends = it.rows.map(row => row.to);
    const known = [...this.rowsOf].sort(([one], [other]) => one - other);
    const less = known.findLast(([, found]) => found < rows)?.[0] ?? 0;
    const more = known.find(([, found]) => found >= rows)?.[0] ?? it.bytes.length;
    const has = async tried => (await this.rows(it, tried)).map(found => found >= rows);
    const first = ends.findIndex(end => end > less);
    const last = ends.findIndex(end => end >= more);
    const n = first < 0 ? ends.length : await this.shortest(first, last < 0 ? ends.length : last,
      tried => has(tried.map(at => ends[at])));
    return this.shortest(Math.max(less + 1, n > 0 ? ends[n - 1] : 0), Math.min(more, ends[n] ?? more), has);
  }

  // The shortest front between two that has what is asked for: `have` tells of so many fronts whether they have it.
  async shortest(low, high, have, most = this.fronts) {
    while (low < high) {
      const step = Math.max(1, Math.floor((high - low) / (most + 1)));
      const tried = [];
      for (let at = low; at < high && tried.length < most; at += step) tried.push(at);
      const found = await have(tried);
      const first = found.indexOf(true);
      if (first >= 0) high = tried[first];
      low = first === 0 ? tried[0] : tried[(first < 0 ? tried.length : first) - 1] + 1;
    }
    return low;
  }

  async line(it, dot) {
    const sheet = it.sheets[dot.sheet];
    const strip = stripOf(sheet, dot.y);
    const behind = await this.front(it, strip.y + strip.rows);
    const before = strip.y === 0 ? 0 : await this.front(it, strip.y);
    const last = it.rows[rowAt(it.rows, behind - 1)];
    if (!last) return null;
    const from = before < behind ? before : last.from;
    const found = isPage(it.rows, it.rows.indexOf(last)) && await this.onPage(it, dot, strip, from, behind);
    return found || { from, to: behind };
  }

  // Dots of a page stay black, but where it is wiped: the first front that has one ends in what drew it.
  async onPage(it, dot, strip, from, to) {
    const near = nearest(it.sheets[dot.sheet], dot);
    if (!near) return null;
    const has = async count => {
      const sheet = await this.page(it, count);
      return !!sheet && isBlack(sheet, near.x, near.y - strip.y);
    };
    const at = await this.shortest(from, to, tried => Promise.all(tried.map(has)), FRONTS);
    const n = rowAt(it.rows, at - 1);
    return it.rows[n].text === 'char' ? { from: at - 1, to: at } : unitOf(it.rows, n);
  }

  // The page that a front leaves, as far as its commands are whole, as a sheet.
  async page(it, front) {
    const n = rowAt(it.rows, front - 1);
    const unit = n < 0 || it.rows[n].text === 'char' ? null : unitOf(it.rows, n);
    const count = unit && unit.to > front ? unit.from : front;
    const [before] = await this.rows(it, [count]);
    const { bytes, images } = await this.print(joined(it.bytes.subarray(0, count), Uint8Array.of(FORM_FEED)), it);
    let rows = 0;
    const page = images.filter(image => (rows += image[3]) > before);
    return page.length ? sheetsOf(page, bytes, true)[0] : null;
  }

  async lineDots(it, row, n) {
    const sheet = it.sheets?.[0];
    if (!sheet) return null;
    const [top, end] = await this.rows(it, [row.from, row.to]);
    if (top >= sheet.height) return null;
    if (isPage(it.rows, n)) {
      const { from, to } = unitOf(it.rows, n);
      const pages = await Promise.all([this.page(it, from), this.page(it, to)]);
      const ink = pages[1] && pageChange(...pages);
      if (ink) return { sheet: 0, ...ink, y: ink.y + top };
    }
    const strip = stripOf(sheet, top);
    return { sheet: 0, x: 0, y: top, width: sheet.width, height: Math.max(end, strip.y + strip.rows) - top };
  }
}

// Whether a row of a receipt stands in page mode, by what began it or ended it before.
function isPage(rows, n) {
  for (let at = n - 1; at >= 0; at--) {
    if (rows[at].text === 'esc 4c') return true;
    if (['esc 53', 'esc 40', 'FF'].includes(rows[at].text)) return false;
  }
  return false;
}

// A command with its data, by a row of either.
function unitOf(rows, n) {
  const isData = row => row && row.kind === 'data' && !row.text.startsWith('char');
  let [first, last] = [n, n];
  while (first > 0 && isData(rows[first])) first--;
  while (isData(rows[last + 1]) && !rows[last].text.startsWith('char')) last++;
  return { from: rows[first].from, to: rows[last].to };
}

// Two labels of a field alone: over white, and over black.
function aloneTwice({ bytes, lead }, format, field) {
  const raw = row => bytes.subarray(row.from, row.to);
  const set = [...field.set.values()].map(raw);
  const end = AT_END.filter(name => format.end.has(name)).map(name => raw(format.end.get(name)));
  const body = [...set, bytes.subarray(field.start, field.to), ...end, '^PQ1^XZ'];
  const first = `^XA${AT_FIRST}${lead}`;
  return [first, ...body, `${first}^FO0,0^GB32000,32000,32000^FS`, ...body];
}

// Where a field's two labels differ from white and from black.
function inkOf(bytes, [width, height, white, rows], [, , black]) {
  const stride = (width + 7) >> 3;
  const rest = 0xff << (8 * stride - width) & 0xff;
  const kept = x => (x === stride - 1 ? rest : 255);
  const byte = (x, y) => (bytes[white + y * stride + x] | ~bytes[black + y * stride + x]) & kept(x);
  return cropped(stride, rows, byte, width);
}

// What one page has and another hasn't.
function pageChange(before, after) {
  const { stride } = after;
  const byte = (sheet, x, y) => {
    const row = sheet ? rowOf(sheet, y) : -1;
    return row < 0 ? 0 : sheet.bytes[row + x];
  };
  return cropped(stride, after.height, (x, y) => byte(before, x, y) ^ byte(after, x, y), after.width);
}

function cropped(stride, height, at, width) {
  let [left, right, top, bottom] = [stride, -1, -1, -1];
  const all = new Uint8Array(stride * height);
  for (let y = 0; y < height; y++) {
    for (let x = 0; x < stride; x++) {
      const byte = at(x, y);
      if (!byte) continue;
      all[y * stride + x] = byte;
      if (x < left) left = x;
      if (x > right) right = x;
      if (top < 0) top = y;
      bottom = y;
    }
  }
  if (right < 0) return null;
  const wide = right - left + 1;
  const bits = new Uint8Array(wide * (bottom - top + 1));
  for (let y = top; y <= bottom; y++) {
    bits.set(all.subarray(y * stride + left, y * stride + right + 1), (y - top) * wide);
  }
  const used = new Uint8Array(wide);
  bits.forEach((byte, n) => { used[n % wide] |= byte; });
  const first = Math.clz32(used[0]) - 24;
  const last = Math.min(width, 8 * (right + 1) - (31 - Math.clz32(used[wide - 1] & -used[wide - 1])));
  return { x: 8 * left + first, y: top, width: last - 8 * left - first, height: bottom - top + 1, bits, stride: wide };
}

// Whether there is ink at a dot of the label or the paper. The bits begin with a whole byte.
export function isInk(ink, x, y) {
  if (x < ink.x || y < ink.y || x >= ink.x + ink.width || y >= ink.y + ink.height) return false;
  const bit = x - (ink.x & ~7);
  return !ink.bits || (ink.bits[(y - ink.y) * ink.stride + (bit >> 3)] >> (7 - (bit & 7)) & 1) === 1;
}

const apart = (box, x, y) => Math.max(box.x - x, x - box.x - box.width + 1, box.y - y, y - box.y - box.height + 1, 0);

function nearest(sheet, { x, y }) {
  for (let far = 0; far <= NEAR; far++) {
    for (let dy = -far; dy <= far; dy++) {
      for (let dx = -far; dx <= far; dx += Math.abs(dy) === far ? 1 : Math.max(1, 2 * far)) {
        if (isBlack(sheet, x + dx, y + dy)) return { x: x + dx, y: y + dy };
      }
    }
  }
  return null;
}
