// Fields with dots off their label's edges: each is printed alone, on a larger label, as recipes/lint does it.

import { joined } from './bytes.js';
import { CONTENT, SYMBOLS, eachByte, hex } from './remarks.js';
import { Images, rowOf, sheetsOf } from './sheets.js';

// The largest label, and how many fields are looked at.
const [WIDEST, HIGHEST, MOST_FIELDS] = [1248, 8000, 200];
const SET_FIRST = { '^PW': '^PW832', '^LL': '^LL1218', '^LH': '^LH0,0', '^FW': '^FWN', '^CF': '^CFA,9,5',
  '^BY': '^BY2,3.0,10' };

/** The fields of labels by their lines in the listing, each with what is in force at its label's end. */
function fieldsOf({ rows, bytes, lead }) {
  const set = { ...SET_FIRST };
  for (const it of lead.match(/\^..\d+/g) ?? []) set[it.slice(0, 3)] = it;
  const found = [];
  let [isOpen, field, label] = [false, null, []];
  for (const row of rows) {
    const name = row.text[1] === 'A' ? '^A' : row.text.slice(0, 3);
    isOpen ||= name === '^XA';
    if (!isOpen || row.kind === 'skip') continue;
    field ??= { row, at: '^FO0,0', content: '', symbol: '', '^A': '', '^FB': '', codes: [], indicator: -1 };
    if (row.count || row.text.startsWith('byte ')) {
      eachByte(bytes, { from: row.from, to: row.to, indicator: field.indicator }, it => field.codes.push(it));
    } else if (CONTENT.includes(name)) {
      Object.assign(field, { content: row.text, codes: [] });
    } else if (SYMBOLS.includes(name)) {
      field.symbol = row.text;
    } else if (name === '^FO' || name === '^FT') {
      Object.assign(field, { at: row.text, row });
    } else if (name === '^FH') {
      field.indicator = (row.text[3] ?? '_').charCodeAt(0);
    } else if (name in field) {
      field[name] = row.text;
    } else if (name in set) {
      set[name] = row.text;
    } else if (name === '^FS' || name === '^XZ') {
      if (field.content) label.push({ ...field, set: { ...set } });
      field = null;
    }
    if (name === '^XZ') {
      found.push(...label.map(it => ({ ...it, end: { ...set } })));
      [isOpen, label] = [false, []];
    }
  }
  return found;
}

function paramOf(text, n, start, least, most) {
  const part = text.slice(3).split(',')[n] ?? '';
  return /^\d+$/.test(part) ? Math.min(Math.max(Number(part), least), most) : start;
}

// A font whose letters are narrower on a printer is taken as wide as these about are.
function narrowed(text) {
  const said = text.slice(3).split(',');
  const [name, high, wide] = text.startsWith('^CF') ? said : [text[2], ...said.slice(1)];
  if (name !== '0' || !(Number(high) > 0) || !(4 * Number(wide) > 3 * Number(high))) return text;
  return `${text.split(',')[0]},${high},${Math.max(1, Math.floor(Number(wide) * 60 / 100))}`;
}

/** A label with the field alone, moved to where no dot of it is cut, and how far it was moved. */
function aloneOn(field, high) {
  const { set, at, content, symbol, codes } = field;
  const place = n => paramOf(at, n, 0, 0, 32000) + paramOf(set['^LH'], n, 0, 0, 32000);
  let [toX, toY] = [0, 0];
  if (at.startsWith('^FT')) {
    const own = content === '^FD' ? (symbol.startsWith('^BQ') ? '^FWN' : symbol || field['^A']) : '^FWN';
    const [turn] = [own[3], set['^FW'][3], 'N'].filter(it => 'NRIB'.includes((it ?? ' ').toUpperCase()));
    if ('IB'.includes(turn.toUpperCase())) toX = WIDEST;
    if (!'RI'.includes(turn.toUpperCase())) toY = high;
  }
  const isText = content === '^FD' && !symbol;
  const font = isText ? narrowed(field['^A']) : field['^A'];
  const common = isText && !field['^A'] ? narrowed(set['^CF']) : set['^CF'];
  const data = content === '^FD' ? [`^FH_^FD${codes.map(it => `_${hex(it)}`).join('')}`]
    : content.startsWith('^GF') ? [`${content},`, Uint8Array.from(codes)] : [content];
  const head = `^XA^PW${WIDEST}^LL${high}^LH0,0${set['^FW']}${common}${set['^BY']}${at.slice(0, 3)}${toX},${toY}` +
    `${font}${field['^FB']}${symbol}`;
  return { stream: joined(head, ...data, '^FS^XZ'), x: place(0) - toX, y: place(1) - toY };
}

// The box of an image's black dots; null where it is white.
function inkBox(sheet) {
  const used = new Uint8Array(sheet.stride);
  let [top, bottom] = [-1, -1];
  for (let y = 0; y < sheet.height; y++) {
    const row = rowOf(sheet, y);
    if (row < 0) break;
    const seen = sheet.bytes.subarray(row, row + sheet.stride);
    if (!seen.some(it => it)) continue;
    if (top < 0) top = y;
    bottom = y;
    for (let x = 0; x < seen.length; x++) used[x] |= seen[x];
  }
  if (top < 0) return null;
  const first = used.findIndex(it => it);
  const last = used.findLastIndex(it => it);
  return { left: 8 * first + Math.clz32(used[first]) - 24, top, bottom: bottom + 1,
    right: 8 * last + 8 - (31 - Math.clz32(used[last] & -used[last])) };
}

/** Finds fields off edges, and keeps what it found of each for the next look. */
export class Edges {
  /**
   * @param {(stream: Uint8Array, take: (piece: Uint8Array) => boolean) => Promise<unknown>} print
   * @param {Map<string, object | null>} boxes  what was found before
   */
  constructor(print, boxes) {
    Object.assign(this, { print, boxes });
  }

  async box({ stream, x, y }) {
    const name = String.fromCharCode(...stream.subarray(0, 4000)) + stream.length;
    if (!this.boxes.has(name)) {
      const read = new Images();
      await this.print(stream, piece => read.take(piece));
      const { bytes, images } = read.shown();
      if (this.boxes.size > 4 * MOST_FIELDS) this.boxes.clear();
      this.boxes.set(name, images.length ? inkBox(sheetsOf(images, bytes, false)[0]) : null);
    }
    const it = this.boxes.get(name);
    return it && { left: it.left + x, right: it.right + x, top: it.top + y, bottom: it.bottom + y };
  }

  /**
   * @param {{rows: object[], bytes: Uint8Array, lead: string}} it  `lead` is what is set before the stream
   * @returns {Promise<[number, string][]>} where fields begin that pass an edge, and the words for it
   */
  async remarks(it) {
    const found = [];
    const fields = fieldsOf(it);
    for (const field of fields.slice(0, MOST_FIELDS)) {
      if (field.at.split(',')[2] === '1') continue;
      const wide = paramOf(field.end['^PW'], 0, 832, 1, WIDEST);
      const high = paramOf(field.end['^LL'], 0, 1218, 1, HIGHEST);
      const room = field.at.startsWith('^FT') ? HIGHEST : Math.min(high + 1, HIGHEST);
      const box = await this.box(aloneOn(field, room));
      if (!box) continue;
      const off = [box.left < 0 && 'left', box.top < 0 && 'upper', box.right > wide && 'right',
        box.bottom > high && 'lower'].filter(Boolean).join(' and the ');
      if (off) found.push([field.row.from, `the field of ${field.at} passes the label's ${off} edge`]);
    }
    if (fields.length > MOST_FIELDS) {
      found.push([null, `of ${fields.length} fields the first ${MOST_FIELDS} were looked at`]);
    }
    return found;
  }
}
