// What a printer would print and vp doesn't, or not so, found in what vp lists: by the rules of recipes/lint.
//
// A remark is [place, text]: how many bytes stand before it. What a field alone shows is edges.js's.

import { commandOf, fateOf, isStart, nameOf, needs } from './known.js';

const NATIONAL = new Set([...'#$@[\\]^`{|}~'].map(it => it.charCodeAt(0)));
const BY_EXPAND = { expanded: ', and written anew by recipes/expand', said: '',
  'left out': ', and left out by recipes/expand', printed: ', and drawn by the whole language' };
// Commands of labels whose parameters recipes/expand looks at.
const LOOKED_AT = /^\^(FO|FT|GB|FB|CF|A)/;
const BLANKS = [0x20, 0xa0, 0xff];
export const CONTENT = ['^FD', '^GB', '^GF', '^GC', '^GD', '^GE'];
export const SYMBOLS = [...'0123789ABCEKMOQSUX'].map(it => `^B${it}`);

const times = count => (count === 1 ? 'once' : `${count.toLocaleString('en')} times`);
export const hex = byte => byte.toString(16).toUpperCase().padStart(2, '0');

/**
 * What is drawn as a character: for each run of data its row's number, its bytes and the letter of its font.
 * @returns {{n: number, font: string, from: number, to: number, indicator: number}[]}
 */
function textsOf(rows, language) {
  return language === 'label' ? textsOfLabel(rows) : textsOfReceipt(rows);
}

function textsOfReceipt(rows) {
  const found = [];
  let font = 'a';
  rows.forEach((row, n) => {
    const [kind, first, second] = row.text.split(' ');
    if (kind === 'char') found.push({ n, font, from: row.from, to: row.to, indicator: -1 });
    else if (kind === 'esc' && first === '40') font = 'a';
    else if (kind === 'esc' && (first === '21' || first === '4d' && ['00', '01', '30', '31'].includes(second))) {
      font = 'ab'[parseInt(second, 16) & 1];
    }
  });
  return found;
}

function textsOfLabel(rows) {
  const found = [];
  let [isOpen, indicator, data, isText, isSymbol] = [false, -1, [], false, false];
  rows.forEach((row, n) => {
    const name = row.text.slice(0, 3);
    isOpen ||= name === '^XA';
    if (!isOpen || row.kind === 'skip') return;
    if (row.count || row.text.startsWith('byte ')) data.push({ n, font: 'a', from: row.from, to: row.to, indicator });
    else if (CONTENT.includes(name)) [data, isText] = [[], name === '^FD'];
    else if (SYMBOLS.includes(name)) isSymbol = true;
    else if (name === '^FH') indicator = (row.text[3] ?? '_').charCodeAt(0);
    else if (name === '^FS' || name === '^XZ') {
      if (isText && !isSymbol) found.push(...data);
      [data, isText, isSymbol, indicator] = [[], false, false, -1];
      isOpen = name === '^FS';
    }
  });
  return found;
}

const digit = byte => (byte >= 0x30 && byte <= 0x39 ? byte - 0x30 : byte >= 0x41 && byte <= 0x46 ? byte - 0x37
  : byte >= 0x61 && byte <= 0x66 ? byte - 0x57 : -1);

/** Tells each byte of a text with the place where it stands. */
export function eachByte(bytes, { from, to, indicator }, tell) {
  const isEnd = byte => byte === 0x0a || byte === 0x0d;
  const next = at => { do at++; while (at < to && isEnd(bytes[at])); return at; };
  for (let at = isEnd(bytes[from]) ? next(from) : from; at < to; at = next(at)) {
    const [high, low] = [next(at), next(next(at))];
    if (bytes[at] === indicator && low < to && digit(bytes[high]) >= 0 && digit(bytes[low]) >= 0) {
      tell(16 * digit(bytes[high]) + digit(bytes[low]), at);
      at = low;
    } else {
      tell(bytes[at], at);
    }
  }
}

/**
 * The commands that are read past and that paper would show: rows' numbers and commands.
 * @returns {{n: number, command: string}[]}
 */
export function passed({ bytes, rows, language }, texts) {
  const last = { any: -1, high: -1, national: -1 };
  for (const text of texts) {
    eachByte(bytes, text, byte => {
      last.any = text.n;
      if (byte > 0x7f) last.high = text.n;
      if (NATIONAL.has(byte)) last.national = text.n;
    });
  }
  const found = [];
  rows.forEach((row, n) => {
    const command = row.count ? null : commandOf(row.text, language);
    if (!command || language === 'label' && row.kind !== 'skip') return;
    const isQR = command === 'gs 28 6b' && row.text.split(' ')[5] === '31';
    const fate = fateOf(language, command);
    const isShown = fate?.shows === 'yes' || fate?.shows === 'stops' && fate.becomes !== 'left out';
    if (isQR || (language === 'receipt' ? fate && !isShown : fate?.shows === 'no')) return;
    const raw = bytes.subarray(row.from, language === 'label' ? row.to : rows[n + 1]?.from ?? bytes.length);
    if (isStart(command, raw) || needs(command) && last[needs(command)] < n) return;
    found.push({ n, command });
  });
  return found;
}

// Parameters that a printer looks at and vp doesn't.
function unread(text) {
  const name = text.slice(0, 3);
  const said = [...text.slice(3).split(','), '', '', '', '', ''];
  if (['^FO', '^FT', '^FW'].includes(name) && said[name === '^FW' ? 1 : 2] === '1') {
    return 'has fields end at their place on a printer, and begin there here';
  }
  if (name === '^GB' && /^[1-8]$/.test(said[4])) return 'has round corners on a printer, and square ones here';
  if (name === '^FB' && said[3].toUpperCase() === 'J') {
    return 'makes lines of one width on a printer, and has them begin at the left here';
  }
  if (name === '^FB' && said[4].replace(/0/g, '')) {
    return 'moves lines behind the first to the right on a printer, and not here';
  }
  if (name === '^BC' && said[4].toUpperCase() === 'Y') return 'adds a check digit on a printer, and not here';
  if (name === '^A@') return 'takes a font of the printer, and the sheet here';
  const font = name.startsWith('^A') ? text[2] : name === '^CF' ? said[0] : '';
  const [high, wide] = said.slice(1).map(it => (/^\d+$/.test(it) ? Number(it) : 0));
  if (font === '0' && high > 0 && 4 * wide > 3 * high) {
    return `has narrower letters on a printer than the cells of ${wide} dots here`;
  }
  return '';
}

function offReading(rows) {
  const found = new Map();
  rows.forEach(({ text }, n) => {
    const what = text[0] === '^' ? unread(text) : '';
    if (!what) return;
    const line = `${text} ${what}${LOOKED_AT.test(text) ? ', unless recipes/expand writes it anew' : ''}`;
    const [first, count] = found.get(line) ?? [n, 0];
    found.set(line, [first, count + 1]);
  });
  return [...found].map(([line, [n, count]]) => [rows[n].from, count > 1 ? `${line}: ${times(count)}` : line]);
}

/**
 * The bytes that a glyph sheet has no character for: their cell is white, or shows the byte in a frame.
 * @param {Uint8Array} sheet  a raw PBM
 */
export function lacking(sheet, [wide, high]) {
  const lacks = new Set();
  const head = /^P4(?:\s|#[^\n]*\n)+\d+(?:\s|#[^\n]*\n)+\d+\s/.exec(String.fromCharCode(...sheet.subarray(0, 400)));
  const start = head?.[0].length ?? 0;
  const isBlack = (x, y) => sheet[start + 2 * wide * y + (x >> 3)] >> (7 - (x & 7)) & 1;
  for (let byte = 0; byte < 256 && head; byte++) {
    let cell = '';
    for (let y = 0; y < high; y++) {
      for (let x = 0; x < wide; x++) cell += isBlack(byte % 16 * wide + x, (byte >> 4) * high + y);
    }
    if (!cell.includes('1') && !BLANKS.includes(byte) || cell === framed(byte, wide, high)) lacks.add(byte);
  }
  return lacks;
}

// Hex digits of 3 by 5 dots, each row a number of three bits, and the frame that they stand in.
const DIGITS = ('75557 26227 71747 71717 55711 74717 74757 71222 75757 75717 25755 65656 34443 65556 74647 74644')
  .split(' ');
const FRAMES = { 12: { places: [[2, 6], [6, 6]], tall: 2, box: [0, 10, 2, 19] },
  9: { places: [[3, 3], [3, 9]], tall: 1, box: [1, 7, 1, 15] } };

function framed(byte, wide, high) {
  const { places, tall, box: [left, right, top, bottom] } = FRAMES[wide];
  const cell = Array.from({ length: high }, () => new Array(wide).fill('0'));
  for (let y = top; y <= bottom; y++) {
    for (let x = left; x <= right; x++) if (x === left || x === right || y === top || y === bottom) cell[y][x] = '1';
  }
  [byte >> 4, byte & 15].forEach((value, n) => {
    const [x, y] = places[n];
    for (let row = 0; row < 5 * tall; row++) {
      const bits = Number(DIGITS[value][Math.floor(row / tall)]);
      for (let bit = 0; bit < 3; bit++) if (bits >> (2 - bit) & 1) cell[y + row][x + bit] = '1';
    }
  });
  return cell.flat().join('');
}

function withoutCell({ bytes, lacks }, texts) {
  const found = new Map();
  for (const text of texts) {
    const letter = lacks[text.font] ? text.font : 'a';
    eachByte(bytes, text, (byte, place) => {
      const isNone = !lacks[letter];
      if (isNone ? BLANKS.includes(byte) : !lacks[letter].has(byte)) return;
      const name = isNone ? text.font : `${letter} ${byte}`;
      const [first, count] = found.get(name) ?? [place, 0];
      found.set(name, [first, count + 1]);
    });
  }
  return [...found].map(([name, [place, count]]) => {
    const [letter, byte] = name.split(' ');
    return [place, byte === undefined
      ? `no sheet of font ${letter.toUpperCase()} is named: its characters are white, ${times(count)}`
      : `byte ${hex(Number(byte))} has no character in the sheet of font ${letter.toUpperCase()}: ${times(count)}`];
  });
}

/** Fields that stand outside of a format, of which nothing is printed. */
export function outside(rows) {
  const found = [];
  let [isOpen, first, has] = [false, null, 0];
  const end = () => {
    if (has) {
      found.push([first.from, `${has === 1 ? 'a field stands' : `${has} fields stand`} outside ^XA and ^XZ: nothing ` +
        `of ${has === 1 ? 'it' : 'them'} is printed`]);
    }
    [first, has] = [null, 0];
  };
  for (const row of rows) {
    const name = row.text.slice(0, 3);
    if (name === '^XA' && !isOpen) {
      end();
      isOpen = true;
    } else if (name === '^XZ') {
      isOpen = false;
    } else if (!isOpen && row.kind === 'cmd') {
      first ??= row;
      if (CONTENT.includes(name)) has++;
    }
  }
  end();
  return found;
}

/**
 * All that is said of a stream but its fault.
 * @param {{bytes: Uint8Array, rows: object[], language: string, lacks: {a?: Set<number>, b?: Set<number>}}} it
 * @returns {[number, string][]}
 */
export function remarksOf(it) {
  const texts = textsOf(it.rows, it.language);
  const found = passed(it, texts).map(({ n, command }) => {
    const { text, from } = it.rows[n];
    const fate = fateOf(it.language, command);
    const name = nameOf(command, text.replace(/ skipped$/, ''));
    return [from, fate?.what ? `${name} ${fate.what}: it is read past${BY_EXPAND[fate.becomes] ?? ''}`
      : `${name} is no command that is known`];
  });
  found.push(...withoutCell(it, texts));
  if (it.language === 'label') found.push(...offReading(it.rows), ...outside(it.rows));
  return found.sort((one, other) => one[0] - other[0]);
}
