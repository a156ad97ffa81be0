// What a stream is that is none of the printer's: other languages and files are named, and what only has to be read
// otherwise (UTF-16, hex, base64, gzip) is offered so.

import { latin } from './bytes.js';

// So many bytes tell what it is, and so few digits or letters are no text of bytes.
const SEEN = 1 << 16;
const FEW = 16;

// By how the stream begins.
const FILES = [
  [/^\s*%PDF-/, 'a PDF file'], [/^.PNG\r\n/, 'a picture (PNG)'], [/^\xff\xd8\xff/, 'a picture (JPEG)'],
  [/^GIF8[79]a/, 'a picture (GIF)'], [/^BM.{4}\0{4}/s, 'a picture (BMP)'],
  [/^P[1-6]\s/, 'a picture (netpbm), which “Compare” takes'],
  [/^%!PS/, 'PostScript'], [/^PK\x03\x04/, 'a ZIP archive'], [/^\x7fELF/, 'a program'],
  [/^\s*<(?:\?xml|!doctype|html|svg)/i, 'XML or HTML'], [/^\s*[[{]\s*["{[]/, 'JSON'],
  [/^\s*(?:SIZE|GAP|BLINE|DENSITY|DIRECTION|CODEPAGE|CLS)\b.*\n(?:.*\n)*?\s*(?:TEXT|BARCODE|BAR|PRINT|CLS|GAP)\b/i,
    'TSPL, the language of TSC printers'],
  [/^\s*! \d+ \d+ \d+ \d+ \d+\s/, 'CPCL, the language of mobile printers'],
  [/^\s*N\r?\n(?:.*\r?\n)*?(?:[AB]\d+,\d+,|P\d)/, 'EPL, the language of older label printers'],
  [/^\x02L\r?\n|^\x02m\r/, 'DPL, the language of Datamax printers'],
  [/^\x1bA\x1b[HV]\d/, 'SBPL, the language of Sato printers'],
  [/^\x1bE\x1b&|^\x1b&[lak]/, 'PCL, the language of page printers'],
];
const PJL = /^\x1b%-12345X(?:@PJL|\s)/;

/**
 * @typedef {object} Offer
 * @property {string} name  what a button says
 * @property {() => Uint8Array | Promise<Uint8Array>} bytes  the stream as it is then
 * @property {string} [language]  what it is then surely
 */

/**
 * What a stream is beside a printer's language.
 * @param {Uint8Array} bytes
 * @returns {{text: string, offer: Offer | null} | null}
 */
export function otherwise(bytes) {
  if (!bytes.length) return null;
  const text = latin.decode(bytes.subarray(0, SEEN));
  if (PJL.test(text)) return behindPJL(bytes, text);
  if (bytes[0] === 0x1f && bytes[1] === 0x8b) {
    return offered('This is packed (gzip).', 'Unpack it', () => unpacked(bytes));
  }
  const wide = utf16(bytes);
  if (wide) {
    return offered('This is text in UTF-16, two bytes a letter.', 'Read it as text',
      () => new TextEncoder().encode(new TextDecoder(wide).decode(bytes)));
  }
  const file = FILES.find(([front]) => front.test(text));
  if (file) return { text: `This is ${file[1]}: vp reads ZPL II and ESC/POS.`, offer: null };
  return textOfBytes(bytes, text);
}

const offered = (text, name, read, language) => ({ text, offer: { name, bytes: read, language } });

function behindPJL(bytes, text) {
  const label = text.search(/[\^~]XA/i);
  if (label < 0) return { text: 'This begins with PJL, a head for page printers.', offer: null };
  return offered('This begins with PJL, a head for page printers, and a label stands behind it.',
    'Read the label', () => bytes.slice(label), 'label');
}

// The name of a text's coding of two bytes; '' where it is none.
function utf16(bytes) {
  if (bytes[0] === 0xff && bytes[1] === 0xfe) return 'utf-16le';
  if (bytes[0] === 0xfe && bytes[1] === 0xff) return 'utf-16be';
  const some = bytes.subarray(0, 2048);
  if (some.length < 8 || bytes.length % 2) return '';
  for (const [name, high] of [['utf-16le', 1], ['utf-16be', 0]]) {
    let isText = true;
    for (let at = 0; at + 1 < some.length && isText; at += 2) {
      const low = some[at + 1 - high];
      isText = some[at + high] === 0 && (low >= 0x20 && low < 0x7f || [9, 10, 13, 0x1b, 0x1d].includes(low));
    }
    if (isText) return name;
  }
  return '';
}

async function unpacked(bytes) {
  const through = new Blob([bytes]).stream().pipeThrough(new DecompressionStream('gzip'));
  return new Uint8Array(await new Response(through).arrayBuffer());
}

// Digits or letters that stand for bytes: a dump with its places, plain hex, base64.
function textOfBytes(bytes, text) {
  const whole = bytes.length <= SEEN ? text : latin.decode(bytes);
  const digits = hexDigits(whole);
  if (digits) return offered('This is a stream in hex digits.', 'Read them as bytes', () => fromHex(digits));
  const packed = whole.replace(/^\s*data:[\w/+.-]*;base64,/, '').replace(/\s/g, '');
  if (packed.length < FEW || packed.length % 4 || !/^[A-Za-z0-9+/]+={0,2}$/.test(packed)) return null;
  const read = Uint8Array.from(atob(packed), it => it.charCodeAt(0));
  const isStream = /\^XA|[\x1b\x1d][!@aEk(*V]|\^FO/i.test(latin.decode(read.subarray(0, SEEN)));
  return isStream ? offered('This is a stream in base64.', 'Read it as bytes', () => read) : null;
}

// A line of a dump: its place, its bytes in digits, its text.
const DUMPED = new RegExp('^([0-9a-f]{4,8}):?\\s+((?:[0-9a-f]{2}){1,2}(?:\\s{1,2}(?:[0-9a-f]{2}){1,2})*)' +
  '(?:\\s{2,}.*|\\s+\\|.*\\|)?$', 'i');

/** The hex digits that a text has, and nothing else but blanks, commas and the like; '' where it is none. */
function hexDigits(text) {
  const lines = text.trim().split(/\r?\n/);
  const places = lines.map(it => DUMPED.exec(it));
  const counted = places.every((it, n) => it || n === lines.length - 1 && /^[0-9a-f]{4,8}$/i.test(lines[n]));
  const isDump = counted && places.every((it, n) => !it || n === 0 ||
    !places[n - 1] || parseInt(it[1], 16) > parseInt(places[n - 1][1], 16)) && (lines.length > 1 || /:/.test(lines[0]));
  if (isDump && places[0]) return places.map(it => it?.[2] ?? '').join('').replace(/\s/g, '');
  const digits = text.replace(/\b0x|\\x|[\s,;:{}-]/gi, '');
  return digits.length >= FEW && digits.length % 2 === 0 && /^[0-9a-f]+$/i.test(digits) ? digits : '';
}

const fromHex = digits => Uint8Array.from({ length: digits.length / 2 }, (_, n) =>
  parseInt(digits.slice(2 * n, 2 * n + 2), 16));
