// What a fault means: which character it is, what would be right, and ways to mend it in a click.

import { latin } from './bytes.js';
import { commandOf, fateOf } from './known.js';
import { eachByte } from './remarks.js';

const SYMBOL_KINDS = { '^B0': 'Aztec', '^B1': 'Code 11', '^B2': '2 of 5', '^B3': 'Code 39', '^B7': 'PDF417', '^B8': 'EAN-8',
  '^B9': 'UPC-E', '^BA': 'Code 93', '^BC': 'Code 128', '^BE': 'EAN-13', '^BK': 'Codabar', '^BM': 'MSI', '^BO': 'Aztec',
  '^BQ': 'QR', '^BS': 'an add-on', '^BU': 'UPC-A', '^BX': 'Data Matrix' };
const BARS = { 0: 'UPC-A', 1: 'UPC-E', 2: 'EAN-13', 3: 'EAN-8', 4: 'Code 39', 5: 'ITF', 6: 'Codabar', 7: 'Code 93',
  8: 'Code 128', 9: 'GS1-128', 10: 'DataBar', 11: 'DataBar', 12: 'DataBar', 13: 'DataBar', 14: 'Code 128' };
// What isn't drawn of kinds that are.
const NOT_SO = { 'Code 128': 'modes U and D of ^BC aren’t drawn', 'Data Matrix': 'no quality but 200 is drawn',
  PDF417: 'PDF417 isn’t drawn without its columns or its rows', Aztec: 'Aztec’s rune isn’t drawn' };
const CODE39 = /[^0-9A-Z .$/+%-]/;
const bytesOf = text => Uint8Array.from(text, it => it.charCodeAt(0));
const sign = byte => (byte > 0x20 && byte < 0x7f ? `“${String.fromCharCode(byte)}”`
  : byte === 0x20 ? 'a blank' : `byte ${byte.toString(16).toUpperCase().padStart(2, '0')}`);
const counted = (n, what) => `${n.toLocaleString('en')} ${what}${n === 1 ? '' : 's'}`;

/**
 * @typedef {object} Change  bytes that stand in place of others
 * @property {string} name  what a button says
 * @property {number} from
 * @property {number} to
 * @property {Uint8Array} bytes
 * @typedef {object} Symbol
 * @property {string} kind  as Code 39
 * @property {object} command  its row
 * @property {number[]} data
 * @property {number[]} places  where each byte of the data stands
 */

/**
 * What is said of a fault, and how it may be mended.
 * @param {{bytes: Uint8Array, rows: object[], language: string}} tab
 * @param {{number: string, text: string, place: number}} fault
 * @returns {{text: string, at: number, changes: Change[]}}  `at` is the byte that is wrong, -1 where none is known
 */
export function explained(tab, fault) {
  const none = { text: '', at: -1, changes: [] };
  const ways = { F1: unknown, F2: refused, F3: longSymbol, F4: tooWide, F7: picture, F8: endsEarly, F9: endsEarly };
  const found = ways[fault.number]?.(tab, fault) ?? none;
  return { ...none, ...found };
}

function unknown({ language }, { text }) {
  const [lead, byte] = text.split(' ').slice(-2);
  const name = `${{ '1B': 'esc', '1D': 'gs', '1C': 'fs', '10': 'dle' }[lead]} ${byte?.toLowerCase()}`;
  const fate = fateOf(language, name);
  const by = { expanded: '; recipes/show draws it', 'left out': '; recipes/show leaves it out' }[fate?.becomes] ?? '';
  return { text: fate ? `this command ${fate.what}, and vp's profile hasn't it${by}`
    : 'no command that is known; with “all of it” it is read past' };
}

/** The symbol that a fault is about, of a label's field or a receipt's command; null where none is found. */
function symbolOf({ bytes, rows, language }, place) {
  const own = rows.filter(it => it.kind !== 'fault' && it.from < place);
  return language === 'label' ? symbolOfField(own, bytes) : symbolOfReceipt(own, bytes, place);
}

const isData = row => row.count > 0 || row.text.startsWith('byte ');

function symbolOfField(rows, bytes) {
  // what closes the field stands last, where it is listed already
  const last = rows.length && ['^FS', '^XZ'].includes(rows[rows.length - 1].text) ? rows.slice(0, -1) : rows;
  const start = last.findLastIndex(it => ['^FS', '^XA', '^XZ'].includes(it.text));
  const field = last.slice(start + 1);
  const command = field.findLast(it => it.kind !== 'skip' && it.text.slice(0, 3) in SYMBOL_KINDS);
  if (!command) return null;
  const text = field.findLastIndex(it => it.text === '^FD');
  const indicator = field.findLast(it => it.text.startsWith('^FH'));
  const [data, places] = [[], []];
  for (const row of field.slice(text + 1).filter(isData)) {
    const code = indicator ? (indicator.text[3] ?? '_').charCodeAt(0) : -1;
    eachByte(bytes, { from: row.from, to: row.to, indicator: code }, (byte, at) => {
      data.push(byte);
      places.push(at);
    });
  }
  return { kind: SYMBOL_KINDS[command.text.slice(0, 3)], command, data, places, first: field[text]?.to ?? command.to };
}

function symbolOfReceipt(rows, bytes, place) {
  const n = rows.findLastIndex(it => /^gs 6b|^gs 28 6b/.test(it.text));
  if (n < 0) return null;
  const command = rows[n];
  if (command.text.startsWith('gs 28')) return { kind: 'QR', command, data: [], places: [], first: -1 };
  const m = bytes[command.from + 2];
  const first = command.from + (m > 0x40 ? 4 : 3);
  const end = m > 0x40 ? Math.min(bytes.length, first + bytes[first - 1]) : bytes.indexOf(0, first);
  const data = [...bytes.subarray(first, end < 0 ? place : end)];
  return { kind: BARS[m > 0x40 ? m - 0x41 : m] ?? 'a bar code', command, data, first, hasCount: m > 0x40,
    places: data.map((_, at) => first + at) };
}

function refused(tab, { text, place }) {
  const symbol = symbolOf(tab, place);
  const why = text.replace('symbol: ', '');
  if (!symbol) return null;
  if (why === 'empty') return { text: `${symbol.kind} has no data`, at: symbol.first };
  const ways = { 'Code 39': code39, 'EAN-13': ean13, 'Code 128': code128, QR: qr, 'UPC-A': ofDigits, 'UPC-E': ofDigits,
    'EAN-8': ofDigits, '2 of 5': ofDigits, ITF: ofDigits, MSI: ofDigits, 'an add-on': ofDigits };
  if (why === 'unsupported' && symbol.kind !== 'QR') {
    const isLabel = tab.language === 'label';
    return { text: `${isLabel && NOT_SO[symbol.kind] || `${symbol.kind} isn’t drawn here`}; recipes/show draws more` };
  }
  return ways[symbol.kind]?.(symbol, why, tab) ?? null;
}

const wrongAt = ({ data, places }, n) => `${sign(data[n])}, character ${n + 1} of its data, at byte ${places[n]}`;

function ofDigits(symbol, why) {
  const n = symbol.data.findIndex(it => it < 0x30 || it > 0x39);
  if (n < 0 || why !== 'character') return null;
  return { text: `${symbol.kind} has digits alone; not ${wrongAt(symbol, n)}`, at: symbol.places[n] };
}

function code39(symbol) {
  const text = latin.decode(Uint8Array.from(symbol.data));
  // (a star at both ends is the start and the stop)
  const isStarred = text.length > 1 && text.startsWith('*') && text.endsWith('*');
  const inner = isStarred ? [1, text.length - 1] : [0, text.length];
  const n = [...text].findIndex((it, at) => at >= inner[0] && at < inner[1] && CODE39.test(it));
  if (n < 0) return null;
  const upper = text.toUpperCase();
  const changes = upper !== text && !CODE39.test(upper.slice(...inner)) && isPlain(symbol)
    ? [{ name: 'Write it in capitals', ...whole(symbol), bytes: bytesOf(upper) }] : [];
  return { text: `Code 39 has digits, capitals, blank and - . $ / + %; not ${wrongAt(symbol, n)}`,
    at: symbol.places[n], changes };
}

// Whether the data stand in the stream as they are.
const isPlain = ({ places }) => places.length > 0 && places.every((it, n) => it === places[0] + n);
const whole = ({ places }) => ({ from: places[0], to: places[places.length - 1] + 1 });

function ean13(symbol, why, { language }) {
  const n = symbol.data.findIndex(it => it < 0x30 || it > 0x39);
  const digits = symbol.data.filter(it => it >= 0x30 && it <= 0x39);
  if (n >= 0) {
    const isRight = language === 'label' || digits.length === 12 || digits.length === 13;
    const changes = isRight && digits.length && isPlain(symbol) && !symbol.hasCount
      ? [{ name: 'Keep the digits', ...whole(symbol), bytes: Uint8Array.from(digits) }] : [];
    return { text: `EAN-13 has digits alone; not ${wrongAt(symbol, n)}`, at: symbol.places[n], changes };
  }
  const change = digits.length < 12 && !symbol.hasCount && isPlain(symbol)
    ? [{ name: 'Put zeros before it', ...whole(symbol),
      bytes: bytesOf(latin.decode(Uint8Array.from(digits)).padStart(12, '0')) }] : [];
  const have = `${digits.length === 1 ? 'is' : 'are'} ${counted(digits.length, 'digit')}`;
  return { text: `EAN-13 has 12 digits, or 13 with the check digit; here ${have}`, at: symbol.first,
    changes: change };
}

function code128(symbol, why, { language, bytes }) {
  const text = latin.decode(Uint8Array.from(symbol.data));
  if (language === 'receipt') {
    if (why === 'set' && !/^\{[ABC]/.test(text)) {
      const n = symbol.first - 1;
      const room = symbol.hasCount && bytes[n] < 254 && symbol.data.length === bytes[n];
      const changes = room ? [{ name: 'Put {B before it', from: n, to: symbol.first,
        bytes: Uint8Array.of(bytes[n] + 2, 0x7b, 0x42) }] : [];
      return { text: 'Code 128 begins with its set: {A, {B or {C', at: symbol.first, changes };
    }
    return { text: why === 'set' ? 'behind { stands A, B, C, S, 1 to 4 or {, and not all of them in set C'
      : 'a byte that the set in force lacks: A has 00 to 5F, B 20 to 7F, C 00 to 63 (two digits a byte)' };
  }
  const n = why === 'set' ? text.search(/>(?![0-35-8<=]|[9:;])|(?!^)>[9:;]/)
    : symbol.data.findIndex(it => it < 0x20 || it > 0x7f);
  if (n < 0) return null;
  const at = symbol.places[n];
  if (why !== 'set') return { text: `Code 128 has characters from 20 to 7F; not ${wrongAt(symbol, n)}`, at };
  const code = text.slice(n, n + 2);
  return { text: `“>” begins a code of ^BC, and “${code}” is none (byte ${at}); the sign > itself is >0`, at,
    changes: [{ name: 'Write it as >0', from: at, to: at + 1, bytes: bytesOf('>0') }] };
}

function qr(symbol, why, { language, bytes }) {
  const text = latin.decode(Uint8Array.from(symbol.data));
  if (language === 'receipt') return { text: 'model 1 and Micro QR aren’t drawn: model 2 is' };
  const { command, first, places } = symbol;
  if (why === 'unsupported' && !/^[HQML]M,K/.test(text)) {
    const at = latin.decode(bytes.subarray(command.from, command.to)).indexOf(',1');
    const from = command.from + at + 1;
    const changes = at < 0 ? [] : [{ name: 'Take model 2', from, to: from + 1, bytes: bytesOf('2') }];
    return { text: 'model 1 of QR isn’t drawn: model 2 is', at: command.from, changes };
  }
  if (why === 'unsupported') return { text: 'Kanji mode isn’t drawn' };
  if (why === 'set') {
    const isSmall = /^[hqml][am],/i.test(text) && places[1] === places[0] + 1;
    const upper = bytesOf(text.slice(0, 2).toUpperCase());
    const change = isSmall ? { name: 'Write it in capitals', from: places[0], to: places[0] + 2, bytes: upper }
      : { name: 'Put QA, before it', from: first, to: first, bytes: bytesOf('QA,') };
    return { text: 'the data of a QR symbol begin with a level (H, Q, M or L), then A and a comma, as “QA,”',
      at: first, changes: [change] };
  }
  if (why === 'length') {
    return { text: 'behind “M,B” stand four digits, and exactly as many bytes as they say', at: first };
  }
  const n = text.slice(4).search(text[3] === 'N' ? /[^0-9]/ : /[^0-9A-Z $%*+./:-]/);
  if (n < 0 || places[3] !== first + 3) return null;
  return { text: `the mode that is asked for lacks ${wrongAt(symbol, n + 4)}`, at: places[n + 4],
    changes: [{ name: 'Let the mode be chosen', from: first + 1, to: first + 4, bytes: bytesOf('A,') }] };
}

function longSymbol(tab, { place }) {
  const symbol = symbolOf(tab, place);
  if (!symbol) return null;
  return { text: symbol.kind === 'QR' ? `version 10 is the largest that is drawn; recipes/show draws larger ones`
    : `a bar code has at most 255 bytes; here are ${counted(symbol.data.length, 'byte')}`, at: symbol.first };
}

function tooWide(tab, { place }) {
  const symbol = symbolOf(tab, place);
  if (!symbol) return null;
  const { from } = symbol.command;
  const isQR = symbol.kind === 'QR';
  const last = tab.rows.findLast(it => it.from < from && it.text.startsWith('gs 77'));
  const module = last ? parseInt(last.text.split(' ')[2], 16) : 3;
  const change = { name: 'Take modules of 2 dots', from, to: from, bytes: bytesOf('\x1dw\x02') };
  const smaller = isQR ? 'smaller modules (GS ( k, function 43)' : 'GS w with a smaller module';
  return { text: `it is wider than the line; ${smaller}, wider paper or less data fit`, at: from,
    changes: !isQR && module > 2 ? [change] : [] };
}

function picture({ bytes, rows }, { place }) {
  const row = rows.findLast(it => it.text.startsWith('^GF') && it.from < place);
  if (!row) return null;
  const codes = bytes.subarray(row.to, Math.max(row.to, place));
  const text = latin.decode(codes.subarray(0, 1 << 16)).replace(/[\r\n]/g, '');
  const said = why => ({ text: why, at: row.from });
  if (/^\s*:[ZB]64:/i.test(text)) return said('it is packed (:Z64: or :B64:), which recipes/show draws');
  const [kind, total, data, wide] = row.text.slice(3).split(',');
  if (/^C$/i.test(kind)) return said('its first parameter is A or B, not C, which recipes/show draws');
  if (!/^[AB]?$/i.test(kind)) return said(`its first parameter is A or B, not “${kind}”`);
  if (!/^\d+$/.test(data ?? '') || !/^\d+$/.test(wide ?? '')) {
    return said('three numbers stand behind its letter: bytes of data, bytes of the picture, bytes of a row');
  }
  if (Number(wide) < 1 || Number(wide) > 1024 || Number(data) < Number(wide)) {
    return said(`a row has 1 to 1,024 bytes, and the picture at least one row; here are ${wide} and ${data}`);
  }
  if (/^B$/i.test(kind) && total !== data) {
    return said(`of B both numbers of bytes are one; here are ${total} and ${data}`);
  }
  const isCode = it => it <= 0x20 || it === 0x5e || /[0-9A-Ya-z,!:]/.test(String.fromCharCode(it));
  const n = codes.findIndex(it => !isCode(it));
  const at = row.to + n;
  return n < 0 ? { text: '“:” stands inside a row, or a count has no digit behind it', at: row.to }
    : { text: `${sign(codes[n])} at byte ${at} is no code: hex digits are, counts G to Y and g to z, and , ! :`, at };
}

// The stream ends too soon.
function endsEarly({ bytes, rows, language }, { number }) {
  const end = bytes.length;
  const add = (name, text) => ({ name, from: end, to: end, bytes: bytesOf(text) });
  if (language === 'label') {
    const start = rows.findLastIndex(it => it.text === '^XA');
    const behind = rows.slice(start + 1);
    if (start < 0 || behind.some(it => it.text === '^XZ')) return null;
    const closed = behind.findLastIndex(it => it.text === '^FS');
    const isOpen = behind.findLastIndex(it => /^\^(FD|GB|GF)/.test(it.text)) > closed;
    const ends = isOpen ? '^FS^XZ' : '^XZ';
    return { text: 'the label has no end: ^XZ prints it', at: end, changes: [add(`Put ${ends} behind it`, ends)] };
  }
  const last = rows.findLast(it => it.kind !== 'fault' && commandOf(it.text, language));
  if (number === 'F8') return { text: `the last command has fewer bytes than it takes`, at: last?.to ?? end };
  const page = rows.findLastIndex(it => it.text === 'esc 4c');
  const isPage = page >= 0 && !rows.slice(page).some(it => ['FF', 'esc 53', 'esc 40'].includes(it.text));
  const [why, name, sent] = isPage ? ['page mode is in force: FF prints the page', 'FF', '\x0c']
    : ['the last line isn’t ended: LF prints it', 'LF', '\n'];
  return { text: why, at: end, changes: [add(`Put ${name} behind it`, sent)] };
}
