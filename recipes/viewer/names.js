// What the commands of a receipt are called: as manuals write them, with their bytes, and in words.

import { latin } from './bytes.js';
import { nameIn } from './helping.js';
import { commandOf } from './known.js';

const LEADS = { esc: 'ESC', gs: 'GS', fs: 'FS', dle: 'DLE' };
const BLANK_NAMES = { '20': 'SP', '0c': 'FF', '04': 'EOT', '05': 'ENQ' };
const letter = byte => (byte >= 0x20 && byte < 0x7f ? String.fromCharCode(byte) : null);
const signOf = byte => BLANK_NAMES[byte] ?? letter(parseInt(byte, 16)) ?? byte;
const value = bytes => (bytes.length ? parseInt(bytes[0], 16) : '');
const twoBytes = ([low, high]) => (high === undefined ? '' : parseInt(high + low, 16));
const signed = bytes => { const n = twoBytes(bytes); return n > 32767 ? n - 65536 : n; };
const among = (...names) => bytes => names[value(bytes) >= 0x30 ? value(bytes) - 0x30 : value(bytes)] ?? '';
const onOff = bytes => (value(bytes) & 1 ? 'on' : 'off');

function mode(bytes) {
  const bits = value(bytes);
  const said = [[1, 'font B'], [8, 'bold'], [16, 'high'], [32, 'wide'], [128, 'underline']];
  return said.filter(([bit]) => bits & bit).map(it => it[1]).join(', ') || 'plain';
}

const size = bytes => `${(value(bytes) >> 4 & 7) + 1} × ${(value(bytes) & 7) + 1}`;
const area = bytes => [0, 2, 4, 6].map(at => twoBytes(bytes.slice(at, at + 2))).join(' ');
const columns = ([kind, ...count]) => `${twoBytes(count)}, ${['20', '21'].includes(kind) ? 24 : 8} dots high`;
const raster = ([, wide, more, high, most]) => `${8 * twoBytes([wide, more])} × ${twoBytes([high, most])}`;
const bars = bytes => ({ 0: 'UPC-A', 1: 'UPC-E', 2: 'EAN-13', 3: 'EAN-8', 4: 'Code 39', 5: 'ITF', 6: 'Codabar',
  72: 'Code 93', 73: 'Code 128' })[value(bytes) > 64 && value(bytes) < 72 ? value(bytes) - 65 : value(bytes)] ?? '';
const cutSaid = bytes => among('full', 'partial')(bytes) || { 41: 'full, fed', 42: 'partial, fed' }[bytes[0]] || '';

// By lead and sign: what it is, and what its bytes say.
const NAMES = {
  'esc 0c': ['print page, keep it'], 'esc 20': ['letter spacing', value], 'esc 21': ['print mode', mode],
  'esc 24': ['go to', twoBytes], 'esc 25': ["till's own letters", onOff], 'esc 2a': ['columns', columns],
  'esc 2d': ['underline', among('off', 'on', 'thick')], 'esc 32': ['line spacing as at first'],
  'esc 33': ['line spacing', value], 'esc 3d': ['who listens'], 'esc 3f': ["forget a till's letter"],
  'esc 40': ['begin anew'], 'esc 44': ['tab stops'], 'esc 45': ['bold', onOff], 'esc 47': ['double strike', onOff],
  'esc 4a': ['print, feed', value], 'esc 4c': ['page mode'], 'esc 4d': ['font', among('A', 'B')],
  'esc 52': ['country', value], 'esc 53': ['standard mode'],
  'esc 54': ['direction', among('→', '↑', '←', '↓')], 'esc 55': ['one direction', onOff],
  'esc 56': ['turned letters', onOff], 'esc 57': ['page area', area], 'esc 5c': ['move by', signed],
  'esc 61': ['align', among('left', 'centre', 'right')], 'esc 63': ['panel, sensors'],
  'esc 64': ['print, feed lines', value], 'esc 69': ['cut', () => 'partial'], 'esc 6d': ['cut', () => 'partial'],
  'esc 70': ['open drawer'], 'esc 72': ['colour', value], 'esc 74': ['code table', value],
  'esc 7b': ['upside down', onOff], 'gs 21': ['size', size], 'gs 24': ['go down to', twoBytes],
  'gs 28': ['more commands'], 'gs 28 41': ['test page'], 'gs 28 43': ["printer's memory"],
  'gs 28 44': ['real-time commands'], 'gs 28 45': ["printer's settings"], 'gs 28 46': ['black marks'],
  'gs 28 48': ['ask for an answer'], 'gs 28 4b': ['darkness'], 'gs 28 4c': ['picture, kept'],
  'gs 28 4d': ['load settings'], 'gs 28 4e': ['letters on a ground'], 'gs 28 50': ['largest page'],
  'gs 28 51': ['lines, boxes'], 'gs 28 56': ['feed, cut'], 'gs 28 6b': ['symbol'], 'gs 38 4c': ['picture, kept'],
  'gs 42': ['white on black', onOff], 'gs 48': ["bars' text", among('off', 'above', 'below', 'both')],
  'gs 49': ["ask printer's name"], 'gs 4c': ['left margin', twoBytes], 'gs 50': ['units of length'],
  'gs 56': ['cut', cutSaid], 'gs 57': ['area width', twoBytes], 'gs 5c': ['move down by', signed],
  'gs 61': ['tell state by itself'], 'gs 62': ['smooth letters', onOff], 'gs 66': ["bars' text font", among('A', 'B')],
  'gs 68': ["bars' height", value], 'gs 6b': ['bars', bars], 'gs 72': ['ask state'],
  'gs 76': ['raster', bytes => raster(bytes.slice(1))],
  'gs 77': ["bars' module", value], 'fs 21': ['Kanji mode'], 'fs 26': ['Kanji'], 'fs 2d': ['Kanji underline'],
  'fs 2e': ['no Kanji'], 'fs 43': ['Kanji table'], 'fs 53': ['Kanji spacing'], 'fs 57': ['large Kanji', onOff],
  'fs 70': ['stored picture'], 'dle 04': ['ask state at once'], 'dle 05': ['clear error at once'],
};
// Of GS ( k, by the function's byte behind the lengths and the symbol's.
const QR = { 41: 'QR model', 43: 'QR module', 45: 'QR level', 50: 'QR data', 51: 'print QR' };
const CONTROLS = { LF: 'print line', HT: 'tab', FF: 'print page', CAN: 'wipe page', CR: 'nothing' };

// Of a label what the command is called, of a comment what it says.
function labelNamed({ text, kind, from, to }, stream) {
  if (kind === 'comment' && stream) return { code: '^FX', words: latin.decode(stream.subarray(from + 3, to)).trim() };
  const command = commandOf(text.replace(/ skipped$/, ''), 'label');
  return { code: text, words: command ? nameIn('label', command) : '' };
}

// A row's command as {code, words}, of the stream's bytes; of data what they are.
export function named(row, language, stream = null) {
  if (row.count) return { code: row.text, words: dataShown(row) };
  const [lead, ...bytes] = row.text.split(' ');
  if (lead === 'char') {
    return { code: row.text, words: bytes[0] === '20' ? 'blank' : letter(parseInt(bytes[0], 16)) ?? '' };
  }
  if (language === 'label') return labelNamed(row, stream);
  if (!(lead in LEADS)) return { code: row.text, words: CONTROLS[row.text] ?? '' };
  const long = `${lead} ${bytes[0]} ${bytes[1]}`;
  const count = long in NAMES || lead === 'gs' && ['28', '38'].includes(bytes[0]) ? 2 : 1;
  const [name, says] = NAMES[long] ?? NAMES[`${lead} ${bytes[0]}`] ?? [''];
  const rest = bytes.slice(count);
  const code = [LEADS[lead], ...bytes.slice(0, count).map(signOf), ...rest].join(' ');
  const qr = long === 'gs 28 6b' && rest[2] === '31' ? QR[rest[3]] : '';
  const said = says?.(rest) ?? '';
  return { code, words: qr || `${name}${said === '' ? '' : ` ${said}`}` };
}

function dataShown({ values, count, text }) {
  if (text === 'column') return '';
  const some = values.map(it => letter(it) ?? `\\x${it.toString(16).padStart(2, '0')}`);
  return some.join('') + (count > some.length ? '…' : '');
}
