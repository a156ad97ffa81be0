// Text that stands for bytes, and back: as escapes, which keep every byte, or as the text that the bytes are.
//
// Escapes: 20 to 7E stand for themselves, but a backslash is \\, a line feed \n and every other byte \xNN. Behind \n
// the text breaks the line, and a break is no byte. Read back, \r and \t are bytes too, a backslash that begins none of
// these is itself, and a character above 7E is its bytes in UTF-8.

/** Bytes as characters, one each. */
export const latin = new TextDecoder('latin1');
const encoder = new TextEncoder();
const HEX = Array.from({ length: 256 }, (_, byte) => byte.toString(16).padStart(2, '0'));
const ESCAPED = Array.from({ length: 256 }, (_, byte) =>
  byte === 0x5c ? '\\\\' : byte === 0x0a ? '\\n\n' : byte >= 0x20 && byte < 0x7f ? String.fromCharCode(byte)
    : '\\x' + HEX[byte]);
const PIECE = 1 << 16;
const PLAIN = { n: 0x0a, r: 0x0d, t: 0x09, '\\': 0x5c };

export function toEscapes(bytes) {
  const parts = [];
  for (let at = 0; at < bytes.length; at++) parts.push(ESCAPED[bytes[at]]);
  return parts.join('');
}

// The line ends of bytes that are a text with one kind of them; null where no text keeps all the bytes.
export function endsOf(bytes) {
  let [alone, both] = [0, 0];
  for (let at = 0; at < bytes.length; at++) {
    const byte = bytes[at];
    if (byte >= 0x20 && byte !== 0x7f || byte === 0x09) continue;
    if (byte === 0x0d && bytes[at + 1] === 0x0a) {
      both++;
      at++;
    } else if (byte === 0x0a) {
      alone++;
    } else {
      return null;
    }
  }
  if (alone && both) return null;
  const decoder = new TextDecoder('utf-8', { fatal: true });
  try {
    for (let at = 0; at < bytes.length; at += PIECE) decoder.decode(bytes.subarray(at, at + PIECE), { stream: true });
    decoder.decode();
  } catch {
    return null;
  }
  return both ? '\r\n' : '\n';
}

// Such a text, its lines broken by line feeds.
export function toText(bytes, end) {
  const text = new TextDecoder('utf-8', { ignoreBOM: true }).decode(bytes);
  return end === '\n' ? text : text.replaceAll(end, '\n');
}

// The bytes that a text stands for, and for each place of the text how many of them come before it. `end` is the line
// ends of a text, and null of escapes.
export function toBytes(text, end) {
  const length = text.length;
  const bytes = new Uint8Array(3 * length + (end === '\r\n' ? length : 0));
  const before = new Uint32Array(length + 1);
  let count = 0;
  let at = 0;
  while (at < length) {
    const code = text.charCodeAt(at);
    const first = at;
    const from = count;
    at++;
    if (code === 0x0a) {
      if (end !== null) for (const char of end) bytes[count++] = char.charCodeAt(0);
    } else if (code === 0x5c && end === null) {
      const next = text[at];
      const digits = next === 'x' && /^[0-9a-fA-F]{2}$/.test(text.slice(at + 1, at + 3));
      if (digits) {
        bytes[count++] = parseInt(text.slice(at + 1, at + 3), 16);
        at += 3;
      } else if (next in PLAIN) {
        bytes[count++] = PLAIN[next];
        at++;
      } else {
        bytes[count++] = code;
      }
    } else if (code < 0x80) {
      bytes[count++] = code;
    } else {
      if (code >= 0xd800 && code < 0xdc00 && at < length) at++;
      const some = encoder.encode(text.slice(first, at));
      bytes.set(some, count);
      count += some.length;
    }
    for (let place = first; place < at; place++) before[place] = from;
  }
  before[length] = count;
  return { bytes: bytes.slice(0, count), before };
}

// Where in a text the byte of this number stands: the place behind all that stands for the bytes before it.
export function placeOf(before, byte) {
  let low = 0;
  let high = before.length - 1;
  while (low < high) {
    const middle = (low + high) >> 1;
    if (before[middle] >= byte) high = middle; else low = middle + 1;
  }
  return low;
}

// What is pasted among escapes: its line breaks are line feeds, its controls escapes.
export function pasted(text) {
  let out = '';
  for (let at = 0; at < text.length; at++) {
    const char = text[at];
    const code = text.charCodeAt(at);
    if (char === '\\' && at + 1 < text.length && 'nrt\\x'.includes(text[at + 1])) {
      out += char + text[++at];
      if (text[at] !== 'n') continue;
      out += '\n';
      if (text.startsWith('\r\n', at + 1)) at += 2; else if (text[at + 1] === '\n') at++;
    } else if (char === '\n') {
      out += '\\n\n';
    } else if (code < 0x20 || code === 0x7f) {
      out += '\\x' + HEX[code];
    } else {
      out += char;
    }
  }
  return out;
}

// Bytes, and texts by their bytes in UTF-8, one behind the other.
export function joined(...parts) {
  const bytes = parts.map(it => (typeof it === 'string' ? encoder.encode(it) : it));
  const all = new Uint8Array(bytes.reduce((sum, it) => sum + it.length, 0));
  let at = 0;
  for (const it of bytes) {
    all.set(it, at);
    at += it.length;
  }
  return all;
}
