// Bytes as characters and back, packed or as they are: for what is kept and for links.
//
// A link's fragment is #vp1. and, packed, a line of JSON and the streams' bytes, one behind the other. The line is a list
// with one or two of {name, language, bytes, width, wide, high}: how many bytes, a receipt's paper in dots, a label's
// size in millimetres where the stream doesn't set it.

import { joined } from './bytes.js';

export const FRONT = '#vp1.';
export const LONGEST_NAME = 80;
const CODED = 1 << 15;

/** Bytes in base64. */
export function toBase64(bytes) {
  let text = '';
  for (let at = 0; at < bytes.length; at += CODED) text += String.fromCharCode(...bytes.subarray(at, at + CODED));
  return btoa(text);
}

/** Bytes of base64; an error where it is none. */
export const fromBase64 = text => Uint8Array.from(atob(text), it => it.charCodeAt(0));

/** What comes of bytes through a stream that changes them; an error where it is more than `most`. */
export async function through(bytes, change, most) {
  const reader = new Blob([bytes]).stream().pipeThrough(change).getReader();
  const pieces = [];
  let size = 0;
  for (;;) {
    const { done, value } = await reader.read();
    if (done) break;
    size += value.length;
    if (size > most) {
      reader.cancel();
      throw new RangeError('it holds too much');
    }
    pieces.push(value);
  }
  return new Uint8Array(await new Blob(pieces).arrayBuffer());
}

/** Packed bytes (deflate, without a head), as characters that may stand in a link. */
export async function toLink(bytes) {
  const packed = await through(bytes, new CompressionStream('deflate-raw'), Infinity);
  return toBase64(packed).replaceAll('+', '-').replaceAll('/', '_').replace(/=+$/, '');
}

/** What toLink packed; an error where it is none, or holds more than `most` bytes. */
export async function fromLink(text, most) {
  const packed = fromBase64(text.replaceAll('-', '+').replaceAll('_', '/'));
  return through(packed, new DecompressionStream('deflate-raw'), most);
}

const headOf = ({ name, language, bytes, width, wide, high }) => ({ name: name.slice(0, LONGEST_NAME), language,
  bytes: bytes.length, ...(language === 'receipt' ? { width: Number(width) } : { wide, high }) });

/** The fragment of a link to some streams. */
export async function fragmentOf(streams) {
  const head = JSON.stringify(streams.map(headOf));
  return FRONT + await toLink(joined(`${head}\n`, ...streams.map(it => it.bytes)));
}
