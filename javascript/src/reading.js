// What is printed: a string, bytes, a Blob or a stream of these, as pieces of bytes.

import { VpError, bytesOf, isBytes, named } from './errors.js';

const encoder = new TextEncoder();
const TAKEN = 'a string, bytes (a Uint8Array or an ArrayBuffer), a Blob or a stream';

function pieceOf(value) {
  if (typeof value === 'string') return encoder.encode(value);
  if (isBytes(value)) return bytesOf(value);
  throw new VpError('stream', `a stream is of pieces that are bytes or strings, and not ${named(value)}`);
}

/** Gives the bytes of what is printed, piece by piece; a string's are its UTF-8. */
export async function* piecesOf(stream) {
  if (typeof stream === 'string' || isBytes(stream)) {
    yield pieceOf(stream);
  } else if (typeof stream?.getReader === 'function') {
    if (stream.locked) throw new VpError('stream', 'this stream is being read already');
    yield* readFrom(stream.getReader());
  } else if (typeof stream?.[Symbol.asyncIterator] === 'function') {
    for await (const it of stream) yield pieceOf(it);
  } else if (typeof stream?.arrayBuffer === 'function') {
    yield bytesOf(await stream.arrayBuffer());
  } else if (typeof stream?.then === 'function') {
    throw new VpError('stream', `what is printed is ${TAKEN}, and not a Promise: await it first`);
  } else {
    throw new VpError('stream', `what is printed is ${TAKEN}, and not ${named(stream)}`);
  }
}

async function* readFrom(reader) {
  let isDone = false;
  try {
    for (;;) {
      const { done, value } = await reader.read();
      isDone = done;
      if (done) return;
      yield pieceOf(value);
    }
  } finally {
    // (what is behind a fault isn't asked for)
    if (!isDone) await reader.cancel().catch(() => {});
  }
}
