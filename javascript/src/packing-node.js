// Streams that pack and unpack, in place of node's own: before 20.12 these know no deflate without a head.

import { Duplex } from 'node:stream';
import { createDeflate, createDeflateRaw, createInflateRaw } from 'node:zlib';

export class CompressionStream {
  constructor(form) { return Duplex.toWeb(form === 'deflate-raw' ? createDeflateRaw() : createDeflate()); }
}

export class DecompressionStream {
  constructor() { return Duplex.toWeb(createInflateRaw()); }
}
