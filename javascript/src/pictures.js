// An image: black and white dots. A row is whole bytes, the first dot the highest bit, 1 is black.

import { joined } from '../../recipes/viewer/bytes.js';
import { png, svg } from '../../recipes/viewer/files.js';
import { VpError, bytesOf, isBytes, named, optionsOf } from './errors.js';

const BLACK = new Uint32Array(new Uint8Array([0, 0, 0, 255]).buffer)[0];
// The dots of a millimetre of paper, where nothing else is said.
const DPMM = 8;

function scaleOf(options = {}) {
  const { dpmm = DPMM } = optionsOf(options, ['dpmm'], 'a file');
  if (typeof dpmm !== 'number' || !(dpmm > 0) || dpmm > 1000) {
    throw new VpError('argument', `dpmm is how many dots a millimetre has, as 8 or 12, and not ${named(dpmm)}`);
  }
  return dpmm;
}

export class Picture {
  constructor(width, height, rows) {
    const isSize = [width, height].every(it => Number.isInteger(it) && it > 0);
    if (!isSize || !isBytes(rows) || rows.byteLength !== Math.ceil(width / 8) * height) {
      throw new VpError('argument',
        'an image is a width and a height in dots, and its rows: as many bytes as its dots take');
    }
    this.width = width;
    this.height = height;
    this.rows = bytesOf(rows);
  }

  get stride() { return Math.ceil(this.width / 8); }

  /** Whether the dot in this column and this row is black. */
  isBlack(x, y) {
    if (![x, y].every(Number.isInteger) || x < 0 || y < 0 || x >= this.width || y >= this.height) {
      throw new VpError('argument', `an image of ${this.width} by ${this.height} dots has no dot ` +
        `${named(x)}, ${named(y)}: columns and rows count from 0`);
    }
    return (this.rows[y * this.stride + (x >> 3)] >> (7 - (x & 7)) & 1) === 1;
  }

  /** The bytes of a row. */
  row(y) { return this.rows.subarray(y * this.stride, (y + 1) * this.stride); }

  /** The image as vp prints it. */
  toPBM() { return joined(`P4\n${this.width} ${this.height}\n`, this.rows); }

  /** Four bytes a dot, as a canvas takes them. */
  toRGBA() {
    const dots = new Uint32Array(this.width * this.height).fill(0xffffffff);
    for (let y = 0, at = 0; y < this.height; y++) {
      const row = this.row(y);
      for (let x = 0; x < this.width; x++, at++) if (row[x >> 3] >> (7 - (x & 7)) & 1) dots[at] = BLACK;
    }
    return new Uint8ClampedArray(dots.buffer);
  }

  /** The image for a canvas's putImageData. */
  toImageData() {
    if (typeof ImageData === 'undefined') {
      throw new VpError('argument', 'there is no ImageData here, as browsers have it: toRGBA() gives its bytes');
    }
    return new ImageData(this.toRGBA(), this.width, this.height);
  }

  /** A PNG that says its true size. */
  async toPNG(options) {
    return new Uint8Array(await (await png(this.drawn(), scaleOf(options))).arrayBuffer());
  }

  /** An SVG in its true size, as a text. */
  async toSVG(options) { return svg(this.drawn(), scaleOf(options)).text(); }

  drawn() { return { width: this.width, height: this.height, rows: y => this.row(y) }; }
}
