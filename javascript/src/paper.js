// Paper: the images of a stream, the fault that it ends in, what a printer would print besides, and what drew its dots.

import { joined } from '../../recipes/viewer/bytes.js';
import { NONE } from './bounds.js';
import { Cutter } from './cutting.js';
import { VpError, bytesOf, isBytes, named } from './errors.js';
import { drewOf, remarksOn } from './looking.js';
import { Picture } from './pictures.js';

const NOTHING = new Uint8Array(0);

export class Paper {
  #drawn;

  /** The paper of images; of a stream its settings, its bytes, its fault and what came of a last image. */
  constructor(images, { language = null, width = 576, whole = false, fontA = undefined, fontB = undefined,
    stream = null, fault = null, unfinished = NOTHING, bounds = NONE } = {}) {
    if (!Array.isArray(images)) throw new VpError('argument', 'a paper is what print() gives, or Paper.read(bytes)');
    this.images = Object.freeze([...images]);
    this.language = language;
    this.stream = stream;
    this.fault = fault;
    this.unfinished = unfinished;
    this.#drawn = Object.freeze({ language, width, whole, fontA, fontB, bounds });
  }

  /** The paper of bytes that vp printed, as toPBM() gives them. */
  static read(bytes) {
    if (!isBytes(bytes)) {
      throw new VpError('argument', 'a paper is read from bytes (a Uint8Array or an ArrayBuffer), and not ' +
        named(bytes));
    }
    const cutter = new Cutter(NONE);
    const images = [...cutter.add(bytesOf(bytes))];
    cutter.end();
    return new Paper(images, { unfinished: cutter.unfinished });
  }

  get length() { return this.images.length; }

  [Symbol.iterator]() { return this.images[Symbol.iterator](); }

  /** How it was printed; for this package. */
  get settings() { return this.#drawn; }

  /** All that was printed, byte for byte as the program prints it. */
  toPBM() { return joined(...this.images.map(it => it.toPBM()), this.unfinished); }

  /** One image of all, under each other, as a receipt's strips are. */
  joined() {
    const [first] = this.images;
    if (!first) throw new VpError('paper', 'nothing is printed, so that there is no image');
    const widths = [...new Set(this.images.map(it => it.width))];
    if (widths.length > 1) {
      throw new VpError('paper', `images of several widths (${widths.join(' and ')} dots) are not one image: ` +
        'paper.images has each');
    }
    const height = this.images.reduce((sum, it) => sum + it.height, 0);
    return new Picture(first.width, height, joined(...this.images.map(it => it.rows)));
  }

  async toPNG(options) { return this.joined().toPNG(options); }

  async toSVG(options) { return this.joined().toSVG(options); }

  /** What a printer would print besides, or otherwise: each with the byte that it is about, or null. */
  async remarks() { return remarksOn(this.#known()); }

  /** The bytes that drew a dot, null where none did: of the image of a number, else of all under each other. */
  async drew(x, y, image = null) {
    const known = this.#known();
    const most = this.images.length - 1;
    if (image !== null && !(Number.isInteger(image) && image >= 0 && image <= most)) {
      throw new VpError('argument', `there is no image ${named(image)}: this paper has ${most + 1}, counted from 0`);
    }
    const tops = [0];
    for (const it of this.images) tops.push(tops[tops.length - 1] + it.height);
    const own = image ?? Math.max(0, tops.filter((it, n) => n <= most && it <= y).length - 1);
    if (!this.images[own]) throw new VpError('paper', 'nothing is printed, so that there is no dot');
    this.images[own].isBlack(x, image === null ? y - tops[own] : y);
    return drewOf(known, { x, y: image === null ? y : y + tops[own], image: own, top: tops[own],
      above: image === null ? 0 : tops[own] });
  }

  #known() {
    if (!this.stream) {
      throw new VpError('paper', 'this paper was read, or cut off, or its stream is too long: it is not known');
    }
    return this;
  }
}
