// What a printer puts out, cut into images as it comes, within bounds.

import { joined } from '../../recipes/viewer/bytes.js';
import { Reached } from './bounds.js';
import { VpError } from './errors.js';
import { Picture } from './pictures.js';

// How an image that vp prints begins, and how long that is at most.
const HEAD = /^P4\n([1-9]\d{0,8}) ([1-9]\d{0,8})\n$/;
const MOST_HEAD = 23;
const noPaper = () => new VpError('paper', 'these bytes are not what vp prints: an image begins with P4');

export class Cutter {
  constructor(bounds) {
    this.bounds = bounds;
    this.head = '';
    this.width = this.height = this.filled = 0;
    /** @type {Uint8Array | null} */
    this.rows = null;
    this.begin();
  }

  /** Counts anew. */
  begin() {
    this.counts = { rows: 0, bytes: 0, images: 0 };
  }

  /** Takes a piece, and gives the images that it completes, each before a bound is reached behind it. */
  * add(piece) {
    for (let at = 0; at < piece.length;) {
      if (!this.rows) {
        this.read(piece[at++]);
        continue;
      }
      const some = Math.min(piece.length - at, this.rows.length - this.filled);
      this.rows.set(piece.subarray(at, at + some), this.filled);
      this.filled += some;
      at += some;
      if (this.filled < this.rows.length) continue;
      const whole = new Picture(this.width, this.height, this.rows);
      this.head = '';
      this.rows = null;
      yield whole;
    }
  }

  // Reads a byte of a head.
  read(byte) {
    this.head += String.fromCharCode(byte);
    const found = byte === 0x0a ? HEAD.exec(this.head) : null;
    if (found) this.open(Number(found[1]), Number(found[2]));
    else if (this.head.length >= MOST_HEAD || !'P4\n'.startsWith(this.head.slice(0, 3))) {
      throw noPaper();
    }
  }

  /** Takes the end: what comes of an image has its head, at least. */
  end() {
    if (this.head && !this.rows) throw noPaper();
  }

  open(width, height) {
    const { counts, bounds } = this;
    const size = ((width + 7) >> 3) * height;
    const next = { rows: counts.rows + height, bytes: counts.bytes + this.head.length + size,
      images: counts.images + 1 };
    for (const [bound, most] of /** @type {[string, number | null][]} */ ([['rows', bounds.mostRows],
      ['bytes', bounds.mostBytes], ['images', bounds.mostImages]])) {
      if (most !== null && next[bound] > most) throw new Reached(bound, most);
    }
    Object.assign(this, { counts: next, width, height, filled: 0, rows: new Uint8Array(size) });
  }

  /** What came of an image that isn't whole. */
  get unfinished() {
    return joined(this.head, ...(this.rows ? [this.rows.subarray(0, this.filled)] : []));
  }
}
