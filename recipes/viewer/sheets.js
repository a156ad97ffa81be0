// Sheets of dots: the images that vp prints, read as they come.

// So many images of a label's paper are shown, and so many bytes of any. What is beyond is counted, but not for long.
export const MOST_IMAGES = 64;
export const MOST_PAPER = 32 << 20;
const COUNTED = { bytes: 256 << 20, ms: 1000 };
const HEAD = /^P4\n(\d{1,9}) (\d{1,9})\n$/;
const LONGEST_HEAD = 'P4\n999999999 999999999\n'.length;

export class Images {
  constructor(most = Infinity, mostBytes = Infinity) {
    Object.assign(this, { most, mostBytes, pieces: [], found: [], count: 0, broken: false });
    // how much was read, how much of an image's rows is still to come, its head as far as it was read, and where
    // what is beyond begins
    Object.assign(this, { at: 0, left: 0, head: '', end: Infinity, since: performance.now() });
  }

  // Reads a piece; answers whether more is of use.
  take(piece) {
    if (this.at < this.limit) this.pieces.push(piece);
    for (let at = 0; at < piece.length && !this.broken;) {
      if (this.left > 0) {
        const some = Math.min(this.left, piece.length - at);
        this.left -= some;
        this.at += some;
        at += some;
        continue;
      }
      if (!this.head && this.count === this.most) this.end = this.at;
      const byte = piece[at++];
      this.at++;
      this.head += String.fromCharCode(byte);
      const head = byte === 0x0a ? HEAD.exec(this.head) : null;
      if (head) this.begin(Number(head[1]), Number(head[2]));
      else if (this.head.length >= LONGEST_HEAD) this.broken = true;
    }
    if (this.at <= this.limit) return !this.broken;
    return this.most < Infinity && this.at < COUNTED.bytes && performance.now() - this.since < COUNTED.ms;
  }

  begin(width, height) {
    this.count++;
    if (this.count <= this.most && this.at < this.limit) this.found.push([width, height, this.at]);
    this.left = ((width + 7) >> 3) * height;
    this.head = '';
  }

  get limit() {
    return Math.min(this.end, this.mostBytes);
  }

  // What is shown: its bytes, and each image as its width, its height, where its rows begin and how many are there.
  shown() {
    const all = new Uint8Array(Math.min(this.at, this.limit));
    let at = 0;
    for (const piece of this.pieces) {
      all.set(piece.subarray(0, all.length - at), at);
      at += piece.length;
    }
    const images = [];
    let end = 0;
    for (const [width, height, start] of this.found) {
      const stride = (width + 7) >> 3;
      const rows = Math.max(0, Math.min(height, Math.floor((all.length - start) / stride)));
      // of images that are each a label, one that is cut isn't shown
      if (this.most < Infinity && this.at > this.limit && rows < height) break;
      images.push([width, height, start, rows]);
      end = start + stride * rows;
    }
    return { bytes: all.subarray(0, end), images };
  }
}

// The images of a file as vp writes it; null where it is none.
export function imagesOf(bytes) {
  const read = new Images();
  read.take(bytes);
  return read.count && !read.broken && !read.head ? read.shown().images : null;
}

// Sheets of images: each image of a label is one, all strips of a receipt are one.
export function sheetsOf(images, bytes, joined) {
  const sheets = [];
  for (const [width, height, start, rows] of images) {
    const strip = { y: 0, start, rows, height };
    const last = sheets[sheets.length - 1];
    if (joined && last && last.width === width) {
      strip.y = last.height;
      last.height += height;
      last.strips.push(strip);
    } else {
      sheets.push({ width, height, strips: [strip], bytes, stride: (width + 7) >> 3 });
    }
  }
  return sheets;
}

export function stripOf(sheet, y) {
  const { strips } = sheet;
  let low = 0;
  let high = strips.length - 1;
  while (low < high) {
    const middle = (low + high + 1) >> 1;
    if (strips[middle].y <= y) low = middle; else high = middle - 1;
  }
  return strips[low];
}

// Where a row's bytes begin; -1 where it isn't there.
export function rowOf(sheet, y) {
  const strip = stripOf(sheet, y);
  return strip && y >= 0 && y - strip.y < strip.rows ? strip.start + (y - strip.y) * sheet.stride : -1;
}

export function isBlack(sheet, x, y) {
  const row = sheet && x >= 0 && x < sheet.width ? rowOf(sheet, y) : -1;
  return row >= 0 && (sheet.bytes[row + (x >> 3)] >> (7 - (x & 7)) & 1) === 1;
}

const BITS = Uint8Array.from({ length: 256 }, (_, n) => n.toString(2).replaceAll('0', '').length);

// How many dots differ between two lists of sheets, and where the first one is.
export function difference(sheets, others) {
  let count = 0;
  let first = null;
  for (let n = 0; n < Math.max(sheets.length, others.length); n++) {
    const [one, other] = [sheets[n], others[n]];
    const high = Math.max(one?.height ?? 0, other?.height ?? 0);
    const stride = Math.max(one?.stride ?? 0, other?.stride ?? 0);
    for (let y = 0; y < high; y++) {
      const a = one ? rowOf(one, y) : -1;
      const b = other ? rowOf(other, y) : -1;
      for (let x = 0; x < stride; x++) {
        const left = a >= 0 && x < one.stride ? one.bytes[a + x] : 0;
        const right = b >= 0 && x < other.stride ? other.bytes[b + x] : 0;
        if (left === right) continue;
        count += BITS[left ^ right];
        first ??= { sheet: n, x: 8 * x + Math.clz32(left ^ right) - 24, y };
      }
    }
  }
  return { count, first };
}
