// The paper: sheets of dots, drawn as far as they are seen, each dot so many of the screen's own pixels.

import { rowOf } from './sheets.js';
import { isInk } from './origins.js';
import { gridOf, shortly, sizeOf, ticksOf } from './units.js';

const RULER = { left: 44, top: 22 };
const MARGIN = 20;
const CAPTION = 24;
const HALO = 6;
const MOST_AT_ONCE = 6e6;
const rgb = (r, g, b) => (255 << 24 | b << 16 | g << 8 | r) >>> 0;
const WHITE = rgb(255, 255, 255);
const BLACK = rgb(0, 0, 0);
const COLOURS = { same: rgb(150, 150, 150), lost: rgb(214, 30, 50), added: rgb(0, 90, 220),
  near: rgb(255, 240, 170) };
// Dots of the paper that was printed before, and those that the cursor's bytes draw.
const DIM = { black: rgb(150, 154, 160), white: rgb(226, 229, 233) };
const MARKED = { black: rgb(0, 90, 220), white: rgb(205, 224, 255) };

export class Paper {
  // `told` hears of the dot under the pointer or in the frame, `over` of the pointer's alone, `chosen` of the one that
  // is clicked.
  constructor(root, { told, over, chosen }) {
    this.canvas = root.querySelector('canvas');
    this.scroll = root.querySelector('.scroll');
    this.space = root.querySelector('.space');
    this.context = this.canvas.getContext('2d', { alpha: false });
    this.piece = document.createElement('canvas');
    this.sheets = [];
    this.others = null;
    this.ghosts = null;
    this.mark = null;
    this.hover = null;
    this.dpmm = 8;
    this.unit = 'mm';
    this.total = '';
    this.placed = [];
    this.zoom = 'fit';
    this.grid = false;
    this.cursor = null;
    Object.assign(this, { told, over, chosen });
    this.drawn = () => {};
    this.scroll.addEventListener('scroll', () => this.draw());
    this.scroll.addEventListener('pointermove', event => this.point(event));
    this.scroll.addEventListener('pointerleave', () => {
      this.told(null);
      this.over(null);
    });
    this.scroll.addEventListener('click', event => {
      const box = this.scroll.getBoundingClientRect();
      const dot = this.at(event.clientX - box.left, event.clientY - box.top);
      if (dot) this.chosen(dot);
    });
    this.scroll.addEventListener('keydown', event => this.key(event));
    new ResizeObserver(() => this.lay()).observe(root);
    matchMedia('(prefers-color-scheme: dark)').addEventListener('change', () => this.draw());
  }

  // Sheets, those that they are compared with, and those of before that are shown dimmed where these have nothing. The
  // total says how many there are, where not all are shown.
  show(sheets, { others = null, ghosts = null, total = '' } = {}) {
    if (this.sheets === sheets && this.others === others && this.ghosts === ghosts && this.total === total) return;
    Object.assign(this, { sheets, others, ghosts, total, mark: null, hover: null });
    this.lay();
  }

  // Marks dots: {sheet, x, y, width, height, bits, stride}.
  setMark(mark) {
    if (this.mark === mark) return;
    this.mark = mark;
    this.draw();
  }

  // Shows the box of what the pointer is over, here or in the stream.
  setHover(box) {
    if (this.hover === box) return;
    this.hover = box;
    this.draw();
  }

  setZoom(zoom) {
    const { scrollTop: top, clientHeight: high } = this.scroll;
    const middle = this.at(this.scroll.clientWidth / 2, high / 2) ?? this.at(this.placed[0]?.x / this.ratio
        + 1, top);
    this.zoom = zoom;
    this.lay();
    if (middle && zoom !== 'fit') this.bring(middle.sheet, middle.x, middle.y);
  }

  // Gives every sheet its place, in pixels of the screen.
  lay() {
    const ratio = this.ratio = devicePixelRatio || 1;
    const { clientWidth: width, clientHeight: height } = this.scroll;
    const layers = [this.sheets, this.others ?? [], this.ghosts ?? []];
    const count = Math.max(...layers.map(it => it.length));
    const most = (n, side) => Math.max(...layers.map(it => it[n]?.[side] ?? 0));
    const sizes = Array.from({ length: count }, (_, n) => [most(n, 'width'), most(n, 'height')]);
    const widest = Math.max(1, ...sizes.map(it => it[0]));
    const room = [width - RULER.left - 2 * MARGIN, height - RULER.top - CAPTION - MARGIN];
    if (this.zoom === 'fit') {
      // a long paper is fitted by its width alone
      const high = sizes[0] && sizes[0][1] < 4 * sizes[0][0] && sizes.length
          ? Math.max(...sizes.map(it => it[1])) : 1;
      const fit = Math.min(room[0] / widest, room[1] / high) * ratio;
      this.dot = fit >= 1 ? Math.min(Math.floor(fit), Math.round(4 * ratio)) : Math.max(fit, 0.01);
    } else {
      this.dot = Math.max(1, Math.round(this.zoom * ratio));
    }
    const left = Math.max(MARGIN * ratio, (room[0] + 2 * MARGIN) * ratio / 2 - widest * this.dot / 2);
    let y = RULER.top * ratio;
    this.placed = sizes.map(([wide, high]) => {
      const place = { x: Math.round(RULER.left * ratio + left), y: Math.round(y + CAPTION * ratio), wide,
          high };
      y = place.y + high * this.dot + 4 * ratio;
      return place;
    });
    this.space.style.width = `${Math.ceil(RULER.left + left / ratio + widest * this.dot / ratio + MARGIN)}px`;
    this.space.style.height = `${Math.ceil(y / ratio + MARGIN)}px`;
    this.draw();
  }

  // The dot at a place of the window.
  at(x, y) {
    const left = (x + this.scroll.scrollLeft) * this.ratio;
    const top = (y + this.scroll.scrollTop) * this.ratio;
    for (let n = 0; n < this.placed.length; n++) {
      const place = this.placed[n];
      const dot = { sheet: n, x: Math.floor((left - place.x) / this.dot),
          y: Math.floor((top - place.y) / this.dot) };
      if (dot.x >= 0 && dot.x < place.wide && dot.y >= 0 && dot.y < place.high) return dot;
    }
    return null;
  }

  point(event) {
    const box = this.scroll.getBoundingClientRect();
    const dot = this.at(event.clientX - box.left, event.clientY - box.top);
    this.told(dot);
    this.over(dot);
  }

  key(event) {
    if (event.key === 'Enter' && this.cursor) this.chosen(this.cursor);
    const step = event.shiftKey ? 8 : 1;
    const moves = { ArrowLeft: [-step, 0], ArrowRight: [step, 0], ArrowUp: [0, -step], ArrowDown: [0, step] };
    const move = moves[event.key];
    if (!move || event.ctrlKey || event.metaKey || event.altKey || !this.placed.length) return;
    event.preventDefault();
    const { sheet, x, y } = this.cursor ?? this.at(this.scroll.clientWidth / 2,
        this.scroll.clientHeight / 2) ??
      { sheet: 0, x: 0, y: 0 };
    const clamp = (value, most) => Math.max(0, Math.min(most - 1, value));
    let to = Math.min(sheet, this.placed.length - 1);
    if (y + move[1] >= this.placed[to].high && to + 1 < this.placed.length) this.cursor = { sheet: ++to, x,
        y: 0 };
    else if (y + move[1] < 0 && to > 0) this.cursor = { sheet: --to, x, y: this.placed[to].high - 1 };
    else this.cursor = { sheet: to, x: x + move[0], y: y + move[1] };
    this.cursor.x = clamp(this.cursor.x, this.placed[to].wide);
    this.cursor.y = clamp(this.cursor.y, this.placed[to].high);
    this.bring(this.cursor.sheet, this.cursor.x, this.cursor.y, true);
    this.told(this.cursor);
  }

  // Scrolls a dot into view; to the middle, but where it is seen and need only be.
  bring(sheet, x, y, seen = false) {
    const place = this.placed[Math.min(sheet, this.placed.length - 1)];
    if (!place) return;
    const left = (place.x + x * this.dot) / this.ratio;
    const top = (place.y + y * this.dot) / this.ratio;
    const { scrollLeft, scrollTop, clientWidth, clientHeight } = this.scroll;
    const size = this.dot / this.ratio;
    const inside = left >= scrollLeft + RULER.left && left + size <= scrollLeft + clientWidth &&
      top >= scrollTop + RULER.top && top + size <= scrollTop + clientHeight;
    if (!seen || !inside) this.scroll.scrollTo(left - clientWidth / 2, top - clientHeight / 2);
    this.draw();
  }

  // The sheet of which most is seen.
  current() {
    const middle = (this.scroll.scrollTop + this.scroll.clientHeight / 2) * this.ratio;
    let found = 0;
    this.placed.forEach((place, n) => { if (place.y <= middle) found = n; });
    return found;
  }

  draw() {
    if (this.drawing) return;
    this.drawing = requestAnimationFrame(() => {
      this.drawing = 0;
      this.paint();
      this.drawn();
    });
  }

  paint() {
    const { ratio, dot, context } = this;
    const wide = Math.round(this.scroll.clientWidth * ratio);
    const high = Math.round(this.scroll.clientHeight * ratio);
    if (this.canvas.width !== wide || this.canvas.height !== high) {
      this.canvas.width = wide;
      this.canvas.height = high;
      this.canvas.style.width = `${wide / ratio}px`;
      this.canvas.style.height = `${high / ratio}px`;
    }
    const style = getComputedStyle(this.canvas);
    const colour = name => style.getPropertyValue(name).trim();
    context.fillStyle = colour('--desk');
    context.fillRect(0, 0, wide, high);
    const [left, top] = [Math.round(this.scroll.scrollLeft * ratio),
        Math.round(this.scroll.scrollTop * ratio)];
    const seen = [];
    this.placed.forEach((place, n) => {
      const x = place.x - left;
      const y = place.y - top;
      if (y > high || y + place.high * dot < -CAPTION * ratio) return;
      seen.push({ place, x, y, n });
      this.paintSheet(n, place, x, y, wide, high, colour);
    });
    this.rulers(seen, wide, high, colour);
  }

  paintSheet(n, place, x, y, wide, high, colour) {
    const { context, dot, ratio } = this;
    this.caption(n, place, x, y, colour);
    // the dots that are seen
    const x0 = Math.max(0, Math.floor(-x / dot));
    const x1 = Math.min(place.wide, Math.ceil((wide - x) / dot));
    const y0 = Math.max(0, Math.floor(-y / dot));
    const y1 = Math.min(place.high, Math.ceil((high - y) / dot));
    if (x1 <= x0 || y1 <= y0) return;
    context.fillStyle = colour('--edge');
    context.fillRect(x - ratio, y - ratio, Math.round(place.wide * dot) + 2 * ratio,
      Math.round(place.high * dot) + 2 * ratio);
    this.dots(n, x, y, [x0, x1, y0, y1], colour);
    if (this.grid) this.lines(x, y, [x0, x1, y0, y1], colour);
    this.frames(n, x, y, colour);
  }

  caption(n, place, x, y, colour) {
    const { context, ratio } = this;
    context.fillStyle = colour('--ink');
    context.font = `${12 * ratio}px system-ui, sans-serif`;
    context.textBaseline = 'alphabetic';
    context.textAlign = 'left';
    const name = this.placed.length > 1 ? `${n + 1} of ${this.total || this.placed.length}  ` : '';
    const dots = `${name}${place.wide} × ${place.high} dots`;
    const room = text => this.canvas.width - context.measureText(text).width - 6;
    const whole = `${dots}, ${sizeOf(place.wide, place.high, this.dpmm)}`;
    const text = [whole, whole.replace(/, [^,]*$/, ''), dots].find(it => room(it) > RULER.left * ratio) ?? dots;
    const most = room(text);
    context.fillText(text, Math.max(RULER.left * ratio + 6, Math.min(x, most)), y - 8 * ratio);
  }

  dots(n, x, y, [x0, x1, y0, y1], colour) {
    const { context, dot } = this;
    // of far too many dots only each so many one
    const step = Math.ceil(Math.sqrt((x1 - x0) * (y1 - y0) / MOST_AT_ONCE));
    const [wide, high] = [Math.ceil((x1 - x0) / step), Math.ceil((y1 - y0) / step)];
    if (this.piece.width < wide || this.piece.height < high) Object.assign(this.piece, { width: wide, height: high });
    const to = this.piece.getContext('2d');
    const image = to.createImageData(wide, high);
    const pixels = new Uint32Array(image.data.buffer);
    const outside = this.outside(colour);
    if (this.others) this.compare(pixels, n, x0, y0, wide, high, step, outside);
    else this.plain(pixels, n, x0, y0, wide, high, step, outside);
    if (this.mark?.sheet === n && !this.others) this.tint(pixels, x0, y0, wide, high, step);
    to.putImageData(image, 0, 0);
    context.imageSmoothingEnabled = dot < 1;
    context.imageSmoothingQuality = dot < 0.5 ? 'medium' : 'low';
    context.drawImage(this.piece, 0, 0, wide, high, x + x0 * dot, y + y0 * dot, wide * step * dot, high * step * dot);
  }

  // A line each so many millimetres, or parts of an inch, as there is room; each dot where dots are large.
  lines(x, y, [x0, x1, y0, y1], colour) {
    const { context, dot, ratio } = this;
    const steps = gridOf(this.unit, this.dpmm * dot, ratio).map(it => it * this.dpmm);
    const all = dot >= 8 * ratio ? [[1, '--fine'], [steps[0], '--grid'], [steps[1], '--grid']]
      : [[steps[0], '--fine'], [steps[1], '--grid']];
    for (const [each, name] of all) {
      context.fillStyle = colour(name);
      for (let n = Math.ceil(x0 / each); n * each <= x1; n++) {
        context.fillRect(Math.round(x + n * each * dot), y + y0 * dot, ratio, (y1 - y0) * dot);
      }
      for (let n = Math.ceil(y0 / each); n * each <= y1; n++) {
        context.fillRect(x + x0 * dot, Math.round(y + n * each * dot), (x1 - x0) * dot, ratio);
      }
    }
  }

  // Frames around the dots that are marked, and around the one that the arrows move.
  frames(n, x, y, colour) {
    const { context, dot, ratio, mark, cursor } = this;
    if (mark?.sheet === n) {
      const gap = 3 * ratio;
      context.strokeStyle = colour('--accent');
      context.lineWidth = 1.5 * ratio;
      context.strokeRect(x + mark.x * dot - gap, y + mark.y * dot - gap, mark.width * dot + 2 * gap,
        mark.height * dot + 2 * gap);
    }
    const { hover } = this;
    if (hover?.sheet === n) {
      context.strokeStyle = colour('--mark');
      context.lineWidth = 1.5 * ratio;
      context.setLineDash([5 * ratio, 3 * ratio]);
      context.strokeRect(x + hover.x * dot - ratio, y + hover.y * dot - ratio, hover.width * dot + 2 * ratio,
        hover.height * dot + 2 * ratio);
      context.setLineDash([]);
    }
    if (cursor?.sheet === n) {
      context.strokeStyle = colour('--mark');
      context.lineWidth = 2 * ratio;
      const grown = Math.max(dot, 6 * ratio);
      context.strokeRect(x + (cursor.x + 0.5) * dot - grown / 2, y + (cursor.y + 0.5) * dot - grown / 2, grown, grown);
    }
  }

  outside(colour) {
    const [r, g, b] = colour('--missing').match(/\d+/g).map(Number);
    return rgb(r, g, b);
  }

  plain(pixels, n, x0, y0, wide, high, step, outside) {
    const sheet = this.sheets[n];
    const ghost = this.ghosts?.[n];
    let to = 0;
    for (let y = 0; y < high; y++) {
      const own = sheet ? rowOf(sheet, y0 + y * step) : -1;
      const { bytes, width } = own < 0 ? ghost ?? {} : sheet;
      const row = own < 0 && ghost ? rowOf(ghost, y0 + y * step) : own;
      if (row < 0) {
        pixels.fill(outside, to, to += wide);
        continue;
      }
      const [black, white] = own < 0 ? [DIM.black, DIM.white] : [BLACK, WHITE];
      for (let x = 0, dot = x0; x < wide; x++, dot += step) {
        pixels[to++] = dot >= width ? outside : bytes[row + (dot >> 3)] >> (7 - (dot & 7)) & 1 ? black : white;
      }
    }
  }

  // Colours the dots of the mark: all of its ink, or where that isn't known its black dots.
  tint(pixels, x0, y0, wide, high, step) {
    const { mark } = this;
    for (let y = Math.max(0, Math.ceil((mark.y - y0) / step)); y < high && y0 + y * step < mark.y + mark.height; y++) {
      for (let x = Math.max(0, Math.ceil((mark.x - x0) / step)); x < wide && x0 + x * step < mark.x + mark.width; x++) {
        if (!isInk(mark, x0 + x * step, y0 + y * step)) continue;
        const at = y * wide + x;
        if (pixels[at] === BLACK) pixels[at] = MARKED.black;
        else if (mark.bits && pixels[at] === WHITE) pixels[at] = MARKED.white;
      }
    }
  }

  // Red is on the other paper alone, blue on ours alone, and yellow are the places near one of them.
  compare(pixels, n, x0, y0, wide, high, step, outside) {
    const [w, h] = [wide + 2 * HALO, high + 2 * HALO];
    const kind = new Uint8Array(w * h);
    for (const [sheet, bit] of [[this.sheets[n], 1], [this.others[n], 2]]) {
      for (let y = 0; sheet && y < h; y++) {
        const row = rowOf(sheet, y0 + (y - HALO) * step);
        if (row < 0) continue;
        for (let x = 0, dot = x0 - HALO * step; x < w; x++, dot += step) {
          if (dot < 0 || dot >= sheet.width) continue;
          kind[y * w + x] |= 4 * bit | (sheet.bytes[row + (dot >> 3)] >> (7 - (dot & 7)) & 1 ? bit : 0);
        }
      }
    }
    const differs = it => (it & 3) === 1 || (it & 3) === 2;
    const near = new Uint8Array(w * h);
    const spread = (count, length, place, test, set) => {
      for (let line = 0; line < count; line++) {
        for (const back of [false, true]) {
          for (let n = 0, left = 0; n < length; n++) {
            const at = place(line, back ? length - 1 - n : n);
            if (test(at)) left = HALO + 1;
            if (left-- > 0) set(at);
          }
        }
      }
    };
    spread(h, w, (y, x) => y * w + x, at => differs(kind[at]), at => { near[at] |= 1; });
    spread(w, h, (x, y) => y * w + x, at => near[at] & 1, at => { near[at] |= 2; });
    for (let y = 0, to = 0; y < high; y++) {
      for (let x = 0; x < wide; x++) {
        const at = (y + HALO) * w + x + HALO;
        const it = kind[at];
        pixels[to++] = (it & 3) === 3 ? COLOURS.same : (it & 3) === 2 ? COLOURS.lost : (it & 3) === 1
            ? COLOURS.added
          : near[at] ? COLOURS.near : it ? WHITE : outside;
      }
    }
  }

  rulers(seen, wide, high, colour) {
    const { context, ratio } = this;
    const [left, top] = [RULER.left * ratio, RULER.top * ratio];
    context.fillStyle = colour('--panel');
    context.fillRect(0, 0, wide, top);
    context.fillRect(0, 0, left, high);
    context.fillStyle = colour('--line');
    context.fillRect(0, top - ratio, wide, ratio);
    context.fillRect(left - ratio, 0, ratio, high);
    context.font = `${10.5 * ratio}px system-ui, sans-serif`;
    context.fillStyle = colour('--quiet');
    if (seen[0]) {
      context.textAlign = 'left';
      this.ticks(seen[0].x, seen[0].place.wide, left, wide, (at, long, value) => {
        context.fillRect(at, top - long, ratio, long);
        if (value !== null) context.fillText(value, at + 3 * ratio, top - 8 * ratio);
      });
    }
    context.textAlign = 'right';
    for (const { place, y, n } of seen) {
      this.ticks(y, place.high, top, high, (at, long, value) => {
        if (at < top) return;
        context.fillRect(left - long, at, long, ratio);
        if (value !== null) context.fillText(value, left - 11 * ratio, at + 4 * ratio);
      });
      this.edges(this.sheets[n], y, top, high, left, colour);
      context.fillStyle = colour('--quiet');
    }
    context.fillStyle = colour('--panel');
    context.fillRect(0, 0, left - ratio, top - ratio);
    context.fillStyle = colour('--quiet');
    context.textAlign = 'center';
    context.fillText(this.unit, left / 2, top - 7 * ratio);
  }

  // The ticks of a ruler: where each stands, how long it is, and its number where that is written.
  ticks(from, length, start, end, tick) {
    const { dot, ratio } = this;
    const { step, minor, long } = ticksOf(this.unit, this.dpmm * dot, ratio);
    for (let n = Math.max(0, Math.ceil((start - from) / minor)); n * minor <= length * dot + 0.5; n++) {
      const at = from + n * minor;
      if (at > end) break;
      const whole = n * minor / step;
      const isWritten = Math.abs(whole - Math.round(whole)) < 1e-6;
      tick(Math.round(at), (isWritten ? 9 : 4) * ratio, isWritten ? shortly(Math.round(whole) * long) : null);
    }
  }

  // Where one strip of a receipt ends and the next begins.
  edges(sheet, y, top, high, left, colour) {
    if (!sheet || sheet.strips.length < 2) return;
    const { context, dot, ratio } = this;
    context.fillStyle = colour('--mark');
    let last = -Infinity;
    for (const strip of sheet.strips) {
      const at = y + strip.y * dot;
      if (at > high) break;
      if (strip.y === 0 || at < top || at - last < 3 * ratio) continue;
      last = at;
      context.fillRect(left, Math.round(at), 8 * ratio, ratio);
    }
  }
}
