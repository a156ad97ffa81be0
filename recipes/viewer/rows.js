// The lines of a listing, read as they come, each with the bytes of the stream that it stands for.
//
// A row is {place, text, kind, count, values, from, to, name}: how many bytes were taken when it was given; its line;
// what it is (data, cmd, skip, ctl, comment); of a run of data how many, and the first of their bytes; its bytes, and
// how many of them are the command's name.

import { joined } from './bytes.js';

const MOST_ROWS = 200_000;
const SHOWN = 48;
const RUNS = ['char', 'byte', 'column'];
const decoder = new TextDecoder('latin1');
const LEAD_BYTES = { esc: 0x1b, gs: 0x1d, fs: 0x1c, dle: 0x10 };
const isDigit = byte => byte >= 0x30 && byte <= 0x39;
const hexAt = (data, at) => parseInt(String.fromCharCode(data[at], data[at + 1]), 16);
const isSignByte = byte => byte === 0x5e || byte === 0x7e;

export class Rows {
  // `bytes` are the stream; of what was listed, `lead` bytes stand before it. With `each`, runs have a row for each.
  constructor(language, bytes, lead, each) {
    Object.assign(this, { language, bytes, lead, each, rows: [], held: new Uint8Array(0), run: null, isCut: false });
    // where the last item ended, its place, and where those of one place begin
    Object.assign(this, { end: 0, last: 0, from: 0 });
  }

  // Reads a piece; answers whether there is room for more.
  take(piece) {
    const data = this.held.length ? joined(this.held, piece) : piece;
    let at = 0;
    for (let end = data.indexOf(0x0a); end >= 0; at = end + 1, end = data.indexOf(0x0a, at)) {
      this.line(data, at, end);
      if (this.rows.length > MOST_ROWS) {
        this.rows.length = MOST_ROWS;
        this.isCut = true;
        return false;
      }
    }
    this.held = data.slice(at);
    return true;
  }

  done() {
    this.endRun();
    return this.rows;
  }

  line(data, start, end) {
    let place = -this.lead;
    let digits = 0;
    let at = start;
    for (; isDigit(data[at]); at++) digits = digits * 10 + data[at] - 0x30;
    place += digits;
    at++;
    if (place <= 0) return;
    const kind = RUNS.findIndex(it => data[at] === it.charCodeAt(0) && data[at + 1] === it.charCodeAt(1) &&
      data[at + it.length] === 0x20);
    if (kind < 0 || this.each) {
      this.endRun();
      this.put(place, decoder.decode(data.subarray(at, end)), null);
      return;
    }
    if (this.run?.kind !== kind) {
      this.endRun();
      this.run = { kind, count: 0, values: [] };
    }
    const { run } = this;
    run.count++;
    run.place = place;
    run.last = hexAt(data, end - 2);
    if (run.count <= SHOWN) {
      for (let digit = at + RUNS[kind].length + 1; digit < end; digit += 3) run.values.push(hexAt(data, digit));
    }
  }

  endRun() {
    const { run } = this;
    if (run) this.put(run.place, RUNS[run.kind], run);
    this.run = null;
  }

  // An item of a label is given at the sign behind it, which isn't its own.
  put(place, text, run) {
    const { bytes, language } = this;
    const last = run ? run.last : /^byte /.test(text) ? parseInt(text.slice(5), 16) : -1;
    let to = place;
    if (language === 'label' && isSignByte(bytes[place - 1]) && last !== bytes[place - 1]) to = place - 1;
    if (place !== this.last) this.from = this.end;
    const skipped = text.endsWith(' skipped');
    let from = this.from;
    if (language === 'label' && !run && /^[\^~]/.test(text)) {
      for (let at = to - 1; at >= from; at--) if (isSignByte(bytes[at])) { from = at; break; }
      if (skipped) while (to < bytes.length && !isSignByte(bytes[to])) to++;
    }
    // a receipt's data that aren't listed stand before the next command
    const [lead, ...behind] = text.split(' ');
    const own = place - 1 - behind.length;
    const isOwn = language === 'receipt' && !run && bytes[own] === LEAD_BYTES[lead];
    if (isOwn && lead in LEAD_BYTES) from = Math.max(from, own);
    const kind = run || /^(char|byte|column) /.test(text) ? 'data' : skipped ? 'skip'
      : text.startsWith('^FX') ? 'comment' : /^(ctl|CR|LF$)/.test(text) ? 'ctl' : 'cmd';
    this.rows.push({ place, text, kind, count: run?.count ?? 0, values: run?.values ?? null, from,
      to: Math.max(to, from), name: language === 'label' || /^(gs 28|gs 38|esc 28|fs 28)/.test(text) ? 3 : 2 });
    this.last = place;
    this.end = Math.max(this.end, to);
  }
}

// The row whose bytes hold this one, or that comes next; -1 where none does.
export function rowAt(rows, byte) {
  let low = 0;
  let high = rows.length;
  while (low < high) {
    const middle = (low + high) >> 1;
    if (rows[middle].to > byte) high = middle; else low = middle + 1;
  }
  return low < rows.length ? low : -1;
}
