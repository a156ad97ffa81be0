// The module, dist/vp.wasm, in JavaScript: a printer of receipts (ESC/POS) or labels (ZPL II) takes bytes, and gives
// those that vp prints; a listing gives those that vp lists. The page prints by it, and the package of javascript/.
//
// Each printer has a memory of its own, takes all that it needs when it is made, and goes when nothing names it.

// Languages by their papers, as the library numbers them; and where the whole language is read.
const LANGUAGES = { receipt: { 576: 0, 384: 1 }, label: { 576: 2 } };
const WHOLE = { receipt: { 576: 3, 384: 4 }, label: { 576: 5 } };
const [MORE, ROOM, STOPPED] = [0, 1, 2];
// What goes in and out in one step, and where the answers of calls lie: the handle, a step's progress, a line of text.
const PIECE = 1 << 16;
const PROGRESS = 8;
const LINE = 32;
const MOST_LINE = 96;
// The bytes of a request as the library tells it.
const REQUEST = 1056;

// Whose the offence is that an answer tells, by its tens.
const WHOSE = { 1: 'fontA: ', 2: 'fontB: ' };

let compiled = null;
// An instance that is ready: in a page's own thread Chromium before 115 makes none at once.
let ready = null;

// Takes the module, once, before the first printer is made: its bytes, or compiled. Called again without it, it makes
// the next instance ready.
export async function load(source = compiled) {
  if (!source) throw new Error('the module comes first');
  compiled = source instanceof WebAssembly.Module ? source : await WebAssembly.compile(source);
  ready = await WebAssembly.instantiate(compiled, {});
  return compiled;
}

function instance() {
  const one = ready ?? new WebAssembly.Instance(compiled, {});
  ready = null;
  return one.exports;
}

// Room of an instance.
function roomIn(calls, length) {
  const at = calls.malloc(length);
  if (!at) throw new RangeError('out of memory');
  return at;
}

// Why a stream is wrong: its number (F1 to F9), how many bytes of the stream were taken when it was known, its text.
export class Fault {
  constructor(line) {
    [, this.number, this.after, this.text] = /^vp: (F\d) after (\d+) bytes?: (.*)$/.exec(line);
    this.after = Number(this.after);
    this.line = line;
  }

  toString() { return this.line; }
}

// What takes a stream in any pieces, and puts bytes out: a printer, or a listing.
class Machine {
  #calls;
  #at;
  #input;
  #output;

  // `make` calls what makes it, and answers as that does.
  constructor(sheets, make) {
    if (!compiled) throw new Error('load() comes first');
    const calls = instance();
    const room = length => roomIn(calls, length);
    this.#calls = calls;
    this.#at = room(LINE + MOST_LINE);
    this.#input = room(PIECE);
    this.#output = room(PIECE);
    const kept = sheets.map(sheet => {
      const at = room(sheet.length || 1);
      this.#bytes(at, sheet.length).set(sheet);
      return [at, BigInt(sheet.length)];
    });
    const answer = make(calls, kept.flat(), this.#at);
    if (answer) {
      const why = this.#text(calls.vp_answer_text(answer, this.#at + LINE, BigInt(MOST_LINE)));
      throw new Error((WHOSE[Math.floor(answer / 10)] ?? '') + why);
    }
    // how many bytes of the stream were taken
    this.taken = 0;
    // the fault that stopped it, else null
    this.fault = null;
  }

  #bytes(at, length) { return new Uint8Array(this.#calls.memory.buffer, at, length); }

  #text(length) { return String.fromCharCode(...this.#bytes(this.#at + LINE, Number(length))); }

  #faultAt(at) {
    const calls = this.#calls;
    return new Fault(this.#text(calls.vp_fault_line(at, BigInt(this.taken), this.#at + LINE, BigInt(MOST_LINE))));
  }

  // Takes what it can of the input's front, and gives how much that is, the bytes that come out (at most `room`, and
  // 65,536), and whether more come without further input.
  step(input, room = PIECE) {
    const some = input.subarray(0, PIECE);
    this.#bytes(this.#input, some.length).set(some);
    const done = this.#at + PROGRESS;
    this.#calls.vp_step(this.#at, this.#input, BigInt(some.length), this.#output, BigInt(room), done);
    const view = new DataView(this.#calls.memory.buffer);
    const [taken, put] = [view.getUint32(done, true), view.getUint32(done + 8, true)];
    const state = view.getUint32(done + 16, true);
    this.taken += taken;
    if (state === STOPPED) this.fault ??= this.#faultAt(done + 20);
    return { taken, out: this.#bytes(this.#output, put).slice(), isFull: state === ROOM };
  }

  // Takes a piece of the stream, and gives all bytes that come out. Behind a fault nothing comes.
  feed(input) {
    const pieces = [];
    for (let rest = input; ;) {
      const { taken, out, isFull } = this.step(rest);
      rest = rest.subarray(taken);
      if (out.length) pieces.push(out);
      if (!isFull && (this.fault || !rest.length)) return gathered(pieces);
    }
  }

  // Begins anew: it is as it was when it was made, with its sheets, whatever it took.
  beginAnew() {
    this.#calls.vp_reset(this.#at);
    this.taken = 0;
    this.fault = null;
  }

  // Gives the fault of a stream that ends here, else null.
  end() {
    const at = this.#at + PROGRESS;
    this.#calls.vp_finish(this.#at, at);
    return this.#bytes(at, 1)[0] ? this.#faultAt(at) : null;
  }

  // How often memory was taken.
  get allocations() { return this.#calls.vp_taken(); }

  // How many bytes of it are held.
  get memory() {
    const at = this.#at + PROGRESS;
    this.#calls.vp_memory(this.#at, at);
    return new DataView(this.#calls.memory.buffer).getUint32(at, true);
  }
}

// Prints 'receipt' or 'label', with the bytes of glyph sheets, by the profile or by the whole language; a receipt on
// paper of 576 or 384 dots.
export class Printer extends Machine {
  constructor(language, { fontA = new Uint8Array(0), fontB = new Uint8Array(0), width = 576, whole = false } = {}) {
    super([fontA, fontB], (calls, [a, lengthA, b, lengthB], made) =>
      calls.vp_new(known(language, width, whole), a, lengthA, b, lengthB, made));
  }
}

// Lists a stream's commands, a line of text each; with offsets, behind its place.
export class Listing extends Machine {
  constructor(language, { offsets = false, whole = false } = {}) {
    super([], (calls, _, made) => calls.vp_new_listing(known(language, 576, whole), Number(offsets), made));
  }
}

// What a stream asks of its printer, its state, its name, its settings, each as soon as it is known: { name, arguments,
// start, end }, places by bytes of the stream. Real-time requests of receipts (DLE) are found within pictures too.
export class Requests {
  #calls;
  #at;
  #input;
  #request;

  constructor(language) {
    if (!compiled) throw new Error('load() comes first');
    this.#calls = instance();
    this.#at = roomIn(this.#calls, 16);
    this.#input = roomIn(this.#calls, PIECE);
    this.#request = roomIn(this.#calls, REQUEST);
    if (this.#calls.vp_new_requests(known(language, 576, false), this.#at)) throw new RangeError('out of memory');
  }

  // Takes a piece of the stream, and gives the requests that it makes known.
  feed(input) {
    const found = [];
    for (let from = 0; from < input.length; from += PIECE) {
      const some = input.subarray(from, from + PIECE);
      new Uint8Array(this.#calls.memory.buffer, this.#input, some.length).set(some);
      for (let at = 0, it = true; it;) {
        this.#calls.vp_next_request(this.#at, this.#input + at, BigInt(some.length - at), this.#at + 8, this.#request);
        at += new DataView(this.#calls.memory.buffer).getUint32(this.#at + 8, true);
        it = this.#told();
        if (it) found.push(it);
      }
    }
    return found;
  }

  // Gives what a stream asks that ends here: a label's last request, whose arguments could go on, else null.
  end() {
    this.#calls.vp_last_request(this.#at, this.#request);
    return this.#told();
  }

  #told() {
    const bytes = new Uint8Array(this.#calls.memory.buffer, this.#request, REQUEST);
    if (!bytes[0]) return null;
    const view = new DataView(bytes.buffer, bytes.byteOffset, REQUEST);
    return {
      name: String.fromCharCode(...bytes.subarray(0, bytes.indexOf(0))),
      arguments: bytes.slice(28, 28 + view.getUint32(24, true)),
      start: Number(view.getBigUint64(8, true)),
      end: Number(view.getBigUint64(16, true)),
    };
  }
}

// How many rows of paper each front of a stream prints, of lengths that rise: in one pass, of which nothing is kept.
export function rowsOfFronts(printer, stream, ends) {
  let [taken, rows, left, stride, head] = [0, 0, 0, 1, ''];
  const count = out => {
    for (let at = 0; at < out.length;) {
      if (left > 0) {
        const some = Math.min(left, out.length - at);
        left -= some;
        at += some;
        continue;
      }
      head += String.fromCharCode(out[at++]);
      const found = /^P4\n(\d+) (\d+)\n$/.exec(head);
      if (!found) continue;
      rows += Number(found[2]);
      stride = (Number(found[1]) + 7) >> 3;
      left = stride * Number(found[2]);
      head = '';
    }
  };
  return ends.map(end => {
    for (let isFull = true; isFull || taken < end && !printer.fault;) {
      const step = printer.step(stream.subarray(taken, end));
      taken += step.taken;
      isFull = step.isFull;
      count(step.out);
    }
    return rows - Math.ceil(left / stride);
  });
}

function known(language, width, whole) {
  const found = (whole ? WHOLE : LANGUAGES)[language]?.[width];
  if (found === undefined) throw new Error(`there is no ${language} of ${width} dots`);
  return found;
}

function gathered(pieces) {
  if (pieces.length === 1) return pieces[0];
  const all = new Uint8Array(pieces.reduce((sum, it) => sum + it.length, 0));
  pieces.reduce((at, it) => { all.set(it, at); return at + it.length; }, 0);
  return all;
}
