// Printers of receipts and labels, each print by one that was just switched on; and one that is fed as bytes come.

import { joined } from '../../recipes/viewer/bytes.js';
import { BOUNDS, Clock, Reached, boundsOf, fed, tooMuch } from './bounds.js';
import { Cutter } from './cutting.js';
import { VpError, named, optionsOf } from './errors.js';
import { begunOf, keep, machineOf, sheetOf } from './machines.js';
import { Paper } from './paper.js';
import { piecesOf } from './reading.js';

// Of so many bytes a paper's stream is kept with it, for what is asked of the paper later.
const MOST_KEPT = 1 << 26;

/** The signal of a print's options. */
export function signalOf(options = {}) {
  const { signal = null } = optionsOf(options, ['signal'], 'a print');
  if (signal !== null && typeof signal.addEventListener !== 'function') {
    throw new VpError('argument', `signal is an AbortSignal, and not ${named(signal)}`);
  }
  if (signal?.aborted) throw signal.reason ?? new VpError('argument', 'it was aborted');
  return signal;
}

export class Printers {
  constructor(language, options, names) {
    const { width = 576, whole = false, fontA, fontB } = optionsOf(options, names, `a ${language}`);
    if (width !== 576 && width !== 384) {
      throw new VpError('argument', `paper is 576 or 384 dots wide, and not ${named(width)}`);
    }
    this.settings = Object.freeze({ language, width, whole: Boolean(whole), fontA: sheetOf('fontA', fontA),
      fontB: sheetOf('fontB', fontB), bounds: Object.freeze(boundsOf(options)) });
  }

  /** The paper of a whole stream. */
  async print(stream, options) {
    const run = new Run(this.settings, signalOf(options), true);
    const images = [];
    try {
      for await (const it of run.images(stream, images)) images.push(it);
      return run.paper(images);
    } finally {
      if (run.machine) keep(this.settings, run.machine);
    }
  }

  /** The images of a stream, each as soon as it is whole: what is iterated has the fault, once it has ended. */
  images(stream, options) {
    const run = new Run(this.settings, signalOf(options), false);
    return { get fault() { return run.fault; }, [Symbol.asyncIterator]: () => run.images(stream, []) };
  }

  /** A TransformStream: bytes or strings go in, and images come out. It has the fault, once it has ended. */
  through() {
    const run = new Run(this.settings, null, false);
    const { readable, writable } = new TransformStream({
      async transform(piece, controller) {
        for await (const bytes of piecesOf(piece)) for await (const it of run.take(bytes, [])) controller.enqueue(it);
      },
      async flush() { await run.end(); },
    });
    return { readable, writable, get fault() { return run.fault; } };
  }

  /** A printer that was just switched on, to be fed in pieces. */
  async start() {
    return new Printer(SECRET, this.settings, await machineOf(this.settings));
  }
}

/** Printers of receipts, ESC/POS, on paper of 576 or 384 dots, by the profile or by the whole language. */
export class Receipt extends Printers {
  constructor(options = {}) { super('receipt', options, ['width', 'whole', 'fontA', 'fontB', ...BOUNDS]); }
}

/** Printers of labels, ZPL II, by the profile or by the whole language; every font is of font A's sheet. */
export class Label extends Printers {
  constructor(options = {}) { super('label', options, ['fontA', 'whole', ...BOUNDS]); }
}

// One stream on its way through a machine.
class Run {
  constructor(settings, signal, keeps) {
    this.settings = settings;
    this.cutter = new Cutter(settings.bounds);
    this.clock = new Clock(settings.bounds.mostSeconds, signal);
    this.machine = null;
    this.fault = null;
    // only a whole print gives its machine back
    this.begin = keeps ? begunOf : machineOf;
    // the stream, null where it isn't kept or too long
    this.pieces = keeps ? [] : null;
    this.kept = 0;
  }

  keep(piece) {
    this.kept += piece.length;
    if (this.kept > MOST_KEPT) this.pieces = null;
    this.pieces?.push(piece.slice());
  }

  // Takes a piece, and gives the images that it completes; `before` are those that came before, for who asks.
  async* take(piece, before) {
    this.machine ??= await this.begin(this.settings);
    try {
      for await (const out of fed(this.machine, piece, this.clock)) yield* this.cutter.add(out);
    } catch (error) {
      if (!(error instanceof Reached)) throw error;
      throw tooMuch(error, this.machine.taken, new Paper(before, { language: this.settings.language }));
    }
  }

  async* images(stream, before) {
    if (this.machine) throw new VpError('stream', 'this stream was printed already: images() gives another one');
    for await (const piece of piecesOf(stream)) {
      this.keep(piece);
      yield* this.take(piece, before);
      if (this.machine.fault) break;
    }
    await this.end();
  }

  async end() {
    this.machine ??= await this.begin(this.settings);
    this.fault = this.machine.end();
  }

  paper(images) {
    const stream = this.pieces && joined(...this.pieces);
    return new Paper(images, { ...this.settings, stream, fault: this.fault, unfinished: this.cutter.unfinished });
  }
}

const SECRET = Symbol('start');

/** A printer that is fed as bytes come, and gives each image once it is whole. */
export class Printer {
  #machine;
  #cutter;
  #bounds;
  /** @type {Promise<any>} */
  #turn = Promise.resolve();
  #closed = '';
  #ended = null;

  constructor(secret, settings, machine) {
    if (secret !== SECRET) {
      throw new VpError('argument', 'a printer is made by new Receipt().start() or new Label().start()');
    }
    this.#machine = machine;
    this.#bounds = settings.bounds;
    this.#cutter = new Cutter(settings.bounds);
  }

  /** Takes bytes, and gives the images that they complete. Behind a fault nothing is printed any more. */
  feed(piece, options) {
    return this.#inTurn(async () => {
      const clock = new Clock(this.#bounds.mostSeconds, signalOf(options));
      const images = [];
      this.#cutter.begin();
      try {
        for await (const bytes of piecesOf(piece)) {
          for await (const out of fed(this.#machine, bytes, clock)) {
            for (const it of this.#cutter.add(out)) images.push(it);
          }
        }
      } catch (error) {
        if (!(error instanceof VpError)) this.#closed = 'was closed, since what it was fed last ended it';
        throw error instanceof Reached ? tooMuch(error, this.taken, new Paper(images)) : error;
      }
      return images;
    });
  }

  /** Ends the stream: gives the fault that it ends in, or null. */
  finish() {
    return this.#inTurn(async () => {
      this.#ended = this.#machine.end();
      this.#closed = 'has finished its stream';
      return this.#ended;
    });
  }

  // Calls are done one after the other.
  #inTurn(act) {
    const mine = this.#turn.then(() => {
      if (this.#closed) throw new VpError('closed', `this printer ${this.#closed}: start() gives another one`);
      return act();
    });
    this.#turn = mine.catch(() => {});
    return mine;
  }

  /** The fault that stopped it, or that its stream ended in. */
  get fault() { return this.#ended ?? this.#machine.fault; }

  /** How many bytes of the stream were taken. */
  get taken() { return this.#machine.taken; }

  /** How many bytes of memory it was made with, and holds. */
  get memory() { return this.#machine.memory; }

  /** What came of an image that isn't whole. */
  get unfinished() { return this.#cutter.unfinished; }
}
