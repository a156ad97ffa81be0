// Printing in a thread of its own: what asks for it goes on, and a print that takes too long is ended wherever it is.

import { joined } from '../../recipes/viewer/bytes.js';
import { Fault } from '../../recipes/web/vp.js';
import { NONE, Reached, tooMuch } from './bounds.js';
import { Cutter } from './cutting.js';
import { VpError, named } from './errors.js';
import { given } from './given.js';
import { sheetsOf } from './machines.js';
import { ready } from './module.js';
import { Paper } from './paper.js';
import { newThread } from './platform.js';
import { Printers, signalOf } from './printers.js';
import { piecesOf } from './reading.js';

// A thread is ended where it goes so many seconds beyond its bound.
const GRACE = 0.5;
// Tests have clocks of their own in place of these.
const [later, noMore] = [globalThis.setTimeout, globalThis.clearTimeout];

export class PrinterWorker {
  #thread = null;
  /** @type {Promise<any>} */
  #turn = Promise.resolve();
  #isEnded = false;

  /** The paper of a whole stream, by the settings of a Receipt or a Label; one print behind the other. */
  print(printer, stream, options) {
    const mine = this.#turn.then(async () => {
      if (!(printer instanceof Printers)) {
        throw new VpError('argument', `a worker prints with a Receipt or a Label, and not ${named(printer)}`);
      }
      if (this.#isEnded) throw new VpError('closed', 'this worker was ended');
      const signal = signalOf(options);
      const pieces = [];
      for await (const it of piecesOf(stream)) pieces.push(it.slice());
      return this.#print(printer.settings, joined(...pieces), signal);
    });
    this.#turn = mine.catch(() => {});
    return mine;
  }

  async #print(settings, stream, signal) {
    const { module } = await ready();
    const { language, width, whole, bounds } = settings;
    const { a = null, b = null } = await sheetsOf(settings);
    try {
      this.#thread ??= newThread(given.worker);
    } catch (error) {
      throw new VpError('worker', `no thread can be made here: ${error.message}`);
    }
    const job = { module, language, width, whole, fontA: a, fontB: b, bounds, stream };
    const told = await this.#asked(job, bounds, signal);
    const cutter = new Cutter(NONE);
    const images = [...cutter.add(told.paper)];
    if (told.reached) {
      const { bound, most } = told.reached;
      throw tooMuch(new Reached(bound, most), told.taken, new Paper(images, { language }));
    }
    if (told.error) throw new VpError(/^font[AB]: /.test(told.error) ? 'sheet' : 'memory', told.error);
    const fault = told.fault && new Fault(told.fault);
    return new Paper(images, { ...settings, stream, fault, unfinished: cutter.unfinished });
  }

  // What the thread tells of a job; one that doesn't in time is ended.
  #asked(job, { mostSeconds }, signal) {
    return new Promise((tell, refuse) => {
      const leave = () => {
        noMore(timer);
        signal?.removeEventListener('abort', stop);
      };
      const drop = () => {
        leave();
        this.#thread?.end();
        this.#thread = null;
      };
      const late = () => {
        drop();
        tell({ paper: new Uint8Array(0), reached: { bound: 'seconds', most: mostSeconds }, taken: null });
      };
      const stop = () => {
        drop();
        refuse(signal.reason ?? new VpError('argument', 'it was aborted'));
      };
      const timer = mostSeconds === null ? 0 : later(late, 1000 * (mostSeconds + GRACE));
      signal?.addEventListener('abort', stop);
      this.#thread.ask(job, told => {
        leave();
        tell(told);
      }, error => {
        drop();
        refuse(new VpError('worker', `the worker ended: ${error?.message ?? error}`));
      });
    });
  }

  /** Ends the thread. */
  end() {
    this.#isEnded = true;
    this.#thread?.end();
    this.#thread = null;
  }
}
