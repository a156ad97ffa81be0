// How much a print may come to: rows, bytes, images and seconds, as in the other packages; and the clock of a print.

import { VpError, named, number, plural } from './errors.js';

/** What a stream, or what is fed at once, may come to where nothing else is said; null is no bound. */
const DEFAULTS = { mostRows: 1_000_000, mostBytes: 1 << 26, mostImages: 100_000, mostSeconds: 60 };
export const NONE = { mostRows: null, mostBytes: null, mostImages: null, mostSeconds: null };
export const BOUNDS = Object.keys(DEFAULTS);
const WHAT = { rows: most => `it prints more than ${number(most)} rows`,
  bytes: most => `it prints more than ${number(most)} bytes`,
  images: most => `it prints more than ${number(most)} images`, seconds: most => `it takes more than ${most} s` };

// The room of a step: small at first, since a copy of a label may take a tenth of a second, then larger. A step of so
// many milliseconds is long, and others run after so many.
const [FIRST, MOST, LONG, TURN] = [64, 1 << 16, 20, 12];

// Tests have clocks of their own in place of these.
const later = globalThis.setTimeout;
const now = performance.now.bind(performance);

/** The bounds of options. */
export function boundsOf(options) {
  const found = {};
  for (const name of BOUNDS) {
    const value = options[name] === undefined ? DEFAULTS[name] : options[name];
    if (value !== null && !(typeof value === 'number' && value >= 0)) {
      throw new VpError('argument', `${name} is a number, 0 or more, or null for no bound, and not ${named(value)}`);
    }
    found[name] = value;
  }
  return found;
}

/** The name of a bound in options. */
const optionOf = bound => `most${bound[0].toUpperCase()}${bound.slice(1)}`;

/** Which bound was reached, what it is, and how many bytes of the stream were taken by then. */
export class Reached extends Error {
  constructor(bound, most) {
    super(bound);
    this.bound = bound;
    this.most = most;
  }
}

/** The error of a bound that was reached after so many bytes of the stream, null where it isn't known how many. */
export function tooMuch({ bound, most }, byte, paper) {
  const after = byte === null ? '' : ` after ${plural(byte, 'byte')}`;
  const text = `cut off${after}: ${WHAT[bound](most)}; the option ${optionOf(bound)} raises this`;
  return new VpError('too-much', text, { reached: { bound, most, byte }, paper });
}

/** The time that a print takes, which others have turns in. */
export class Clock {
  /**
   * @param {number | null} most  seconds
   * @param {{aborted: boolean, reason?: unknown} | null} signal
   */
  constructor(most, signal = null) {
    this.most = most;
    this.signal = signal;
    this.spent = 0;
    this.room = FIRST;
    this.turn = 0;
  }

  /** Whether others are to have a turn, behind a step that began then. */
  isDue(began) {
    const took = now() - began;
    this.spent += took;
    this.turn += took;
    this.room = took < LONG ? Math.min(2 * this.room, MOST) : Math.max(this.room >> 2, FIRST);
    if (this.most !== null && this.spent > 1000 * this.most) throw new Reached('seconds', this.most);
    return this.turn > TURN;
  }

  async pause() {
    const began = now();
    await new Promise(done => { later(done, 0); });
    this.spent += now() - began;
    this.turn = 0;
    if (this.signal?.aborted) throw this.signal.reason ?? new VpError('argument', 'it was aborted');
  }
}

/** What a machine puts out for a piece of its stream, as it comes. */
export async function* fed(machine, piece, clock) {
  for (let rest = piece; ;) {
    const began = now();
    const { taken, out, isFull } = machine.step(rest, clock.room);
    const isDue = clock.isDue(began);
    rest = rest.subarray(taken);
    if (out.length) yield out;
    if (isDue) await clock.pause();
    if (!isFull && (machine.fault || !rest.length)) return;
  }
}
