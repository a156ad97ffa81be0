// What was changed in a stream: taken back and done again, whatever was shown between.

import { joined } from './bytes.js';

const MOST_KEPT = 64 << 20;
// Keys that come so quickly one after the other are taken back together, in milliseconds, as far as they write one
// word, or take so many bytes away.
const TOGETHER = 1000;
const MOST_TOGETHER = 40;
// What a command or an escape begins with.
const SIGNS_BEFORE = [0x5e, 0x7e, 0x5c, 0x1b, 0x1d];

// The one change from some bytes to others, as {at, old, now}; null where there is none.
export function changeOf(before, after) {
  const less = Math.min(before.length, after.length);
  let at = 0;
  while (at < less && before[at] === after[at]) at++;
  let same = 0;
  while (same < less - at && before[before.length - 1 - same] === after[after.length - 1 - same]) same++;
  if (at + same === before.length && before.length === after.length) return null;
  return { at, old: before.slice(at, before.length - same), now: after.slice(at, after.length - same) };
}

export const changed = (bytes, { at, old, now }) => joined(bytes.subarray(0, at), now, bytes.subarray(at + old.length));

const bytesIn = ({ old, now }) => old.length + now.length;
const inverse = ({ at, old, now }) => ({ at, old: now, now: old });

// Two changes of which each only puts in, or only takes out, and that touch.
function together(one, next) {
  const into = next.at - one.at;
  if (!one.old.length && !next.old.length && into >= 0 && into <= one.now.length) {
    return { ...one, now: joined(one.now.subarray(0, into), next.now, one.now.subarray(into)) };
  }
  if (!one.now.length && !next.now.length && into === 0) return { ...one, old: joined(one.old, next.old) };
  if (!one.now.length && !next.now.length && next.at + next.old.length === one.at) {
    return { ...next, old: joined(next.old, one.old) };
  }
  return null;
}

const isLetter = byte => byte >= 0x80 || /\w/.test(String.fromCharCode(byte));

// Whether a word or a command begins with what is put in next.
function beginsWord(one, next) {
  if (!one.now.length || !next.now.length) return false;
  const [before, first] = [one.now[one.now.length - 1], next.now[0]];
  return isLetter(first) ? !isLetter(before) && !SIGNS_BEFORE.includes(before)
    : before === 0x0a || SIGNS_BEFORE.includes(first);
}

export class History {
  constructor() {
    Object.assign(this, { done: [], undone: [], size: 0 });
  }

  // Keeps a change; `typed` says that it is a key's, which may be joined to the last one's.
  keep(change, typed) {
    const time = typed ? performance.now() : -Infinity;
    const last = this.done[this.done.length - 1];
    const isOne = last && time - last.time < TOGETHER && bytesIn(last) < MOST_TOGETHER && !beginsWord(last, change);
    const whole = isOne ? together(last, change) : null;
    if (whole) this.done.pop();
    this.done.push({ ...(whole ?? change), time });
    this.size += bytesIn(change) - this.undone.reduce((sum, it) => sum + bytesIn(it), 0);
    this.undone = [];
    while (this.size > MOST_KEPT && this.done.length > 1) this.size -= bytesIn(this.done.shift());
  }

  // The change that takes the last one back, or does again what was taken back; null where there is none.
  back() {
    const last = this.done.pop();
    if (!last) return null;
    this.undone.push(last);
    return inverse(last);
  }

  again() {
    const next = this.undone.pop();
    if (!next) return null;
    this.done.push({ ...next, time: -Infinity });
    return next;
  }
}
