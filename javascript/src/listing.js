// Listings: a line for each command of a stream.

import { latin } from '../../recipes/viewer/bytes.js';
import { Listing as Machine } from '../../recipes/web/vp.js';
import { Clock, Reached, boundsOf, fed, tooMuch } from './bounds.js';
import { checkLanguage, optionsOf } from './errors.js';
import { ready } from './module.js';
import { piecesOf } from './reading.js';

const OPTIONS = ['offsets', 'whole', 'mostBytes', 'mostSeconds'];

/** Gives the bytes that vp lists of a stream to `take`, while that answers true; the fault that reading ends in. */
export async function listed(stream, { language, whole, offsets, mostSeconds }, take) {
  await ready();
  const machine = new Machine(language, { offsets, whole });
  const clock = new Clock(mostSeconds);
  try {
    for await (const piece of piecesOf(stream)) {
      for await (const out of fed(machine, piece, clock)) if (!take(out)) return null;
      if (machine.fault) break;
    }
  } catch (error) {
    throw error instanceof Reached ? tooMuch(error, machine.taken, null) : error;
  }
  return machine.end();
}

/** Lists a stream, 'receipt' or 'label': its items, each a text and, with offsets, how many bytes it ends behind. */
export async function list(stream, language, options = {}) {
  checkLanguage(language);
  const { offsets = false, whole = false } = optionsOf(options, OPTIONS, 'a list');
  const { mostBytes, mostSeconds } = boundsOf(options);
  const pieces = [];
  let length = 0;
  const how = { language, whole: Boolean(whole), offsets: Boolean(offsets), mostSeconds };
  const fault = await listed(stream, how, out => {
    length += out.length;
    if (mostBytes !== null && length > mostBytes) throw new Reached('bytes', mostBytes);
    return pieces.push(out);
  });
  const lines = pieces.map(it => latin.decode(it)).join('').split('\n').slice(0, -1);
  const items = lines.map(line => {
    const end = offsets ? line.indexOf(' ') : -1;
    return { text: line.slice(end + 1), place: offsets ? Number(line.slice(0, end)) : null };
  });
  return { items, fault };
}
