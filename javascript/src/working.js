// The thread of a PrinterWorker: it prints one stream after the other, and tells the whole paper of each.

import { joined } from '../../recipes/viewer/bytes.js';
import { Printer, load } from '../../recipes/web/vp.js';
import { Clock, Reached, fed } from './bounds.js';
import { Cutter } from './cutting.js';

// A thread of a browser's, or one of node's.
const port = typeof postMessage === 'function' ? globalThis : require('node:worker_threads').parentPort;
const none = new Uint8Array(0);

async function print({ module, language, width, whole, fontA, fontB, bounds, stream }) {
  await load(module);
  let machine;
  try {
    machine = new Printer(language, { width, whole, fontA: fontA ?? none, fontB: fontB ?? none });
  } catch (error) {
    return { paper: new Uint8Array(0), error: error.message };
  }
  const [images, cutter] = [[], new Cutter(bounds)];
  let reached = null;
  try {
    for await (const out of fed(machine, stream, new Clock(bounds.mostSeconds))) {
      for (const it of cutter.add(out)) images.push(it);
    }
  } catch (error) {
    if (!(error instanceof Reached)) throw error;
    reached = { bound: error.bound, most: error.most };
  }
  const unfinished = reached ? none : cutter.unfinished;
  return { paper: joined(...images.map(it => it.toPBM()), unfinished), reached, taken: machine.taken,
    fault: machine.end()?.line ?? null };
}

async function answer(job) {
  const told = await print(job);
  port.postMessage(told, [told.paper.buffer]);
}

if (port === globalThis) onmessage = event => answer(event.data);
else port.on('message', answer);
