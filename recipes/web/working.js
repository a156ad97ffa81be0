// A worker of within.js: it prints or lists one stream after the other, and gives what comes out in pieces, each once
// the last one was taken.

import { Listing, Printer, load, rowsOfFronts } from './vp.js';

const PIECE = 1 << 18;
let goOn = () => {};

function give(pieces) {
  const piece = new Uint8Array(pieces.reduce((sum, it) => sum + it.length, 0));
  pieces.reduce((at, it) => { piece.set(it, at); return at + it.length; }, 0);
  postMessage({ piece }, [piece.buffer]);
  return new Promise(done => { goOn = done; });
}

// What prints a stream with its sheets, on its paper, by the whole language or by the profile.
const printerOf = ({ lang, width, anew, fontA, fontB }) =>
  new Printer(lang, { fontA, fontB, whole: anew === '1', ...(lang === 'receipt' && { width: Number(width) }) });

// What the program would say of it: its line on standard error, and its status.
async function work(job) {
  const { work: what, lang, anew, stream } = job;
  let machine;
  try {
    machine = what === 'list' ? new Listing(lang, { offsets: true, whole: anew === '1' }) : printerOf(job);
  } catch (error) {
    return { line: `vp: ${error.message}`, status: 3, late: false };
  }
  let [rest, pieces, held] = [stream, [], 0];
  for (;;) {
    const { taken, out, isFull } = machine.step(rest);
    rest = rest.subarray(taken);
    pieces.push(out);
    held += out.length;
    const isDone = !isFull && (machine.fault || !rest.length);
    if (held && (isDone || held > PIECE)) {
      await give(pieces);
      [pieces, held] = [[], 0];
    }
    if (isDone) break;
  }
  const fault = machine.end();
  const counts = fault && (what === 'print' || ['F1', 'F8'].includes(fault.number));
  return { line: counts ? fault.line : '', status: counts ? 1 : 0, late: false };
}

onmessage = async ({ data }) => {
  if (data.module) await load(data.module);
  else if (data.goOn) goOn();
  else if (data.work === 'rows') postMessage({ told: { rows: rowsOfFronts(printerOf(data), data.stream, data.ends) } });
  else postMessage({ told: await work(data) });
};
