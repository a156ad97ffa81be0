// The printer that the viewer's server is: it prints, lists and remarks on streams by vp, on this machine.
//
// The page knows a printer by these calls alone, so that the one within the page (within.js) can stand in its place:
//   state()                               what it offers: sheets, examples, files to follow, the longest stream, what
//                                         is known of commands, whether all of a stream is printed at first, whether
//                                         the printer is a server, which writes streams anew
//   print(stream, words, take, signal)    gives the paper's bytes to `take` as they come, while that answers true
//   rows(stream, words, signal)           how many rows of paper each front of a receipt prints: words.ends are their
//                                         lengths, from the shortest on; of `fronts` at once it is quick
//   list(stream, words, take, signal)     gives the listing's bytes so
//                                         both then tell {line, status, late}, or {stopped}; print the guess, too
//   remarks(stream, words, signal)        what a printer would print besides: places, each with its words; a printer
//                                         that can't tell has none, and
//   sheet(letter, name)                   the bytes of a sheet in its place, null where there is none
//   guess(stream)                         its language
//   keepSheet(bytes)                      keeps a glyph sheet; the name that it answers stands in words
//   example(n), file(n)                   their bytes
//   pick()                                asks for files that it may follow, which come behind the others; a printer
//                                         that can't has none
//   changes(versions)                     waits until a followed file has another version, and tells all of them
// Words are {lang, width, anew, a, b}: the language, a receipt's paper in dots, 1 for all of it (the whole language,
// written anew first by a server) or 0 for the profile alone, sheets by their names.

import { joined } from './bytes.js';

async function ask(path, { body, signal, form = 'json' } = {}) {
  const answer = await fetch(path, { method: body ? 'POST' : 'GET', body, signal });
  if (!answer.ok) throw new Error((await answer.text()).trim());
  if (form === 'stream') return answer.body;
  return form === 'bytes' ? new Uint8Array(await answer.arrayBuffer()) : answer.json();
}

const query = words => new URLSearchParams(words).toString();

// Pieces with their lengths before them; behind an empty one the rest, which is JSON.
async function pieces(body, take) {
  const reader = body.getReader();
  let held = new Uint8Array(0);
  for (;;) {
    const { done, value } = await reader.read();
    if (done) throw new Error('the answer broke off');
    held = held.length ? joined(held, value) : value;
    let at = 0;
    for (;;) {
      const rest = held.length - at;
      const size = rest >= 4 ? new DataView(held.buffer, held.byteOffset + at).getUint32(0, true) : -1;
      if (size === 0) return tail(reader, held.subarray(at + 4));
      if (size < 0 || rest < 4 + size) break;
      if (!take(held.subarray(at + 4, at + 4 + size))) {
        reader.cancel();
        return { stopped: true };
      }
      at += 4 + size;
    }
    held = held.slice(at);
  }
}

async function tail(reader, first) {
  const decoder = new TextDecoder();
  let text = decoder.decode(first, { stream: true });
  for (;;) {
    const { done, value } = await reader.read();
    if (done) return JSON.parse(text + decoder.decode());
    text += decoder.decode(value, { stream: true });
  }
}

export class Printer {
  fronts = 8;

  state() { return ask('state'); }

  async print(stream, words, take, signal) {
    return pieces(await ask(`print?${query(words)}`, { body: stream, signal, form: 'stream' }), take);
  }

  rows(stream, words, signal) { return ask(`rows?${query(words)}`, { body: stream, signal }); }

  async list(stream, words, take, signal) {
    return pieces(await ask(`list?${query(words)}`, { body: stream, signal, form: 'stream' }), take);
  }

  remarks(stream, words, signal) { return ask(`remarks?${query(words)}`, { body: stream, signal }); }
  guess(stream) { return ask('guess', { body: stream }); }
  keepSheet(bytes) { return ask('sheet', { body: bytes }); }
  example(n) { return ask(`example?n=${n}`, { form: 'bytes' }); }
  file(n) { return ask(`file?n=${n}`, { form: 'bytes' }); }
  changes(versions) { return ask(`changes?${query({ known: versions.join(',') })}`); }
}
