// Whether the module prints and lists what vp did: the streams of printed.py, each cut at random. Tells how many were
// the same; the first that isn't is an error.

export const bytesOf = text => Uint8Array.from(atob(text), it => it.charCodeAt(0));

// What came out, and how it ended, as printed.py tells it.
export async function told(pieces, fault) {
  const data = await new Blob(pieces).arrayBuffer();
  const digest = new Uint8Array(await crypto.subtle.digest('SHA-256', data));
  const sum = [...digest].map(it => it.toString(16).padStart(2, '0')).join('');
  return `${data.byteLength} ${sum} ${fault ? 1 : 0} ${fault ?? ''}`;
}

function fed(machine, bytes, random) {
  const pieces = [];
  for (let at = 0; at < bytes.length && !machine.fault;) {
    const to = at + 1 + random(random(4) ? 40 : 4000);
    pieces.push(machine.feed(bytes.subarray(at, to)));
    at = to;
  }
  return pieces;
}

export async function same(vp, { seed, sheets, streams }) {
  const fonts = { fontA: bytesOf(sheets.a), fontB: bytesOf(sheets.b) };
  const random = most => {
    seed = (Math.imul(seed, 1103515245) + 12345) >>> 0;
    return (seed >>> 8) % most;
  };
  for (const { name, language, width, stream, paper, listing } of streams) {
    const isSo = (found, wanted) => {
      if (found !== wanted) throw new Error(`${name}: ${found}, and vp: ${wanted}`);
    };
    const bytes = bytesOf(stream);
    const choices = language === 'receipt' ? { ...fonts, width } : { fontA: fonts.fontA };
    const printer = new vp.Printer(language, choices);
    const [taken, memory] = [printer.allocations, printer.memory];
    isSo(await told(fed(printer, bytes, random), printer.end()), paper);
    isSo(printer.allocations, taken);
    isSo(printer.memory, memory);
    const lister = new vp.Listing(language);
    const lines = fed(lister, bytes, random);
    const end = lister.end();
    isSo(await told(lines, ['F1', 'F8'].includes(end?.number) ? end : null), listing);
  }
  return streams.length;
}
