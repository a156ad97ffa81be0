// Whether the package prints what vp did (printed.py): whole, as a stream that is cut at random, and fed in pieces. It
// tells how many streams were the same; the first that isn't is an error.

import { Label, Paper, Receipt } from 'virtual-receipt-printer';
import { bytesOf, told } from '../../recipes/tests/web/same.mjs';

export async function same({ seed, streams }) {
  const random = most => {
    seed = (Math.imul(seed, 1103515245) + 12345) >>> 0;
    return (seed >>> 8) % most;
  };
  const cut = function* (bytes) {
    for (let at = 0; at < bytes.length;) {
      const to = at + 1 + random(random(4) ? 40 : 4000);
      yield bytes.subarray(at, to);
      at = to;
    }
  };
  for (const { name, language, width, stream, paper } of streams) {
    const isSo = (found, wanted) => {
      if (String(found) !== String(wanted)) throw new Error(`${name}: ${found} in place of ${wanted}`);
    };
    const bytes = bytesOf(stream);
    const printer = language === 'label' ? new Label() : new Receipt({ width });
    const whole = await printer.print(bytes);
    isSo(await told([whole.toPBM()], whole.fault), paper);
    isSo(Paper.read(whole.toPBM()).length, whole.length);
    const one = await printer.start();
    const [{ memory }, images] = [one, []];
    for (const piece of cut(bytes)) images.push(...await one.feed(piece));
    const left = one.unfinished;
    const fault = await one.finish();
    isSo(await told([...images.map(it => it.toPBM()), left], fault), paper);
    isSo(one.memory, memory);
    const come = printer.images(new ReadableStream({
      start(it) {
        for (const piece of cut(bytes)) it.enqueue(piece);
        it.close();
      },
    }));
    let count = 0;
    for await (const it of come) isSo(it.rows.length, whole.images[count++].rows.length);
    isSo([count, come.fault], [whole.length, whole.fault]);
  }
  return streams.length;
}
