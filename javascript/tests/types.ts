// What is asked of the types, by each way in which tsc finds them, without those of browsers and of node.

import { Label, Paper, Picture, PrinterWorker, Receipt, VpError, list, version } from 'virtual-receipt-printer';
import type { Drew, Fault, Stream } from 'virtual-receipt-printer';
import { papersOf, toMatchPaper } from 'virtual-receipt-printer/testing';

export async function printed(stream: Stream): Promise<[number, string]> {
  const paper: Paper = await new Receipt({ width: 384, whole: true, fontA: null, mostRows: 9 }).print(stream);
  const [first]: readonly Picture[] = paper.images;
  for (const it of paper) it.isBlack(0, 0);
  const png: Uint8Array = await paper.toPNG({ dpmm: 12 });
  const drew: Drew | null = await paper.drew(1, 2);
  const fault: Fault | null = paper.fault;
  return [first.width + png.length + (drew?.from ?? 0), `${fault} ${version}`];
}

export async function others(): Promise<void> {
  for await (const it of new Label({ whole: true }).images('^XA^XZ')) it.toRGBA();
  const { readable } = new Label().through();
  readable.getReader();
  const printer = await new Label().start();
  const images: Picture[] = await printer.feed(new Uint8Array(2));
  const worker = new PrinterWorker();
  await worker.print(new Label(), new ArrayBuffer(images.length));
  const { items } = await list('x', 'receipt', { offsets: true, whole: true });
  await papersOf('file:///till.test.js')({ name: items[0].text }, new Label().print('^XA^XZ'), { incomplete: true });
  try {
    await toMatchPaper.call({}, null, 'second');
  } catch (error) {
    if (error instanceof VpError && error.code === 'too-much') error.reached?.bound.length;
  }
}

// @ts-expect-error a width that no paper has
new Receipt({ width: 500 });
// @ts-expect-error labels have no width of theirs
new Label({ width: 576 });
// @ts-expect-error what is printed is no number
new Label().print(42);
