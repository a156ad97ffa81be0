// What once was answered by nonsense or by messages of the inside is done, or is a VpError that says what is meant.

import assert from 'node:assert/strict';
import { readFileSync } from 'node:fs';
import { test } from 'node:test';
import * as all from 'virtual-receipt-printer';

const { Label, Paper, Picture, Printer, PrinterWorker, Receipt, VpError, list } = all;
const ZPL = '^XA^PW200^LL60^FO10,10^FDHello^FS^XZ';
const font = readFileSync(new URL('../../examples/font-a.pbm', import.meta.url));

const says = (code, text) => error => {
  assert.ok(error instanceof VpError, String(error));
  assert.equal(error.code, code);
  assert.equal(error.message, `vp: ${text}`);
  return true;
};
const refuses = (make, code, text) => assert.throws(make, says(code, text));
const rejects = (made, code, text) => assert.rejects(made, says(code, text));
const inkOf = paper => paper.joined().rows.filter(it => it).length;

test('text is drawn without a sheet that is named', async () => {
  const [own, named] = await Promise.all([new Label(), new Label({ fontA: font })].map(it => it.print(ZPL)));
  assert.ok(inkOf(own) > 10);
  assert.deepEqual(own.toPBM(), named.toPBM());
});

test('a string, an ArrayBuffer, a Blob and streams are printed as bytes are', async () => {
  const bytes = new TextEncoder().encode(ZPL);
  const wanted = (await new Label().print(bytes)).toPBM();
  const pieces = () => [bytes.subarray(0, 7), bytes.slice(7).buffer];
  const web = new ReadableStream({ start(it) { for (const piece of pieces()) it.enqueue(piece); it.close(); } });
  async function* texts() { yield ZPL.slice(0, 5); yield ZPL.slice(5); }
  for (const it of [ZPL, bytes.buffer, Buffer.from(bytes), new DataView(bytes.buffer), new Blob([ZPL]), web, texts(),
    new Response(ZPL)]) {
    assert.deepEqual((await new Label().print(it)).toPBM(), wanted);
  }
});

test('what is no stream', async () => {
  const what = 'what is printed is a string, bytes (a Uint8Array or an ArrayBuffer), a Blob or a stream, and not ';
  await rejects(new Label().print(), 'stream', `${what}undefined`);
  await rejects(new Label().print(null), 'stream', `${what}null`);
  await rejects(new Label().print(42), 'stream', `${what}42`);
  await rejects(new Label().print([94]), 'stream', `${what}an Array`);
  await rejects(new Label().print({}), 'stream', `${what}an object`);
  await rejects(new Label().print(Promise.resolve(ZPL)), 'stream', `${what}a Promise: await it first`);
  const busy = new Blob([ZPL]).stream();
  busy.getReader();
  await rejects(new Label().print(busy), 'stream', 'this stream is being read already');
  async function* junk() { yield 7; }
  await rejects(new Label().print(junk()), 'stream', 'a stream is of pieces that are bytes or strings, and not 7');
});

test('sheets', async () => {
  assert.equal(inkOf(await new Label({ fontA: null }).print(ZPL)), 0);
  const sheet = ' is the bytes of a glyph sheet (a Uint8Array or an ArrayBuffer), or null for none, and not ';
  refuses(() => new Label({ fontA: 'font-a.pbm' }), 'argument', `fontA${sheet}"font-a.pbm": read the file first`);
  refuses(() => new Receipt({ fontB: 12 }), 'argument', `fontB${sheet}12`);
  await rejects(new Label({ fontA: Buffer.from('P5') }).print(ZPL), 'sheet', 'fontA: S1 not P4');
  await rejects(new Receipt({ fontB: new Uint8Array(0) }).print('x\n'), 'sheet', 'fontB: S1 not P4');
});

test('the module is inside: nothing is to be loaded', () => {
  assert.deepEqual(Object.keys(all).filter(it => it !== 'default').sort(), ['Fault', 'Label', 'Paper', 'Picture',
    'Printer', 'PrinterWorker', 'Receipt', 'VpError', 'list', 'requests', 'version']);
});

test('each print begins anew', async () => {
  const label = new Label();
  const cut = await label.print('^XA^PW200^LL60^FO10,10^FDHel');
  assert.match(String(cut.fault), /^vp: F8 after 28 bytes: /);
  assert.deepEqual((await label.print(ZPL)).toPBM(), (await new Label().print(ZPL)).toPBM());
  const printer = await label.start();
  assert.equal((await printer.feed('^XA^FDx')).length, 0);
  assert.equal((await printer.finish()).number, 'F8');
  await rejects(printer.feed(ZPL), 'closed', 'this printer has finished its stream: start() gives another one');
});

test('images of several widths, and none', async () => {
  const both = await new Label().print(`${ZPL}^XA^PW96^LL60^FDx^FS^XZ`);
  assert.equal(both.length, 2);
  refuses(() => both.joined(), 'paper',
    'images of several widths (200 and 96 dots) are not one image: paper.images has each');
  await rejects(both.toPNG(), 'paper',
    'images of several widths (200 and 96 dots) are not one image: paper.images has each');
  refuses(() => Paper.read(new Uint8Array(0)).joined(), 'paper', 'nothing is printed, so that there is no image');
});

test('dots outside of an image', async () => {
  const [image] = await new Label().print(ZPL);
  assert.equal(image.isBlack(199, 59), false);
  for (const [x, y] of [[200, 0], [0, 60], [-1, 0], [0.5, 0]]) {
    refuses(() => image.isBlack(x, y), 'argument',
      `an image of 200 by 60 dots has no dot ${x}, ${y}: columns and rows count from 0`);
  }
  refuses(() => image.isBlack('1'), 'argument',
    'an image of 200 by 60 dots has no dot "1", undefined: columns and rows count from 0');
});

test('paper of bytes that are none', () => {
  const what = 'these bytes are not what vp prints: an image begins with P4';
  for (const it of ['junk', 'P5\n8 8\n', 'P4\n8 0\n', 'P4\n99999999999999999999999\n']) {
    refuses(() => Paper.read(Buffer.from(it)), 'paper', what);
  }
  refuses(() => Paper.read('P4'), 'argument',
    'a paper is read from bytes (a Uint8Array or an ArrayBuffer), and not "P4"');
  assert.equal(Paper.read(Buffer.from('P4\n8 1\n\0P4\n8 2\n\0')).unfinished.length, 8);
});

test('limits', async () => {
  const copies = '^XA^PW100^LL100^PQ99999999^FO0,0^GB10,10^FS^XZ';
  await assert.rejects(new Label({ mostRows: 350 }).print(copies), error => {
    assert.equal(error.message, 'vp: cut off after 46 bytes: it prints more than 350 rows; the option mostRows raises this');
    assert.deepEqual(error.reached, { bound: 'rows', most: 350, byte: 46 });
    assert.equal(error.paper.length, 3);
    return true;
  });
  const cut = (options, text) => rejects(new Label(options).print(copies), 'too-much', `cut off after 46 bytes: ${text}`);
  await cut({}, 'it prints more than 1,000,000 rows; the option mostRows raises this');
  await cut({ mostBytes: 5000 }, 'it prints more than 5,000 bytes; the option mostBytes raises this');
  await cut({ mostImages: 2 }, 'it prints more than 2 images; the option mostImages raises this');
  const none = { mostRows: null, mostBytes: null, mostImages: null };
  const empty = '^XA^PW1248^LL8000^PQ99999999^FO9000,9000^GB10,10^FS^XZ';
  let turns = 0;
  const timer = setInterval(() => turns++, 5);
  const began = performance.now();
  await assert.rejects(async () => {
    for await (const it of new Label({ ...none, mostSeconds: 0.3 }).images(empty)) assert.equal(it.width, 1248);
  }, error => /^vp: cut off after \d+ bytes: it takes more than 0.3 s; /.test(error.message));
  clearInterval(timer);
  assert.ok(performance.now() - began < 3000);
  // (others have had their turns)
  assert.ok(turns > 5, `${turns} turns`);
  refuses(() => new Label({ mostRows: -1 }), 'argument',
    'mostRows is a number, 0 or more, or null for no bound, and not -1');
  refuses(() => new Label({ mostSeconds: '2' }), 'argument',
    'mostSeconds is a number, 0 or more, or null for no bound, and not "2"');
});

test('options', async () => {
  refuses(() => new Receipt({ width: 500 }), 'argument', 'paper is 576 or 384 dots wide, and not 500');
  refuses(() => new Receipt({ width: '384' }), 'argument', 'paper is 576 or 384 dots wide, and not "384"');
  refuses(() => new Label({ width: 576 }), 'argument',
    'a label has no option width: it has fontA, whole, mostRows, mostBytes, mostImages, mostSeconds');
  refuses(() => new Label('receipt'), 'argument',
    'the options of a label are an object, as { fontA: .. }, and not "receipt"');
  refuses(() => new Printer(), 'argument',
    'a printer is made by new Receipt().start() or new Label().start()');
  await rejects(list('x', 'till'), 'argument', "a language is 'receipt' or 'label', and not \"till\"");
  await rejects(list('x', 'label', { offset: true }), 'argument',
    'a list has no option offset: it has offsets, whole, mostBytes, mostSeconds');
  refuses(() => new Picture(8, 2, new Uint8Array(3)), 'argument',
    'an image is a width and a height in dots, and its rows: as many bytes as its dots take');
  const [image] = await new Label().print(ZPL);
  await rejects(image.toPNG({ dpmm: 0 }), 'argument', 'dpmm is how many dots a millimetre has, as 8 or 12, and not 0');
  await rejects(image.toPNG(12), 'argument', 'the options of a file are an object, as { dpmm: .. }, and not 12');
  await rejects(image.toSVG({ dpi: 203 }), 'argument', 'a file has no option dpi: it has dpmm');
  await rejects(new Label().print(ZPL, { signal: 'stop' }), 'argument', 'signal is an AbortSignal, and not "stop"');
  await rejects(list('x', 'label', null), 'argument',
    'the options of a list are an object, as { offsets: .. }, and not null');
  refuses(() => new Paper(), 'argument', 'a paper is what print() gives, or Paper.read(bytes)');
  refuses(() => image.toImageData(), 'argument',
    'there is no ImageData here, as browsers have it: toRGBA() gives its bytes');
  const worker = new PrinterWorker();
  await rejects(worker.print('label', ZPL), 'argument', 'a worker prints with a Receipt or a Label, and not "label"');
  worker.end();
  await rejects(worker.print(new Label(), ZPL), 'closed', 'this worker was ended');
});
