// What else the package does: bounds and clocks, threads, streams, files, remarks, and what drew a dot.

import assert from 'node:assert/strict';
import { readFileSync } from 'node:fs';
import { createRequire } from 'node:module';
import { dirname } from 'node:path';
import { Readable } from 'node:stream';
import { test } from 'node:test';
import vm from 'node:vm';
import { inflateSync } from 'node:zlib';
import { Label, Paper, PrinterWorker, Receipt, VpError, list, requests, version } from 'virtual-receipt-printer';

const example = name => readFileSync(new URL(`../../examples/${name}`, import.meta.url));
const BOX = '^XA^PW80^LL40^FO8,8^GB16,8,8^FS^XZ';
const require = createRequire(import.meta.url);

test('a receipt and a label, by import and by require', async () => {
  const paper = await new Receipt().print('TOTAL 8.08\n');
  assert.equal(paper.fault, null);
  assert.deepEqual(paper.images.map(it => [it.width, it.height]), [[576, 34]]);
  assert.equal((await new Receipt({ width: 384 }).print('x\n')).images[0].width, 384);
  const common = require('virtual-receipt-printer');
  assert.deepEqual((await new common.Receipt().print('TOTAL 8.08\n')).toPBM(), paper.toPBM());
  assert.equal(version, JSON.parse(readFileSync(require.resolve('virtual-receipt-printer/package.json'))).version);
});

test('streams of node', async () => {
  const paper = await new Receipt().print(Readable.from([Buffer.from('TOTAL'), ' 8.08', '\n']));
  assert.deepEqual(paper.toPBM(), (await new Receipt().print('TOTAL 8.08\n')).toPBM());
});

test('in the sandbox of a runner, which has arrays of its own and lacks what node has', async () => {
  const file = require.resolve('virtual-receipt-printer');
  const sandbox = vm.createContext({ atob, btoa, setTimeout, clearTimeout, URL, AbortController });
  const made = { exports: {} };
  const wrapped = vm.runInContext(`(function (module, require, __dirname) {${readFileSync(file, 'utf-8')}\n})`, sandbox);
  wrapped(made, require, dirname(file));
  assert.notEqual(vm.runInContext('Uint8Array', sandbox), Uint8Array);
  const wanted = await new Label().print(BOX);
  for (const it of [BOX, Buffer.from(BOX), new Uint8Array(Buffer.from(BOX)).buffer, new Blob([BOX])]) {
    const paper = await new made.exports.Label({ fontA: example('font-a.pbm') }).print(it);
    assert.deepEqual([...paper.toPBM()], [...wanted.toPBM()]);
    assert.deepEqual([...await paper.toPNG()], [...await wanted.toPNG()]);
  }
  const worker = new made.exports.PrinterWorker();
  assert.deepEqual([...(await worker.print(new made.exports.Label(), BOX)).toPBM()], [...wanted.toPBM()]);
  worker.end();
});

test('a fault', async () => {
  const { fault, images } = await new Receipt().print('Hi\n\x1b\x7fHi\n');
  assert.equal(images.length, 1);
  assert.deepEqual([fault.number, fault.after, fault.text, String(fault)],
    ['F1', 5, 'unknown command 1B 7F', 'vp: F1 after 5 bytes: unknown command 1B 7F']);
});

test('the whole language, in which no command is unknown', async () => {
  const stream = '\x1bJ\x02\x1b\x7f\x1bJ\x03';
  const printer = new Receipt({ width: 384, whole: true });
  const paper = await printer.print(stream);
  assert.deepEqual([paper.fault, paper.images.map(it => [it.width, it.height])], [null, [[384, 2], [384, 3]]]);
  assert.deepEqual((await new PrinterWorker().print(printer, stream)).toPBM(), paper.toPBM());
  const { items, fault } = await list('\x1b\x7fA', 'receipt', { whole: true });
  assert.deepEqual([items.map(it => it.text), fault], [['esc 7f', 'char 41'], null]);
});

test('the whole language of labels has more symbols', async () => {
  const stream = '^XA^PW24^LL1^BY1,2^B2N,1,N^FD12^FS^XZ';
  const printer = new Label({ whole: true });
  const paper = await printer.print(stream);
  assert.deepEqual([paper.fault, paper.images.map(it => [...it.rows])], [null, [[0xAD, 0x2B, 0x34]]]);
  assert.deepEqual((await new PrinterWorker().print(printer, stream)).toPBM(), paper.toPBM());
  const lines = async whole => (await list('^B2N,1^ZZ1^', 'label', { whole })).items.map(it => it.text);
  assert.deepEqual([await lines(true), await lines(false)],
    [['^B2N,1', '^ZZ skipped'], ['^B2 skipped', '^ZZ skipped']]);
});

test('a PNG and an SVG have the dots in their true size', async () => {
  const [image] = await new Label().print('^XA^PW83^LL40^FO3,8^GB77,8,2^FS^XZ');
  const png = Buffer.from(await image.toPNG({ dpmm: 12 }));
  const chunks = {};
  for (let at = 8; at < png.length; at += 12 + png.readUInt32BE(at)) {
    chunks[png.toString('latin1', at + 4, at + 8)] = png.subarray(at + 8, at + 8 + png.readUInt32BE(at));
  }
  assert.deepEqual([...chunks.IHDR], [0, 0, 0, 83, 0, 0, 0, 40, 1, 0, 0, 0, 0]);
  assert.deepEqual([chunks.pHYs.readUInt32BE(0), chunks.pHYs.readUInt32BE(4)], [12000, 12000]);
  const rows = inflateSync(chunks.IDAT);
  const svg = await image.toSVG();
  assert.match(svg, /^<svg [^>]* width="10.375mm" height="5mm" viewBox="0 0 83 40"/);
  const boxes = [...svg.matchAll(/M(\d+) (\d+)h(\d+)v(\d+)h-\d+z/g)].map(it => it.slice(1).map(Number));
  for (let y = 0; y < 40; y++) {
    for (let x = 0; x < 83; x++) {
      const black = image.isBlack(x, y);
      assert.equal((rows[12 * y + 1 + (x >> 3)] >> (7 - (x & 7)) & 1) === 0, black);
      assert.equal(boxes.some(([left, top, wide, high]) => x >= left && x < left + wide && y >= top && y < top + high), black);
    }
  }
  assert.equal(image.toRGBA().length, 4 * 83 * 40);
  assert.deepEqual([...image.toRGBA().subarray(4 * (8 * 83 + 3), 4 * (8 * 83 + 3) + 4)], [0, 0, 0, 255]);
});

test('a thread prints the same, and is ended where it takes too long', async () => {
  const worker = new PrinterWorker();
  const settings = [[new Receipt(), 'receipt.bin'], [new Label(), 'shelf.zpl'], [new Receipt({ fontA: null }), 'ticket.bin'],
    [new Receipt(), 'shelf.zpl']];
  const papers = await Promise.all(settings.map(([printer, name]) => worker.print(printer, example(name))));
  for (const [n, [printer, name]] of settings.entries()) {
    const own = await printer.print(example(name));
    assert.deepEqual(papers[n].toPBM(), own.toPBM());
    assert.equal(String(papers[n].fault), String(own.fault));
  }
  const copies = '^XA^PW100^LL100^PQ99999999^FO0,0^GB10,10^FS^XZ';
  await assert.rejects(worker.print(new Label({ mostImages: 2 }), copies), error => error.reached.bound === 'images' &&
    error.reached.byte === 46 && error.paper.length === 2);
  await assert.rejects(worker.print(new Label({ fontA: new Uint8Array(9) }), BOX),
    { name: 'VpError', code: 'sheet', message: 'vp: fontA: S1 not P4' });
  const endless = new Label({ mostRows: null, mostBytes: null, mostImages: null, mostSeconds: 0.2 });
  await assert.rejects(worker.print(endless, copies.replace('LL100', 'LL8000').replace('PW100', 'PW1248')),
    error => error.reached.bound === 'seconds');
  const stop = new AbortController();
  setTimeout(() => stop.abort(), 50);
  await assert.rejects(worker.print(new Label({ mostRows: null, mostBytes: null, mostImages: null }), copies,
    { signal: stop.signal }), { name: 'AbortError' });
  assert.equal((await worker.print(new Label(), BOX)).length, 1);
  worker.end();
});

test('images as they come, by an iterator and by a TransformStream', async () => {
  async function* copies() {
    for (let n = 0; n < 50; n++) yield BOX;
    yield '^XA^FD';
  }
  const images = new Label().images(copies());
  let count = 0;
  for await (const it of images) count += it.isBlack(8, 8);
  assert.equal(count, 50);
  assert.equal(images.fault.number, 'F8');
  const through = new Label().through();
  const seen = [];
  for await (const it of new Blob([BOX, BOX, '^XA^B7']).stream().pipeThrough(through)) seen.push(it.height);
  assert.deepEqual(seen, [40, 40]);
  assert.equal(through.fault.number, 'F9');
  // who goes away asks for no more
  let given = 0;
  async function* endless() { for (;;) { given++; yield BOX; } }
  for await (const it of new Label().images(endless())) if (it.width === 80) break;
  assert.equal(given, 1);
});

test('a printer that is fed', async () => {
  const printer = await new Receipt().start();
  const [first, second] = await Promise.all([printer.feed('first line\nsec'), printer.feed('ond line\n')]);
  assert.deepEqual([first.length, second.length, printer.taken], [1, 1, 23]);
  await printer.feed('not yet');
  assert.equal(String(await printer.finish()), 'vp: F9 after 30 bytes: input ends before printing');
  const bound = await new Label({ mostImages: 2 }).start();
  assert.equal((await bound.feed(BOX + BOX)).length, 2);
  assert.equal((await bound.feed(BOX + BOX)).length, 2);
  await assert.rejects(bound.feed(BOX + BOX + BOX), error => error.paper.length === 2 && error.code === 'too-much');
  await assert.rejects(bound.feed(BOX), { code: 'closed' });
});

test('what is aborted, and clocks of tests', async () => {
  const stopped = AbortSignal.abort();
  assert.throws(() => new Label().images(BOX, { signal: stopped }), { name: 'AbortError' });
  await assert.rejects(new Label().print(BOX, { signal: stopped }), { name: 'AbortError' });
  const kept = [globalThis.setTimeout, performance.now];
  try {
    globalThis.setTimeout = () => 0;
    // (where it can be set)
    Reflect.set(performance, 'now', () => 0);
    assert.equal((await new Label().print(BOX.replace('^FO', '^PQ5000^FO'))).length, 5000);
  } finally {
    [globalThis.setTimeout] = kept;
    Reflect.set(performance, 'now', kept[1]);
  }
});

test('requests', async () => {
  const asked = async (stream, language) => {
    const found = [];
    for await (const it of requests(stream, language)) found.push(`${it.start}..${it.end} ${it.name} ${[...it.arguments]}`);
    return found;
  };
  const receipt = new TextEncoder().encode('A\x10\x04\x01\x1dv0\0\x01\0\x04\0\x10\x04\x02\0\x1dr\x01');
  const [head, rest] = [receipt.subarray(0, 13), receipt.subarray(13)];
  async function* pieces() { yield head; yield rest; }
  const wanted = ['1..4 DLE EOT 1', '12..15 DLE EOT 2', '16..19 GS r 1'];
  assert.deepEqual(await asked(receipt, 'receipt'), wanted);
  assert.deepEqual(await asked(pieces(), 'receipt'), wanted);
  assert.deepEqual(await asked('~HS^XA^XZ~HQES~SD1', 'label'), ['0..3 ~HS ', '9..14 ~HQ 69,83', '14..18 ~SD 49']);
  await assert.rejects(asked('~HS', 'till'), { code: 'argument' });
});

test('a list', async () => {
  const { items, fault } = await list('A\x1bJ\x02', 'receipt', { offsets: true });
  assert.deepEqual(items, [{ text: 'char 41', place: 1 }, { text: 'esc 4a 02', place: 4 }]);
  assert.equal(fault, null);
  assert.deepEqual((await list('^XA^PW8', 'label')).items.map(it => [it.text, it.place]), [['^XA', null]]);
  await assert.rejects(list('x'.repeat(100), 'receipt', { mostBytes: 40 }), { code: 'too-much' });
});

test('remarks', async () => {
  assert.deepEqual(await (await new Label().print(BOX)).remarks(), []);
  const label = await new Label().print('^XA^PW80^LL40^FO70,8^GB16,8,8^FS^FO0,0^B7N,8,5^FDx^FS^XZ');
  const found = await label.remarks();
  assert.deepEqual(found[0], { byte: 13, text: "the field of ^FO70,8 passes the label's right edge" });
  assert.match(found[1].text, /^\^B7/);
  const receipt = await new Receipt().print(new Uint8Array([0x1b, 0x74, 0x10, 0x80, 0x0a]));
  assert.ok((await receipt.remarks()).some(it => it.byte === 0 && it.text.startsWith('ESC t')));
  await assert.rejects(Paper.read(label.toPBM()).remarks(), error => error instanceof VpError && error.code === 'paper');
});

test('which bytes drew a dot', async () => {
  const stream = '^XA^PW200^LL60^FO8,8^GB16,8,8^FS^FO100,8^FDx^FS^XZ^XA^PW80^LL40^FO0,0^GB8,8,8^FS^XZ';
  const paper = await new Label().print(stream);
  const text = found => found && new TextDecoder().decode(found.bytes);
  const box = await paper.drew(10, 9);
  assert.deepEqual([text(box), box.exact, box.box], ['^FO8,8^GB16,8,8^FS', true, { x: 8, y: 8, width: 16, height: 8 }]);
  // beside its ink the nearest field is a guess
  assert.deepEqual([text(await paper.drew(26, 9)), (await paper.drew(26, 9)).exact], ['^FO8,8^GB16,8,8^FS', false]);
  assert.equal(await paper.drew(60, 50), null);
  const [below, second] = [await paper.drew(1, 61), await paper.drew(1, 1, 1)];
  assert.deepEqual([text(below), below.box.y, text(second), second.box.y], ['^FO0,0^GB8,8,8^FS', 60, '^FO0,0^GB8,8,8^FS', 0]);
  const receipt = await new Receipt().print('one\n\x1bE\x01two\nthree\n');
  const line = await receipt.drew(3, 40);
  // (of a receipt the line is known, and not which of its bytes)
  assert.deepEqual([text(line), line.exact, line.from], ['\x1bE\x01two\n', false, 4]);
  assert.equal((await receipt.drew(3, 6, 1)).from, 4);
  await assert.rejects(paper.drew(200, 0), { message: 'vp: an image of 200 by 60 dots has no dot 200, 0: columns and rows count from 0' });
  await assert.rejects(paper.drew(0, 0, 2), { message: 'vp: there is no image 2: this paper has 2, counted from 0' });
});
