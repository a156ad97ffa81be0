// In node: in_node.mjs FOLDER PRINTED [VP], with vp.js and vp.wasm in the folder. The same bytes as vp printed, and with VP
// what calls say, and how long the module takes beside vp, where neither start is counted.
import { spawnSync } from 'node:child_process';
import { webcrypto } from 'node:crypto';
import { readFileSync, rmSync, writeFileSync } from 'node:fs';
import { fileURLToPath, pathToFileURL } from 'node:url';
import { same } from './same.mjs';

globalThis.crypto ??= webcrypto;

const [made, streams, program] = process.argv.slice(2);
const vp = await import(pathToFileURL(`${made}/vp.js`));
await vp.load(readFileSync(`${made}/vp.wasm`));
const asked = JSON.parse(readFileSync(streams));
console.log(`node ${process.versions.node}: ${await same(vp, asked)} streams are printed and listed as by vp`);
if (!program) process.exit();

// What a call that goes wrong says, and listings.
const isSo = (found, wanted) => {
  if (String(found) !== String(wanted)) throw new Error(`${found} in place of ${wanted}`);
};
const said = make => {
  try {
    return make();
  } catch (error) {
    return error.message;
  }
};
const some = new TextEncoder();
isSo(said(() => new vp.Printer('label', { fontA: some.encode('P4\n8 8\n12345678') })), 'fontA: S3 wrong size');
isSo(said(() => new vp.Printer('receipt', { fontB: some.encode('P5') })), 'fontB: S1 not P4');
isSo(said(() => new vp.Printer('till')), 'there is no till of 576 dots');
isSo(said(() => new vp.Printer('receipt', { width: 500 })), 'there is no receipt of 500 dots');
// each has a memory of its own, behind another load too
await vp.load();
const first = new vp.Printer('receipt');
const { allocations } = first;
isSo([new vp.Printer('receipt').allocations, first.allocations], [allocations, allocations]);
// what a printer holds hangs on its language and sheets alone
const sheetOf = letter => new Uint8Array(readFileSync(new URL(`../../../examples/font-${letter}.pbm`, import.meta.url)));
const [fontA, fontB] = [sheetOf('a'), sheetOf('b')];
const held = (language, sheets) => new vp.Printer(language, sheets).memory;
isSo([held('receipt'), held('label'), held('label', { fontA }), held('receipt', { fontA, fontB })],
  [279552, 1254176, 1254176 + 62464, 279552 + 62464 + 43808]);
// what is given back is taken again: printers that are made and freed in one instance, and refused ones, need no more
// memory than the first of each
const calls = (await WebAssembly.instantiate(await vp.load(), {})).exports;
const [handleAt, sheetAt] = [calls.malloc(8), calls.malloc(fontA.length)];
new Uint8Array(calls.memory.buffer, sheetAt, fontA.length).set(fontA);
const rounds = Array.from({ length: 100 }, () => {
  for (const [language, length] of [[0, 0], [2, fontA.length], [1, fontA.length], [2, 0], [0, 100]]) {
    isSo(calls.vp_new(language, sheetAt, BigInt(length), 0, 0n, handleAt), length === 100 ? 14 : 0);
    calls.vp_free(handleAt);
  }
  return calls.memory.buffer.byteLength;
});
isSo(rounds.at(-1), rounds[0]);
isSo(calls.vp_version_number(), 10100);
const stopped = new vp.Printer('receipt');
isSo(stopped.feed(some.encode('Hi\nHi\n\x1b\x7fHi\n')).length, 2 * ('P4\n576 34\n'.length + 72 * 34));
isSo([stopped.fault, stopped.taken, stopped.feed(some.encode('Hi\n')).length, stopped.end()],
  ['vp: F1 after 8 bytes: unknown command 1B 7F', 8, 0, 'vp: F1 after 8 bytes: unknown command 1B 7F']);
isSo([new vp.Printer('receipt'), new vp.Printer('label'), new vp.Listing('label')].map(it => it.memory),
  [279552, 1254176, 0]);
for (const [language, name] of [['receipt', 'ticket.bin'], ['label', 'shelf.zpl']]) {
  for (const offsets of [false, true]) {
    const stream = new Uint8Array(readFileSync(new URL(`../../../examples/${name}`, import.meta.url)));
    const words = ['list', '--lang', language, ...(offsets ? ['--offsets'] : [])];
    const listed = spawnSync(program, words, { input: stream });
    isSo(new TextDecoder().decode(new vp.Listing(language, { offsets }).feed(stream)), listed.stdout);
  }
}

// The processor's seconds for a long stream, without what the system does.
const examples = new URL('../../../examples/', import.meta.url);
const sheet = letter => fileURLToPath(new URL(`font-${letter}.pbm`, examples));
const bytesOf = name => new Uint8Array(readFileSync(name));
const least = run => Math.min(...Array.from({ length: 3 }, run));
const file = `${process.env.TMPDIR ?? '/tmp'}/vp-long`;

function byProgram(language) {
  const fonts = ['--font-a', sheet('a'), ...(language === 'receipt' ? ['--font-b', sheet('b')] : [])];
  const words = ['-c', '"$@" >/dev/null; times', 'sh', program, language, ...fonts, file];
  const { stdout } = spawnSync('sh', words, { encoding: 'utf-8' });
  const [, minutes, seconds] = /\n(\d+)m([\d.]+)s/.exec(stdout);
  return 60 * minutes + Number(seconds);
}

function byModule(language, stream) {
  const before = process.cpuUsage();
  const printer = new vp.Printer(language, { fontA: bytesOf(sheet('a')), fontB: bytesOf(sheet('b')) });
  for (let rest = stream; ;) {
    const { taken, isFull } = printer.step(rest);
    rest = rest.subarray(taken);
    if (!isFull && !rest.length) return process.cpuUsage(before).user / 1e6;
  }
}

for (const [language, name, times] of [['receipt', 'receipt.bin', 5000], ['label', 'shipping.zpl', 2000]]) {
  writeFileSync(file, Buffer.concat(Array(times).fill(readFileSync(new URL(name, examples)))));
  const [own, here] = [least(() => byProgram(language)), least(() => byModule(language, bytesOf(file)))];
  const rate = (here / own).toFixed(1);
  console.log(`${name} ${times} times: ${own.toFixed(2)} s by vp, ${here.toFixed(2)} by the module, as ${rate} to 1`);
}
rmSync(file);
