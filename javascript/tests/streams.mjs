// streams.mjs PRINTED, in node: the streams of a file that printed.py wrote.

import { webcrypto } from 'node:crypto';
import { readFileSync } from 'node:fs';
import { same } from './same.mjs';

globalThis.crypto ??= webcrypto;
same(JSON.parse(readFileSync(process.argv[2], 'utf-8'))).then(count => {
  console.log(`node ${process.versions.node}: ${count} streams are printed as by vp`);
});
