// The module and the sheets that the package has in it, unpacked once.

import { fromLink } from '../../recipes/viewer/packing.js';
import { learn } from '../../recipes/viewer/known.js';
import { load } from '../../recipes/web/vp.js';
import { VpError } from './errors.js';
import { given } from './given.js';

// More than either is no longer.
const MOST = 1 << 24;

let loading = null;

async function unpacked() {
  learn(given.known);
  const texts = [given.module, given.sheets.a, given.sheets.b];
  const [module, a, b] = await Promise.all(texts.map(it => fromLink(it, MOST)));
  return { module: await load(module), sheets: { a, b } };
}

/** The compiled module, which printers are made of from now on, and the shipped sheets. */
export function ready() {
  loading ??= unpacked().catch(error => {
    loading = null;
    throw new VpError('module', `the printer can't be compiled here: ${error.message}`);
  });
  return loading;
}

export const version = given.version;
