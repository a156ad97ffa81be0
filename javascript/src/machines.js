// Machines of the module, by the settings of printers: languages, papers and sheets.

import { Printer as Machine } from '../../recipes/web/vp.js';
import { VpError, bytesOf, isBytes, named } from './errors.js';
import { ready } from './module.js';

const NO_SHEET = new Uint8Array(0);
// What an empty file is to the module: a sheet that is none.
const EMPTY = new Uint8Array(1);
export const SHIPPED = undefined;

/** The sheet of an option: its bytes, none of null, and the shipped one where it isn't set. */
export function sheetOf(name, value) {
  if (value === SHIPPED) return SHIPPED;
  if (value === null) return NO_SHEET;
  if (isBytes(value)) return value.byteLength ? bytesOf(value).slice() : EMPTY;
  const hint = typeof value === 'string' ? ': read the file first' : '';
  throw new VpError('argument', `${name} is the bytes of a glyph sheet (a Uint8Array or an ArrayBuffer), or null for ` +
    `none, and not ${named(value)}${hint}`);
}

// The machine that printed last, by the settings of its printers: the next stream is printed by it.
const idle = new WeakMap();

/** The machine that was kept for these settings, begun anew, or one that is just switched on. */
export async function begunOf(settings) {
  const machine = idle.get(settings);
  if (!machine) return machineOf(settings);
  idle.delete(settings);
  machine.beginAnew();
  return machine;
}

/** Keeps a machine that is done with its stream. */
export function keep(settings, machine) { idle.set(settings, machine); }

/** A machine of settings that prints, as it is when it is switched on. */
export async function machineOf({ language, width, whole, fontA, fontB }) {
  const { sheets } = await ready();
  const isShipped = fontA === SHIPPED && fontB === SHIPPED;
  const [a, b] = isShipped ? [sheets.a, language === 'receipt' ? sheets.b : NO_SHEET]
    : [fontA ?? NO_SHEET, fontB ?? NO_SHEET];
  try {
    return new Machine(language, { fontA: a, fontB: b, width, whole });
  } catch (error) {
    throw new VpError(/^font[AB]: /.test(error.message) ? 'sheet' : 'memory', error.message);
  }
}

/** The sheets of settings, by the letters of their fonts. */
export async function sheetsOf({ language, fontA, fontB }) {
  const { sheets } = await ready();
  if (fontA === SHIPPED && fontB === SHIPPED) return language === 'receipt' ? sheets : { a: sheets.a };
  return { ...(fontA?.length && { a: fontA }), ...(fontB?.length && { b: fontB }) };
}
