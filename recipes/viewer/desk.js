// What the parts of the page share: the printer, the tabs and the one that is seen, what was chosen for all of them.

import { Printer } from './served.js';

/**
 * The element of this id, whichever it is.
 * @type {(id: string) => any}
 */
export const find = id => document.getElementById(id);
export const number = n => n.toLocaleString('en');
export const plural = (n, what) => `${number(n)} ${what}${n === 1 ? '' : 's'}`;

export const desk = {
  printer: new Printer(), state: null, tabs: [], tab: null,
  // the sheets that are chosen for fonts, and the files' names of those that the printer keeps
  fonts: { a: '', b: '' }, sheetNames: new Map(),
  // what the paper is compared with
  other: null,
  // whether all of a stream is printed: by the whole language, and what vp leaves out written anew
  anew: true,
  // dots a millimetre of paper
  dpmm: 8,
};

export function setChoices(box, choices, value) {
  box.replaceChildren(...choices.map(([it, text]) => new Option(text, it)));
  box.value = value;
}

/** Checks a box, or not, as a click does. */
export function setChecked(id, isChecked) {
  if (find(id).checked !== Boolean(isChecked)) find(id).click();
}

export function save(data, name) {
  const link = document.createElement('a');
  link.href = URL.createObjectURL(data instanceof Blob ? data : new Blob([data]));
  link.download = name;
  link.click();
  setTimeout(() => URL.revokeObjectURL(link.href), 1000);
}
