// What is known of commands, of the table that lint and expand use too: what vp makes of each, and for those that it
// draws their names, forms and parameters.

import { latin } from './bytes.js';

/**
 * @typedef {object} Fate  what becomes of a command
 * @property {string} shows  'yes' or 'no' of what is read past: whether paper shows it; 'prints', by the whole language
 *   alone 'whole'; 'stops' of what the profile stops at and the whole language reads past
 * @property {string} becomes  what recipes/expand makes of it: printed, expanded, said, left out
 * @property {string} what  what it does, in words
 * @typedef {object} Help  what is said of a command that vp draws
 * @property {string} command  as the tables name it
 * @property {string} form  the command with its parameters' names
 * @property {string} name  as the language's guides call it
 * @property {string} insert  what completion writes
 * @property {{name: string, what: string, range: string, default: string}[]} parameters
 */

/** @type {Map<string, Fate>} */
const fates = new Map();
/** @type {Map<string, Help>} */
const helps = new Map();
let starts = { label: {}, signs: {}, receipt: {}, bits: [], figures: [] };

const key = (language, command) => `${language} ${command}`;

function parameterOf(text) {
  const [, name, rest] = /^(.*?): (.*)$/.exec(text) ?? ['', text, ''];
  const [what, range = '', start = ''] = rest.split('; ');
  return { name, what, range, default: start };
}

/** Takes what the printer's side knows (known.py says what that is). */
export function learn(known) {
  for (const [language, command, shows, becomes, what] of known.commands) {
    fates.set(key(language, command), { shows, becomes, what });
  }
  for (const [language, command, form, name, insert, parameters] of known.help) {
    helps.set(key(language, command), { command, form, name, insert,
      parameters: parameters ? parameters.split(' | ').map(parameterOf) : [] });
  }
  starts = known.starts;
}

/** @returns {Fate | null} */
export const fateOf = (language, command) => fates.get(key(language, command)) ?? null;

/** @returns {Help | null} */
export const helpOf = (language, command) => helps.get(key(language, command)) ?? null;

/** All commands of a language: those that are drawn first, then those that paper shows, then the others. */
export function commandsOf(language) {
  const order = { prints: 0, whole: 1, yes: 2, stops: 3, no: 4 };
  const found = [...fates].filter(([name]) => name.startsWith(`${language} `))
    .map(([name, fate]) => ({ command: name.slice(language.length + 1), ...fate }));
  return found.sort((one, other) => order[one.shows] - order[other.shows]);
}

/**
 * The command of a listing's line, as the tables name it; null where it is data or a control character.
 * @param {string} text
 */
export function commandOf(text, language) {
  if (language === 'label') {
    if (!/^[\^~]/.test(text)) return null;
    const name = text.slice(0, 3);
    return name.startsWith('^A') ? '^A' : name;
  }
  const [lead, ...bytes] = text.split(' ');
  if (!['esc', 'gs', 'fs', 'dle'].includes(lead)) return null;
  const long = [lead, ...bytes.slice(0, 2)].join(' ');
  return fates.has(key(language, long)) ? long : [lead, bytes[0]].join(' ');
}

/** A command as its manual names it: of a receipt its lead, its signs, and the bytes behind them. */
export function nameOf(command, text) {
  if (/^[\^~]/.test(command)) return command;
  const [kind, ...rest] = command.split(' ');
  const sign = it => {
    const code = parseInt(it, 16);
    return code > 0x20 && code < 0x7f ? String.fromCharCode(code) : it;
  };
  return [kind.toUpperCase(), ...rest.map(sign), ...text.split(' ').slice(rest.length + 1)].join(' ');
}

const hexOf = bytes => Array.from(bytes, it => it.toString(16).padStart(2, '0')).join(' ');

/** Whether a command that is read past, with these bytes, sets what is so at the start. */
export function isStart(command, raw) {
  const text = latin.decode(raw).replace(/[\r\n]/g, '');
  if (command.slice(1) in starts.signs) return ['', starts.signs[command.slice(1)]].includes(text.slice(3, 4));
  if (command in starts.label) {
    const start = starts.label[command].split(',');
    return text.slice(3).replace(/ /g, '').toUpperCase().split(',').every((it, n) =>
      it === '' || it === (start[n] ?? '') || start[n] === '0' && /^[+0-]*$/.test(it));
  }
  const values = hexOf(raw.subarray(command.split(' ').length));
  if (command in starts.receipt) return new RegExp(`^(?:${starts.receipt[command]})$`).test(values);
  const last = raw[raw.length - 1];
  if (starts.bits.includes(command)) return (last & 1) === 0;
  return starts.figures.includes(command) && (last === 0 || last === 0x30);
}

/** What text has to stand behind a command so that it counts: 'any', 'high' bytes, 'national' characters, or ''. */
export function needs(command) {
  if (['esc 74', 'fs 26', '^CI', '^SE'].includes(command)) return 'high';
  if (command === 'esc 52') return 'national';
  return [...starts.bits, ...starts.figures].includes(command) ? 'any' : '';
}
