// Help: what the command at the cursor is called, its parameters with their ranges and defaults, what vp does of it.

import { desk, find } from './desk.js';
import { commandOf, fateOf, helpOf, nameOf } from './known.js';
import { rowAt } from './rows.js';

const DOES = { yes: 'read past', no: 'read past; paper shows nothing of it', whole: 'read past by the profile',
  stops: 'read past; stops the profile' };
const HINTS = { label: '^ and ~ offer commands. Ctrl-F finds, Ctrl-/ makes comments.',
  receipt: '\\x1b and \\x1d offer commands. Ctrl-F finds.' };
const BY = { expanded: ', and recipes/show draws it', said: '', 'left out': '', printed: '; the whole language draws it' };

/** What stands in one line of a command: its name, or what it does. */
export function nameIn(language, command) {
  const help = helpOf(language, command);
  return help ? help.name : fateOf(language, command)?.what ?? '';
}

/**
 * The command at a byte of a stream.
 * @returns {{command: string, text: string, part: number} | null}  `part` is the number of the parameter there, -1 for
 *   the name
 */
export function commandAt({ rows, bytes, language }, byte) {
  const n = rowAt(rows, Math.max(0, byte - 1));
  if (n < 0) return null;
  let row = rows[n];
  // data belong to the command before them
  for (let at = n; row && (row.count || row.kind === 'data' || row.kind === 'fault') && at > 0;) row = rows[--at];
  const command = row && row.from < byte ? commandOf(row.text.replace(/ skipped$/, ''), language) : null;
  if (!command) return null;
  const isName = byte <= row.from + (language === 'label' ? command.length : row.name);
  const before = bytes.subarray(row.from, byte);
  const commas = before.reduce((sum, it) => sum + (it === 0x2c), 0);
  const part = language === 'label' ? commas : byte - row.from - row.name - 1;
  return { command, text: row.text.replace(/ skipped$/, ''), part: isName ? -1 : part };
}

function span(into, kind, text) {
  const made = document.createElement('span');
  made.className = kind;
  made.textContent = text;
  into.append(made);
}

const said = it => [it.what, it.range, it.default && `else ${it.default}`].filter(Boolean).join('; ');

/** Shows help for the command at a byte. */
export function helpAt(tab, byte) {
  const found = commandAt(tab, byte);
  const now = JSON.stringify([found, tab.language, desk.anew]);
  const box = find('help');
  if (box.dataset.shown === now) return;
  box.dataset.shown = now;
  const lines = [document.createElement('div'), document.createElement('div')];
  box.replaceChildren(...lines);
  if (!found) {
    span(lines[0], '', HINTS[tab.language]);
    return;
  }
  const { command, text, part } = found;
  const [help, fate] = [helpOf(tab.language, command), fateOf(tab.language, command)];
  span(lines[0], 'form', help?.form ?? nameOf(command, text));
  span(lines[0], 'called', help?.name ?? fate?.what ?? 'no command that is known');
  const isDrawn = fate?.shows === 'prints' || fate?.shows === 'whole' && desk.anew;
  if (!isDrawn) {
    span(lines[0], 'does', fate ? `${DOES[fate.shows]}${fate.shows === 'no' ? '' : BY[fate.becomes]}` : 'read past');
  }
  const parameters = help?.parameters ?? [];
  const one = tab.language === 'label' ? parameters[part] : parameters[Math.min(part, parameters.length - 1)];
  if (one && part >= 0) {
    span(lines[1], 'parameter', one.name);
    span(lines[1], '', said(one));
  } else {
    parameters.forEach(it => span(lines[1], 'parameter', `${it.name}: ${it.what}`));
  }
}
