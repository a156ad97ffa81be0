// What is said below the editor: faults with what would be right, what a stream is that is no printer's, and what a
// printer would print besides, in one line that opens.

import { desk, find, number, plural } from './desk.js';
import { changed } from './history.js';
import { lookActs } from './looking.js';
import { open } from './opening.js';
import { otherwise } from './readable.js';
import { goTo, replace } from './writing.js';

const LANGUAGE = { label: ['a label, in ZPL II', 'a label'], receipt: ['a receipt, in ESC/POS', 'a receipt'] };

/** Says something once, until the stream changes. */
export function tellOnce(text) {
  desk.tab.note = { text, bytes: desk.tab.bytes };
  messages();
}

export function say(text) {
  if (!desk.tab) return;
  desk.tab.error = text;
  messages();
}

// What is said now, and what its buttons do: they stay while the same is said, so that a click finds its button.
let shownLines = '';
let acts = [];

/** A line of a kind: its text, what explains it, and what can be done as [name, act]. */
const line = (kind, text, why = '', ways = []) => ({ kind, text, why, ways });

function addTo(into, name, words, kind = '') {
  const made = document.createElement(name);
  made.className = kind;
  made.textContent = words;
  into.append(made);
  return made;
}

function draw(lines) {
  acts = lines.flatMap(it => it.ways.map(([, act]) => act));
  const now = JSON.stringify(lines);
  if (now === shownLines) return;
  shownLines = now;
  let count = 0;
  find('messages').replaceChildren(...lines.map(({ kind, text, why, ways }) => {
    const made = document.createElement('div');
    made.className = `message ${kind}`;
    const words = addTo(made, 'div', '');
    addTo(words, 'span', text);
    if (why) addTo(words, 'span', why, 'why');
    const buttons = addTo(made, 'div', '', 'ways');
    for (const [name] of ways) {
      const n = count++;
      addTo(buttons, 'button', name).onclick = () => acts[n]();
    }
    return made;
  }));
}

function ofFault({ fault, explained: { text, at, changes }, bytes }) {
  const mends = changes.map(it => [it.name, () => {
    const { tab } = desk;
    replace(tab, changed(tab.bytes, { at: it.from, old: tab.bytes.slice(it.from, it.to), now: it.bytes }));
    goTo(it.from + it.bytes.length, it.from + it.bytes.length, true);
  }]);
  const [from, to] = at >= 0 ? [at, Math.min(at + 1, bytes.length)] : [fault.from, fault.to];
  return line('fault', `${fault.number} after ${plural(fault.place, 'byte')}: ${fault.text}`, text,
    [...mends, ['Go there', () => goTo(from, to, true)]]);
}

// What the stream is beside a printer's language: looked at once for its bytes.
function ofKind(tab) {
  if (tab.kind?.bytes !== tab.bytes) tab.kind = { bytes: tab.bytes, found: otherwise(tab.bytes) };
  const { found } = tab.kind;
  if (!found) return null;
  const { offer } = found;
  const read = async () => {
    const bytes = await offer.bytes();
    await open(`read-${tab.name}`, bytes, offer.language, { kept: null });
  };
  return line('remark', found.text, '', offer ? [[offer.name, () => read().catch(error => say(error.message))]] : []);
}

// Whether a stream has a sign of the language that is guessed, and isn't only the front of a command.
function isSign(tab, guess) {
  if (guess === 'label') return true;
  const some = tab.bytes.subarray(0, 1 << 16);
  return some.some(it => it >= 0x1b && it <= 0x1d) || /^\s*[^\s^~]/.test(new TextDecoder('latin1').decode(some));
}

function ofLanguage(tab, guess) {
  if (!tab.bytes.length || guess === tab.language || !isSign(tab, guess)) return null;
  const [looks, as] = [LANGUAGE[guess][0], LANGUAGE[tab.language][1]];
  return line('remark', `This looks like ${looks}; it is read as ${as}.`, '',
    [[`Read it as ${LANGUAGE[guess][1]}`, () => lookActs.readAs(guess)]]);
}

export function messages() {
  const { tab } = desk;
  const { said } = tab;
  const kind = ofKind(tab);
  const note = tab.note?.bytes === tab.bytes ? tab.note.text : '';
  const wrong = [tab.fileError, tab.error, said?.error && withNames(said.error)].filter(Boolean);
  const made = [note && line('remark', note), ...wrong.map(it => line('fault', it)), kind, tab.fault && ofFault(tab),
    said?.ended && line('remark', said.ended), !kind && said && ofLanguage(tab, said.guess)].filter(Boolean);
  draw(made);
  // those who hear the page are told what is new
  const heard = [...made.map(it => it.text), tab.remarks.length ? summed(tab.remarks) : ''].join(' ');
  if (find('heard').textContent !== heard) find('heard').textContent = heard;
  remarks(tab.remarks);
}

function remarks(found) {
  const box = find('remarks');
  box.hidden = !found.length;
  find('told').textContent = found.length ? summed(found) : '';
  find('told').hidden = !found.length;
  if (remarks.last === found) return;
  remarks.last = found;
  box.querySelector('summary span').textContent = summed(found);
  box.querySelector('p').textContent = profile(found);
  box.querySelector('p').hidden = !profile(found);
  const placeOf = placesOf(desk.tab.bytes);
  box.querySelector('ul').replaceChildren(...found.map(it => {
    const row = document.createElement('li');
    const words = document.createElement(it.place === null ? 'span' : 'button');
    words.textContent = it.place === null ? it.text : `${placeOf(it.place)}: ${it.text}`;
    if (it.place !== null) words.onclick = () => goTo(it.from, it.to, true);
    row.append(words);
    return row;
  }));
}

// Says places as their lines, where the stream has lines, and their bytes. They come in order.
function placesOf(bytes) {
  let [line, at] = [1, bytes.indexOf(0x0a)];
  const hasLines = at >= 0;
  return place => {
    for (; at >= 0 && at < place; at = bytes.indexOf(0x0a, at + 1)) line++;
    return `${hasLines ? `line ${number(line)}, ` : ''}byte ${number(place)}`;
  };
}

// What the page shows of a stream, and how the rest is seen.
function profile(found) {
  const isShown = desk.state.served;
  if (!found.some(it => /read past|recipes\/expand/.test(it.text))) return '';
  const more = isShown ? 'With “all of it” above the paper, what can be written anew is.'
    : 'recipes/show draws what its lines call written anew: letters of code tables, other symbols, stored formats.';
  return `vp draws a fixed part of ${desk.tab.language === 'label' ? 'ZPL II' : 'ESC/POS'}. ${more}`;
}

// All remarks in one line, by what they are about.
function summed(found) {
  const kinds = [
    [/has no character|characters are white/, n => `${plural(n, 'byte')} without a character`],
    [/outside \^XA/, () => 'fields outside ^XA and ^XZ'],
    [/ edge/, n => `${plural(n, 'field')} past an edge`],
    [/on a printer/, n => `${plural(n, 'command')} otherwise on a printer`],
    [/read past|no command/, n => `${plural(n, 'command')} read past`],
    [/(?:)/, n => plural(n, 'remark')],
  ];
  const counts = kinds.map(() => 0);
  for (const { text } of found) counts[kinds.findIndex(([it]) => it.test(text))]++;
  return kinds.map(([, says], n) => (counts[n] ? says(counts[n]) : '')).filter(Boolean).join(', ');
}

// A sheet that the page gave is known to vp by another name.
function withNames(text) {
  for (const [id, name] of desk.sheetNames) text = text.replaceAll(id, name);
  return text;
}
