// Tabs: streams, each with what is known of it.

import { History } from './history.js';
import { isKept, keepNow, keepSoon } from './keeping.js';
import { desk, find, save } from './desk.js';

let tabsMade = 0;

export class Tab {
  // `kept` are the bytes that its file has, or null where it has none; a followed file is named by its number and path.
  constructor(name, bytes, language, { kept = bytes, followed = null, path = name } = {}) {
    Object.assign(this, { id: tabsMade++, name, bytes, language, kept, followed, path });
    this.width = String(desk.state.width);
    // a label's size in millimetres, where it isn't the stream's own
    Object.assign(this, { wide: 0, high: 0, history: new History(), asBytes: false });
    // what the file has now, where that changed under what was written here; what was saved last
    Object.assign(this, { onDisk: null, saved: null });
    // the part that is in the editor, its line ends, and how many bytes come before each place of its text
    Object.assign(this, { from: 0, to: 0, end: null, before: new Uint32Array(1), chosen: null });
    // which edition of the bytes is printed and listed, what of it was, and what the last one without a fault was
    Object.assign(this, { edits: 0, drawn: -1, listed: -1, last: 0, rows: [], remarks: [], sheets: [], good: null });
    Object.assign(this, { said: null, fault: null, paper: new Uint8Array(0), cut: '' });
    // why it isn't printed, and why its file can't be read
    Object.assign(this, { error: '', fileError: '' });
  }

  // Whether something was written here that the file hasn't, and whether that was saved to no other.
  get isChanged() {
    return !same(this.bytes, this.kept ?? new Uint8Array(0));
  }

  get isUnsaved() {
    return this.isChanged && !(this.saved && same(this.bytes, this.saved));
  }

  // What is printed before a label, so that it has the size that was chosen.
  get lead() {
    if (this.language !== 'label') return '';
    const dots = mm => Math.max(1, Math.round(mm * desk.dpmm));
    return (this.wide ? `^PW${dots(this.wide)}` : '') + (this.high ? `^LL${dots(this.high)}` : '');
  }

  get words() {
    const { a, b } = desk.fonts;
    return { lang: this.language, width: this.width, anew: desk.anew ? '1' : '0', ...(a && { a }), ...(b && { b }) };
  }

  // What is known of the paper that was is of no use any more.
  printAnew() {
    Object.assign(this, { edits: this.edits + 1, good: null });
  }
}

export function same(one, other) {
  if (one === other) return true;
  if (one.length !== other.length) return false;
  for (let at = 0; at < one.length; at++) if (one[at] !== other[at]) return false;
  return true;
}

// A name that no other tab has: of files of one name as much of the path as tells them apart, else a number.
export function nameFor(name, path = name) {
  const taken = new Set(desk.tabs.map(it => it.name));
  const parts = path.split('/');
  for (let count = 1; count <= parts.length; count++) {
    const found = parts.slice(-count).join('/');
    if (found && !taken.has(found)) return found;
  }
  const [, stem, end] = /^(.*?)(\.[^.]*)?$/.exec(name);
  for (let n = 2; ; n++) if (!taken.has(`${stem}-${n}${end ?? ''}`)) return `${stem}-${n}${end ?? ''}`;
}

export const fileName = tab => tab.name.replaceAll('/', '-');

export function saveStream(tab) {
  save(tab.bytes, fileName(tab));
  tab.saved = tab.bytes;
  drawTabs();
}

// What is to be done when a tab is chosen or closed is the page's.
export const tabActs = { choose() {}, close() {}, drawn() {} };

let drawn = '';

export function drawTabs() {
  const { tabs, tab } = desk;
  keepSoon();
  tabActs.drawn();
  const now = JSON.stringify([tabs.indexOf(tab), tabs.map(it => [it.id, it.name, it.isUnsaved, !!it.onDisk])]);
  if (now === drawn) return;
  drawn = now;
  const hadFocus = find('tabs').contains(document.activeElement);
  find('tabs').replaceChildren(...tabs.map(tabBox));
  find('tabs').querySelector('[data-on]')?.scrollIntoView({ block: 'nearest', inline: 'nearest' });
  if (hadFocus) find('tabs').querySelector('[aria-selected="true"]')?.focus();
}

function tabBox(it, n) {
  const { tabs, tab } = desk;
  const box = document.createElement('div');
  box.className = 'tab';
  box.setAttribute('role', 'presentation');
  if (it === tab) box.dataset.on = '';
  const name = document.createElement('button');
  name.className = 'name';
  name.setAttribute('role', 'tab');
  name.setAttribute('aria-selected', it === tab);
  name.tabIndex = it === tab ? 0 : -1;
  name.textContent = it.name;
  const unsaved = it.isUnsaved;
  if (unsaved) name.dataset.unsaved = '';
  const isFollowed = it.followed !== null;
  name.title = [it.path, isFollowed && 'followed on disk', unsaved && 'not saved', it.onDisk && 'changed on disk']
    .filter(Boolean).join(', ');
  name.setAttribute('aria-label', unsaved ? `${it.name}, not saved` : it.name);
  name.onclick = () => tabActs.choose(it);
  name.onkeydown = event => {
    const step = { ArrowRight: 1, ArrowLeft: -1 }[event.key];
    if (step) tabActs.choose(tabs[(n + step + tabs.length) % tabs.length]);
    else if (event.key === 'Delete' && !isFollowed) tabActs.close(it);
  };
  box.append(name);
  if (!isFollowed && tabs.length > 1) {
    const shut = document.createElement('button');
    shut.className = 'close';
    shut.textContent = '×';
    shut.setAttribute('aria-label', `Close ${it.name}`);
    shut.onclick = () => tabActs.close(it);
    box.append(shut);
  }
  return box;
}

addEventListener('beforeunload', event => {
  keepNow();
  if (isKept() || !desk.tabs.some(it => it.isUnsaved)) return;
  event.preventDefault();
  event.returnValue = '';
});
