// Keeping: what is written, and what was chosen, is there again when the page is.
//
// A page that stands by itself keeps it in the browser, for each window what it had last. One that a viewer serves
// keeps it for its own window alone: another program of the machine may have the same address later.

import { desk, find, setChecked } from './desk.js';
import { fromBase64, toBase64 } from './packing.js';
import { same, Tab } from './tabs.js';

const [KEPT, OWN] = ['vp-desk-', 'vp-window'];
// So many bytes are kept of a window at most, beside the stream that is seen, and so many windows; how long after a
// change, in milliseconds.
const [MOST, WINDOWS, LATER] = [2 << 20, 4, 600];
const CHOICES = ['unit', 'dpmm'];
const CHECKED = ['grid', 'every'];

let keepTimer = 0;
let isWhole = false;

const isAlone = () => !desk.state.served;
const store = () => (isAlone() ? localStorage : sessionStorage);

// The name of what this window keeps.
function own() {
  let name = sessionStorage.getItem(OWN);
  if (!name) {
    name = `${KEPT}${Date.now().toString(36)}-${crypto.getRandomValues(new Uint32Array(1))[0].toString(36)}`;
    sessionStorage.setItem(OWN, name);
  }
  return name;
}

const kept = () => Object.keys(store()).filter(it => it.startsWith(KEPT))
  .map(name => ({ name, time: Number(/"time":(\d+)/.exec(store().getItem(name).slice(0, 40))?.[1] ?? 0) }))
  .sort((one, other) => other.time - one.time);

const tabOf = it => ({ name: it.name, bytes: toBase64(it.bytes), language: it.language, width: it.width, wide: it.wide,
  high: it.high, asBytes: it.asBytes, path: it.path, isFollowed: it.followed !== null, isUnsaved: it.isUnsaved });

/** Keeps all now. Whether it was kept whole is `isKept`'s answer. */
export function keepNow() {
  clearTimeout(keepTimer);
  if (!desk.tab) return;
  const choices = Object.fromEntries([...CHOICES.map(it => [it, find(it).value]),
    ...CHECKED.map(it => [it, find(it).checked])]);
  // the tab that is seen first, the others as far as there is room
  let room = MOST - desk.tab.bytes.length;
  const fits = desk.tabs.filter(it => it === desk.tab || room >= it.bytes.length && (room -= it.bytes.length) >= 0);
  isWhole = fits.length === desk.tabs.length;
  const all = JSON.stringify({ time: Date.now(), tab: fits.indexOf(desk.tab), choices, tabs: fits.map(tabOf) });
  try {
    store().setItem(own(), all);
    for (const { name } of kept().slice(WINDOWS)) store().removeItem(name);
  } catch {
    isWhole = false;
  }
}

export function keepSoon() {
  clearTimeout(keepTimer);
  keepTimer = setTimeout(keepNow, LATER);
}

/** Whether leaving the page loses nothing. */
export const isKept = () => isAlone() && isWhole;

function read() {
  try {
    const names = kept();
    const name = sessionStorage.getItem(OWN);
    const last = names.find(it => it.name === name) ?? (isAlone() ? names[0] : null);
    return last ? JSON.parse(store().getItem(last.name)) : null;
  } catch {
    return null;
  }
}

/** Brings back what was kept: the choices, and tabs; those of followed files get what was written in them. */
export function bringBack() {
  const all = read();
  if (!all) return null;
  for (const it of CHOICES) {
    if ([...find(it).options].some(one => one.value === all.choices?.[it])) find(it).value = all.choices[it];
    find(it).dispatchEvent(new Event('change'));
  }
  for (const it of CHECKED) setChecked(it, all.choices?.[it]);
  let chosen = null;
  (all.tabs ?? []).forEach((it, n) => {
    const tab = broughtBack(it);
    if (tab && n === all.tab) chosen = tab;
  });
  return chosen;
}

function broughtBack({ name, bytes, language, width, wide, high, asBytes, path, isFollowed, isUnsaved }) {
  let data;
  try {
    data = fromBase64(bytes);
  } catch {
    return null;
  }
  const found = isFollowed && desk.tabs.find(it => it.path === path);
  if (found) {
    if (isUnsaved && !same(found.bytes, data)) found.bytes = data;
    return found;
  }
  const as = language === 'receipt' ? 'receipt' : 'label';
  const tab = new Tab(String(name), data, as, { kept: isUnsaved ? null : data });
  Object.assign(tab, { width: width === '384' ? '384' : '576', wide: Number(wide) || 0, high: Number(high) || 0,
    asBytes: Boolean(asBytes) });
  desk.tabs.push(tab);
  return tab;
}

addEventListener('pagehide', keepNow);
document.addEventListener('visibilitychange', () => { if (document.hidden) keepNow(); });
