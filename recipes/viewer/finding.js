// Finding: bytes in the whole stream, whichever part of it is in the editor.

import { toBytes } from './bytes.js';
import { desk, find, number } from './desk.js';
import { editor, goTo } from './writing.js';

// So many places are counted.
const MOST_FOUND = 9999;
const lower = byte => (byte >= 0x41 && byte <= 0x5a ? byte + 0x20 : byte);

/** Where some bytes stand in others, letters of either case alike. */
export function placesIn(bytes, wanted) {
  const sought = wanted.map(lower);
  const found = [];
  const [first, upper] = [sought[0], sought[0] >= 0x61 && sought[0] <= 0x7a ? sought[0] - 0x20 : sought[0]];
  for (let at = 0; sought.length && at + sought.length <= bytes.length && found.length < MOST_FOUND; at++) {
    if (bytes[at] !== first && bytes[at] !== upper) continue;
    let n = 1;
    while (n < sought.length && lower(bytes[at + n]) === sought[n]) n++;
    if (n === sought.length) found.push(at);
  }
  return found;
}

function sought() {
  const { tab } = desk;
  return toBytes(find('find-text').value, tab.end ?? null).bytes;
}

/** Goes to the next place, or the one before, from where the cursor stands. */
function go(step) {
  const wanted = sought();
  const places = placesIn(desk.tab.bytes, wanted);
  const area = editor.area;
  const { from, before } = desk.tab;
  const at = from + (before[step > 0 ? area.selectionEnd : area.selectionStart] ?? 0);
  const next = step > 0 ? places.find(it => it >= at) ?? places[0]
    : places.findLast(it => it < at) ?? places[places.length - 1];
  const is = places.indexOf(next);
  find('find-count').textContent = !wanted.length ? '' : !places.length ? 'nothing is found'
    : `${number(is + 1)} of ${number(places.length)}${places.length === MOST_FOUND ? ' and more' : ''}`;
  if (is >= 0) goTo(next, next + wanted.length, 'selected');
}

export function openFind() {
  const chosen = editor.text.slice(editor.area.selectionStart, editor.area.selectionEnd);
  find('find').hidden = false;
  if (chosen && !chosen.includes('\n')) find('find-text').value = chosen;
  find('find-text').focus();
  find('find-text').select();
}

function closeFind() {
  find('find').hidden = true;
  editor.area.focus();
}

find('find-open').onclick = openFind;
find('find-close').onclick = closeFind;
find('find-next').onclick = () => go(1);
find('find-before').onclick = () => go(-1);
find('find-text').onkeydown = event => {
  if (event.key === 'Enter') go(event.shiftKey ? -1 : 1);
  else if (event.key === 'Escape') closeFind();
  else return;
  event.preventDefault();
};
