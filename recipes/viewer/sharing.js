// Sharing: a link that has the stream in its fragment, which browsers send to nobody, and opens it; two streams open as
// papers that are compared.

import { compareWith } from './comparing.js';
import { desk, find, number } from './desk.js';
import { open } from './opening.js';
import { FRONT, LONGEST_NAME, fragmentOf, fromLink } from './packing.js';
import { say, tellOnce } from './saying.js';

// Longer links are cut by some programs that pass them on.
const LONG = 8000;
const LONGEST_LINE = 1000;

const within = (value, least, most) => (Number.isFinite(value) && value >= least && value <= most ? value : 0);

/** The streams of a fragment, as what a tab is made of. */
async function streamsOf(fragment) {
  const all = await fromLink(fragment.slice(FRONT.length), 2 * desk.state.most + LONGEST_LINE);
  const end = all.indexOf(0x0a);
  const head = JSON.parse(new TextDecoder().decode(all.subarray(0, Math.max(0, end))));
  let at = end + 1;
  return head.slice(0, 2).map(it => {
    const bytes = all.slice(at, at += within(it.bytes, 0, desk.state.most));
    const name = String(it.name).replace(/[\0-\x1f\x7f/\\]/g, '').slice(0, LONGEST_NAME) || 'shared';
    return { name, bytes, language: it.language === 'receipt' ? 'receipt' : 'label',
      more: { width: it.width === 384 ? '384' : '576', wide: within(it.wide, 1, 400),
        high: within(it.high, 1, 2000) } };
  });
}

/** Opens what the address has in its fragment; answers whether it has something. */
export async function openLink() {
  const { hash } = location;
  if (!hash.startsWith(FRONT)) return false;
  history.replaceState(null, '', location.pathname + location.search);
  try {
    const tabs = [];
    for (const { name, bytes, language, more } of (await streamsOf(hash)).reverse()) {
      await open(name, bytes, language, { kept: bytes, more });
      tabs.push(desk.tab);
    }
    if (tabs.length > 1) await compareWith(`tab ${tabs[0].id}`);
    return tabs.length > 0;
  } catch {
    if (desk.tab) say('this link is cut or broken: nothing of it can be read');
    return false;
  }
}

async function share() {
  const { tab, other } = desk;
  const both = other?.stream ? [tab, other.stream] : [tab];
  const fragment = await fragmentOf(both);
  // an address of this machine alone, or with a secret, is of no use elsewhere
  const isElsewhere = /^https?:$/.test(location.protocol) && !desk.state.served;
  const link = isElsewhere ? location.href.replace(/#.*$/, '') + fragment : `viewer.html${fragment}`;
  // (a page that came without TLS has no clipboard)
  const isCopied = await Promise.resolve(navigator.clipboard?.writeText(link).then(() => true)).catch(() => false);
  if (!isCopied) showLink(link);
  const where = isElsewhere ? '' : ' Put the address of your viewer.html before it.';
  const long = link.length > LONG ? ` It has ${number(link.length)} characters: some programs cut such links.` : '';
  const what = both.length > 1 ? `Both streams are in it, and open compared.` : 'The stream is in it.';
  tellOnce(`${isCopied ? 'The link is copied' : 'The link is shown'}. ${what}${where}${long}`);
}

// Where a page may not copy, the link is shown to be copied.
function showLink(link) {
  find('link').value = link;
  find('link-dialog').showModal();
  find('link').select();
}

find('share').onclick = () => share().catch(error => say(error.message));
addEventListener('hashchange', () => openLink());
