// Opening: streams that are new, examples, dropped or pasted, and files that are followed.

import { pasted, toBytes } from './bytes.js';
import { compareWith } from './comparing.js';
import { desk, find } from './desk.js';
import { ENDED, show } from './looking.js';
import { say } from './saying.js';
import { tabActs, drawTabs, nameFor, same, Tab } from './tabs.js';
import { editor, replace } from './writing.js';

export const STARTS = {
  label: '^XA\n^PW480^LL256\n^FO24,24^A0N,48,24^FDHello^FS\n^FO24,88^GB432,3,3^FS\n' +
    '^BY2^FO24,112^BCN,96,Y,N^FD>:HELLO^FS\n^XZ\n',
  receipt: '\x1b@\x1ba\x01\x1d!\x11Hello\n\x1d!\x00from the viewer\n\x1dV\x41\x18',
};

const tooLong = name => say(`${name}: a stream has at most ${desk.state.most >> 20} MB`);

/**
 * Opens a stream in a tab. `kept` are the bytes that its file has, `more` what else the tab is.
 */
export async function open(name, bytes, language, { more = {}, ...files } = {}) {
  if (bytes.length > desk.state.most) {
    tooLong(name);
    return;
  }
  const tab = new Tab(nameFor(name), bytes, language ?? await desk.printer.guess(bytes), files);
  Object.assign(tab, more);
  desk.tabs.push(tab);
  tabActs.choose(tab);
}

export async function openExample(n) {
  await open(desk.state.examples[n], await desk.printer.example(n));
}

async function openFiles(files) {
  for (const file of files) {
    if (file.size > desk.state.most) tooLong(file.name);
    else await open(file.name, new Uint8Array(await file.arrayBuffer()));
  }
}

for (const language of ['label', 'receipt']) {
  find(`new-${language}`).onclick = () => {
    const end = language === 'label' ? 'zpl' : 'bin';
    open(`new.${end}`, new TextEncoder().encode(STARTS[language]), language).then(() => editor.area.focus());
  };
}
find('examples').onchange = event => {
  const n = event.target.value;
  event.target.value = '';
  if (n !== '') openExample(n).catch(error => say(error.message));
};
find('open-file').onclick = () => {
  if (desk.printer.pick) pickFiles().catch(error => { if (error.name !== 'AbortError') say(error.message); });
  else find('file').click();
};
find('file').onchange = event => {
  openFiles([...event.target.files]);
  event.target.value = '';
};
addEventListener('dragover', event => {
  if (![...event.dataTransfer.types].includes('Files')) return;
  event.preventDefault();
  find('drop').hidden = false;
});
addEventListener('dragleave', event => { if (!event.relatedTarget) find('drop').hidden = true; });
addEventListener('drop', event => {
  find('drop').hidden = true;
  if (!event.dataTransfer.files.length) return;
  event.preventDefault();
  openFiles([...event.dataTransfer.files]);
});
addEventListener('paste', event => {
  const { files } = event.clipboardData;
  if (files.length) {
    event.preventDefault();
    openFiles([...files]);
  } else if (!event.target.matches('textarea, input')) {
    const text = event.clipboardData.getData('text');
    const escaped = text.includes('\\x');
    const { bytes } = toBytes(escaped ? pasted(text) : text, escaped ? null : '\n');
    if (bytes.length) open('pasted', bytes, undefined, { kept: null });
  }
});

// Files that are followed. What is written here stays until you say that the file's own may take its place.

export async function openFollowed() {
  for (let n = 0; n < desk.state.files.length; n++) await openOne(n);
}

async function openOne(n) {
  const { files, language } = desk.state;
  const { name, path } = files[n];
  const tab = new Tab(nameFor(name, path), new Uint8Array(0), language ?? 'label', { followed: n, path });
  desk.tabs.push(tab);
  try {
    tab.bytes = tab.kept = await desk.printer.file(n);
    tab.language = language ?? await desk.printer.guess(tab.bytes);
  } catch (error) {
    tab.fileError = error.message;
  }
  return tab;
}

// Files that the printer may read again are followed once they are chosen.
async function pickFiles() {
  const { files } = desk.state;
  const isFirst = !files.length;
  let tab = null;
  for (const it of await desk.printer.pick()) tab = await openOne(files.push(it) - 1);
  if (tab) tabActs.choose(tab);
  if (tab && isFirst) follow();
}

export async function follow() {
  let known = desk.state.files.map(it => it.version);
  for (;;) {
    try {
      const now = await desk.printer.changes(known);
      for (let n = 0; n < now.length; n++) if (now[n] !== known[n]) await changedOnDisk(n);
      known = now;
    } catch {
      say(ENDED);
      await new Promise(done => setTimeout(done, 2000));
    }
  }
}

async function changedOnDisk(n) {
  const tab = desk.tabs.find(one => one.followed === n);
  if (!tab) return;
  let bytes;
  try {
    bytes = await desk.printer.file(n);
    tab.fileError = '';
  } catch (error) {
    tab.fileError = error.message;
  }
  if (tab === desk.tab) show();
  if (tab.fileError) return;
  if (tab.kept && same(tab.kept, bytes) && !tab.onDisk) return;
  const isFree = !tab.isChanged || same(tab.bytes, bytes);
  tab.onDisk = isFree ? null : bytes;
  if (isFree) take(tab, bytes);
  else ask();
}

// The file's bytes in place of those that are here: that can be taken back.
function take(tab, bytes) {
  Object.assign(tab, { kept: bytes, onDisk: null });
  if (tab === desk.tab && desk.other?.choice === 'disk') compareWith('');
  replace(tab, bytes);
  drawTabs();
  ask();
}

// Asks about a file that changed under what was written, where that is so of the tab that is seen.
export function ask() {
  const { tab } = desk;
  find('changed').hidden = !tab.onDisk;
  find('changed').querySelector('span').textContent = 'Changed on disk.';
  if (desk.other?.choice === 'disk' && tab.onDisk) compareWith('disk').catch(error => say(error.message));
}

find('take').onclick = () => {
  take(desk.tab, desk.tab.onDisk);
  editor.area.focus();
};
find('keep').onclick = () => {
  const { tab } = desk;
  Object.assign(tab, { kept: tab.onDisk, onDisk: null });
  if (desk.other?.choice === 'disk') compareWith('');
  drawTabs();
  ask();
  editor.area.focus();
};
find('compare-file').onclick = () => compareWith('disk').catch(error => say(error.message));
