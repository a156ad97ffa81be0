// Comparing: another tab, a file or what a followed file has now, laid over the paper.

import { desk, find, number, setChoices } from './desk.js';
import { images, paper, show } from './looking.js';
import { say } from './saying.js';
import { difference, imagesOf, sheetsOf } from './sheets.js';
import { Tab } from './tabs.js';

export function drawChoices() {
  const { tab, tabs, other } = desk;
  const others = tabs.filter(it => it !== tab).map(it => [`tab ${it.id}`, it.name]);
  const disk = tab?.onDisk ? [['disk', `${tab.name} on disk`]] : [];
  const first = ['', other ? 'Compare no more' : 'Compare…'];
  setChoices(find('compare'), [first, ...disk, ...others, ['file', 'a file…']], '');
  if (other) {
    if (other.choice === 'file') find('compare').add(new Option(other.name, 'chosen'));
    find('compare').value = other.choice === 'file' ? 'chosen' : other.choice;
  }
}

export async function compareWith(choice, file) {
  const { tab, tabs } = desk;
  desk.other = null;
  if (choice === 'file' && file) {
    const bytes = new Uint8Array(await file.arrayBuffer());
    const found = imagesOf(bytes);
    desk.other = found ? { choice, name: file.name, sheets: sheetsOf(found, bytes, tab.language === 'receipt') }
      : { choice, name: file.name, stream: new Tab(file.name, bytes, await desk.printer.guess(bytes)) };
  } else if (choice === 'disk') {
    const { name, language, width, wide, high } = tab;
    const stream = Object.assign(new Tab(name, tab.onDisk, language), { width, wide, high });
    desk.other = { choice, name: `${name} on disk`, stream };
  } else if (choice.startsWith('tab ')) {
    const stream = tabs.find(it => choice === `tab ${it.id}`);
    desk.other = { choice, name: stream.name, stream };
  }
  if (desk.other) await compareAgain();
  find('legend').hidden = !desk.other;
  drawChoices();
  show();
}

export async function compareAgain() {
  const { other, tab } = desk;
  const { stream } = other;
  if (stream && (other.bytes !== stream.bytes || !other.sheets)) {
    const { sheets } = await images(stream);
    Object.assign(other, { sheets, bytes: stream.bytes });
  }
  const { count, first } = difference(tab.sheets, other.sheets);
  other.first = first;
  const sizes = other.sheets.length !== tab.sheets.length ||
    other.sheets.some((it, n) => it.width !== tab.sheets[n].width || it.height !== tab.sheets[n].height);
  const dots = count === 1 ? '1 dot differs' : count ? `${number(count)} dots differ` : 'all dots are the same';
  find('differs').textContent = `${other.name}: ${dots}${sizes ? ', and the sizes' : ''}`;
  find('first-difference').disabled = !first;
  find('legend').hidden = false;
  show();
}

find('compare').onchange = event => {
  const choice = event.target.value;
  if (choice === 'file') find('golden').click();
  else if (choice !== 'chosen') compareWith(choice).catch(error => say(error.message));
  drawChoices();
};
find('golden').onchange = event => {
  const [file] = event.target.files;
  if (file) compareWith('file', file).catch(error => say(error.message));
  event.target.value = '';
};
find('first-difference').onclick = () => {
  const { first } = desk.other ?? {};
  if (!first) return;
  if (paper.zoom === 'fit') document.querySelector('[data-zoom="4"]').click();
  paper.cursor = first;
  paper.bring(first.sheet, first.x, first.y);
};
