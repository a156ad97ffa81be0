// The viewer's page: its tabs and the choices in its bars. Writing, looking, comparing, opening have their own parts.

import { endsOf, toBytes, toEscapes, toText } from './bytes.js';
import { compareWith, drawChoices } from './comparing.js';
import { desk, find, setChoices } from './desk.js';
import { bringBack } from './keeping.js';
import { learn } from './known.js';
import { list, listing, lookActs, measured, paper, print, readAs, show } from './looking.js';
import { say } from './saying.js';
import { named } from './names.js';
import { STARTS, ask, follow, open, openExample, openFollowed } from './opening.js';
import './saving.js';
import { openLink } from './sharing.js';
import { tabActs, drawTabs, saveStream } from './tabs.js';
import { editor, fill } from './writing.js';

// For those who test the page.
window.viewer = Object.assign(measured, { paper, desk, tab: () => desk.tab, toBytes, toEscapes, toText, endsOf, named,
  fits: () => desk.tab && desk.tab.drawn === desk.tab.edits });

// Tabs

function chooseTab(chosen) {
  if (desk.tab) Object.assign(desk.tab, { place: editor.area.selectionStart, scrolled: editor.area.scrollTop });
  desk.tab = chosen;
  drawSettings();
  fill(chosen.from);
  if (chosen.scrolled) editor.area.scrollTop = chosen.scrolled;
  if (chosen.place) editor.area.setSelectionRange(chosen.place, chosen.place);
  drawTabs();
  compareWith('');
  paper.cursor = null;
  show();
  listing.current = -1;
  listing.set(chosen.rows);
  find('listing-foot').textContent = chosen.cut;
  print(true);
  ask();
}

function close(it) {
  if (desk.tabs.length < 2) return;
  if (it.isUnsaved) {
    find('close-name').textContent = it.name;
    find('close-dialog').onclose = event => {
      if (event.target.returnValue === 'save') saveStream(it);
      if (event.target.returnValue) remove(it);
    };
    find('close-dialog').returnValue = '';
    find('close-dialog').showModal();
  } else {
    remove(it);
  }
}

function remove(it) {
  const { tabs } = desk;
  const at = tabs.indexOf(it);
  tabs.splice(at, 1);
  if (desk.other?.stream === it) compareWith('');
  if (it === desk.tab) chooseTab(tabs[Math.max(0, at - 1)]);
  else drawTabs();
}

Object.assign(tabActs, { choose: chooseTab, close, drawn: drawChoices });

// A dialog is closed here: Firefox 115 takes its form for one that is sent, which the page may not.
for (const form of document.querySelectorAll('dialog form')) {
  form.onsubmit = event => {
    event.preventDefault();
    form.closest('dialog').close(event.submitter?.value);
  };
}

// Choices

function drawSettings() {
  const { tab } = desk;
  find('language').value = tab.language;
  find('width').value = tab.width;
  find('width-choice').hidden = tab.language === 'label';
  find('size-choice').hidden = tab.language !== 'label';
  find('wide').value = tab.wide || '';
  find('high').value = tab.high || '';
}

lookActs.languageChanged = () => {
  drawSettings();
  fill(0);
};
find('language').onchange = event => readAs(event.target.value);
find('width').onchange = event => {
  desk.tab.width = event.target.value;
  desk.tab.printAnew();
  print(true);
};
for (const side of ['wide', 'high']) {
  find(side).onchange = event => {
    desk.tab[side] = event.target.checkValidity() ? Number(event.target.value) : 0;
    desk.tab.printAnew();
    print(true);
  };
}
find('view').onchange = event => {
  desk.tab.asBytes = event.target.value === 'bytes';
  fill(desk.tab.from);
  if (!desk.tab.asBytes && desk.tab.end === null) say('These bytes are no text: only escapes keep them.');
};
find('every').onchange = () => list().catch(error => say(error.message));
find('part-before').onclick = () => fill(Math.max(0, desk.tab.from - 1));
find('part-after').onclick = () => fill(desk.tab.to);

// The paper's tools

function setZoom(zoom) {
  paper.setZoom(zoom === 'fit' ? zoom : Number(zoom));
  for (const it of document.querySelectorAll('[data-zoom]')) it.setAttribute('aria-pressed', it.dataset.zoom === zoom);
}

for (const it of document.querySelectorAll('[data-zoom]')) it.onclick = () => setZoom(it.dataset.zoom);
paper.scroll.addEventListener('keydown', event => {
  const zoom = { 0: 'fit', f: 'fit', 1: '1', 2: '2', 4: '4', 8: '8' }[event.key];
  if (event.ctrlKey || event.metaKey || event.altKey) return;
  if (zoom) setZoom(zoom);
  if (event.key === 'g') find('grid').click();
});
find('grid').onchange = event => {
  paper.grid = event.target.checked;
  paper.draw();
};
find('anew').onchange = event => {
  desk.anew = event.target.checked;
  for (const it of desk.tabs) it.printAnew();
  print(true);
};
find('unit').onchange = event => {
  paper.unit = event.target.value;
  paper.draw();
};
find('dpmm').onchange = event => {
  desk.dpmm = paper.dpmm = Number(event.target.value);
  paper.draw();
  if (desk.tabs.some(it => it.lead)) {
    for (const it of desk.tabs) it.printAnew();
    print(true);
  }
};

find('told').onclick = () => {
  find('remarks').open = true;
  find('remarks').scrollIntoView({ block: 'center' });
  find('remarks').querySelector('summary').focus();
};

// Glyph sheets

function sheetChoices() {
  for (const letter of ['a', 'b']) {
    const none = letter === 'a' ? 'none: characters are white' : "none: font A's, scaled";
    const name = desk.state.fonts[letter];
    const given = name ? [['', name]] : [];
    const value = desk.fonts[letter] || (given.length ? '' : 'none');
    setChoices(find(`sheet-${letter}`), [...given, ...desk.sheetNames, ['none', none]], value);
  }
}

function chooseSheet(letter, id) {
  desk.fonts[letter] = id;
  for (const it of desk.tabs) it.printAnew();
  print(true);
}

find('sheets').onclick = () => {
  sheetChoices();
  find('sheet-dialog').showModal();
};
for (const letter of ['a', 'b']) find(`sheet-${letter}`).onchange = event => chooseSheet(letter, event.target.value);
for (const button of document.querySelectorAll('[data-sheet]')) {
  button.onclick = () => {
    find('sheet-file').dataset.letter = button.dataset.sheet;
    find('sheet-file').click();
  };
}
find('sheet-file').onchange = async event => {
  const [file] = event.target.files;
  const { letter } = event.target.dataset;
  event.target.value = '';
  if (!file) return;
  try {
    const id = await desk.printer.keepSheet(file);
    desk.sheetNames.set(id, file.name);
    chooseSheet(letter, id);
    sheetChoices();
  } catch (error) {
    say(error.message);
  }
};

async function start() {
  desk.state = await desk.printer.state();
  const { anew, examples } = desk.state;
  learn(desk.state.known);
  desk.anew = find('anew').checked = Boolean(anew);
  setChoices(find('examples'), [['', 'Examples'], ...examples.map((it, n) => [n, it])], '');
  find('examples').hidden = !examples.length;
  await openFollowed();
  const followed = desk.tabs.length;
  const last = bringBack();
  const isLinked = await openLink();
  if (isLinked) {
    // what the link has is chosen already
  } else if (desk.tabs.length) {
    chooseTab(last ?? desk.tabs[0]);
  } else {
    const n = examples.indexOf('shipping.zpl');
    if (n >= 0) await openExample(n);
    else await open('new.zpl', new TextEncoder().encode(STARTS.label), 'label');
  }
  if (followed) follow();
}

start().catch(error => { find('messages').textContent = error.message; });
