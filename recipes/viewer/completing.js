// Completion: the commands that begin as what was typed, each with its name; the one that is taken comes with values
// for its parameters.

import { desk } from './desk.js';
import { nameIn } from './helping.js';
import { commandsOf, helpOf } from './known.js';

const MOST_CHOICES = 200;
const LEADS_TYPED = { '\\x1b': 'esc', '\\x1d': 'gs', '\\x1c': 'fs', '\\x10': 'dle' };

/**
 * @typedef {object} Choice
 * @property {string} shown  the command as it is typed
 * @property {string} name
 * @property {string} text  what is put in its place
 */

/**
 * What may stand where something was typed.
 * @param {string} before  the text up to the cursor
 * @returns {{typed: string, choices: Choice[]}}
 */
export function choicesFor(before, language) {
  return language === 'label' ? labelChoices(before) : receiptChoices(before);
}

function labelChoices(before) {
  const typed = /[\^~][A-Za-z0-9@]?$/.exec(before)?.[0].toUpperCase() ?? '';
  const found = typed ? commandsOf('label').filter(it => it.command.startsWith(typed)) : [];
  const choices = found.slice(0, MOST_CHOICES).map(({ command }) => ({ shown: command,
    name: nameIn('label', command), text: helpOf('label', command)?.insert ?? command }));
  return { typed, choices };
}

function receiptChoices(before) {
  const typed = /\\x(?:1[bcd]|10)$/i.exec(before)?.[0].toLowerCase() ?? '';
  const lead = LEADS_TYPED[typed];
  const found = lead ? commandsOf('receipt').filter(it => it.command.startsWith(`${lead} `)) : [];
  const choices = found.slice(0, MOST_CHOICES).map(({ command }) => ({ shown: shownAs(command),
    name: nameIn('receipt', command), text: helpOf('receipt', command)?.insert ?? asEscapes(command) }));
  return { typed, choices };
}

const charOf = it => String.fromCharCode(parseInt(it, 16));
const isPrinted = it => /^[!-~]$/.test(charOf(it));
const signAs = it => (isPrinted(it) ? charOf(it) : it);
const shownAs = command => command.split(' ').map((it, n) => (n === 0 ? it.toUpperCase() : signAs(it))).join(' ');
const asEscapes = command => command.split(' ').map((it, n) => {
  if (n === 0) return Object.keys(LEADS_TYPED).find(name => LEADS_TYPED[name] === it);
  return charOf(it) === '\\' ? '\\\\' : isPrinted(it) ? charOf(it) : `\\x${it}`;
}).join('');

/** The list below the cursor. */
export class Completion {
  /**
   * @param {HTMLElement} box  the list
   * @param {import('./editor.js').Editor} editor
   * @param {(text: string, typed: string) => void} take  puts a text in place of what was typed
   */
  constructor(box, editor, take) {
    Object.assign(this, { box, editor, take, choices: [], typed: '', current: 0 });
    const { area } = editor;
    area.addEventListener('keydown', event => this.key(event), true);
    area.addEventListener('blur', () => this.close());
    area.addEventListener('scroll', () => this.close());
    area.addEventListener('pointerdown', () => this.close());
    box.addEventListener('pointerdown', event => {
      // (the cursor stays where it is)
      event.preventDefault();
      const n = [...box.children].indexOf(event.target.closest('[role=option]'));
      if (n >= 0) this.choose(n);
    });
  }

  get isOpen() {
    return this.choices.length > 0;
  }

  /** Looks at what stands before the cursor, once something was typed. */
  look() {
    const { area, text } = this.editor;
    const place = area.selectionStart;
    const isOne = place === area.selectionEnd;
    const found = isOne ? choicesFor(text.slice(Math.max(0, place - 4), place), desk.tab.language)
      : { typed: '', choices: [] };
    Object.assign(this, found, { current: 0 });
    this.draw(place);
  }

  close() {
    if (!this.isOpen) return;
    this.choices = [];
    this.draw(0);
  }

  key(event) {
    if (!this.isOpen || event.ctrlKey || event.metaKey || event.altKey) return;
    const step = { ArrowDown: 1, ArrowUp: -1, PageDown: 8, PageUp: -8 }[event.key];
    if (step) {
      const last = this.choices.length - 1;
      this.current = Math.max(0, Math.min(last, this.current + step));
      this.mark();
    } else if (event.key === 'Enter' || event.key === 'Tab') {
      this.choose(this.current);
    } else if (event.key === 'Escape') {
      this.close();
    } else {
      if (['ArrowLeft', 'ArrowRight', 'Home', 'End'].includes(event.key)) this.close();
      return;
    }
    event.preventDefault();
    event.stopImmediatePropagation();
  }

  choose(n) {
    const { text } = this.choices[n];
    const { typed } = this;
    this.close();
    this.take(text, typed);
  }

  draw(place) {
    const { box, editor } = this;
    box.hidden = !this.isOpen;
    editor.area.toggleAttribute('aria-controls', false);
    if (!this.isOpen) {
      editor.area.removeAttribute('aria-activedescendant');
      return;
    }
    editor.area.setAttribute('aria-controls', box.id);
    box.replaceChildren(...this.choices.map(({ shown, name }, n) => {
      const line = document.createElement('div');
      line.id = `choice-${n}`;
      line.setAttribute('role', 'option');
      for (const [kind, words] of [['form', shown], ['called', name]]) {
        const part = document.createElement('span');
        part.className = kind;
        part.textContent = words;
        line.append(part);
      }
      return line;
    }));
    const { left, top, below } = editor.placeOf(place);
    const high = Math.min(200, 24 * this.choices.length + 2);
    box.style.left = `${Math.max(0, Math.min(left, editor.area.clientWidth - 280))}px`;
    box.style.top = `${below + high > editor.area.clientHeight && top > high ? top - high : below}px`;
    this.mark();
  }

  mark() {
    [...this.box.children].forEach((it, n) => it.setAttribute('aria-selected', n === this.current));
    this.editor.area.setAttribute('aria-activedescendant', `choice-${this.current}`);
    this.box.children[this.current].scrollIntoView({ block: 'nearest' });
  }
}
