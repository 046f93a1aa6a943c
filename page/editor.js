// A text editor: numbered lines, signs in the margin, marked lines, and files to save and open.

import { make } from './dom.js';
import { signOf } from './signs.js';

const pauseOfTyping = 150;    // milliseconds

export class Editor {
  // `signsOf` returns the signs of a line. `onInput` gets the text after typing, `onOpen` the text of an opened file,
  // and `onPlace` the line of the cursor after a click.
  constructor(section, { name, signsOf, onInput, onOpen, onPlace }) {
    this.name = name;
    this.area = section.querySelector('textarea');
    this.gutter = section.querySelector('.gutter');
    this.marks = section.querySelector('.marks');
    this.signsOf = signsOf;
    this.lines = {};
    this.pause = 0;
    this.tell = () => onInput(this.area.value);
    this.area.oninput = () => {
      clearTimeout(this.pause);
      this.pause = setTimeout(() => this.tellInput(), pauseOfTyping);
      this.show();
    };
    this.area.onblur = () => this.tellInput();
    this.area.onscroll = () => this.show();
    this.area.onclick = () => onPlace(this.area.value.slice(0, this.area.selectionStart).split('\n').length);
    section.querySelector('.save').onclick = () => this.save();
    section.querySelector('.open').onchange = async ({ target }) => {
      if (target.files[0]) onOpen(await target.files[0].text());
      target.value = '';
    };
    new ResizeObserver(() => this.show()).observe(this.area);
  }

  // Reports the typed text, unless it was already reported.
  tellInput() {
    if (!this.pause) return;
    clearTimeout(this.pause);
    this.pause = 0;
    this.tell();
  }

  get text() { return this.area.value; }

  set text(text) {
    if (this.area.value !== text) this.area.value = text;
    this.show();
  }

  // Moves a mark of this kind to a line, counted from 1; 0 removes the mark. Scrolls to the line unless
  // the text is being edited.
  mark(kind, line) {
    this.lines[kind] = line;
    if (line && document.activeElement !== this.area) this.bringIntoSight(line);
    this.show();
  }

  get row() { return parseFloat(getComputedStyle(this.area).lineHeight); }

  bringIntoSight(line) {
    const { area, row } = this, at = row * (line - 1);
    if (at < area.scrollTop || at > area.scrollTop + area.clientHeight - 2 * row) area.scrollTop = at - area.clientHeight / 3;
  }

  // Draws the numbers, signs and marks of the visible lines.
  show() {
    const { area, row } = this;
    if (!area.clientHeight) return;
    const count = area.value.split('\n').length, first = Math.floor(area.scrollTop / row);
    const last = Math.min(count, first + Math.ceil(area.clientHeight / row) + 1);
    const top = line => `${row * (line - 1) - area.scrollTop}px`;
    const numbers = Array.from({ length: Math.max(last - first, 0) }, (_, i) => {
      const it = make('div', {}, ...this.signsOf(first + i + 1), `${first + i + 1}`);
      it.style.top = top(first + i + 1);
      return it;
    });
    this.gutter.style.setProperty('--digits', `${count}`.length);
    this.gutter.replaceChildren(...numbers);
    this.marks.replaceChildren(...Object.entries(this.lines).filter(([, line]) => line).map(([kind, line]) => {
      const it = make('i', { className: kind });
      it.style.top = top(line);
      return it;
    }));
  }

  save() {
    const address = URL.createObjectURL(new Blob([this.text], { type: 'application/octet-stream' }));
    make('a', { href: address, download: this.name }).click();
    setTimeout(() => URL.revokeObjectURL(address), 1000);
  }
}

// The signs of the processes at a line; at most three fit.
export function signsOfProcesses(state, line) {
  return (state?.processes ?? []).filter(it => it.line === line).slice(0, 3).map(it => signOf(it.pid));
}
