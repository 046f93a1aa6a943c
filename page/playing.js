// Plays the events one by one, and pauses longer at events with a trace line.

import { $ } from './dom.js';

const shortly = 120, longer = 900;    // milliseconds

export class Player {
  constructor(session) {
    this.session = session;
    this.timer = 0;
    $('play').onclick = () => this.toggle();
    session.on('texts refused', () => this.pause());
  }

  get isPlaying() { return this.timer !== 0; }

  toggle() {
    if (this.isPlaying) this.pause();
    else this.play();
  }

  async play() {
    if (this.session.fault) return;
    this.show(true);
    if (this.session.at === this.session.count) await this.session.go(0);
    this.later();
  }

  later() {
    const { at, count, lines } = this.session;
    if (at >= count) {
      this.pause();
      return;
    }
    this.timer = setTimeout(async () => {
      await this.session.move('on');
      if (this.isPlaying) this.later();
    }, lines.some(it => it.event === at) ? longer : shortly);
  }

  pause() {
    clearTimeout(this.timer);
    this.timer = 0;
    this.show(false);
  }

  show(isPlaying) {
    $('play').textContent = isPlaying ? '❚❚' : '▶';
    $('play').setAttribute('aria-label', isPlaying ? 'pause' : 'play');
    $('play').setAttribute('aria-pressed', isPlaying);
  }
}
