// Tries all schedules: first without ticks, then with one more tick each time, so that results appear early.

import { $, make } from './dom.js';
import { countSchedules, parseSchedules } from './schedules.js';

// A part of the results; a click loads its schedule.
function card({ head, events, others }, session) {
  const show = make('button', { type: 'button', textContent: 'Show this schedule' });
  show.onclick = () => {
    $('tab-lanes').click();
    session.change({ events: `${events.filter(it => !it.startsWith('#')).join('\n')}\n`, at: Infinity });
  };
  const list = make('pre', { textContent: events.join('\n') });
  const lines = make('pre', { className: 'note', textContent: others.join('\n') });
  return make('section', {}, make('h3', { textContent: head }), ...events.length ? [show, list] : [], lines);
}

function shown({ counts, parts }, session) {
  const [first, ...more] = counts;
  const list = make('ul', {}, ...more.map(it => make('li', { textContent: it })));
  return [make('h3', { textContent: first }), list, ...parts.map(it => card(it, session))];
}

export class Explorer {
  constructor(session) {
    this.session = session;
    this.asked = 0;
    this.pace = 0;    // milliseconds per schedule
    $('schedules').querySelector('form').onsubmit = event => {
      event.preventDefault();
      this.explore();
    };
    $('stop').onclick = () => this.stop();
    session.on('texts', () => this.stop());
  }

  stop() {
    this.asked++;
    if ($('stop').hidden) return;
    this.session.jobk.stop();
    this.told(`${$('explored').textContent}; stopped`, false);
  }

  told(text, isBusy) {
    $('explored').textContent = text;
    $('explore').disabled = isBusy;
    $('stop').hidden = !isBusy;
  }

  // Shows what is tried next, and the time that it will take at the pace of the previous step.
  announce(ticks, most, upto) {
    const count = countSchedules(upto, ticks), seconds = Math.ceil(count * this.pace / 1000);
    this.told(`at most ${ticks} of ${most} ticks: ${count} schedules${seconds > 1 ? `, about ${seconds} s` : ''} …`, true);
  }

  // Tries at most `ticks` ticks, and shows the results. Returns false if the run failed or was stopped.
  async step(ticks, upto) {
    const { session } = this;
    const ran = await session.jobk.schedules(session.files, ticks, upto, $('find').value);
    if (!ran) return false;
    this.pace = ran.ms / countSchedules(upto, ticks);
    const isDone = ran.status === 0 || ran.status === 4;
    $('found').replaceChildren(...isDone ? shown(parseSchedules(ran.out), session) : [make('p', { textContent: ran.err })]);
    return isDone;
  }

  async explore() {
    if (this.session.fault) return;
    const most = Number($('ticks').value), upto = Math.min($('upto').value, this.session.count);
    const mine = ++this.asked, since = performance.now();
    this.pace = 0;
    $('found').replaceChildren();
    for (let ticks = 0; ticks <= most; ticks++) {
      this.announce(ticks, most, upto);
      const isMore = await this.step(ticks, upto);
      if (mine !== this.asked) return;
      if (!isMore) break;
    }
    this.told(`${((performance.now() - since) / 1000).toFixed(1)} s`, false);
  }
}
