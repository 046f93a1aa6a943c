// Both texts, the results of their run, and the chosen event. Views listen to its events:
//
//     texts      the texts have changed, or what can be undone
//     asked      a run of the texts begins
//     busy       the run takes long
//     refused    a text is rejected: `fault` has its name, line and reason, and the hint (`told`)
//     ran        `lines`, `calls` and `count` are up to date
//     moved      another event is chosen
//     shown      another view is shown, or its size has changed
//     state      `state` and `former` are up to date: the states after and before the event

import { insertBehind, outline } from './events.js';
import { mostCalls } from './limits.js';

const nothingRan = { files: null, trace: '', lines: [], calls: [], count: 0, ms: 0 };

export class Session extends EventTarget {
  constructor(jobk) {
    super();
    this.jobk = jobk;
    this.texts = { world: '', events: '' };
    this.at = 0;
    this.earlier = [];
    this.typing = '';
    this.fault = null;
    this.asked = 0;
    this.asking = null;
    Object.assign(this, nothingRan);
  }

  tell(what) { this.dispatchEvent(new Event(what)); }

  on(names, does) { for (const name of names.split(' ')) this.addEventListener(name, does); }

  // Replaces the texts; this can be undone. If `at` is null, the event of the first trace line is chosen.
  async change({ world = this.texts.world, events = this.texts.events, at = this.at }) {
    if (this.files || this.fault) this.keep();
    await this.take({ world, events, at });
  }

  // Takes text that is typed into an editor; one undo removes all of it.
  async typed(name, text) {
    if (this.typing !== name) this.keep();
    await this.take({ ...this.texts, [name]: text, at: this.at }, name);
  }

  async takeBack() {
    const earlier = this.earlier.pop();
    if (earlier) await this.take(earlier);
  }

  keep() { this.earlier.push({ ...this.texts, at: this.at }); }

  // Takes the texts; `typing` names the one that is being typed.
  async take({ world, events, at }, typing = '') {
    this.texts = { world, events };
    this.at = at;
    this.typing = typing;
    this.tell('texts');
    await this.update();
  }

  // Inserts a line of events after an event, by default the chosen one.
  putIn(line, behind = this.at) {
    const events = insertBehind(this.texts.events, behind, line);
    const more = outline(events).count - outline(this.texts.events).count;
    return this.change({ events, at: behind + Math.max(more, 0) });
  }

  async update() {
    const mine = ++this.asked;
    this.tell('asked');
    this.jobk.quick.stopIfLong();
    const busy = setTimeout(() => this.tell('busy'), 300);
    const ran = await this.jobk.trace(this.texts);
    const isWanted = () => mine === this.asked;
    if (ran?.files && isWanted()) {
      ran.count = outline(this.texts.events).count;
      ran.calls = ran.count <= mostCalls ? await this.jobk.calls(ran.files) ?? [] : [];
    }
    clearTimeout(busy);
    if (!ran || !isWanted()) return;
    this.fault = ran.fault ?? null;
    if (this.fault) {
      this.tell('refused');
      return;
    }
    Object.assign(this, ran);
    this.tell('ran');
    await this.go(this.at ?? this.lines[0]?.event ?? 0);
  }

  // Chooses another event. If the chosen event changes again while its state is requested, the newest is requested
  // next.
  go(event) {
    this.at = Math.max(0, Math.min(this.count, event));
    this.tell('moved');
    this.asking ??= this.askState().finally(() => { this.asking = null; });
    return this.asking;
  }

  async askState() {
    let at, files;
    do {
      ({ at, files } = this);
      const state = await this.jobk.stateAt(files, at);
      const former = at > 0 ? await this.jobk.stateAt(files, at - 1) : state;
      if (!state) return;
      Object.assign(this, { state, former });
    } while (at !== this.at || files !== this.files);
    this.tell('state');
  }

  move(how) {
    if (this.fault) return undefined;
    const { at, count, lines } = this;
    const to = {
      first: 0, last: count, back: at - 1, on: at + 1,
      'line-back': lines.findLast(it => it.event < at)?.event ?? 0, 'line-on': lines.find(it => it.event > at)?.event ?? count,
    }[how];
    return this.go(to);
  }
}
