// The list of examples. Examples without a world are traces, which are audited.

import { $, make } from './dom.js';
import { showTrace } from './audit_pane.js';

const opening = 'job_control_shell';

export class Examples {
  constructor(groups, session) {
    this.byName = new Map(groups.flatMap(({ examples }) => examples.map(it => [it.name, it])));
    this.session = session;
    $('examples').append(make('option', { value: '', textContent: 'your own' }), ...groups.map(({ label, examples }) => {
      const options = examples.map(it => make('option', { value: it.name, textContent: it.name.replaceAll('_', ' '), title: it.says }));
      return make('optgroup', { label }, ...options);
    }));
    $('examples').onchange = () => this.choose($('examples').value);
    session.on('texts ran refused', () => this.show());
  }

  get first() { return this.byName.get(opening) ?? [...this.byName.values()][0]; }

  choose(name) {
    const it = this.byName.get(name);
    if (!it) return;
    $('lesson').textContent = it.says;
    if (it.trace) showTrace(it.trace);
    else this.session.change({ world: it.world, events: it.events, at: null });
  }

  // The world determines the name of the example; its events may be changed.
  show() {
    const { world } = this.session.texts;
    const it = [...this.byName.values()].find(it => it.world === world);
    $('examples').value = it?.name ?? '';
    $('lesson').textContent = it?.says ?? '';
  }
}
