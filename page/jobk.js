// The requests of the page to jobk. There are two workers: one for short runs after each change, one for long runs.

import { Runner } from './runner.js';
import { parseCalls, parseState } from './state.js';

const faultOf = err => {
  const found = /^(?:jobk: )?(world|events): line (\d+): (.*)/.exec(err);
  return found ? { name: found[1], line: Number(found[2]), reason: found[3] } : { name: '', line: 0, reason: err.trim() };
};

export class Jobk {
  constructor(makeWorker, module) {
    this.quick = new Runner(makeWorker, module);
    this.aside = new Runner(makeWorker, module);
  }

  // Returns the texts with numbers in place of names, or the error in one of them; null if a run is stopped.
  async plain(texts) {
    const files = {};
    for (const name of ['world', 'events']) {
      const ran = await this.quick.run(['names', name], { [name]: texts[name] });
      if (!ran) return null;
      const [, line, reason] = /^jobk: line (\d+): (.*)/.exec(ran.err) ?? [];
      if (line) return { fault: { name, line: Number(line), reason } };
      files[name] = ran.out;
    }
    return { files };
  }

  // Returns the first error, with the rejected line, a mark below the wrong word, and a hint.
  async told(texts, fault) {
    const ran = fault.line ? await this.quick.run(['run', '--names', 'world', 'events'], texts) : null;
    return { ...fault, told: ran?.status === 1 ? ran.err.split(/\n {2}see /, 1)[0].split('\n').slice(2).join('\n') : '' };
  }

  // Returns the lines of the trace, each with its explanation, or the error in a text; null if the run is stopped.
  async trace(texts) {
    const { files, fault } = await this.plain(texts) ?? {};
    if (!files) return fault ? { fault: await this.told(texts, fault) } : null;
    const ran = await this.quick.run(['run', 'world', 'events'], files);
    if (!ran) return null;
    if (ran.status !== 0) return { fault: await this.told(texts, faultOf(ran.err || `the run exited with status ${ran.status}`)) };
    const lines = await this.explained(ran.out);
    return lines && { files, ms: ran.ms, trace: ran.out, lines };
  }

  // Returns the lines of a trace with their explanations. `explain` appends three spaces and the explanation to a line.
  async explained(trace) {
    const ran = await this.quick.run(['explain', 'trace'], { trace });
    return ran && ran.out.split('\n').slice(0, -1).map(line => {
      const [text, said = ''] = line.split(/ {3}(.*)/);
      const [event, , pid = '1'] = text.split(' ', 3);
      return { event: Number(event), pid, text, said };
    });
  }

  // Returns the effects of each event.
  async calls(files) {
    const ran = await this.quick.run(['show', 'world', 'events', '--calls'], files);
    return ran && parseCalls(ran.out);
  }

  async stateAt(files, event) {
    const ran = await this.quick.run(['show', 'world', 'events', '--at', `${event}`], files);
    return ran?.status === 0 ? parseState(ran.out) : null;
  }

  // Runs `explore` with at most `ticks` ticks, each before one of the first `upto` events.
  schedules(files, ticks, upto, find) {
    const words = ['explore', 'world', 'events', '--ticks', `${ticks}`, '--upto', `${upto}`];
    return this.aside.run(find ? [...words, `--find=${find}`] : words, files);
  }

  audit(trace) { return this.aside.run(['audit', 'trace'], { trace }); }

  // Stops the long run.
  stop() { this.aside.stop(); }
}
