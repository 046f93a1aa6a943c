// Computes the layout of a picture of a run. Each process has a lane. Each trace line, each tick and each event that
// affects another process has a row. Wires show the states of processes. Arrows show forks, reports, handlers, signals
// and new parents.

export const outside = 'outside';    // the lane of keys and ticks

class Lanes {
  constructor() {
    this.all = [];
    this.indexOf = new Map();
  }

  of(pid) {
    if (!this.indexOf.has(pid)) {
      this.indexOf.set(pid, this.all.length);
      this.all.push({ pid, width: 0 });
    }
    return this.indexOf.get(pid);
  }

  has(pid) { return this.indexOf.has(pid); }
}

// The wires of the lanes: a process lives, is stopped, or is a zombie.
class Wires {
  constructor() {
    this.all = [];
    this.since = new Map();
  }

  kind(lane) { return this.since.get(lane)?.kind; }

  become(lane, kind, at) {
    const was = this.since.get(lane);
    if (was?.kind === kind) return;
    if (was) this.all.push({ lane, from: was.from, to: at, kind: was.kind });
    if (kind) this.since.set(lane, { from: at, kind });
    else this.since.delete(lane);
  }

  endAll(at) { for (const lane of [...this.since.keys()]) this.become(lane, null, at); }
}

function wordsOf({ text, said }) {
  const [, form, , ...rest] = text.split(' ');
  if (form === 'halt' || form === 'return') return form;
  if (form === 'call') return said ? `${rest.join(' ').replace(/ (status|bytes|mark|memory)\b.*/, '')}: ${said}` : rest.join(' ');
  if (!said) return `${form} ${rest.join(' ')}`;
  return form === 'end' ? `end: ${said}` : `${form} ${said.replace('process ', '')}`;
}

// The arrow of a trace line, to or from another process.
function arrowOfLine(text) {
  const [, form, , ...rest] = text.split(' ');
  if (form === 'call' && rest[0] === 'fork' && rest[2] > 0) return { kind: 'birth', other: rest[2] };
  if (form === 'call' && rest[0] === 'waitpid' && rest[3] === 'status') return { kind: 'report', other: rest[2] };
  if (form === 'call' && rest[0] === 'waitid' && rest[5] === 'status') return { kind: rest[3] === 'look' ? 'look' : 'report', other: rest[4] };
  return form === 'handle' && rest[2] !== '0' ? { kind: 'from', other: rest[2] } : null;
}

// The arrow of an effect on another process, which `show --calls` prints after the call.
function arrowOfEffect(effect) {
  const [, signal, to, more = ''] = /^sends (\S+) to (\d+)(?:, (.*))?$/.exec(effect) ?? [];
  if (signal) return { kind: 'sends', other: to, words: more ? `${signal}, ${more}` : signal };
  const [, child, parent] = /^reparents (\d+) to (\d+)/.exec(effect) ?? [];
  return child ? { kind: 'gives', other: child, words: `child of ${parent}` } : null;
}

const keyOf = does => /\(([^)]*)\)$/.exec(does)?.[1] ?? does;

// The events that have rows, each with its trace lines and its call.
function eventsOf(lines, calls) {
  const events = new Map();
  const of = event => {
    if (!events.has(event)) events.set(event, { event, lines: [], call: null });
    return events.get(event);
  };
  for (const it of lines) of(it.event).lines.push(it);
  for (const it of calls) if (events.has(it.event) || it.does === 'tick' || it.effects.some(arrowOfEffect)) of(it.event).call = it;
  return [...events.values()].sort((a, b) => a.event - b.event);
}

function rowsOf({ event, lines, call }) {
  const rows = lines.map(it => {
    const form = it.text.split(' ')[1], arrow = arrowOfLine(it.text);
    return { event, who: it.pid, form, words: wordsOf(it), arrows: arrow ? [arrow] : [], effects: [] };
  });
  if (!rows.length) rows.push({ event, who: call.pid || outside, form: 'event', words: call.pid ? call.does : keyOf(call.does), arrows: [], effects: [] });
  rows[0].effects = call?.effects ?? [];
  rows[0].arrows.push(...rows[0].effects.map(arrowOfEffect).filter(Boolean));
  return rows;
}

// Updates the wires after a row: those of its own process and of the processes that it names.
function wire(row, wires, lanes) {
  const { at, lane } = row;
  if (row.form === 'end') wires.become(lane, 'ended', at);
  else if (row.form === 'stop') wires.become(lane, 'stopped', at);
  else if (row.who !== outside && !wires.kind(lane)) wires.become(lane, 'lives', at);
  for (const { kind, other } of row.arrows) {
    if (kind === 'birth') wires.become(lanes.of(other), 'lives', at);
    if (kind === 'report' && wires.kind(lanes.of(other)) === 'ended') wires.become(lanes.of(other), null, at);
  }
  for (const effect of row.effects) {
    const [, what, pid] = /^(continues|drops) (\d+)/.exec(effect) ?? [];
    if (what && lanes.has(pid)) wires.become(lanes.of(pid), what === 'drops' ? null : 'lives', at);
  }
  if (row.form === 'halt') wires.endAll(at);
}

export function layOut(lines, calls) {
  const lanes = new Lanes(), wires = new Wires();
  lanes.of('1');
  wires.become(0, 'lives', -0.5);
  const rows = eventsOf(lines, calls).flatMap(rowsOf);
  rows.forEach((row, at) => {
    row.at = at;
    row.lane = lanes.of(row.form === 'halt' ? '1' : row.who);
    row.arrows = row.arrows.filter(it => it.kind === 'birth' || lanes.has(it.other) && it.other !== row.who);
    for (const it of row.arrows) it.lane = lanes.of(it.other);
    lanes.all[row.lane].width = Math.max(lanes.all[row.lane].width, row.words.length);
    for (const it of row.arrows) lanes.all[it.lane].width = Math.max(lanes.all[it.lane].width, it.words?.length ?? 0);
    wire(row, wires, lanes);
  });
  wires.endAll(rows.length - 0.5);
  return { rows, lanes: lanes.all, wires: wires.all };
}
