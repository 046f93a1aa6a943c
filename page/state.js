// Parses the output of `show`.

// A process has a line of columns, separated by two or more spaces. More lines about it may follow, indented by four
// spaces.
export function parseState(text) {
  const lines = text.split('\n').filter(Boolean);
  const head = (lines.shift() ?? '').replace(/^(after|before) [^:]*: /, '');
  const state = { head, next: /^process (\d+) runs next/.exec(head)?.[1] ?? '', processes: [], rest: [] };
  for (const line of lines) {
    if (line.startsWith('    ')) state.processes.at(-1)?.more.push(line.trim());
    else if (/^\d/.test(line)) state.processes.push(processOf(line));
    else state.rest.push(line);
  }
  return state;
}

function processOf(line) {
  const [, pid, columns] = /^(\d+) (.*)/.exec(line);
  const [program, does = '', ...named] = columns.split(/ {2,}/);
  const of = name => named.find(it => it.startsWith(`${name} `))?.slice(name.length + 1) ?? '';
  return {
    pid, program: program.trim(), does, line: Number(/at line (\d+)/.exec(does)?.[1] ?? 0), more: [],
    mask: of('mask'), pending: of('pending'), parent: of('parent'), group: of('group'), session: of('session'),
  };
}

// Parses the lines of `show --calls`: the process that acts, its line of the world, its call, and the effects on
// others.
export function parseCalls(text) {
  return text.split('\n').slice(0, -1).map(line => {
    const [, event, pid = '', of = '', all] = /^ *(\d+) {2}(?:(\d+) \S+ +)?(?:line (\d+) +)?(.*)$/.exec(line);
    const [does, ...effects] = all.trim().split('; ');
    return { event: Number(event), pid, line: Number(of), does, effects, all: all.trim() };
  });
}
