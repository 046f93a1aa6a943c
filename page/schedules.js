// Parses the output of `explore`: the counts, the schedules that it found, and the outcomes.

const isEvents = line => /^ {4}(#|(step|tick|key|type|hangup) )/.test(line);

const last = '  last lines';

// A part of the output: its heading, the events of its first schedule with their comments, the first line that differs,
// and the last lines of its trace.
function partOf(text) {
  const [head, ...more] = text.split('\n');
  const middle = more.findIndex(it => /^ {2}\S/.test(it));
  const events = (middle < 0 ? more : more.slice(0, middle)).filter(isEvents).map(it => it.trim());
  const behind = more.slice(more[middle] === last ? middle + 1 : middle);
  const others = middle < 0 ? more.filter(it => !isEvents(it)) : behind.map(it => it.trim());
  return { head, events, others };
}

export function parseSchedules(text) {
  const [counts, ...parts] = text.trimEnd().split('\n\n');
  return { counts: counts.split('\n').map(it => it.trim()), parts: parts.map(partOf) };
}

// Returns the number of ways to insert at most `ticks` ticks before the first `upto` events.
export function countSchedules(upto, ticks) {
  let count = 1;
  for (let i = 1; i <= ticks; i++) count = count * (upto + i) / i;
  return Math.round(count);
}
