// The list of events as a text: the events of each line, and inserted lines.

// The lines that have events, each with its first event, the count of its events, and its words.
export function outline(text) {
  const lines = [];
  let before = 0;
  text.split('\n').forEach((line, at) => {
    const { words, count } = entryOf(line);
    if (count > 0) lines.push({ at, kind: words[0], words, first: before + 1, count });
    before += Math.max(count, 0);
  });
  return { lines, count: before };
}

function entryOf(line) {
  const code = line.replace(/"(\\.|[^"\\])*"/g, it => it.replace(/[ #,]/g, '\0')).replace(/#.*/, '');
  const words = code.split(/[ \t\r,]+/).filter(Boolean);
  if (words[0] === 'step' || words[0] === 'tick') return { words, count: /^\d+$/.test(words[1]) ? Number(words[1]) : 0 };
  if (words[0] === 'key') return { words, count: words.length - 2 };
  if (words[0] === 'hangup') return { words, count: words.length - 1 };
  return { words, count: words[0] === 'type' ? letters(line).length : 0 };
}

// The bytes between the quotes of a line, as they are written; the bytes of a non-ASCII letter as \xNN.
function letters(line) {
  const text = /"((?:\\.|[^"\\])*)"/.exec(line)?.[1] ?? '';
  const bytes = it => [...new TextEncoder().encode(it)].map(byte => `\\x${byte.toString(16).toUpperCase()}`);
  return (text.match(/\\x[0-9A-Fa-f]{2}|\\.|[^\\]/gu) ?? []).flatMap(it => /[^\0-\x7F]/.test(it) ? bytes(it) : it);
}

// The line of an event, counted from 0; -1 if no line has this event.
export function lineOf(text, event) {
  return outline(text).lines.find(it => event >= it.first && event < it.first + it.count)?.at ?? -1;
}

// The spaces and the comment at the end of a line.
function commentOf(line, kind) {
  const behind = kind === 'type' ? line.replace(/^[^"]*"(\\.|[^"\\])*"/, '') : line.replace(/^[^#]*?(?=\s*(#|$))/, '');
  return /\s*(#.*)?$/.exec(behind)[0];
}

// `count` events of a line, starting at event `from` of the line, without the comment.
function part(line, { kind, words }, from, count) {
  if (kind === 'key') return `key ${words[1]} ${words.slice(2 + from, 2 + from + count).join(' ')}`;
  if (kind === 'type') return `type ${words[1]} "${letters(line).slice(from, from + count).join('')}"`;
  return `${kind} ${count}`;
}

// The text with another line after an event, or before the first event if `event` is 0. If a line must be split, its
// first part keeps the comment.
export function insertBehind(text, event, added) {
  const lines = text.split('\n');
  const all = outline(text).lines;
  const entry = all.find(it => event >= it.first && event < it.first + it.count);
  const done = entry ? event - entry.first + 1 : 0;
  if (!entry) {
    lines.splice(event === 0 && all.length ? all[0].at : lines.length - (lines.at(-1) === '' ? 1 : 0), 0, added);
  } else if (done === entry.count) {
    lines.splice(entry.at + 1, 0, added);
  } else {
    const line = lines[entry.at];
    const first = part(line, entry, 0, done) + commentOf(line, entry.kind);
    lines.splice(entry.at, 1, first, added, part(line, entry, done, entry.count - done));
  }
  const joined = lines.join('\n');
  return joined.endsWith('\n') ? joined : `${joined}\n`;
}
