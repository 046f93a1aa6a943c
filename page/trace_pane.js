// The trace and the effects of each event, as lists.

import { $, make } from './dom.js';
import { bringIntoSight, listenToRows, markRows, row } from './rows.js';
import { mostLines } from './limits.js';
import { signOf } from './signs.js';

const span = (className, textContent) => make('span', { className, textContent });

function traceRows({ lines }) {
  return lines.slice(0, mostLines).map(({ event, pid, text, said }) =>
    row(event, signOf(pid), span('line', text.slice(text.indexOf(' ') + 1)), span('said', said)));
}

function callRows({ calls, count }) {
  const rows = calls.slice(0, mostLines).map(({ event, pid, line, all }) =>
    row(event, pid ? signOf(pid) : span('nobody', ''), span('at', line ? `line ${line}` : ''), span('', all)));
  return count > rows.length ? [...rows, make('li', { textContent: `${count} events are too many to show one by one` })] : rows;
}

export function showLists(session) {
  for (const [pane, rowsOf] of [[$('trace'), traceRows], [$('calls'), callRows]]) {
    const list = pane.querySelector('ol');
    listenToRows(pane, session);
    session.on('ran', () => list.replaceChildren(...rowsOf(session)));
    session.on('moved shown', () => {
      markRows(pane, session);
      bringIntoSight(pane);
    });
  }
  session.on('ran', () => {
    const { count, lines } = session, many = lines.length > mostLines ? `, the first ${mostLines} shown` : '';
    $('summary').textContent = `${count} events, ${lines.length} lines${many}`;
  });
}
