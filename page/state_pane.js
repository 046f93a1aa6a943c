// The state after the event: what happened, a table of processes, the run queue, the consoles. Changes by the event are
// highlighted.

import { $, make } from './dom.js';
import { signOf } from './signs.js';

const columns = ['does', 'mask', 'pending', 'parent', 'group', 'session'];

function happens({ at, calls, lines }) {
  const call = calls[at - 1], code = text => make('code', { textContent: text });
  const parts = [make('b', { textContent: at ? `Event ${at}` : 'Before the first event' })];
  if (call?.pid) parts.push(`: process ${call.pid}${call.line ? `, line ${call.line}` : ''}: `);
  else if (call) parts.push(': ');
  if (call) parts.push(code(call.all));
  for (const { event, text, said } of lines) {
    if (event === at) parts.push(make('br'), 'trace: ', code(text), said ? ` means ${said}` : '');
  }
  return parts;
}

// Makes a cell. If the event changed its text, the cell is highlighted, and its title has the text from before.
function cell(text, was) {
  const isNew = text !== was;
  return make('td', isNew ? { className: 'new', title: was === undefined ? 'new' : `before: ${was}` } : {}, text);
}

function rowsOf(process, was, isNext) {
  const who = make('td', {}, signOf(process.pid), ` ${process.program}`);
  if (isNext) who.append(make('span', { className: 'next', textContent: ' ◀ next' }));
  const first = make('tr', { className: 'process' }, who, ...columns.map(it => cell(process[it], was?.[it])));
  first.dataset.pid = process.pid;
  return [first, ...process.more.map(text => {
    const isNew = !was?.more.includes(text);
    return make('tr', { className: isNew ? 'more new' : 'more' }, make('td', { colSpan: columns.length + 1, textContent: text }));
  })];
}

function showState({ state, former }) {
  const before = new Map((former?.processes ?? []).map(it => [it.pid, it]));
  $('processes').replaceChildren(...state.processes.flatMap(it => rowsOf(it, before.get(it.pid), it.pid === state.next)));
  const gone = [...before.keys()].filter(pid => !state.processes.some(it => it.pid === pid));
  const lines = [state.head, ...state.rest].map(text => {
    const isNew = text !== former?.head && !former?.rest.includes(text);
    return make('div', { className: isNew ? 'new' : '', textContent: text });
  });
  if (gone.length) lines.unshift(make('div', { className: 'new', textContent: `gone: ${gone.join(' ')}` }));
  $('others').replaceChildren(...lines);
}

export function showStates(session) {
  session.on('moved', () => {
    $('state').ariaBusy = 'true';
    $('happens').replaceChildren(...happens(session));
  });
  session.on('state', () => {
    showState(session);
    $('state').ariaBusy = 'false';
  });
}
