// The editors of the world and the events, connected to the session.

import { $, make } from './dom.js';
import { Editor, signsOfProcesses } from './editor.js';
import { lineOf, outline } from './events.js';

// the same signs as in the timeline
const kindSigns = { tick: ['tick', '┬'], key: ['key', '▀'], type: ['key', '▀'] };

function signsOfEvents(kinds, line) {
  const [name, sign] = kindSigns[kinds.get(line)] ?? [];
  return sign ? [make('span', { className: `kind ${name}`, textContent: sign })] : [];
}

// An error message: the text, the line, the reason, the meaning of the reason, and the wrong word.
function wordsOf({ name, line, reason, told }, remedies) {
  const means = remedies[reason];
  const words = `✗ ${name ? `${name}, line ${line}: ` : ''}${reason}${means ? `\n${means}` : ''}`;
  return told ? [`${words}\n`, make('pre', { textContent: told })] : [words];
}

export function showEditors(session, remedies) {
  let kinds = new Map();
  const of = name => ({ name, onInput: text => session.typed(name, text), onOpen: text => session.change({ [name]: text, at: null }) });
  const world = new Editor($('world-editor'), {
    ...of('world'), signsOf: line => signsOfProcesses(session.state, line),
    onPlace: line => {
      const call = session.calls.find(it => it.line === line && it.event > session.at) ?? session.calls.find(it => it.line === line);
      if (call && !session.fault) session.go(call.event);
    },
  });
  const events = new Editor($('events-editor'), {
    ...of('events'), signsOf: line => signsOfEvents(kinds, line),
    onPlace: line => {
      const entry = outline(session.texts.events).lines.find(it => it.at === line - 1);
      if (entry && !session.fault) session.go(entry.first);
    },
  });
  const all = { world, events };

  session.on('texts', () => {
    if (session.typing) return;
    for (const name of ['world', 'events']) all[name].text = session.texts[name];
  });
  session.on('ran refused', () => {
    kinds = new Map(outline(session.texts.events).lines.map(it => [it.at + 1, it.kind]));
    const { fault } = session;
    for (const name of ['world', 'events']) all[name].mark('fault', fault?.name === name ? fault.line : 0);
    $('refused').hidden = !fault;
    $('refused').replaceChildren(...(fault ? wordsOf(fault, remedies) : []));
    $('run').classList.toggle('stale', Boolean(fault));
  });
  session.on('moved shown', () => {
    events.mark('chosen', lineOf(session.texts.events, session.at) + 1);
    world.mark('chosen', session.calls[session.at - 1]?.line ?? 0);
  });
  // if no line is chosen, scrolls to the line of a process
  session.on('state', () => {
    const line = session.state.processes.find(it => it.line)?.line;
    if (line && !world.lines.chosen) world.bringIntoSight(line);
    world.show();
  });
}
