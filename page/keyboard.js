// Keyboard control of the page, if no editor, list or button uses the key.

import { $ } from './dom.js';

const moves = { ArrowDown: 'line-on', ArrowUp: 'line-back', ArrowRight: 'on', ArrowLeft: 'back', Home: 'first', End: 'last' };

const takesKeys = it => it.matches('textarea, select, input:not([type=range])');

// Returns true if the browser itself handles this key at this element.
function isTaken(event) {
  const it = event.target;
  if (takesKeys(it)) return true;
  return event.key === ' ' && it.matches('button, summary, a');
}

export function listenToKeys(session, player) {
  const undo = event => {
    if (session.earlier.length === 0) return;
    event.preventDefault();
    session.takeBack();
  };
  const commands = { ' ': () => player.toggle(), t: () => $('put-tick').click(), l: () => $('large').click() };
  document.addEventListener('keydown', event => {
    if (isTaken(event) || event.altKey || event.metaKey && event.key !== 'z') return;
    if ((event.ctrlKey || event.metaKey) && event.key.toLowerCase() === 'z') {
      undo(event);
      return;
    }
    if (event.ctrlKey) return;
    const tab = document.querySelectorAll('[role=tab]')[event.key - 1];
    const does = moves[event.key] ? () => session.move(moves[event.key]) : commands[event.key] ?? (tab && (() => tab.click()));
    if (!does) return;
    event.preventDefault();
    does();
  });
}
