// A list of rows, one for each event: a click goes to the event, a button inserts a tick before it.

import { make } from './dom.js';

export function row(event, ...parts) {
  const tick = make('button', { className: 'tick', textContent: '+ tick before', title: `insert a tick before event ${event}`, tabIndex: -1 });
  const it = make('li', {}, make('span', { className: 'event', textContent: event }), ...parts, tick);
  it.dataset.event = event;
  return it;
}

export function listenToRows(pane, session) {
  pane.addEventListener('click', ({ target }) => {
    const event = Number(target.closest('[data-event]')?.dataset.event ?? 0);
    if (!event || session.fault) return;
    if (target.classList.contains('tick')) session.putIn('tick 1', event - 1);
    else session.go(event);
  });
}

// Marks the rows of the chosen event, and the boundary between past and future rows.
export function markRows(pane, session) {
  for (const it of pane.querySelectorAll('[aria-current]')) it.removeAttribute('aria-current');
  for (const it of pane.querySelectorAll(`[data-event="${session.at}"]:not(.row)`)) it.setAttribute('aria-current', 'true');
  for (const it of pane.querySelectorAll('li.edge')) it.classList.remove('edge');
  const past = session.lines.filter(it => it.event <= session.at).length;
  if (pane.id === 'trace') pane.querySelectorAll('li')[past - 1]?.classList.add('edge');
}

// Scrolls to the chosen event.
export function bringIntoSight(pane) {
  (pane.querySelector('[aria-current]') ?? pane.querySelector('.edge'))?.scrollIntoView({ block: 'nearest' });
}
