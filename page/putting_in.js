// Inserts ticks, keys, typed lines and hangups after the chosen event, and undoes changes.

import { $, make } from './dom.js';

const typedLine = (console, text) => `type ${console} "${text.replace(/[\\"]/g, '\\$&')}\\n"`;

function showConsoles(session) {
  const count = session.state?.rest.filter(it => it.startsWith('console ')).length ?? 0;
  $('keys').hidden = count === 0;
  if ($('console').length !== count) $('console').replaceChildren(...Array.from({ length: count }, (_, i) => make('option', { textContent: i + 1 })));
}

export function showPuttingIn(session) {
  $('put-tick').onclick = () => session.putIn('tick 1');
  for (const it of document.querySelectorAll('[data-key]')) it.onclick = () => session.putIn(`key ${$('console').value} ${it.dataset.key}`);
  $('put-hangup').onclick = () => session.putIn(`hangup ${$('console').value}`);
  $('typed').onkeydown = event => {
    if (event.key !== 'Enter') return;
    session.putIn(typedLine($('console').value, $('typed').value));
    $('typed').value = '';
  };
  $('take-back').onclick = () => session.takeBack();
  session.on('state', () => showConsoles(session));
  session.on('texts', () => { $('take-back').disabled = session.earlier.length === 0; });
}
