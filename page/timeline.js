// The process that acts at each event: a row for each process, strokes for ticks and keys; the slider, and the buttons
// that move.

import { $, make, pixelsOfUnit } from './dom.js';
import { colourOf } from './signs.js';

const kindOf = call => call.does === 'tick' ? 'tick' : /^(key|hangup) /.test(call.does) ? 'key' : '';

// A stroke has the colour of its sign next to the buttons.
const colourOfSign = name => getComputedStyle(document.querySelector(`.key .${name}`)).color;

function drawEvent(on, call, { x, wide, row, height, scale, colours }) {
  if (call.pid) {
    on.fillStyle = colourOf(call.pid);
    on.fillRect(x, row + 2 * scale, Math.max(wide - (wide > 4 ? 1 : 0), 1), height * scale - 4 * scale);
  } else if (kindOf(call)) {
    on.fillStyle = colours[kindOf(call)];
    on.fillRect(x + wide / 2 - scale, 0, 2 * scale, on.canvas.height);
    // the head of a tick is a cross, the head of a key is a block
    const half = kindOf(call) === 'tick' ? 4 : 3, thick = kindOf(call) === 'tick' ? 2 : 6;
    on.fillRect(x + wide / 2 - half * scale, 0, 2 * half * scale, thick * scale);
  }
}

function drawChart(session) {
  const canvas = $('who'), { calls, count } = session;
  const pids = [...new Set(calls.map(it => it.pid).filter(Boolean))].sort((a, b) => a - b);
  const height = (pids.length > 8 ? 8 : 12) * pixelsOfUnit(), scale = devicePixelRatio, rows = Math.max(pids.length, 1);
  canvas.style.height = `${height * rows}px`;
  canvas.width = canvas.clientWidth * scale;
  canvas.height = height * rows * scale;
  const wide = canvas.width / Math.max(count, 1), colours = { tick: colourOfSign('tick'), key: colourOfSign('stroke') };
  const on = canvas.getContext('2d');
  for (const call of calls) {
    const row = pids.indexOf(call.pid) * height * scale;
    drawEvent(on, call, { x: (call.event - 1) * wide, wide, row, height, scale, colours });
  }
  $('whose').replaceChildren(...pids.map(pid => {
    const it = make('div', { textContent: pid });
    it.style.height = it.style.lineHeight = `${height}px`;
    return it;
  }));
}

function showPlace({ at, count }) {
  $('at').max = count;
  $('at').value = at;
  $('at').setAttribute('aria-valuetext', `event ${at} of ${count}`);
  $('place').textContent = `event ${at} of ${count}`;
  const wide = $('who').clientWidth / Math.max(count, 1), now = $('now');
  now.hidden = at === 0;
  now.style.left = `${$('who').offsetLeft + Math.max(0, at - 1) * wide}px`;
  now.style.width = `${Math.max(wide, 3)}px`;
}

export function showTimeline(session) {
  const draw = () => {
    drawChart(session);
    showPlace(session);
  };
  session.on('ran', draw);
  session.on('moved', () => showPlace(session));
  new ResizeObserver(draw).observe($('who'));
  matchMedia('(prefers-color-scheme: dark)').onchange = draw;
  $('at').oninput = () => session.go(Number($('at').value));
  $('who').onclick = event => session.go(1 + Math.floor(session.count * event.offsetX / $('who').clientWidth));
  for (const it of document.querySelectorAll('[data-move]')) it.onclick = () => session.move(it.dataset.move);
  return draw;
}
