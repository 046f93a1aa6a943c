// Draws the lanes. The heading is a separate picture, which stays visible.

import { $, makeSvg, pixelsOfUnit } from './dom.js';
import { layOut, outside } from './lanes.js';
import { bringIntoSight, listenToRows, markRows } from './rows.js';
import { mostLines } from './limits.js';
import { colourOf } from './signs.js';

const rowHeight = 22, letter = 7.3, smallLetter = 6.7, gap = 34, margin = 56;
const y = row => rowHeight * (row + 0.5);
const colour = pid => pid === outside ? 'var(--key)' : colourOf(pid);

// Sets the positions of the lanes, and returns the width of the picture.
function place(lanes) {
  let left = margin;
  for (const it of lanes) {
    it.x = left + 10;
    left += gap + letter * it.width;
  }
  return left + 20;
}

const band = ({ at, event }) => makeSvg('rect', { class: 'band', x: 0, y: y(at) - rowHeight / 2, width: '100%', height: rowHeight, 'data-event': event });

function wireOf({ lane, from, to, kind }, lanes) {
  const { x, pid } = lanes[lane];
  return makeSvg('line', { class: `wire ${kind}`, x1: x, x2: x, y1: y(from), y2: y(to), stroke: colour(pid) });
}

// An arrow joins the words of a row and another lane. It points to that lane, or from it for reports, looks and
// senders.
function arrowOf(arrow, row, lanes) {
  const { x } = lanes[row.lane], far = lanes[arrow.lane].x, at = y(row.at), way = far > x ? 1 : -1;
  const near = way > 0 ? x + 14 + letter * row.words.length : x - 6;
  const isFrom = ['report', 'look', 'from'].includes(arrow.kind);
  const tip = isFrom ? near : far - 5 * way, back = isFrom ? 7 * way : -7 * way;
  // the words of an arrow to the left are between its line and its tip
  const room = way < 0 && arrow.words ? 14 + smallLetter * arrow.words.length : 0;
  const parts = [
    makeSvg('line', { class: `arrow ${arrow.kind}`, x1: near, x2: far - 5 * way + room, y1: at, y2: at }),
    makeSvg('polygon', { class: 'tip', points: `${tip},${at} ${tip + back},${at - 4} ${tip + back},${at + 4}` }),
  ];
  if (arrow.kind === 'birth') parts.push(makeSvg('circle', { class: 'born', cx: far, cy: at, r: 4, stroke: colour(arrow.other) }));
  if (arrow.words) parts.push(makeSvg('text', { class: 'effect', x: far + (way < 0 ? 15 : 8), y: at + 4 }, arrow.words));
  return parts;
}

function markOf(row, { x, pid }) {
  const at = y(row.at), fill = colour(pid);
  if (row.form === 'end' || row.form === 'halt') return makeSvg('rect', { x: x - 6, y: at - 2, width: 12, height: 4, fill });
  if (row.form === 'stop') return makeSvg('rect', { x: x - 4, y: at - 4, width: 8, height: 8, fill });
  return makeSvg('circle', { cx: x, cy: at, r: 4, fill });
}

function drawRow(row, lanes) {
  const group = makeSvg('g', { class: 'row', 'data-event': row.event }), { x } = lanes[row.lane], base = y(row.at) + 4;
  group.append(makeSvg('text', { class: 'event', x: margin - 14, y: base, 'text-anchor': 'end' }, `${row.event}`));
  group.append(...row.arrows.flatMap(it => arrowOf(it, row, lanes)), markOf(row, lanes[row.lane]));
  group.append(makeSvg('text', { x: x + 11, y: base }, row.words));
  return group;
}

function size(svg, width, height) {
  svg.setAttribute('viewBox', `0 0 ${width} ${height}`);
  svg.style.width = `calc(${width} * var(--unit))`;
  svg.style.height = `calc(${height} * var(--unit))`;
}

function draw(svg, heading, { rows, lanes, wires }) {
  const width = Math.max(place(lanes), svg.parentElement.clientWidth / pixelsOfUnit());
  size(svg, width, rowHeight * (rows.length + 1));
  size(heading, width, rowHeight);
  heading.replaceChildren(...lanes.map(({ x, pid }) => {
    const it = makeSvg('text', { class: 'pid', x, y: 16, 'text-anchor': 'middle' }, pid === outside ? 'keys, ticks' : pid);
    it.style.fill = colour(pid);
    return it;
  }));
  svg.replaceChildren(...rows.map(band), ...wires.map(it => wireOf(it, lanes)), makeSvg('line', { class: 'edge', x1: 0, x2: '100%' }), ...rows.map(it => drawRow(it, lanes)));
}

export function showLanes(session) {
  const pane = $('lanes'), [heading, svg] = pane.querySelectorAll('svg');
  let picture = layOut([], []);
  const redraw = () => {
    if (pane.hidden) return;
    draw(svg, heading, picture);
    mark();
  };
  const mark = () => {
    markRows(pane, session);
    const past = rowHeight * picture.rows.filter(it => it.event <= session.at).length;
    svg.querySelector('.edge')?.setAttribute('y1', past);
    svg.querySelector('.edge')?.setAttribute('y2', past);
    bringIntoSight(pane);
  };
  listenToRows(pane, session);
  session.on('ran', () => {
    const lines = session.lines.slice(0, mostLines);
    picture = layOut(lines, session.calls.slice(0, session.lines.length > lines.length ? lines.at(-1).event : undefined));
    redraw();
  });
  session.on('moved', mark);
  session.on('shown', redraw);
  new ResizeObserver(redraw).observe(pane);
}
