// The sign of a process: its process ID, on its colour.

import { make } from './dom.js';

const colours = ['#2f5fb8', '#b53a22', '#24734a', '#7a45ab', '#8a610a', '#0b7280', '#a82f73', '#59616d', '#4c690f', '#7a4a2b'];

export const colourOf = pid => colours[(Number(pid) - 1) % colours.length];

export function signOf(pid) {
  const it = make('b', { className: 'sign', textContent: pid });
  it.style.background = colourOf(pid);
  return it;
}
