// Finds elements by their IDs, and makes elements. Texts are inserted only as text, never as HTML.

export const $ = id => document.getElementById(id);

export function make(name, of = {}, ...parts) {
  const it = Object.assign(document.createElement(name), of);
  it.append(...parts);
  return it;
}

const svgNames = 'http://www.w3.org/2000/svg';

export function makeSvg(name, of = {}, text = '') {
  const it = document.createElementNS(svgNames, name);
  for (const [key, value] of Object.entries(of)) it.setAttribute(key, value);
  if (text) it.textContent = text;
  return it;
}

// The pixels in one unit of the pictures: 1 if the font size is 14 pixels.
export const pixelsOfUnit = () => parseFloat(getComputedStyle(document.documentElement).fontSize) / 14;
