// Boards as SVG, small ones in lists and the ones that are saved.
import { GAMES, VERTICES, cellName, readPart, rowsOf } from './games.js';
import { drawingPlaces, edgesOf, graphPlaces } from './places.js';

const SPACE = 'http://www.w3.org/2000/svg';
const CELL = 24;

export function make(name, attributes = {}, ...inside) {
  const made = document.createElementNS(SPACE, name);
  for (const [key, value] of Object.entries(attributes)) made.setAttribute(key, value);
  made.append(...inside);
  return made;
}

export function stone(symbol, x, y, size) {
  const group = make('g', { class: symbol === 'x' ? 'stone left' : 'stone right' });
  group.append(make('circle', { cx: x, cy: y, r: size * 0.38 }));
  const arm = size * 0.15;
  if (symbol === 'x') {
    const way = `M${x - arm} ${y - arm}L${x + arm} ${y + arm}M${x - arm} ${y + arm}L${x + arm} ${y - arm}`;
    group.append(make('path', { d: way, class: 'sign' }));
  } else {
    group.append(make('circle', { cx: x, cy: y, r: arm * 1.1, class: 'sign' }));
  }
  return group;
}

export function symbolDrawn(game, symbol, x, y, size) {
  if (symbol === '.' && game !== 'Strip') return [];
  if (symbol === '#') return [];
  if (symbol === 'x' || symbol === 'o') {
    if (game !== 'Strip') return [stone(symbol, x, y, size)];
  }
  const found = [];
  if (game === 'Toads') {
    const way = symbol === 'T' ? 1 : -1;
    const [a, b] = [size * 0.33 * way, size * 0.36];
    const points = `${x - a},${y - b} ${x + a * 1.25},${y} ${x - a},${y + b}`;
    found.push(make('polygon', { points, class: symbol === 'T' ? 'toad left' : 'toad right' }));
  }
  const text = make('text', { x: x - (game === 'Toads' ? size * 0.06 * (symbol === 'T' ? 1 : -1) : 0), y: y + size * 0.16, class: game === 'Toads' ? 'letter on' : 'letter', 'font-size': size * 0.45 });
  text.textContent = symbol === '.' ? '·' : symbol;
  found.push(text);
  return found;
}

function grid(part, marked) {
  const rows = rowsOf(part);
  const width = Math.max(...rows.map((row) => row.length));
  const svg = frame(width * CELL + 4, rows.length * CELL + 4);
  const last = [];
  rows.forEach((row, down) => [...row].forEach((symbol, right) => {
    const [x, y] = [2 + right * CELL, 2 + down * CELL];
    const changed = marked.has(cellName(down, right));
    const kind = `cell${symbol === '#' ? ' filled' : ''}${changed ? ' changed' : ''}`;
    const drawn = [make('rect', { x, y, width: CELL, height: CELL, class: kind }), ...symbolDrawn(part.game, symbol, x + CELL / 2, y + CELL / 2, CELL)];
    if (changed) last.push(...drawn);
    else svg.append(...drawn);
  }));
  svg.append(...last);
  return svg;
}

// A game that is no board, for pictures: its text.
export function textPicture(text) {
  const svg = frame(text.length * 9 + 12, 28);
  const shown = make('text', { x: text.length * 4.5 + 6, y: 19, class: 'form' });
  shown.textContent = text;
  svg.append(shown);
  return svg;
}

function frame(width, height) {
  return make('svg', { viewBox: `0 0 ${width} ${height}`, width, height, class: 'picture', xmlns: SPACE });
}

export const EDGE_KINDS = { b: 'blue', r: 'red', g: 'green' };

// The edges of a drawing as paths, those with the same ends side by side.
export function edgePaths(edges, places, ground) {
  const alike = new Map();
  return edges.map(([from, , to]) => {
    const ends = [from, to].sort().join('');
    const turn = alike.get(ends) || 0;
    alike.set(ends, turn + 1);
    if (from === to) {
      const [x, y] = from === '0' ? [30, ground] : places[from];
      const r = 12 + 5 * turn;
      return `M${x} ${y}C${x - 2 * r} ${y - 2 * r} ${x + 2 * r} ${y - 2 * r} ${x} ${y}`;
    }
    const bow = (turn % 2 ? 1 : -1) * Math.ceil(turn / 2) * 18;
    const other = from === '0' ? to : from;
    let [a, b] = [places[from], places[to]];
    if (from === '0') a = [places[other][0], ground];
    if (to === '0') b = [places[other][0], ground];
    const long = Math.hypot(b[0] - a[0], b[1] - a[1]) || 1;
    const middle = [(a[0] + b[0]) / 2 - (b[1] - a[1]) / long * bow, (a[1] + b[1]) / 2 + (b[0] - a[0]) / long * bow];
    return `M${a[0]} ${a[1]}Q${middle[0]} ${middle[1]} ${b[0]} ${b[1]}`;
  });
}

function drawing(part, places) {
  const edges = edgesOf(part.texts[0]);
  const known = places || drawingPlaces(edges);
  const { width, height, ground } = sizeOf(known);
  const svg = frame(width, height);
  svg.append(make('path', { d: `M4 ${ground}H${width - 4}`, class: 'ground' }));
  edgePaths(edges, known, ground).forEach((d, at) => {
    svg.append(make('path', { d, class: `edge ${EDGE_KINDS[edges[at][1]]}` }));
  });
  const nodes = new Set(edges.flatMap(([from, , to]) => [from, to]));
  for (const name of nodes) {
    if (name !== '0') svg.append(make('circle', { cx: known[name][0], cy: known[name][1], r: 4, class: 'node' }));
  }
  return svg;
}

// The size of a drawing: its ground is below all vertices.
export function sizeOf(places) {
  const all = Object.values(places);
  const width = Math.max(120, ...all.map(([x]) => x + 30));
  const ground = Math.max(60, ...all.map(([, y]) => y + 46));
  return { width, height: ground + 12, ground };
}

function graph(part, places) {
  const [vertices, edges] = part.texts;
  const known = places || graphPlaces(vertices.length, edges);
  const width = Math.max(60, ...Object.values(known).map(([x]) => x + 26));
  const height = Math.max(52, ...Object.values(known).map(([, y]) => y + 26));
  const svg = frame(width, height);
  for (const [a, b] of edges ? edges.split(',') : []) {
    if (known[a] && known[b]) svg.append(make('path', { d: `M${known[a]}L${known[b]}`, class: 'link' }));
  }
  [...vertices].forEach((symbol, at) => svg.append(...vertexDrawn(VERTICES[at], symbol, known[VERTICES[at]])));
  return svg;
}

export function vertexDrawn(name, symbol, [x, y]) {
  const text = make('text', { x, y: y + 4.5, class: symbol === '.' ? 'letter' : 'letter on', 'font-size': 13 });
  text.textContent = name;
  const disc = make('circle', { cx: x, cy: y, r: 14, class: `vertex ${{ '.': 'free', x: 'left', o: 'right' }[symbol]}` });
  const ring = symbol === 'o' ? [make('circle', { cx: x, cy: y, r: 10.5, class: 'ring' })] : [];
  return [disc, ...ring, text];
}

function heap(part) {
  const rows = Math.max(1, Math.ceil(Math.min(part.tokens, 200) / 10));
  const svg = frame(150, rows * 14 + 12);
  for (let at = 0; at < Math.min(part.tokens, 200); at += 1) {
    svg.append(make('circle', { cx: 12 + 14 * (at % 10), cy: rows * 14 - 2 - 14 * Math.floor(at / 10), r: 6, class: 'token' }));
  }
  svg.append(make('path', { d: `M2 ${rows * 14 + 6}H148`, class: 'ground' }));
  return svg;
}

// The picture of a part, or null of what is no board.
export function picture(text, { places = null, marked = [] } = {}) {
  const part = readPart(text);
  if (!part.game) return null;
  try {
    const kind = GAMES[part.game].kind;
    const draws = { grid: () => grid(part, new Set(marked)), row: () => grid(part, new Set(marked)), drawing: () => drawing(part, places), graph: () => graph(part, places), heap: () => heap(part) };
    const svg = draws[kind]();
    svg.setAttribute('role', 'img');
    svg.setAttribute('aria-label', text);
    if (part.minus) svg.classList.add('negative');
    return svg;
  } catch {
    return null;
  }
}
