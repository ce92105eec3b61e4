// Where the vertices of drawings and graphs stand.
import { VERTICES } from './games.js';

const STEP = 58;

export function edgesOf(text) {
  return text ? text.split(',') : [];
}

// Each vertex of a drawing as high as the edges hold it, and above what holds it.
export function drawingPlaces(edges) {
  const near = { 0: [] };
  for (const [from, , to] of edges) {
    (near[from] ||= []).push(to);
    (near[to] ||= []).push(from);
  }
  const levels = { 0: 0 };
  const held = {};
  let waiting = ['0'];
  const names = Object.keys(near);
  while (waiting.length || names.some((name) => !(name in levels))) {
    if (!waiting.length) {
      const loose = names.find((name) => !(name in levels));
      levels[loose] = 1;
      (held[0] ||= []).push(loose);
      waiting = [loose];
    }
    const holder = waiting.shift();
    for (const name of near[holder]) {
      if (name in levels) continue;
      levels[name] = levels[holder] + 1;
      (held[holder] ||= []).push(name);
      waiting.push(name);
    }
  }
  const columns = {};
  let used = 0;
  const place = (name) => {
    const above = held[name] || [];
    above.forEach(place);
    if (above.length) columns[name] = (columns[above[0]] + columns[above.at(-1)]) / 2;
    else columns[name] = used++;
  };
  place('0');
  const top = Math.max(...Object.values(levels));
  const places = {};
  for (const name of names) {
    if (name !== '0') places[name] = [34 + columns[name] * 46, 20 + (top - levels[name]) * STEP];
  }
  return places;
}

// A path in a row, any other graph on a circle.
export function graphPlaces(count, edges) {
  const names = [...VERTICES.slice(0, count)];
  const row = pathOf(names, edges ? edges.split(',') : []);
  const places = {};
  if (row) row.forEach((name, at) => { places[name] = [26 + at * 56, 30]; });
  else {
    const radius = Math.max(44, names.length * 9);
    names.forEach((name, at) => {
      const turn = (2 * Math.PI * at) / names.length;
      places[name] = [Math.round(radius * (1 + Math.sin(turn)) + 26), Math.round(radius * (1 - Math.cos(turn)) + 26)];
    });
  }
  return places;
}

function pathOf(names, pairs) {
  const near = Object.fromEntries(names.map((name) => [name, new Set()]));
  for (const [a, b] of pairs) {
    if (!near[a] || !near[b]) return null;
    near[a].add(b);
    near[b].add(a);
  }
  const row = names.filter((name) => near[name].size < 2).slice(0, 1);
  while (row.length) {
    const beyond = [...near[row.at(-1)]].filter((name) => !row.includes(name));
    if (beyond.length !== 1) break;
    row.push(beyond[0]);
  }
  return row.length === names.length && names.length > 1 ? row : null;
}
