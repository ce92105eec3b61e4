// What is shown: a history of positions, and what the program answered about the present one.
import { readPart, textOf } from './games.js';

export const state = {
  history: [], at: -1, mode: 'draw', brush: '', picked: null, effort: 0,
  answer: null, listed: null, moves: null, reasons: null, problem: null, game: null,
};
// Which moves are shown, in which order, and whether the players take turns on the board.
export const wish = { filter: 'all', best: false, turns: false };
const heard = { position: [], answer: [], view: [] };

// The moves of a player as far as they are known: with what they are worth, or listed before that.
export function movesOf(player) {
  return (state.moves?.moves || state.listed)?.[player] || [];
}

export function when(what, call) {
  heard[what].push(call);
}

export function changed(what) {
  if (what === 'answer' && pressed) late = true;
  else for (const call of heard[what]) call();
}

// A button that is drawn anew under a pressed pointer gets no click: answers wait until it is released, but not for long.
const LONGEST_PRESS = 1500;
let pressed = false;
let late = false;
let clock = null;

function release() {
  clearTimeout(clock);
  pressed = false;
  if (late) changed('answer');
  late = false;
}

document.addEventListener('pointerdown', (event) => {
  pressed = Boolean(event.target.closest('button, .sketch'));
  clearTimeout(clock);
  clock = setTimeout(release, LONGEST_PRESS);
}, true);
for (const end of ['pointerup', 'pointercancel']) document.addEventListener(end, () => setTimeout(release), true);

export function now() {
  return state.history[state.at];
}

export function parts() {
  return now().parts.map(readPart);
}

// Shows a position: by a move, or drawn or opened. A stroke of the brush is one step.
export function show(texts, { move = null, places = null, stroke = null } = {}) {
  const before = now();
  const kept = places || (before ? texts.map((_, at) => before.places[at] || null) : texts.map(() => null));
  const entry = { parts: texts, places: kept, move, stroke };
  if (stroke !== null && before && before.stroke === stroke) state.history[state.at] = entry;
  else {
    state.history = [...state.history.slice(0, state.at + 1), entry].slice(-500);
    state.at = state.history.length - 1;
  }
  refresh();
}

export function setPart(at, part, how = {}) {
  const texts = now().parts.slice();
  texts[at] = textOf(part);
  show(texts, how);
}

export function go(at) {
  if (at < 0 || at >= state.history.length || at === state.at) return;
  state.at = at;
  refresh();
}

function refresh() {
  Object.assign(state, { answer: null, listed: null, moves: null, reasons: null, problem: null, picked: null, effort: 0 });
  changed('position');
}

export function look(changes) {
  Object.assign(state, changes);
  changed('view');
}

export function makeMove(move) {
  const before = now();
  const places = before.places.slice();
  places.splice(move.part, 1, ...move.leaves.map(() => before.places[move.part] || null));
  const { player, name, part } = move;
  if (wish.turns && !state.game && state.mode !== 'draw') state.mode = player === 'L' ? 'R' : 'L';
  show(move.after, { places, move: { player, name, part, many: before.parts.length > 1 } });
}

export function toast(text) {
  const shown = document.getElementById('toast');
  shown.textContent = text;
  shown.hidden = false;
  clearTimeout(toast.clock);
  toast.clock = setTimeout(() => { shown.hidden = true; }, 3500);
}

// An element with attributes, what it is called by screen readers, and what happens on a click.
export function element(name, attributes = {}, ...inside) {
  const made = document.createElement(name);
  for (const [key, value] of Object.entries(attributes)) {
    if (key.startsWith('on')) made.addEventListener(key.slice(2), value);
    else if (value === true) made.setAttribute(key, '');
    else if (value !== false && value !== null && value !== undefined) made.setAttribute(key, value);
  }
  made.append(...inside.filter((one) => one !== null && one !== undefined));
  return made;
}

// Replaces what an element holds; the focus stays on what is the same there, or in its place.
export function renew(holder, ...inside) {
  const focus = holder.contains(document.activeElement) ? document.activeElement : null;
  const at = focus && [...holder.querySelectorAll(focus.tagName)].indexOf(focus);
  holder.replaceChildren(...inside);
  if (!focus || holder === focus) return;
  const mark = focus.id ? `#${CSS.escape(focus.id)}` : focus.dataset.focus && `[data-focus="${CSS.escape(focus.dataset.focus)}"]`;
  const same = mark && holder.querySelector(mark);
  const alike = [...holder.querySelectorAll(focus.tagName)].filter((one) => !one.disabled);
  const next = same && !same.disabled ? same : alike[Math.min(at, alike.length - 1)] || holder.querySelector('button:not(:disabled), input, [tabindex="0"]');
  next?.focus({ preventScroll: true });
}

export function html(name, attributes, text) {
  const made = element(name, attributes);
  made.innerHTML = text;
  return made;
}
