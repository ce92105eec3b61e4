// The moves of both players as small boards, with what they leave and marks.
import { NAMES, cellsOf, readPart } from './games.js';
import { picture } from './draw.js';
import { escaped, fraction, written } from './written.js';
import { element, html, makeMove, movesOf, now, renew, state, wish } from './state.js';

const FIRST = 40;
const THEN = { L: 'then Left wins, whoever moves', R: 'then Right wins, whoever moves', N: 'then whoever moves next wins', P: 'then whoever moves next loses' };
const opened = { L: false, R: false };

export function drawMoves() {
  document.getElementById('choosing').hidden = isVeiled();
  if (!state.moves && !state.listed) {
    for (const list of ['left-moves', 'right-moves']) document.getElementById(list).classList.add('old');
    return;
  }
  drawSide('L', document.getElementById('left-moves'), document.getElementById('left-title'));
  drawSide('R', document.getElementById('right-moves'), document.getElementById('right-title'));
  document.getElementById('checked').textContent = state.moves ? checkedWords(state.moves.checks) : waitingWords();
}

function checkedWords(checks) {
  const parts = now().parts.map(readPart);
  if (checks.includes('wrong')) return 'The program gives this position another value than these moves do: please report this position.';
  if (!checks.length || !parts.some((part) => part.game)) return '';
  if (checks.includes('unchecked')) return 'Unchecked: the program couldn’t confirm within its limits that these moves give the value of the position.';
  return 'Checked: the program confirms that the position equals the brace of these moves.';
}

function waitingWords() {
  return state.problem ? 'What these moves are worth isn’t known.' : 'What these moves are worth isn’t known yet.';
}

function isVeiled() {
  return Boolean(state.game && !state.game.open);
}

// The moves that the visitor wants to see, in the order that is wished.
function chosen(player) {
  const all = movesOf(player);
  if (!state.moves || isVeiled()) return all;
  const seen = new Set();
  const fits = {
    all: () => true,
    each: ({ part, value }) => !value?.name || !seen.has(`${part} ${value.name}`) && seen.add(`${part} ${value.name}`),
    canonical: ({ sensible }) => sensible,
    wins: ({ wins }) => wins,
  };
  const found = all.filter(fits[wish.filter]);
  return wish.best ? found.sort((one, other) => rank(other, player) - rank(one, player)) : found;
}

// Winning moves first, then by the stop that is left, as the computer chooses.
function rank({ wins, stop }, player) {
  if (stop === null || stop === undefined) return -1e9;
  const [above, below = 1] = stop.split('/').map(Number);
  return (wins ? 1e6 : 0) + (player === 'L' ? above / below : -above / below);
}

function drawSide(player, list, title) {
  const all = movesOf(player).length;
  const moves = chosen(player);
  list.classList.remove('old');
  const count = moves.length < all ? `${moves.length} of ${all}` : String(all);
  title.textContent = `${NAMES[player]}’s moves${all ? ` (${count})` : ''}`;
  const many = opened[player] ? moves : moves.slice(0, FIRST);
  const items = many.map((move) => element('li', {}, moveButton(player, move)));
  if (!moves.length && state.moves) items.push(element('li', { class: 'none' }, all ? 'None of the moves is such a one.' : `${NAMES[player]} has no move.`));
  if (many.length < moves.length) {
    const all = () => { opened[player] = true; drawMoves(); };
    items.push(element('li', { class: 'rest' }, element('button', { onclick: all }, `Show all ${moves.length}`)));
  }
  renew(list, ...items);
}

function moveButton(player, move) {
  const many = now().parts.length > 1;
  const reason = state.reasons?.[move.part]?.[player]?.[move.name];
  const veiled = isVeiled();
  const marks = veiled ? [] : marksOf(move, reason);
  const label = [`${NAMES[player]} ${many ? `in part ${move.part + 1}, ` : ''}${move.name}`, ...(veiled ? [] : [valueWords(move)]), ...marks.map((mark) => mark.title)].join('; ');
  const button = element('button', { class: `move${move.wins && !veiled ? ' winning' : ''}`, 'aria-label': label, 'data-move': move.name, 'data-part': move.part, 'data-focus': `${player}${move.part}:${move.name}`, onclick: (event) => make(event, { ...move, player }) });
  const then = many && move.winner && !veiled ? ` <b class="chip ${move.winner}" title="${THEN[move.winner]}">${move.winner}</b>` : '';
  button.append(boards(player, move), html('span', { class: 'name' }, `${many ? `<i>${move.part + 1}</i> ` : ''}${escaped(move.name)}${then}${veiled ? '' : heat(move)}`));
  if (!veiled) button.append(valueShown(move));
  if (marks.length) button.append(element('span', { class: 'marks' }, ...marks.map(({ kind, text, title }) => element('b', { class: `mark ${kind}`, title }, text))));
  return button;
}

function boards(player, move) {
  const holder = element('span', { class: 'boards' });
  const before = readPart(now().parts[move.part]);
  const marked = before.game && move.leaves.length === 1 ? cellsIn(before, move.name) : [];
  for (const text of move.leaves) {
    const drawn = picture(text, { places: now().places[move.part], marked });
    holder.append(drawn || html('span', { class: 'form' }, written(text)));
  }
  if (!move.leaves.length) holder.append(element('span', { class: 'form' }, '0'));
  return holder;
}

function cellsIn(part, name) {
  try {
    return /^[a-z]+\d|^\d+-|at \d+$/.test(name) ? cellsOf(part, name) : [];
  } catch {
    return [];
  }
}

function valueShown(move) {
  if (!move.value) return element('span', { class: 'line quiet' }, state.moves ? 'not asked' : state.problem ? 'not known' : '…');
  if (move.value.refused) return element('span', { class: 'line refused', title: move.value.sentence }, move.value.refused);
  return html('span', { class: 'line' }, written(move.value.shown));
}

function heat({ temperature }) {
  if (temperature === null || temperature === undefined) return '';
  return ` <span class="heat" title="temperature">t ${fraction(temperature)}</span>`;
}

// Makes a move; who clicked on it sees the board that it leaves.
function make(event, move) {
  makeMove(move);
  const board = document.getElementById('board');
  if (event.detail && board.getBoundingClientRect().bottom < 120) document.querySelector('main').scrollIntoView();
}

function valueWords(move) {
  if (!move.value) return state.moves ? 'value not asked' : 'value not known';
  if (move.value.refused) return `no value: ${move.value.sentence}`;
  return `leaves ${move.value.name}, temperature ${move.temperature}, ${THEN[move.winner] || ''}`;
}

function marksOf(move, reason) {
  const marks = [];
  if (move.wins) marks.push({ kind: 'wins', text: 'wins', title: 'a winning move' });
  if (move.hottest) marks.push({ kind: 'hot', text: 'hottest', title: 'best at the greatest temperature' });
  if (reason) {
    const text = `${reason.why} ${reason.word} ${reason.by}`;
    marks.push({ kind: 'why', text, title: text });
  }
  return marks;
}
