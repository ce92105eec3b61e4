// A game against the computer, which moves as the server's rule says.
import { NAMES } from './games.js';
import { element, look, makeMove, now, renew, show, state, when } from './state.js';
import { drawMoves } from './moves.js';
import { download } from './save.js';

const WAIT = 450;
const OTHER = { L: 'R', R: 'L' };
let clock = null;

export function drawPlay() {
  const play = document.getElementById('play');
  const { game } = state;
  const held = play.contains(document.activeElement);
  renew(play.querySelector('.inside'), ...(game ? during(game) : before()));
  const extras = document.getElementById('extras');
  if (!game === extras.contains(play)) return;
  if (game) document.getElementById('moves').before(play); // beside the board, as long as it goes on
  else extras.prepend(play);
  if (held) play.querySelector('button:not(:disabled)').focus({ preventScroll: true });
}

function before() {
  const pick = (name, legend, chosen) => element('fieldset', { class: 'segments' }, element('legend', {}, legend),
    ...Object.entries(NAMES).map(([value, word]) => element('label', {}, element('input', { type: 'radio', name, value, checked: value === chosen }), element('span', {}, word))));
  return [
    element('p', {}, 'Draw or open a position, also a sum, then play it out. Whoever can’t move loses.'),
    element('div', { class: 'row' }, pick('person', 'You are', 'L'), pick('first', 'First move', 'L'), element('button', { id: 'start', class: 'main', onclick: start }, 'Start')),
    element('p', { class: 'quiet' }, `The rule: ${state.moves?.rule || ''}.`),
  ];
}

function during(game) {
  const mine = game.turn === game.person;
  const line = element('p', { id: 'turn', class: game.over ? 'over' : '', role: 'status' }, statusWords(game, mine));
  const moves = game.record.map(({ player, name, part }) => element('li', {}, `${NAMES[player]} ${part}${name}`));
  return [
    line,
    element('p', { id: 'said', class: 'quiet' }, game.said || ''),
    element('div', { class: 'row' },
      element('button', { id: 'hint-button', disabled: game.over || !mine || !state.moves, onclick: hint }, 'Hint'),
      element('button', { id: 'record', disabled: !game.record.length, onclick: () => download('game.txt', recordText(game)) }, 'Save the record'),
      element('button', { id: 'again', onclick: again }, 'Play again'),
      element('button', { id: 'leave', onclick: leave }, 'End the game'),
      element('label', {}, element('input', { type: 'checkbox', id: 'worth', checked: game.open, onchange: (event) => { game.open = event.target.checked; drawMoves(); } }), ' Show what the moves are worth')),
    element('ol', { class: 'record', 'aria-label': 'Record' }, ...moves),
    element('p', { class: 'quiet' }, `The rule: ${state.moves?.rule || 'a winning move if there is one'}.`),
  ];
}

function statusWords(game, mine) {
  if (game.over) return `${NAMES[game.turn]} can’t move: ${mine ? 'the computer wins.' : 'you win.'}`;
  if (!state.moves && !(mine && state.listed)) return 'Computing';
  return mine ? `Your move, ${NAMES[game.person]}.` : `The computer moves as ${NAMES[game.turn]}.`;
}

function start() {
  const value = (name) => document.querySelector(`#play input[name=${name}]:checked`).value;
  begin(value('person'), value('first'));
}

function begin(person, first) {
  const { parts, places } = now();
  state.game = { person, first, turn: first, record: [], said: '', over: false, open: false, parts, places };
  look({ mode: person, picked: null });
  drawMoves();
  step();
}

function again() {
  const { person, first, parts, places } = state.game;
  state.game = null;
  show(parts, { places });
  begin(person, first);
}

function leave() {
  clearTimeout(clock);
  state.game = null;
  look({ mode: 'draw' });
  drawMoves();
}

// The player to move has lost, or the computer moves, or the person is waited for.
function step() {
  clearTimeout(clock);
  const { game } = state;
  if (!game || !state.moves) {
    drawPlay();
    return;
  }
  const moves = state.moves.moves[game.turn];
  game.over = !moves.length;
  if (!game.over && game.turn !== game.person) clock = setTimeout(answer, WAIT);
  drawPlay();
}

function answer() {
  const { game } = state;
  if (!game || !state.moves || game.turn === game.person) return;
  const at = state.moves.choice[game.turn];
  const moves = state.moves.moves[game.turn];
  if (at === null || at === undefined) {
    game.said = 'The computer can’t see through this position within its limits, and plays its first move.';
    makeMove({ ...moves[0], player: game.turn });
    return;
  }
  game.said = moves[at].wins ? 'The computer has a winning move.' : 'The computer has no winning move: it plays the one with the best stop.';
  makeMove({ ...moves[at], player: game.turn });
}

function hint() {
  const { game } = state;
  const moves = state.moves.moves[game.person];
  const winning = moves.filter((move) => move.wins);
  const at = state.moves.choice[game.person];
  if (at === null || at === undefined) game.said = 'This position is too large for a hint.';
  else if (winning.length) game.said = `You win with ${nameOf(moves[at])}${othersOf(winning.length - 1)}.`;
  else game.said = `No move wins. The best stop is left by ${nameOf(moves[at])}.`;
  drawPlay();
}

function othersOf(count) {
  if (!count) return '';
  return `, and with ${count} other move${count > 1 ? 's' : ''} marked “wins”`;
}

function nameOf(move) {
  return `${now().parts.length > 1 ? `part ${move.part + 1}, ` : ''}${move.name}`;
}

export function recordText(game) {
  const lines = [`# cg explore: ${NAMES[game.person]} was played by a person`, 'cg 2'].reverse();
  const moves = game.record.map(({ player, part, name }, at) => `# ${at + 1}. ${NAMES[player]} ${part}${name}`);
  const values = game.record.map(({ after }) => `value ${after.join(' + ') || '0'}`);
  const all = moves.flatMap((move, at) => [move, values[at]]);
  return `${[...lines, `value ${game.parts.join(' + ') || '0'}`, ...all].join('\n')}\n`;
}

// Notes what was moved on the board; a position that is drawn or opened ends the game.
export function follow() {
  const { game } = state;
  if (!game) return;
  const { move, parts } = now();
  const last = game.record.at(-1);
  if (last && last.at === state.at) {
    drawPlay();
    return;
  }
  const back = game.record.findIndex((one) => one.at > state.at);
  if (back >= 0 || (game.record.length && state.at < game.record[0].at)) {
    game.record = game.record.filter((one) => one.at <= state.at);
    game.turn = game.record.length ? OTHER[game.record.at(-1).player] : game.first;
    game.over = false;
  } else if (move && move.player === game.turn) {
    const part = move.many ? `part ${move.part + 1} ` : '';
    game.record.push({ ...move, part, after: parts, at: state.at });
    game.turn = OTHER[game.turn];
  } else if (move || parts !== game.parts) {
    state.game = null;
    state.mode = 'draw';
  }
  drawPlay();
}

when('answer', step);
