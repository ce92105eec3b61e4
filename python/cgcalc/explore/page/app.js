// The page: what happens when the position changes, and the buttons.
import { ask, framed, stopAll, tell } from './ask.js';
import { brushOf, drawParts, startPosition } from './board.js';
import { GAMES, NAMES, symbolsOf } from './games.js';
import { hintOf } from './graphs.js';
import { toolOf, toolsOf } from './sketch.js';
import { drawMoves } from './moves.js';
import { drawPlay, follow } from './play.js';
import { copy, address, drawSave, fragment, positionOf } from './save.js';
import { drawSheet, openSheet } from './sheet.js';
import { picture } from './draw.js';
import { fraction, written } from './written.js';
import { changed, element, go, html, look, now, parts, renew, show, state, toast, when, wish } from './state.js';

const FILTERS = { all: 'all moves', each: 'one of each value', canonical: 'canonical', wins: 'winning' };
const SLOW = 180;
const LIST = 350;
let round = 0;
let listing = null;
let slow = null;
let began = 0;

const by = (id) => document.getElementById(id);

// ---- asking

async function compute() {
  const mine = round += 1;
  await stopAll();
  clearTimeout(slow);
  clearTimeout(listing);
  listing = setTimeout(listMoves, LIST);
  began = Date.now();
  slow = setTimeout(() => running(true), SLOW);
  const data = { parts: now().parts };
  const take = (word, key) => ask(word, data, state.effort).then((told) => {
    if (mine !== round) return false;
    if (told.stopped) {
      state.problem = told;
      if (!state.moves) listMoves();
    } else state[key] = word === 'reasons' ? told.reasons : told;
    changed('answer');
    return !told.stopped;
  });
  try {
    const fine = await take('position', 'answer') && await take('moves', 'moves');
    if (mine === round) running(false);
    if (fine && mine === round) await take('reasons', 'reasons');
  } catch (error) {
    if (mine === round) {
      state.problem = { stopped: error.message, advice: '', more: false };
      changed('answer');
    }
  }
  if (mine === round) running(false);
}

// Where answers take long the moves are shown before.
function listMoves() {
  const mine = round;
  if (state.moves || state.listed) return;
  tell('list', { parts: now().parts }).then((told) => {
    if (mine !== round || state.moves) return;
    state.listed = told.moves;
    changed('answer');
  }).catch(() => null);
}

function running(on) {
  clearTimeout(slow);
  by('running').hidden = !on;
  document.body.classList.toggle('busy', on);
  if (on) {
    by('progress').textContent = `Computing, ${Math.round((Date.now() - began) / 1000)} s`;
    slow = setTimeout(() => running(true), 1000);
  }
}

function tryHarder() {
  const effort = state.effort + 1;
  Object.assign(state, { answer: null, moves: null, reasons: null, problem: null, effort });
  changed('answer');
  compute();
}

// ---- the answer

function drawAnswer() {
  const { answer, problem } = state;
  const facts = by('facts');
  facts.classList.toggle('old', !answer && !problem);
  if (problem) {
    facts.replaceChildren(trouble(`No answer: ${problem.stopped}.`, problem));
    by('thermograph').replaceChildren();
    say(`No answer: ${problem.stopped}.`);
    return;
  }
  if (!answer) return;
  const bad = answer.parts.findIndex((part) => part.value.refused);
  const refused = bad >= 0 ? answer.parts[bad].value : ['value', 'outcome', 'stops', 'thermo'].map((word) => answer[word]).find((told) => told?.refused);
  if (bad >= 0 || answer.value.refused) {
    const where = answer.parts.length > 1 && bad >= 0 ? `Part ${bad + 1}: ` : '';
    facts.replaceChildren(trouble(`${where}${refused.sentence} (${refused.refused})`, refused));
    by('thermograph').replaceChildren();
    say(`Refused: ${refused.sentence}`);
    return;
  }
  const row = (word, what) => (what ? `<div><dt>${word}</dt><dd>${what}</dd></div>` : '');
  const { value, outcome, stops, thermo } = answer;
  const list = html('dl', { class: 'facts' }, [
    row('Left stop', stops.left && fraction(stops.left)), row('Right stop', stops.right && fraction(stops.right)),
    row('Mean', thermo.mean && fraction(thermo.mean)), row('Temperature', thermo.temperature && fraction(thermo.temperature)),
  ].join(''));
  const length = value.shown.length;
  const shown = html('p', { id: 'value', class: length > 160 ? 'longest' : length > 40 ? 'long' : '', tabindex: length > 160 ? '0' : null, 'aria-label': `Value ${value.name}` }, written(value.shown));
  const wins = element('p', { id: 'outcome' }, element('b', { class: `chip ${outcome.winner}` }, outcome.winner || '!'), ` ${outcome.sentence}`);
  const copies = element('p', { class: 'row' }, element('button', { id: 'copy-value', onclick: () => copy(value.name, 'Value') }, 'Copy the value'), element('code', { id: 'value-name' }, value.name.length > 60 ? `${value.name.slice(0, 58)}..` : value.name));
  facts.replaceChildren(shown, copies, wins, list);
  if (thermo.refused) facts.append(trouble(`${thermo.sentence} (${thermo.refused})`, thermo));
  drawThermograph(thermo);
  say(`Value ${value.name}. ${outcome.sentence}`);
}

function drawThermograph(thermo) {
  const figure = by('thermograph');
  if (!thermo.svg) figure.replaceChildren();
  else {
    figure.innerHTML = thermo.svg;
    figure.append(html('figcaption', { class: 'quiet' }, 'Thermograph: values from left to right fall, temperatures rise.'));
  }
}

function trouble(sentence, told) {
  const advice = told.advice ? element('span', { class: 'advice' }, ` ${told.advice}`) : null;
  const again = told.more && state.effort < 2 ? element('button', { id: 'harder', onclick: tryHarder }, 'Try with four times as much') : null;
  return element('div', { class: 'trouble', id: 'trouble' }, element('p', {}, sentence, advice), again);
}

function say(sentence) {
  by('live').textContent = sentence;
}

// ---- the board's tools

function segments(holder, legend, choices, chosen, choose) {
  const labels = Object.entries(choices).map(([value, word]) => {
    const input = element('input', { type: 'radio', name: holder.id, value, checked: value === chosen, 'data-focus': `${holder.id}:${value}`, onchange: () => choose(value) });
    return element('label', {}, input, element('span', {}, word));
  });
  renew(holder, element('legend', {}, legend), ...labels);
  holder.hidden = !labels.length;
}

function drawTools() {
  const modes = state.game ? { [state.mode]: `moves for ${NAMES[state.mode]}` } : { draw: 'draws', L: 'moves Left', R: 'moves Right' };
  by('turns').hidden = state.mode === 'draw' || Boolean(state.game);
  segments(by('filter'), 'Show', FILTERS, wish.filter, (filter) => { wish.filter = filter; drawMoves(); });
  segments(by('mode'), 'A click', modes, state.mode, (mode) => look({ mode, picked: null }));
  const known = parts().filter((part) => part.game && part.game !== 'Octal');
  const drawn = state.mode === 'draw' ? known[0] : null;
  let choices = {};
  if (drawn && ['grid', 'row'].includes(GAMES[drawn.game].kind)) {
    for (const part of known.filter((one) => ['grid', 'row'].includes(GAMES[one.game].kind))) {
      for (const [symbol, word] of Object.entries(symbolsOf(part))) choices[symbol] ||= `${symbol === '.' ? '' : `${symbol} `}${word === symbol ? '' : word}`;
    }
  } else if (drawn) choices = toolsOf(drawn);
  const chosen = drawn ? (GAMES[drawn.game].kind === 'grid' || GAMES[drawn.game].kind === 'row' ? brushOf(drawn) : toolOf(drawn)) : '';
  segments(by('brush'), 'Draw', choices, chosen, (brush) => look({ brush, picked: null }));
  by('hint').textContent = hintWords(known);
}

function hintWords(known) {
  const games = [...new Set(known.map((part) => part.game))];
  if (!games.length) return '';
  const rules = games.map((game) => `${games.length > 1 ? `${game}: ` : ''}Left ${GAMES[game].left}; Right ${GAMES[game].right}.`);
  const drawn = known.find((part) => ['drawing', 'graph'].includes(GAMES[part.game].kind));
  return [...rules, 'Whoever can’t move loses.', drawn ? hintOf(drawn) : ''].join(' ');
}

function drawPath() {
  const items = [];
  let at = state.at;
  while (at > 0 && state.history[at].move) at -= 1;
  for (let k = at; k <= state.at && state.at > at; k += 1) {
    const entry = state.history[k];
    const label = k === at ? 'start' : `${NAMES[entry.move.player]} ${entry.move.many ? `${entry.move.part + 1}: ` : ''}${entry.move.name}`;
    const drawn = entry.parts.map((text, part) => picture(text, { places: entry.places[part] }) || html('span', { class: 'form' }, written(text)));
    items.push(element('li', { class: entry.move ? entry.move.player : '' }, element('button', { 'aria-current': k === state.at ? 'step' : null, 'aria-label': `Go to: ${label}`, onclick: () => go(k) }, element('span', { class: 'boards' }, ...drawn), element('span', { class: 'name' }, label))));
  }
  renew(by('path'), ...items);
  by('path').hidden = !items.length;
  by('path').scrollLeft = by('path').scrollWidth;
  by('undo').disabled = state.at <= 0;
  by('redo').disabled = state.at >= state.history.length - 1;
}

// ---- what is drawn when

when('position', () => {
  follow();
  drawTools();
  drawParts();
  drawPath();
  drawAnswer();
  drawMoves();
  if (by('save').open) drawSave();
  const hash = fragment();
  if (location.hash !== hash || (location.search && !framed)) history.replaceState(null, '', `${location.pathname}${framed ? location.search : ''}${hash}`);
  if (framed) tell('keep', { parts: now().parts }).catch(() => null);
  compute();
});
when('answer', () => {
  drawParts();
  drawAnswer();
  drawMoves();
  if (by('save').open) drawSave();
});
when('view', () => {
  drawTools();
  drawParts();
  drawPlay();
});

// ---- buttons and keys

function fillMenus() {
  for (const [id, word] of [['new', 'New position'], ['add', 'Add a part']]) {
    const options = [...Object.keys(GAMES), 'form'].map((game) => element('option', { value: game }, game === 'form' ? 'Other game' : game === 'Toads' ? 'Toads and Frogs' : game === 'Strip' ? 'Strip (own rules)' : game === 'Octal' ? 'Octal game' : game));
    const endgame = id === 'new' ? [element('option', { value: 'endgame' }, 'Study: an endgame')] : [];
    by(id).replaceChildren(element('option', { value: '' }, word), ...options, ...endgame);
    by(id).addEventListener('change', (event) => {
      const game = event.target.value;
      event.target.value = '';
      if (!game) return;
      leaveGame();
      if (game === 'endgame') show(ENDGAME);
      else if (id === 'new') show([startPosition(game)], { places: [null] });
      else if (now().parts.length >= 24) toast('A sum has at most 24 parts.');
      else show([...now().parts, startPosition(game)]);
    });
  }
}

function leaveGame() {
  state.game = null;
  if (state.mode !== 'draw') look({ mode: 'draw' });
  drawPlay();
}

const ENDGAME = ['.|.|.|.', '......|##....', '##.###|##.###|##..##|....##|###.##|###...', '....|#...|#...|###.|###.', '..'].map((cells) => `Domineering("${cells}")`);

by('undo').addEventListener('click', () => go(state.at - 1));
by('redo').addEventListener('click', () => go(state.at + 1));
by('link').addEventListener('click', () => copy(address(), 'Address'));
by('stop').addEventListener('click', () => stopAll());
document.addEventListener('keydown', (event) => {
  if (event.key === 'Escape' && state.picked) look({ picked: null });
  if (!(event.ctrlKey || event.metaKey) || /INPUT|TEXTAREA/.test(event.target.tagName) && event.target.type !== 'radio') return;
  const key = event.key.toLowerCase();
  if (key === 'z' && !event.shiftKey) go(state.at - 1);
  else if (key === 'y' || key === 'z') go(state.at + 1);
  else return;
  event.preventDefault();
});
by('best').firstElementChild.addEventListener('change', (event) => { wish.best = event.target.checked; drawMoves(); });
by('turns').firstElementChild.addEventListener('change', (event) => { wish.turns = event.target.checked; });
by('play').addEventListener('toggle', drawPlay);
by('sheet').addEventListener('toggle', () => { if (by('sheet').open) openSheet(); });
by('save').addEventListener('toggle', () => { if (by('save').open) drawSave(); });
window.addEventListener('hashchange', () => {
  const found = positionOf(location.hash);
  if (found.length && found.join('\n') !== now().parts.join('\n')) {
    leaveGame();
    show(found, { places: found.map(() => null) });
  }
});
window.addEventListener('pagehide', () => { stopAll(); });

fillMenus();
drawSheet();
const opened = positionOf(location.hash);
show(opened.length ? opened : ['Domineering("...|...")']);
drawPlay();
