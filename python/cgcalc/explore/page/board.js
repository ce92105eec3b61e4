// The position as cards, one a part: boards to draw on, or to move on.
import { GAMES, NAMES, cellName, cellsOf, readPart, rowsOf, startOf, symbolsOf, textOf, withRows } from './games.js';
import { make, symbolDrawn } from './draw.js';
import { graphCard } from './graphs.js';
import { fraction, written } from './written.js';
import { element, html, look, makeMove, movesOf, now, parts, renew, setPart, show, state, toast } from './state.js';

const ORDERED = ['Clobber', 'Amazons', 'Toads'];
let stroke = 0;
let painting = null;

document.addEventListener('pointerup', () => { painting = null; });
document.addEventListener('pointercancel', () => { painting = null; });

// ---- cells

function paint(at, down, right, symbol) {
  const part = parts()[at];
  const rows = rowsOf(part).map((row) => [...row]);
  if (rows[down][right] === symbol) return;
  rows[down][right] = symbol;
  setPart(at, withRows(part, rows.map((row) => row.join(''))), { stroke });
}

function startPaint(at, down, right) {
  const part = parts()[at];
  const old = rowsOf(part)[down][right];
  const brush = brushOf(part);
  stroke += 1;
  painting = { at, symbol: old === brush ? blankOf(part, brush) : brush };
  paint(at, down, right, painting.symbol);
}

function blankOf(part, brush) {
  const symbols = Object.keys(symbolsOf(part));
  return brush !== '.' && symbols.includes('.') ? '.' : symbols.find((one) => one !== brush) || brush;
}

export function brushOf(part) {
  const symbols = Object.keys(symbolsOf(part));
  const first = part.game === 'Domineering' || part.game === 'Amazons' ? '#' : symbols.find((one) => one !== '.');
  return symbols.includes(state.brush) ? state.brush : first || symbols[0];
}

// The moves that fit what is picked on a part.
export function fitting(at, cells) {
  const part = parts()[at];
  const mine = movesOf(state.mode).filter((move) => move.part === at);
  return mine.filter((move) => {
    const way = cellsOf(part, move.name);
    return ORDERED.includes(part.game) ? cells.every((cell, k) => way[k] === cell) : cells.every((cell) => way.includes(cell));
  });
}

function pick(at, cell) {
  const part = parts()[at];
  const before = state.picked?.part === at ? state.picked.cells : [];
  let cells = before.includes(cell) && !ORDERED.includes(part.game) ? [cell] : [...before, cell];
  if (!fitting(at, cells).length) cells = [cell];
  const moves = fitting(at, cells);
  const whole = moves.filter((move) => cellsOf(part, move.name).length === cells.length);
  if (!moves.length) {
    look({ picked: null });
    if (state.moves || state.listed) toast(`${NAMES[state.mode]} has no move from ${cell}.`);
  } else if (moves.length === 1 && (part.game !== 'Amazons' && part.game !== 'Clobber')) makeMove({ ...moves[0], player: state.mode });
  else if (whole.length === 1) makeMove({ ...whole[0], player: state.mode });
  else look({ picked: { part: at, cells } });
}

function cellWord(part, symbol) {
  const word = symbolsOf(part)[symbol] || symbol;
  return { Left: 'Left’s', Right: 'Right’s' }[word] || word;
}

function cellButton(at, part, down, right, symbol) {
  const name = cellName(down, right);
  const picked = state.picked?.part === at && state.picked.cells.includes(name);
  const can = state.mode !== 'draw' && fitting(at, state.picked?.part === at ? state.picked.cells : [])
    .some((move) => {
      const way = cellsOf(part, move.name);
      return ORDERED.includes(part.game) ? way[state.picked?.part === at ? state.picked.cells.length : 0] === name : way.includes(name);
    });
  const wrong = state.answer?.parts[at]?.wrong === `${down},${right}`;
  const button = element('button', {
    class: `cell${symbol === '#' ? ' filled' : ''}${picked ? ' picked' : ''}${can ? ' can' : ''}${wrong ? ' wrong' : ''}`,
    role: 'gridcell', 'aria-label': `${name}: ${cellWord(part, symbol)}`, 'data-focus': `${at}:${down},${right}`,
    'aria-selected': picked ? 'true' : null, tabindex: down + right === 0 ? '0' : '-1',
    onpointerdown: (event) => {
      if (state.mode !== 'draw' || event.button > 0) return;
      event.target.releasePointerCapture?.(event.pointerId);
      startPaint(at, down, right);
    },
    onpointerenter: () => { if (painting?.at === at && state.mode === 'draw') paint(at, down, right, painting.symbol); },
    onclick: (event) => {
      if (state.mode !== 'draw') pick(at, name);
      else if (event.detail === 0) startPaint(at, down, right);
    },
    onkeydown: (event) => walk(event, at, down, right),
  });
  const svg = make('svg', { viewBox: '0 0 40 40', 'aria-hidden': 'true' });
  svg.append(...symbolDrawn(part.game, symbol, 20, 20, 40));
  button.append(svg);
  return button;
}

function walk(event, at, down, right) {
  const steps = { ArrowUp: [-1, 0], ArrowDown: [1, 0], ArrowLeft: [0, -1], ArrowRight: [0, 1] };
  const step = steps[event.key];
  if (event.key === 'Enter' || event.key === ' ') painting = null;
  if (!step) return;
  event.preventDefault();
  const next = document.querySelector(`[data-focus="${at}:${down + step[0]},${right + step[1]}"]`);
  next?.focus();
}

function gridCard(at, part) {
  const rows = rowsOf(part);
  const columns = Math.max(...rows.map((row) => row.length), 1);
  const grid = element('div', { class: `grid ${part.game.toLowerCase()}`, role: 'grid', 'aria-label': `Board of ${part.game}` });
  grid.style.setProperty('--columns', columns);
  grid.append(element('span', { class: 'corner', 'aria-hidden': 'true' }));
  for (let right = 0; right < columns; right += 1) {
    grid.append(element('span', { class: 'label', 'aria-hidden': 'true' }, GAMES[part.game].kind === 'row' ? String(right + 1) : cellName(0, right).replace(/\d+/, '')));
  }
  rows.forEach((row, down) => {
    const line = element('div', { role: 'row', class: 'line' });
    line.append(element('span', { class: 'label', 'aria-hidden': 'true' }, GAMES[part.game].kind === 'row' ? '' : String(down + 1)));
    for (let right = 0; right < columns; right += 1) {
      line.append(row[right] === undefined ? element('span', { class: 'cell none' }) : cellButton(at, part, down, right, row[right]));
    }
    grid.append(line);
  });
  return grid;
}

function resized(part, rows, columns) {
  const fill = GAMES[part.game].fill;
  const old = rowsOf(part);
  const first = Object.keys(symbolsOf(part)).includes(fill) ? fill : Object.keys(symbolsOf(part))[0];
  const made = [];
  for (let down = 0; down < rows; down += 1) made.push((old[down] || '').slice(0, columns).padEnd(columns, first));
  return withRows(part, made);
}

function sizes(at, part) {
  const rows = rowsOf(part);
  const columns = rows[0].length;
  const size = (word, count, change) => element('span', { class: 'size' }, `${word} `,
    element('button', { 'data-focus': `${at}:fewer ${word}`, 'aria-label': `One ${word.slice(0, -1).toLowerCase()} fewer`, disabled: count <= 1, onclick: () => change(-1) }, '\u2212'),
    element('b', {}, String(count)),
    element('button', { 'data-focus': `${at}:more ${word}`, 'aria-label': `One ${word.slice(0, -1).toLowerCase()} more`, disabled: more(word, rows.length, columns) > 64, onclick: () => change(1) }, '+'));
  const line = GAMES[part.game].kind === 'row';
  return element('div', { class: 'sizes' },
    line ? null : size('Rows', rows.length, (by) => setPart(at, resized(part, rows.length + by, columns))),
    size(line ? 'Cells' : 'Columns', columns, (by) => setPart(at, resized(part, rows.length, columns + by))),
    element('button', { 'data-focus': `${at}:clear`, onclick: () => setPart(at, resized(withRows(part, ['']), rows.length, columns)) }, 'Clear'));
}

function more(word, rows, columns) {
  return word === 'Rows' ? (rows + 1) * columns : rows * (columns + 1);
}

// ---- heaps, and forms that are no boards

function heapCard(at, part) {
  const change = (texts, tokens) => setPart(at, { ...part, texts, tokens });
  return element('div', { class: 'heap' },
    element('label', {}, 'Code ', element('input', { value: part.texts[0], size: 12, 'data-focus': `${at}:code`, onchange: (event) => change([event.target.value.trim()], part.tokens) })),
    element('label', {}, 'Tokens ', element('input', { type: 'number', min: 0, max: 1000, value: part.tokens, 'data-focus': `${at}:tokens`, onchange: (event) => change(part.texts, Math.max(0, Math.floor(Number(event.target.value)) || 0)) })),
    element('p', { class: 'tokens', 'aria-hidden': 'true' }, '●'.repeat(Math.min(part.tokens, 120)) || 'none'));
}

function rulesField(at, part) {
  const apply = (event) => setPart(at, { ...part, texts: [event.target.value.trim(), part.texts[1]] });
  return element('label', { class: 'notation' }, element('span', {}, 'Rules'),
    element('input', { value: part.texts[0], spellcheck: 'false', autocomplete: 'off', 'data-focus': `${at}:rules`, onchange: apply }));
}

function textField(at, part) {
  const apply = (event) => {
    const text = event.target.value.trim();
    if (!text || text === textOf(part)) return;
    const texts = now().parts.slice();
    texts[at] = text;
    const places = now().places.slice();
    places[at] = null;
    show(texts, { places });
  };
  return element('label', { class: 'notation' }, element('span', {}, 'Text'),
    element('input', { value: textOf(part), spellcheck: 'false', autocomplete: 'off', 'data-focus': `${at}:text`, onchange: apply }));
}

function valueLine(at) {
  const told = state.answer?.parts[at];
  if (!told) return element('p', { class: 'part-value' });
  if (told.value.refused) return refusalShown(told);
  const heat = told.temperature === undefined ? '' : `<span>temperature ${fraction(told.temperature)}</span>`;
  return html('p', { class: 'part-value' }, now().parts.length > 1 ? `<span class="line">${written(told.value.shown)}</span> ${heat}` : '');
}

// A refusal, and the text around its place.
function refusalShown({ text, value, spot }) {
  const line = element('p', { class: 'part-value refused' }, `${value.sentence} (${value.refused})`);
  if (spot === null || spot === undefined) return line;
  const before = text.slice(Math.max(0, spot - 24), spot);
  const behind = text.slice(spot + 1, spot + 25);
  line.append(element('code', { class: 'spot' }, before, element('mark', {}, text[spot] || '\u00a0'), behind));
  return line;
}

function card(at, part) {
  const many = now().parts.length > 1;
  const kind = part.game ? GAMES[part.game].kind : 'form';
  const head = element('div', { class: 'head' },
    element('h2', {}, `${many ? `${at + 1}. ` : ''}${part.minus ? 'Negative of ' : ''}${part.game || 'A game'}`),
    part.game && !state.game ? element('button', { 'data-focus': `${at}:negative`, title: 'Replace this part by its negative', 'aria-label': `Negative of part ${at + 1}`, onclick: () => setPart(at, { ...part, minus: !part.minus }) }, '±') : null,
    many && !state.game ? element('button', { 'data-focus': `${at}:part`, title: 'Remove this part', 'aria-label': `Remove part ${at + 1}`, onclick: () => remove(at) }, '×') : null);
  const bodies = { grid: gridCard, row: gridCard, drawing: graphCard, graph: graphCard, heap: heapCard };
  const body = bodies[kind] ? bodies[kind](at, part) : html('p', { class: 'form' }, written(part.text));
  const drawn = state.mode === 'draw' && (kind === 'grid' || kind === 'row') ? sizes(at, part) : null;
  const rules = part.game === 'Strip' && !state.game ? rulesField(at, part) : null;
  return element('article', { class: `card kind-${kind}`, 'aria-label': `Part ${at + 1}` }, head, body, drawn, rules, state.game ? null : textField(at, part), valueLine(at));
}

function remove(at) {
  const { parts: texts, places } = now();
  show(texts.filter((_, k) => k !== at), { places: places.filter((_, k) => k !== at) });
}

// Draws all parts anew.
export function drawParts() {
  markPlace();
  const cards = parts().map((part, at) => {
    try {
      return card(at, part);
    } catch {
      return element('article', { class: 'card' }, textField(at, part), valueLine(at));
    }
  });
  if (!cards.length) cards.push(element('p', { class: 'quiet' }, 'Nothing is left: the position is 0.'));
  const plus = () => element('span', { class: 'plus', 'aria-hidden': 'true' }, '+');
  renew(document.getElementById('parts'), ...cards.flatMap((one, at) => (at ? [plus(), one] : [one])));
}

// Finds the cell at which a board was refused.
function markPlace() {
  (state.answer?.parts || []).forEach((told, at) => {
    const { cause, place } = told.value || {};
    if (!cause || !['symbol', 'ragged', 'large'].includes(cause)) return;
    const part = readPart(now().parts[at]);
    if (!part.game || !['grid', 'row'].includes(GAMES[part.game].kind)) return;
    const before = part.texts.at(-1).slice(0, place - 1);
    const down = GAMES[part.game].kind === 'row' ? 0 : before.split('|').length - 1;
    told.wrong = `${down},${GAMES[part.game].kind === 'row' ? before.length : before.split('|').at(-1).length}`;
  });
}

export function startPosition(game) {
  return game === 'form' ? '{2|-1}' : startOf(game);
}
