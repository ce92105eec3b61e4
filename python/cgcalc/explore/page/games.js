// The games: their symbols, the texts of their positions, and positions to begin with.
export const VERTICES = 'abcdefghijklmnopqrstuvwxyzABCDEFGHIJKLMNOPQRSTUVWXYZ';
export const NODES = '0123456789ABCDEFGHIJKLMNOPQRSTUVWXYZ';
export const NAMES = { L: 'Left', R: 'Right' };

const TOADS = '.=0,0,0;T=0,0,1;F=0,1,0;L:T.>.T;L:TF.>.FT;R:.F>F.;R:.TF>FT.';

export const GAMES = {
  Domineering: { kind: 'grid', symbols: { '.': 'empty', '#': 'filled' }, fill: '.', start: ['....|....|....|....'],
    left: 'fills two empty cells, one above the other', right: 'fills two empty cells side by side' },
  Clobber: { kind: 'grid', symbols: { x: 'Left', o: 'Right', '.': 'empty' }, fill: '.', start: ['xoxo|oxox|xoxo'],
    left: 'moves an x onto an o beside it, which is removed', right: 'moves an o onto an x beside it, which is removed' },
  Amazons: { kind: 'grid', symbols: { '.': 'empty', x: 'Left', o: 'Right', '#': 'blocked' }, fill: '.', start: ['x..|...|..o'],
    left: 'moves an x as a queen and shoots an arrow from there', right: 'moves an o as a queen and shoots an arrow from there' },
  Toads: { kind: 'row', symbols: { '.': 'empty', T: 'toad', F: 'frog' }, fill: '.', start: ['TTT..FFF'],
    left: 'moves a toad to the right, or over one frog', right: 'moves a frog to the left, or over one toad' },
  Strip: { kind: 'row', fill: '.', start: [TOADS, 'TT..FF'],
    left: 'uses a rule that begins with L', right: 'uses a rule that begins with R' },
  Hackenbush: { kind: 'drawing', start: ['0b1,1r2,2b3,1g4,0r5,5r6,6b7'],
    left: 'cuts a blue or green edge', right: 'cuts a red or green edge' },
  Col: { kind: 'graph', symbols: { '.': 'free', x: 'Left', o: 'Right' }, start: ['.....', 'ab,bc,cd,de,ea'],
    left: 'colours a free vertex without a neighbour of Left’s', right: 'colours a free vertex without a neighbour of Right’s' },
  Snort: { kind: 'graph', symbols: { '.': 'free', x: 'Left', o: 'Right' }, start: ['.....', 'ab,bc,cd,de'],
    left: 'colours a free vertex without a neighbour of Right’s', right: 'colours a free vertex without a neighbour of Left’s' },
  Octal: { kind: 'heap', start: ['0.77'], tokens: 9,
    left: 'takes tokens as the code says', right: 'takes tokens as the code says' },
};

const WRITTEN = /^(-?)\s*([A-Z][a-z]+)\s*\(\s*"([^"]*)"\s*(?:,\s*(?:"([^"]*)"|(\d{1,30}))\s*)?\)$/;

// A part of a sum: a game with its texts, or a text alone.
export function readPart(text) {
  const found = WRITTEN.exec(text.trim());
  const game = found && GAMES[found[2]];
  const texts = found ? [found[3], ...(found[4] === undefined ? [] : [found[4]])] : [];
  const tokens = found && found[5] !== undefined ? Number(found[5]) : null;
  if (!game || texts.length !== game.start.length || (tokens === null) !== (found[2] !== 'Octal')) {
    return { game: null, text: text.trim() };
  }
  return { game: found[2], minus: found[1] === '-', texts, tokens };
}

export function textOf(part) {
  if (!part.game) return part.text;
  const texts = part.texts.map((text) => `"${text}"`);
  if (part.tokens !== null && part.tokens !== undefined) texts.push(String(part.tokens));
  return `${part.minus ? '-' : ''}${part.game}(${texts.join(',')})`;
}

// The part in the language of the Python package.
export function pythonOf(text) {
  const part = readPart(text);
  if (!part.game) return `Game(${JSON.stringify(text)})`;
  const texts = part.texts.map((one) => JSON.stringify(one));
  if (part.tokens !== null) texts.push(String(part.tokens));
  return `${part.minus ? '-' : ''}${part.game.toLowerCase()}(${texts.join(', ')})`;
}

export function startOf(game) {
  const { start, tokens = null } = GAMES[game];
  return textOf({ game, minus: false, texts: start, tokens });
}

// The symbols of a part, with a word for each.
export function symbolsOf(part) {
  if (part.game !== 'Strip') return GAMES[part.game].symbols || {};
  const found = {};
  for (const weight of part.texts[0].split(';')) {
    if (/^[A-Za-z.]=/.test(weight)) found[weight[0]] = weight[0] === '.' ? 'point' : weight[0];
  }
  return found;
}

export function rowsOf(part) {
  return GAMES[part.game].kind === 'row' ? [part.texts.at(-1)] : part.texts[0].split('|');
}

export function withRows(part, rows) {
  const cells = rows.join('|');
  return { ...part, texts: [...part.texts.slice(0, -1), cells] };
}

// A cell's name: its column's letter and its row's number, from the top.
export function cellName(down, right) {
  const letters = VERTICES.slice(0, 26);
  const again = Math.floor(right / 26);
  return `${again ? letters[again - 1] : ''}${letters[right % 26]}${down + 1}`;
}

// The cells that a move's name tells, in the order in which they are clicked.
export function cellsOf(part, name) {
  if (part.game === 'Toads') return name.split('-').map((cell) => cellName(0, Number(cell) - 1));
  if (part.game === 'Strip') {
    const [, pattern, at] = /^(.*)>.* at (\d+)$/.exec(name);
    return [...pattern].map((_, k) => cellName(0, Number(at) - 1 + k));
  }
  return name.split(/[-/]/);
}
