// Drawings of Hackenbush and graphs of Col and Snort, to draw and to move on.
import { NODES, VERTICES, symbolsOf } from './games.js';
import { EDGE_KINDS, edgePaths, make, sizeOf, vertexDrawn } from './draw.js';
import { drawingPlaces, edgesOf, graphPlaces } from './places.js';
import { Sketch } from './sketch.js';
import { element, movesOf, now, state, toast } from './state.js';

const WORDS = { b: 'blue', r: 'red', g: 'green' };

export function graphCard(at, part) {
  const card = part.game === 'Hackenbush' ? new Drawing(at, part) : new Graph(at, part);
  const drawn = card.drawn();
  if (state.mode !== 'draw') return drawn;
  const word = part.game === 'Hackenbush' ? 'Add an edge' : 'Add a vertex';
  const more = element('button', { 'data-focus': `${at}:more`, onclick: () => card.add() }, word);
  return element('div', { class: 'drawn' }, drawn, more);
}

class Drawing extends Sketch {
  drawn() {
    this.edges = edgesOf(this.part.texts[0]);
    this.places = { ...drawingPlaces(this.edges), ...(now().places[this.at] || {}) };
    this.fill();
    return this.svg;
  }

  fill() {
    const { width, height, ground } = sizeOf(this.places);
    const wide = Math.max(width, 240) + (this.drawing ? 60 : 0);
    if (!this.svg) this.canvas(wide, height + 30, 'Drawing of Hackenbush');
    this.svg.setAttribute('viewBox', `0 -30 ${wide} ${height + 30}`);
    const floor = make('g', {}, make('rect', { x: 0, y: ground - 8, width: wide, height: 20, class: 'hit' }), make('path', { d: `M4 ${ground}H${wide - 4}`, class: 'ground' }));
    this.svg.replaceChildren(this.thing(floor, `ground${this.picked('0')}`, 'v0', () => this.node('0')));
    edgePaths(this.edges, this.places, ground).forEach((d, k) => this.edge(d, k));
    for (const name of this.names()) this.vertex(name);
    this.svg.onclick = (event) => this.empty(event);
    this.ground = ground;
  }

  names() {
    return [...new Set(this.edges.flatMap(([a, , b]) => [a, b]))].filter((name) => name !== '0');
  }

  picked(name) {
    return state.picked?.node === name && state.picked.part === this.at ? ', picked' : '';
  }

  edge(d, k) {
    const text = this.edges[k];
    const group = make('g', {}, make('path', { d, class: 'hit' }), make('path', { d, class: `edge ${EDGE_KINDS[text[1]]}` }));
    const own = { L: 'bg', R: 'rg' }[state.mode] || '';
    if (own.includes(text[1])) group.classList.add('can');
    const again = this.edges.slice(0, k + 1).filter((one) => one === text).length;
    const name = again > 1 ? `${text}#${again}` : text;
    this.svg.append(this.thing(group, `edge ${name}, ${WORDS[text[1]]}`, `e${k}`, () => this.cut(k, name)));
  }

  cut(k, name) {
    if (!this.drawing) {
      this.play(name);
      return;
    }
    const edges = this.edges.slice();
    if (this.tool === 'remove') edges.splice(k, 1);
    else if ('brg'.includes(this.tool)) edges[k] = edges[k][0] + this.tool + edges[k][2];
    if (edges.length) this.set([edges.join(',')], this.places);
    else toast('A drawing has at least one edge.');
  }

  vertex(name) {
    const [x, y] = this.places[name];
    const group = make('g', {}, make('circle', { cx: x, cy: y, r: 13, class: 'hit' }), make('circle', { cx: x, cy: y, r: this.picked(name) ? 8 : 5, class: `node${this.picked(name) ? ' picked' : ''}` }));
    const label = make('text', { x: x + 9, y: y - 7, class: 'node-name' });
    label.textContent = name;
    group.append(label);
    group.addEventListener('pointerdown', () => this.grab(name));
    this.svg.append(this.thing(group, `vertex ${name}${this.picked(name)}`, `v${name}`, () => this.node(name)));
  }

  node(name) {
    if (!this.drawing) return;
    if (this.tool === 'remove' && name !== '0') {
      const edges = this.edges.filter(([a, , b]) => a !== name && b !== name);
      if (edges.length) this.set([edges.join(',')], this.places);
      return;
    }
    if (!'brg'.includes(this.tool)) return;
    const from = state.picked?.part === this.at ? state.picked.node : null;
    if (from === null || from === undefined) this.pick(name);
    else this.join(from, name);
  }

  pick(name) {
    state.picked = { part: this.at, node: name, cells: [] };
    this.fill();
    toast('Now click another vertex, the ground, or an empty place.');
  }

  join(from, to) {
    state.picked = null;
    if (this.edges.length >= 64) toast('A drawing has at most 64 edges.');
    else this.set([[...this.edges, from + this.tool + to].join(',')], this.places);
  }

  empty(event) {
    if (!this.drawing || this.moved || !'brg'.includes(this.tool)) return;
    const place = this.point(event);
    if (place[1] <= this.ground - 10) this.grow(place);
  }

  // An edge to a new vertex, from the one that is picked or from the ground.
  grow(place) {
    const from = state.picked?.part === this.at && state.picked.node !== undefined ? state.picked.node : '0';
    const used = this.names();
    const name = [...NODES.slice(1)].find((one) => !used.includes(one));
    if (!name) {
      toast('All names of vertices are taken.');
      return;
    }
    if (place) this.places[name] = place;
    else {
      const [x, y] = from === '0' ? [20 + 46 * used.length, this.ground] : this.places[from];
      this.places[name] = [x + (from === '0' ? 14 : 26), Math.max(16, y - 54)];
    }
    this.join(from, name);
  }

  add() {
    if (!'brg'.includes(this.tool)) this.tool = 'b';
    this.grow(null);
  }
}

class Graph extends Sketch {
  drawn() {
    [this.vertices, this.links] = [this.part.texts[0], edgesOf(this.part.texts[1])];
    this.places = { ...graphPlaces(this.vertices.length, this.part.texts[1]), ...(now().places[this.at] || {}) };
    this.fill();
    return this.svg;
  }

  fill() {
    const all = [...this.vertices].map((_, k) => this.places[VERTICES[k]]);
    const width = Math.max(260, ...all.map(([x]) => x + (this.drawing ? 70 : 26)));
    const height = Math.max(100, ...all.map(([, y]) => y + (this.drawing ? 60 : 30)));
    if (!this.svg) this.canvas(width, height, `Graph of ${this.part.game}`);
    this.svg.setAttribute('viewBox', `0 0 ${width} ${height}`);
    this.svg.replaceChildren();
    this.links.forEach((pair, k) => this.link(pair, k));
    [...this.vertices].forEach((symbol, k) => this.vertex(VERTICES[k], symbol));
    this.svg.onclick = (event) => this.empty(event);
  }

  link(pair, k) {
    const [a, b] = [this.places[pair[0]], this.places[pair[1]]];
    if (!a || !b) return;
    const d = `M${a}L${b}`;
    const group = make('g', {}, make('path', { d, class: 'hit' }), make('path', { d, class: 'link' }));
    if (!this.drawing) this.svg.append(group);
    else this.svg.append(this.thing(group, `edge ${pair[0]} ${pair[1]}`, `e${pair}`, () => { if (this.tool === 'remove') this.unlink(k); }));
  }

  unlink(k) {
    this.set([this.vertices, this.links.filter((_, at) => at !== k).join(',')], this.places);
  }

  vertex(name, symbol) {
    const picked = state.picked?.part === this.at && state.picked.node === name;
    const group = make('g', { class: picked ? 'picked' : '' }, ...vertexDrawn(name, symbol, this.places[name]));
    const can = movesOf(state.mode).some((move) => move.part === this.at && move.name === name);
    if (can) group.classList.add('can');
    group.addEventListener('pointerdown', () => this.grab(name));
    const word = symbolsOf(this.part)[symbol];
    this.svg.append(this.thing(group, `vertex ${name}, ${word}${picked ? ', picked' : ''}`, `v${name}`, () => this.node(name)));
  }

  node(name) {
    const at = VERTICES.indexOf(name);
    if (!this.drawing) this.play(name);
    else if ('.xo'.includes(this.tool)) this.set([this.vertices.slice(0, at) + this.tool + this.vertices.slice(at + 1), this.links.join(',')], this.places);
    else if (this.tool === 'edge') this.join(name);
    else if (this.tool === 'remove') this.without(at);
  }

  join(name) {
    const from = state.picked?.part === this.at ? state.picked.node : null;
    if (!from || from === name) {
      state.picked = from ? null : { part: this.at, node: name, cells: [] };
      this.fill();
      return;
    }
    state.picked = null;
    const known = this.links.some((pair) => pair === from + name || pair === name + from);
    if (known) toast('These two are joined already.');
    else this.set([this.vertices, [...this.links, from + name].join(',')], this.places);
  }

  // The graph without a vertex: those behind it get the name before theirs.
  without(at) {
    if (this.vertices.length === 1) {
      toast('A graph has at least one vertex.');
      return;
    }
    const renamed = (name) => VERTICES[VERTICES.indexOf(name) - (VERTICES.indexOf(name) > at ? 1 : 0)];
    const links = this.links.filter((pair) => !pair.includes(VERTICES[at])).map((pair) => [...pair].map(renamed).join(''));
    const places = {};
    [...this.vertices].forEach((_, k) => { if (k !== at) places[renamed(VERTICES[k])] = this.places[VERTICES[k]]; });
    this.set([this.vertices.slice(0, at) + this.vertices.slice(at + 1), links.join(',')], places);
  }

  empty(event) {
    if (!this.drawing || this.moved || !'.xo'.includes(this.tool)) return;
    this.grow(this.point(event));
  }

  grow(place) {
    if (this.vertices.length >= 52) {
      toast('A graph has at most 52 vertices.');
      return;
    }
    const places = { ...this.places, [VERTICES[this.vertices.length]]: place };
    this.set([this.vertices + ('.xo'.includes(this.tool) ? this.tool : '.'), this.links.join(',')], places);
  }

  add() {
    const last = Object.values(this.places).reduce(([x, y], [a, b]) => [Math.max(x, a), Math.max(y, b)], [0, 0]);
    this.grow([last[0] + 40, last[1]]);
  }
}

export function hintOf(part) {
  const drawing = state.mode === 'draw';
  if (part.game === 'Hackenbush') return drawing ? 'Click an empty place for a new edge from the ground; click a vertex first for one from there. Click an edge to change its colour.' : '';
  return drawing ? 'Click an empty place for a new vertex, a vertex to colour it. With Edge, click two vertices.' : '';
}

