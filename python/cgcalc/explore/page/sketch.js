// What drawings and graphs have in common: a canvas with things that are clicked, dragged and reached by keys.
import { make } from './draw.js';
import { makeMove, movesOf, now, setPart, show, state, toast } from './state.js';

// What the brush does on a part: a colour, `edge`, `move` or `remove`.
export function toolsOf(part) {
  if (part.game === 'Hackenbush') return { b: 'Blue edge', r: 'Red edge', g: 'Green edge', move: 'Move', remove: 'Remove' };
  return { '.': 'Free', x: 'Left', o: 'Right', edge: 'Edge', move: 'Move', remove: 'Remove' };
}

export function toolOf(part) {
  const tools = Object.keys(toolsOf(part));
  return tools.includes(state.brush) ? state.brush : tools[0];
}

export class Sketch {
  constructor(at, part) {
    Object.assign(this, { at, part, tool: toolOf(part), from: null });
    this.drawing = state.mode === 'draw';
  }

  canvas(width, height, label) {
    this.svg = make('svg', { viewBox: `0 0 ${width} ${height}`, class: 'sketch', role: 'group', 'aria-label': label });
    this.svg.style.width = `${width}px`;
    this.svg.addEventListener('pointermove', (event) => this.drag(event));
    this.svg.addEventListener('pointerup', (event) => this.drop(event));
    return this.svg;
  }

  point(event) {
    const place = new DOMPoint(event.clientX, event.clientY).matrixTransform(this.svg.getScreenCTM().inverse());
    return [Math.round(place.x), Math.round(place.y)];
  }

  // A thing that is clicked, dragged or reached by keys.
  thing(node, label, focus, act) {
    node.setAttribute('tabindex', '0');
    node.setAttribute('role', 'button');
    node.setAttribute('aria-label', label);
    node.setAttribute('data-focus', `${this.at}:${focus}`);
    node.classList.add('thing');
    node.addEventListener('click', (event) => { event.stopPropagation(); act(); });
    node.addEventListener('keydown', (event) => {
      if (event.key === 'Enter' || event.key === ' ') {
        event.preventDefault();
        act();
      }
    });
    return node;
  }

  play(name) {
    const move = movesOf(state.mode).find((one) => one.part === this.at && one.name === name);
    if (move) makeMove({ ...move, player: state.mode });
    else if (state.moves || state.listed) toast('No move there.');
  }

  keep(places) {
    const kept = now().places.slice();
    kept[this.at] = places;
    return kept;
  }

  set(texts, places) {
    setPart(this.at, { ...this.part, texts }, { places: this.keep(places) });
  }

  grab(name) {
    this.held = this.drawing && this.tool === 'move' ? name : null;
  }

  drag(event) {
    if (this.held && event.buttons) {
      this.places[this.held] = this.point(event).map((one) => Math.max(16, Math.min(one, 900)));
      this.moved = true;
      this.fill();
    }
  }

  drop() {
    if (this.moved) show(now().parts, { places: this.keep({ ...this.places }) });
    this.held = null;
  }
}
