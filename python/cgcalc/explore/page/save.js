// What can be taken along: an address, pictures, LaTeX, Python text, a session.
import { make, picture, textPicture } from './draw.js';
import { pythonOf } from './games.js';
import { element, now, renew, state, toast } from './state.js';

// The colours of pictures that leave the page, which have no style sheet there.
const STYLE = `.cell{fill:#fff;stroke:#555}.cell.filled{fill:#8a8f98}.stone.left circle,.vertex.left,.toad.left{fill:#1f5fbf}
.stone.right circle,.vertex.right,.toad.right{fill:#c4501b}.stone circle,.vertex{stroke:#222}.stone .sign{fill:none;stroke:#fff;stroke-width:2}
.stone.right circle.sign,.ring{fill:none;stroke:#fff;stroke-width:2}.vertex.free{fill:#fff}.letter{font:bold 12px sans-serif;text-anchor:middle;fill:#222}.letter.on{fill:#fff}
.edge{fill:none;stroke-width:5;stroke-linecap:round}.edge.blue{stroke:#1f5fbf}.edge.red{stroke:#c4501b;stroke-dasharray:11 6}.edge.green{stroke:#2e8b57;stroke-dasharray:1 8}
.form{font:15px monospace;text-anchor:middle;fill:#222}.ground{stroke:#222;stroke-width:3}.node{fill:#222}.link{stroke:#222;stroke-width:2}.token{fill:#2e8b57;stroke:#222}`;

export function download(name, content, type = 'text/plain') {
  const blob = content instanceof Blob ? content : new Blob([content], { type });
  const address = URL.createObjectURL(blob);
  element('a', { href: address, download: name }).click();
  setTimeout(() => URL.revokeObjectURL(address), 10000);
}

export async function copy(text, what) {
  try {
    await navigator.clipboard.writeText(text);
    toast(`${what} copied.`);
  } catch {
    window.prompt('Copy this text:', text);
  }
}

export function address() {
  return `${location.origin}/${fragment()}`;
}

export function fragment() {
  return `#${now().parts.map((part) => `g=${encodeURIComponent(part)}`).join('&')}`;
}

export function positionOf(hash) {
  const found = new URLSearchParams(hash.replace(/^#/, '').replace(/\+/g, '%2B')).getAll('g');
  return found.map((text) => text.trim()).filter(Boolean).slice(0, 24);
}

// All parts of the position in one picture.
export function positionPicture() {
  const drawn = now().parts.map((text, at) => picture(text, { places: now().places[at] }) || textPicture(text));
  if (!drawn.length) return null;
  const sizes = drawn.map((one) => [Number(one.getAttribute('width')), Number(one.getAttribute('height'))]);
  const whole = document.createElementNS('http://www.w3.org/2000/svg', 'svg');
  const width = sizes.reduce((sum, [wide]) => sum + wide + 24, 8);
  const height = Math.max(...sizes.map(([, high]) => high)) + 16;
  for (const [name, value] of Object.entries({ xmlns: 'http://www.w3.org/2000/svg', width, height, viewBox: `0 0 ${width} ${height}` })) whole.setAttribute(name, value);
  const style = document.createElementNS('http://www.w3.org/2000/svg', 'style');
  style.textContent = STYLE;
  whole.append(style);
  let x = 12;
  drawn.forEach((one, at) => {
    one.setAttribute('x', x);
    one.setAttribute('y', (height - sizes[at][1]) / 2);
    if (at) {
      whole.append(make('text', { x: x - 12, y: height / 2 + 5, class: 'form' }));
      whole.lastChild.textContent = '+';
    }
    whole.append(one);
    x += sizes[at][0] + 24;
  });
  return new XMLSerializer().serializeToString(whole);
}

function png(svg, name) {
  const image = new Image();
  image.onload = () => {
    const canvas = element('canvas', { width: image.width * 2, height: image.height * 2 });
    const pen = canvas.getContext('2d');
    pen.fillStyle = '#fff';
    pen.fillRect(0, 0, canvas.width, canvas.height);
    pen.drawImage(image, 0, 0, canvas.width, canvas.height);
    canvas.toBlob((blob) => download(name, blob));
  };
  image.src = `data:image/svg+xml;charset=utf-8,${encodeURIComponent(svg)}`;
}

function both(word, name, draws) {
  const act = (call) => () => {
    const svg = draws();
    if (svg) call(svg);
    else toast('There is no picture of this position.');
  };
  return element('p', {}, `${word} `,
    element('button', { id: `svg-${name}`, onclick: act((svg) => download(`${name}.svg`, svg, 'image/svg+xml')) }, 'SVG'),
    element('button', { id: `png-${name}`, onclick: act((svg) => png(svg, `${name}.png`)) }, 'PNG'));
}

function text(label, content, id) {
  const field = element('textarea', { id, readonly: true, rows: Math.min(6, content.split('\n').length), 'aria-label': label, spellcheck: 'false' });
  field.value = content;
  return element('div', { class: 'export' }, element('span', {}, label), field, element('button', { onclick: () => copy(content, label) }, 'Copy'));
}

export function drawSave() {
  const value = state.answer?.value;
  const inside = document.querySelector('#save .inside');
  const texts = now().parts;
  const words = [...new Set(texts.map((one) => pythonOf(one).replace(/^-/, '').split('(')[0]))];
  const python = `from cgcalc import ${words.sort().join(', ') || 'Game'}\n\ng = ${texts.map(pythonOf).join(' + ').replace(/\+ -/g, '- ') || 'Game("0")'}\n`;
  renew(inside,
    text('Address', address(), 'address'),
    both('Picture of the position', 'position', positionPicture),
    both('Thermograph', 'thermograph', () => state.answer?.thermo?.svg),
    text('Text', state.answer?.expression || texts.join(' + ') || '0', 'notation'),
    ...(value?.name ? [text('Value', value.name, 'value-text'), text('LaTeX', value.latex, 'latex')] : []),
    text('Python', python, 'python'),
    element('p', {}, 'Session for cg ', element('button', { id: 'session', onclick: () => download('position.cg', sessionText()) }, 'Save')),
  );
}

export function sessionText() {
  const whole = state.answer?.expression || now().parts.join(' + ') || '0';
  return `cg 2\n${['value', 'outcome', 'stops', 'thermo'].map((word) => `${word} ${whole}`).join('\n')}\n`;
}
