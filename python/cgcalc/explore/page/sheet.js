// A worksheet: names and questions in the language, answered as cg answers them.
import { ask, tell } from './ask.js';
import { written } from './written.js';
import { download } from './save.js';
import { element, html, now, show, state, toast } from './state.js';

let lines = [{ text: 'g := {2|-1} + ^', answer: null }, { text: 'thermo g', answer: null }];
let begun = false;

export function drawSheet() {
  const inside = document.querySelector('#sheet .inside');
  const rows = lines.map((line, at) => row(line, at));
  inside.replaceChildren(
    element('p', {}, 'Type a question such as ', element('code', {}, 'compare g ; 0'), ' or a definition such as ', element('code', {}, 'g := {2|-1}'), ', and press Enter. The Tab key completes words.'),
    element('ol', { class: 'lines' }, ...rows),
    element('datalist', { id: 'words' }),
    element('div', { class: 'row' },
      element('button', { id: 'position-line', onclick: usePosition }, 'Add the position'),
      element('button', { id: 'save-sheet', onclick: () => download('session.cg', sheetText()) }, 'Save as a session'),
      element('label', { class: 'file' }, 'Load a session ', element('input', { type: 'file', id: 'load-sheet', accept: '.cg,.txt,text/plain', onchange: load })),
      element('button', { onclick: () => { lines = [{ text: '', answer: null }]; drawSheet(); } }, 'Clear')),
  );
}

function row(line, at) {
  const input = element('input', {
    value: line.text, spellcheck: 'false', autocomplete: 'off', 'aria-label': `Line ${at + 1}`, list: 'words', 'data-line': at,
    oninput: () => { line.text = input.value; },
    onkeydown: (event) => keys(event, at, input),
    onchange: () => { line.text = input.value; answer(); },
  });
  return element('li', {}, input, answerShown(line.answer, line.text));
}

function answerShown(answer, text) {
  if (!answer || !Object.keys(answer).length) return element('output', {});
  if (answer.refused) return element('output', { class: 'refused' }, `${answer.sentence} (${answer.refused}) ${answer.advice || ''}`);
  const shown = answer.shown ? written(answer.shown) : '';
  const output = html('output', {}, shown || '');
  if (!shown) output.textContent = answer.text;
  const opens = answer.shown && element('button', { class: 'small', title: 'Show this in the explorer', onclick: () => show([openText(text, answer)]) }, 'Open');
  if (opens) output.append(' ', opens);
  return output;
}

function openText(text, answer) {
  const asked = text.replace(/^\s*(value\s+|[a-uw-z][a-z0-9]*\s*:=\s*)/, '').trim();
  return /^-?[A-Z][a-z]+\s*\(/.test(asked) ? asked : answer.name;
}

function keys(event, at, input) {
  if (event.key === 'Enter') {
    event.preventDefault();
    lines[at].text = input.value;
    if (at === lines.length - 1 && input.value.trim()) lines.push({ text: '', answer: null });
    answer().then(() => document.querySelector(`#sheet [data-line="${Math.min(at + 1, lines.length - 1)}"]`)?.focus());
  } else if (event.key === 'Tab' && !event.shiftKey && input.value && input.selectionEnd === input.value.length) {
    complete(event, input);
  } else if (event.key === 'Backspace' && !input.value && lines.length > 1) {
    event.preventDefault();
    lines.splice(at, 1);
    drawSheet();
    document.querySelector(`#sheet [data-line="${Math.max(at - 1, 0)}"]`)?.focus();
  }
}

function names() {
  return lines.map(({ text }) => /^\s*([a-uw-z][a-z0-9]{0,15})\s*:=/.exec(text)?.[1]).filter(Boolean);
}

function complete(event, input) {
  const last = /[^\s{}|,;()+\-*^/."]+$/.exec(input.value);
  if (!last) return;
  event.preventDefault();
  tell('complete', { line: input.value, names: names() }).then(({ lines: found }) => {
    if (!found.length) return;
    const common = found.reduce((one, other) => {
      let k = 0;
      while (k < one.length && one[k] === other[k]) k += 1;
      return one.slice(0, k);
    });
    input.value = common.length > input.value.length ? common : input.value;
    input.dispatchEvent(new Event('input'));
    document.getElementById('words').replaceChildren(...found.map((value) => element('option', { value })));
    if (found.length > 1) toast(found.map((one) => one.slice(one.lastIndexOf(' ') + 1)).join('  '));
  }).catch((error) => toast(error.message));
}

export async function answer() {
  begun = true;
  const told = await ask('lines', { lines: lines.map(({ text }) => text) }).catch((error) => ({ error: error.message }));
  if (told.error || told.stopped) toast(told.error || `No answers: ${told.stopped}.`);
  else told.answers.forEach((one, at) => { if (lines[at]) lines[at].answer = one; });
  showAnswers();
}

// Who types meanwhile goes on: only the answers are drawn anew, where there are no more lines than before.
function showAnswers() {
  const shown = document.querySelectorAll('#sheet .lines output');
  if (shown.length !== lines.length) drawSheet();
  else shown.forEach((output, at) => output.replaceWith(answerShown(lines[at].answer, lines[at].text)));
}

export function openSheet() {
  drawSheet();
  if (!begun) answer();
}

function usePosition() {
  const used = names();
  const name = ['g', 'h', 'k', 'p', 'q', 'r', ...Array.from({ length: 99 }, (_, k) => `g${k + 1}`)].find((one) => !used.includes(one));
  const text = `${name} := ${state.answer?.expression || now().parts.join(' + ') || '0'}`;
  if (lines.length && !lines.at(-1).text.trim()) lines.pop();
  lines.push({ text, answer: null }, { text: '', answer: null });
  drawSheet();
  answer();
}

function sheetText() {
  const texts = lines.map(({ text }) => text).filter((text) => text.trim());
  return `${[...(texts[0]?.trim() === 'cg 2' ? [] : ['cg 2']), ...texts].join('\n')}\n`;
}

async function load(event) {
  const [file] = event.target.files;
  if (!file) return;
  const texts = (await file.text()).split('\n').map((line) => line.replace(/\r$/, '')).filter((line) => line.trim());
  if (texts.length > 199) toast('A worksheet has at most 200 lines; the first of the file are taken.');
  lines = [...texts.slice(0, 199), ''].map((text) => ({ text, answer: null }));
  drawSheet();
  answer();
}
