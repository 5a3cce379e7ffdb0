// What the page has: the state that the server keeps, what is in hand, and where we are; and how elements are made.
import { Drawing, Strip } from './draw.js';
import { shown } from './text.js';

export const byId = id => document.getElementById(id);
export const [stage, drawn, hand, list, search, placeBox, sequenceBox, savedBox, saidBox, lostBox, foundBox, help, strips] =
  ['stage', 'drawing', 'hand', 'list', 'search', 'place', 'sequence', 'saved', 'said', 'lost', 'found', 'help', 'strip'].map(byId);
export const drawing = new Drawing(drawn), strip = new Strip(strips);

export const desk = {
  state: null, view: null, region: null, overview: null, tab: 'corrections',
  at: null, // the number of the correction that the list is at
  picked: [], // the selected records, as their columns; the first one is the main one
  draft: null, // lines that aren't sent yet, with the verdict of their try: see drafts.js
  item: null, // the number of the line of the worklist that is decided about
  changes: null, snap: null, area: null, pointer: null, // where the pointer was last, in bases
  times: [], tries: [], // how long edits and their previews took, to the pixels in ms: for the tests
};
window.desk = desk;

// Elements are made of texts alone, so that no name is ever read as HTML.
export function el(name, attributes = {}, ...children) {
  const element = document.createElement(name);
  for (const [key, value] of Object.entries(attributes)) {
    if (/^on(click|input|submit|keydown)$/.test(key)) element[key] = value;
    else if (key === 'value') element.value = value;
    else if (value === true) element.setAttribute(key, '');
    else if (value !== undefined && value !== false && value !== null) element.setAttribute(key, value);
  }
  element.append(...children.flat(2).filter(child => child !== null && child !== undefined && child !== false));
  return element;
}
export const name = text => el('bdi', {}, shown(text));
export const key = text => el('kbd', {}, text);
export const button = (text, keys, onclick, more = {}) => el('button', { type: 'button', onclick, ...more }, text, keys ? [' ', key(keys)] : null);
export const say = text => { saidBox.textContent = text; };
export const focusOn = id => { const element = byId(id); if (element) { element.focus(); if (element.select) element.select(); } };

export const columns = () => desk.state.columns;
export const lengthOf = sequence => (desk.state.sequences.find(one => one[0] === sequence) || [0, 0])[1];
export const span = () => desk.view.end - desk.view.start;
export const current = () => desk.item === null || !desk.state.worklist ? null : desk.state.worklist.items.find(one => one.number === desk.item) || null;
export const main = () => desk.picked[0] || null;

// The records that an answer says went and came, with all columns.
export function movesOf(answer) {
  const { went, came } = (answer && answer.changes || []).find(one => one.view === 'records') || { went: [], came: [] };
  return { went: went.map(row => row.split('\t')), came: came.map(row => row.split('\t')) };
}

// What a core has to say: texts, or parts {kind, text, rows} of them. A line of a script has spaces for its TABs.
export function parts(note) {
  return (Array.isArray(note) ? note : [{ kind: 'text', text: note }]).map(part => {
    if (part.kind === 'records') return table(part.rows.map(row => [row.title, row.columns, row.differs]));
    if (part.kind === 'line' || part.kind === 'code') return el('code', {}, shown(part.text.replace(/\t/g, ' ')));
    return part.kind === 'bold' ? el('b', {}, shown(part.text)) : shown(part.text);
  });
}

// Records below each other: [title, columns, which of them differ].
export const table = rows => el('table', { class: 'beside' }, rows.map(([title, record, differs]) => el('tr', {}, el('th', {}, title),
  record.map((text, at) => el('td', {}, differs && differs[at] ? el('mark', {}, shown(text)) : shown(text))))));
