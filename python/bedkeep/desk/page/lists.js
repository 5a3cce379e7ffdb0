// The lists beside the drawing: the corrections, the lines that need a decision, and the rows of all views here.
import { isBack, takeBack, titleOf } from './drafts.js';
import { button, byId, columns, desk, el, hand, list, name, savedBox, say } from './state.js';
import { choose, lineOf, stateOf, toldOf, unlikeOf } from './decide.js';
import { place } from './draw.js';
import { inHand, linesOf } from './hand.js';
import { go, render } from './view.js';
import { parsed, counted, number, short, shown } from './text.js';
import { rowsOf } from './records.js';

const MORE = 300; // cards that are shown at first, and each time that more are asked for
const ROWS = 60; // rows of a view, likewise
const base = path => shown(String(path || '').split('/').pop());

export function lists() {
  const { state } = desk, { worklist, corrections: all } = state;
  const done = all.filter(one => one.verdict === 'done').length, refused = all.filter(one => one.verdict === 'refused').length;
  byId('title').textContent = short(base(state.files.bed), 60);
  savedBox.replaceChildren(el('b', {}, '✓ '), number(done), el('span', {},
    ` ${done === 1 ? 'correction' : 'corrections'} in ${short(base(state.files.script), 40)}`));
  byId('tab-worklist').hidden = !worklist;
  if (worklist) byId('tab-worklist').replaceChildren('To decide', el('b', {}, number(worklist.open)));
  byId('tab-corrections').replaceChildren(`Corrections ${number(done)}`, refused ? el('small', { title: 'refused' }, ` · ${number(refused)} ✗`) : '');
  for (const tab of document.querySelectorAll('[role=tab]')) {
    tab.setAttribute('aria-selected', tab.id === `tab-${desk.tab}`);
    tab.tabIndex = tab.id === `tab-${desk.tab}` ? 0 : -1;
  }
  byId('files').replaceChildren(el('a', { href: 'script', download: 'corrections' }, 'script'), ' · ',
    el('a', { href: 'track.bed', download: 'corrected.bed' }, 'corrected track'), ' · ',
    `${counted(state.sequences.reduce((sum, one) => sum + one[2], 0), 'record')}, ${state.columns.length} columns${state.format ? `, ${state.format}` : ''}`);
  byId('undo').disabled = state.can_undo === null;
  byId('redo').disabled = !state.can_redo;
  if (desk.tab === 'corrections') corrections();
  else if (desk.tab === 'worklist' && worklist) decisions(worklist);
  else rowsHere();
}

// Shows as many cards as were asked for, and says how many more there are. Those that are as they were aren't made again.
let cards = new Map(), most = MORE, shownTab = '';
function fill(head, all, mark, make, what) {
  if (shownTab !== desk.tab) { shownTab = desk.tab; most = MORE; cards = new Map(); list.replaceChildren(); }
  const at = all.findIndex(one => one.number === mark), before = cards;
  if (at >= most) most = at + MORE;
  cards = new Map();
  for (const one of all.slice(0, most)) {
    const here = one.number === mark, seen = JSON.stringify([one.number, here, one.verdict || one.state, one.lines[0], one.reason, one.date]);
    cards.set(seen, before.get(seen) || make(one, here));
  }
  const rest = Math.max(0, all.length - most), more = `Show ${number(Math.min(MORE, rest))} more of ${number(rest)} ${what}`;
  place(list, [...head, ...cards.values(), ...(rest ? [button(more, '', () => { most += MORE; lists(); }, { class: 'more' })] : [])]);
  const here = list.querySelector('.at');
  if (here && !narrow.matches) here.scrollIntoView({ block: 'nearest' });
}
const narrow = matchMedia('(max-width: 820px)');

function corrections() {
  const all = desk.state.corrections;
  const head = all.length ? [] : [el('p', { class: 'empty' }, 'No correction yet. Drag an end of a record, or select one and press ', el('kbd', {}, 'e'), '.')];
  fill(head, [...all].reverse(), desk.at, correction, 'earlier ones');
}

const KINDS = { refused: 'refused', 'taken back': 'back', 'already there': 'back' };
function correction(entry, here) {
  const kind = KINDS[entry.verdict] || 'done', said = entry.verdict === 'refused' ? `✗ ${short(shown(entry.message), 300)}` : entry.verdict === 'done'
    ? (entry.warnings || []).map(shown).join('; ') : `${entry.verdict}${entry.by ? ` by ${number(entry.by)}` : ''}`;
  return card(number(entry.number), kind, here, titleOf(entry), entry.reason, authorOf(entry),
    said ? el('span', { class: `state ${kind === 'refused' ? 'no' : 'meant'}` }, said) : null, () => visit(entry));
}

function decisions(worklist) {
  const part = worklist.items.length ? 100 * (worklist.items.length - worklist.open) / worklist.items.length : 100, bar = el('i');
  bar.style.width = `${part}%`;
  const head = el('div', { class: 'progress' }, el('b', {}, worklist.open ? `${number(worklist.open)} of ${number(worklist.count)} need a decision`
    : 'Nothing is left to decide'), el('small', {}, ` ${number(worklist.count - worklist.items.length)} fit`), el('div', {}, bar));
  fill([head], worklist.items, desk.item, undecided, 'lines');
}

function undecided(item, here) {
  const line = lineOf(item), open = item.state === 'open', unlike = open && unlikeOf(line);
  return card(line.at, open ? 'open' : item.state === 'dropped' ? 'back' : 'done', here, toldOf(item), item.reason, '',
    el('span', { class: `state ${open ? 'no' : 'yes'}` }, open ? `${line.kind}${unlike ? `: ${shown(unlike)}` : ''}` : `✓ ${stateOf(item)}`), () => choose(item));
}

// Who made a correction, and on which day, if that is known.
const authorOf = entry => [entry.author, entry.date.slice(0, 10)].filter(Boolean).join(', ');

function card(at, kind, here, told, reason, author, state, onclick) {
  return el('button', { type: 'button', class: `card ${kind}${here ? ' at' : ''}`, 'aria-current': here ? 'true' : undefined, onclick },
    el('span', { class: 'number' }, at), el('span', { class: 'told name' }, told),
    reason ? el('span', { class: 'reason name' }, short(shown(reason), 400)) : el('span', { class: 'reason none' }, 'no reason'),
    author ? el('span', { class: 'author name' }, short(shown(author), 80)) : null, state);
}

// Goes to a correction, and shows what it does and what became of it.
async function visit(entry) {
  Object.assign(desk, { at: entry.number, item: null, draft: null, changes: null, picked: [] });
  if (entry.place) await go(entry.place, true); // where its records have all their columns
  if (desk.at !== entry.number || desk.draft || desk.picked.length) return;
  const done = entry.verdict === 'done', records = entry.lines.map(line => parsed(line, columns().length)).map(line => line.command.endsWith('b') ? null : done
    ? line.fresh : line.old);
  const drawn = desk.region && desk.region.mode === 'rows' ? rowsOf(desk.region.views.records) : [];
  desk.picked = records.filter(Boolean).map(record => drawn.find(row => row.slice(0, 6).join('\t') === record.slice(0, 6).join('\t')) || record);
  lists();
  inHand();
  render();
  const refused = entry.verdict === 'refused', said = refused ? `✗ Refused: ${short(shown(entry.message), 400)}` : done ? '✓ done' : entry.verdict;
  hand.prepend(el('p', { class: `verdict said ${refused ? 'no' : done ? 'yes' : 'meant'}` }, `${number(entry.number)}. ${said}`,
    entry.reason ? el('small', {}, ' “', name(short(entry.reason, 300)), '”') : null,
    authorOf(entry) ? el('small', { class: 'author' }, ' ', name(short(authorOf(entry), 80))) : null,
      isBack(entry) ? button('Take it back', '⌫', () => takeBack(entry)) : null),
  ...linesOf(entry.lines, 4, 'said').filter(Boolean));
  if (refused) hand.className = 'refused';
  say(`Correction ${entry.number}: ${titleOf(entry)}. ${entry.reason}`);
}
export const chosen = () => desk.state.corrections.find(one => one.number === desk.at);

export function rowsHere() {
  const { region, view } = desk;
  shownTab = 'rows';
  if (!region || region.mode !== 'rows') { list.replaceChildren(el('p', { class: 'empty' }, 'Zoom in to see the rows.')); return; }
  const shut = new Set([...list.querySelectorAll('details')].filter(one => !one.open).map(one => one.dataset.view));
  const inside = row => row.length < 3 || +row[1] < view.end && +row[2] > view.start;
  list.replaceChildren(...Object.entries({ ...region.views, ...(region.second === undefined ? {} : { 'second file': region.second }) }).map(([words, text]) => {
    const rows = rowsOf(text).filter(inside), left = rows.length - Math.min(ROWS, rows.length);
    const box = el('details', { open: !shut.has(words) }, el('summary', {}, words, el('small', {}, ` ${counted(rows.length, 'row')}`)),
      el('pre', {}, rows.slice(0, ROWS).map(row => `${short(shown(row.join(' ')), 600)}\n`).join('') + (left ? `.. and ${number(left)} more` : '')));
    box.dataset.view = words;
    return box;
  }));
}

// The next one of the list, or the one before.
export function step(direction) {
  const { worklist } = desk.state, worked = desk.tab === 'worklist' && worklist;
  if (!worked && desk.tab !== 'corrections') desk.tab = 'corrections';
  const all = worked ? worklist.items : [...desk.state.corrections].reverse(), mark = worked ? desk.item : desk.at;
  const at = all.findIndex(one => one.number === mark), one = all[at < 0 ? 0 : Math.max(0, Math.min(all.length - 1, at + direction))];
  if (one) (worked ? choose : visit)(one); else lists();
}

export function tab(which) {
  if (which === 'worklist' && !desk.state.worklist) return;
  desk.tab = which;
  lists();
}
