// What is in hand: a record, several, a draft with its verdict, or a line that needs a decision.
import { ASKS, WORDS, amend, changeOf, draftOf, letGo, remove, save, several, titleOf } from './drafts.js';
import { button, byId, columns, current, desk, el, focusOn, hand, key, main, movesOf, name, parts } from './state.js';
import { decision, isOffered } from './decide.js';
import { extras, goIfFar, goTo, inSight, render } from './view.js';
import { counted, difference, hasHidden, lineShown, nameOf, number, short, shown, told } from './text.js';

const SIX = 6;
const SIZES = ['wide', '', '', 'wide', 'slim', 'tiny'];
const WHY = 'Why? It goes above the line in the script', MORE_WHY = 'Add to the reason that the line has (or leave it)';
const isNumber = column => [columns()[1], columns()[2], 'thickStart', 'thickEnd', 'summit'].includes(column);

export function flash(text) {
  hand.className = '';
  hand.replaceChildren(el('p', { class: 'meant', role: 'status' }, text));
}

let held = null; // the draft that is drawn there
// came: what has just happened: {saved}, {undone}, {again} or {kept}
export function inHand(came = {}) {
  hand.className = '';
  const { draft } = desk, item = current(), made = [], offered = isOffered(item);
  if (item) made.push(...decision(item, offered)); else desk.item = null;
  made.push(...happened(came));
  if (draft && !offered) made.push(...drafted(draft), verdictBox(), whyForm());
  else if (!draft && desk.picked.length > 1) made.push(...picked(desk.picked));
  else if (!draft && main()) made.push(...fields(main()));
  else if (!item && !draft && !Object.keys(came).length) made.push(hint());
  const focused = draft && held === draft && hand.contains(document.activeElement) && document.activeElement.id;
  held = draft;
  hand.replaceChildren(...made.filter(Boolean));
  if (draft && draft.reason && byId('why')) byId('why').value = draft.reason;
  if (focused && byId(focused)) byId(focused).focus();
  verdictHere();
}

// What is typed of a reason stays with its draft when another tab's edit has this drawn again.
hand.addEventListener('input', event => { if (event.target.id === 'why' && desk.draft) desk.draft.reason = event.target.value; });

const hint = () => el('p', { class: 'quiet' }, 'Click a record, or find one by ', key('/'), '. ', key('n'), ' takes the next one, ', key('N'),
  ' one more. Drag along the ruler, or press ', key('a'), ', for a new one. ', key('?'), ' lists the keys.');
const verdictBox = () => el('div', { id: 'verdict', 'aria-live': 'polite' });
const said = (kind, text, keys, what) => el('p', { class: `verdict ${kind} said` }, text, keys ? el('small', {}, ' ', key(keys), what) : null);

function happened({ saved, undone, again, kept }) {
  if (saved) {
    return [said('yes', '✓ Done, and in the script.', 'u', ' takes it back'), el('div', { class: 'said' }, changed(saved)),
      ...saved.warnings.map(text => el('p', { class: 'meant' }, shown(text)))];
  }
  if (undone) return [said('meant', `↶ Taken back: ${titleOf(undone)}`, desk.state.can_redo ? 'U' : '', ' does it again')];
  if (again) return [said('yes', `✓ Done again: ${titleOf(again)}`)];
  if (kept) return [said('no', `✗ Not taken back: ${shown(kept[0].message || kept[0].reason)}`), ...kept[0].says.map(one => el('p', {}, parts(one)))];
  return [];
}

function drafted(draft) {
  const { kind, records } = draft, ask = ASKS[kind], what = records.length > 1 ? counted(records.length, 'record') : records.length ? name(nameOf(records[0]))
    : '';
  if (kind === 'remove') return [el('h2', {}, el('span', { class: 'no' }, 'Remove ', what), records.length > 1 ? names(records) : null)];
  if (kind === 'change') return fields(records[0]);
  if (kind === 'add') return fields(draft.fresh);
  if (kind === 'lines') return [el('h2', {}, counted(draft.given.length, 'line'), draft.given.length > 1 ? el('small', {}, 'together, all or none') : null),
    ...linesOf(draft.given, 8)];
  const plain = kind === 'strand' || kind === 'name' ? text => text : text => text.replace(/,/g, '');
  const typed = () => amend(draft, { value: plain(input.value.trim()) });
  const input = el('input', { id: 'value', autocomplete: 'off', spellcheck: 'false', value: String(draft.value ?? ''), onkeydown: stepped, oninput: typed });
  return [el('h2', {}, WORDS[kind], ' ', what, names(records)),
    ask ? el('form', { class: 'fields', onsubmit: toReason }, el('label', { class: 'wide' }, ask, input), el('button', { hidden: true })) : null];
}

const toReason = event => { event.preventDefault(); focusOn(byId('why') ? 'why' : 'hand'); };
const names = records => el('small', {}, records.length > 1 ? `${records.slice(0, 6).map(record => nameOf(record, 28)).join(', ')}${records.length > 6 ? ' ..' : ''}`
  : `${short(shown(records[0][0]), 60)}, ${number(records[0][1])} to ${number(records[0][2])}`);
export const linesOf = (lines, most, kind = '') => [...lines.slice(0, most).map(line => el('code', { class: `given ${kind}` }, lineShown(line))),
  lines.length > most ? el('small', { class: kind }, `.. and ${number(lines.length - most)} more`) : null];

function picked(records) {
  return [el('h2', {}, counted(records.length, 'record'), names(records)), el('div', { class: 'why' }, acts('shift', 'strand', 'name'),
    records.length === 2 ? acts('join', 'boundary') : null, button('Remove', 'r', remove))];
}
const ACTS = { split: ['Split', 't'], shift: ['Shift', 'h'], strand: ['Strand', 'd'], name: ['Name', 'l'], join: ['Join', 'o'], boundary: ['Common end', 'b'] };
const acts = (...kinds) => kinds.map(kind => button(...ACTS[kind], () => several(kind)));

// The columns of a record, to type in.
function fields(record) {
  const { draft } = desk, six = columns().slice(0, SIX), values = draft && draft.values || {};
  const title = el('h2', {}, draft && draft.kind === 'add' ? 'A new record' : name(nameOf(record)),
    el('small', {}, `${short(shown(record[0]), 60)}, ${counted(record[2] - record[1], 'base')}`),
    hasHidden(record.join('')) ? el('small', { class: 'meant' }, 'has characters that are invisible, shown by their codes') : null);
  const field = (column, value, size) => el('label', { class: `${size}${column in values ? ' changed' : ''}` }, column, el('input', { id: `field-${column}`,
    name: column, autocomplete: 'off', spellcheck: 'false', inputmode: isNumber(column) ? 'numeric' : undefined, value: values[column] ?? value,
    oninput: typed, onkeydown: isNumber(column) ? stepped : undefined }));
  const form = el('form', { class: 'fields', onsubmit: toReason }, six.map((column, at) => field(column, record[at], SIZES[at])),
    extras(record).map(([column, value]) => field(column, value, { blocks: 'widest', itemRgb: 'slim' }[column] || '')), el('button', { hidden: true }));
  if (!draft) form.append(...acts('split', 'shift', 'strand'), button('Remove', 'r', remove), button('Go', 'f', () => goTo(record)));
  return [title, form];
}

// Arrows up and down change a number by one, with Shift by ten.
function stepped(event) {
  const by = { ArrowUp: 1, ArrowDown: -1 }[event.key];
  if (!by || !/^-?[\d,]+$/.test(event.target.value)) return;
  event.preventDefault();
  event.target.value = String(+event.target.value.replace(/,/g, '') + by * (event.shiftKey ? 10 : 1));
  event.target.dispatchEvent(new Event('input', { bubbles: true }));
}

function typed() {
  const { draft } = desk, six = columns().slice(0, SIX);
  const value = column => { const text = byId(`field-${column}`).value; return isNumber(column) ? text.replace(/,/g, '') : text; };
  for (const old of hand.querySelectorAll('.said')) old.remove();
  if (draft && draft.kind === 'add') { amend(draft, { fresh: six.map(value) }); return; }
  const record = draft ? draft.records[0] : main(), values = {}, { reason } = draft || {};
  for (const [column, was] of [...six.map((column, at) => [column, record[at]]), ...extras(record)]) {
    if (value(column) !== was && !byId(`field-${column}`).dataset.follows) values[column] = value(column);
  }
  changeOf(record, values);
  desk.draft.reason = reason;
  held = desk.draft;
  if (!byId('verdict')) { for (const one of hand.querySelectorAll('.fields button[type]')) one.remove(); hand.append(verdictBox(), whyForm()); }
  for (const input of hand.querySelectorAll('.fields input')) input.parentElement.classList.toggle('changed', input.name in values);
  render();
}
hand.addEventListener('input', event => { delete event.target.dataset.follows; }, true);

// The fields that follow others, such as blocks after an end: as they will be, if nobody types there.
function follow(draft, verdict) {
  const record = draft.kind === 'change' && verdict.changes && inSight(), was = new Map(record ? extras(draft.records[0]) : []);
  if (!record || verdict.same) return;
  for (const [column, value] of extras(record)) {
    const input = byId(`field-${column}`);
    if (!input || column in draft.values) continue;
    input.value = value;
    if (value === was.get(column)) delete input.dataset.follows; else input.dataset.follows = 'yes';
  }
}

function whyForm() {
  const why = el('input', { id: 'why', list: 'reasons', placeholder: desk.item === null ? WHY : MORE_WHY, 'aria-label': 'reason', autocomplete: 'off' });
  return el('form', { class: 'why', onsubmit: event => { event.preventDefault(); save(); } }, why,
    el('button', { class: 'main', id: 'save' }, 'Save ', key('Enter')), button('Cancel', 'Esc', letGo));
}

export function verdictHere() {
  const box = byId('verdict'), { draft } = desk;
  hand.className = '';
  if (!box || !draft) return;
  const { verdict } = draft, save = byId('save');
  if (save) save.disabled = Boolean(verdict && (verdict.refused || verdict.same));
  if (!verdict || verdict.same) { box.replaceChildren(verdict ? el('p', { class: 'quiet' }, 'Nothing changes.') : ''); return; }
  hand.className = verdict.refused ? 'refused' : 'fits';
  box.replaceChildren(...(verdict.refused ? refusal(verdict.refused) : fit(verdict)));
  follow(draft, verdict);
}

const refusal = refused => refused.flatMap(({ message, reason, says, offers }) =>
  [el('p', { class: 'verdict no' }, isOffered(current()) ? '✗ No longer, after an earlier decision: ' : '✗ Refused: ', short(shown(message || reason), 400)),
  says.length ? el('ul', { class: 'says' }, says.map(one => el('li', {}, parts(one)))) : '', ...offersOf(offers, 'Fits instead:')]);

// Lines to take, each as a button.
export const offersOf = (offers, title) => offers.length ? [el('p', { class: 'quiet' }, title), el('ul', { class: 'offers' }, offers.map(offer =>
  el('li', {}, button([...offer.lines.map(line => el('b', { class: 'name' }, told(line, columns()))), offer.note ? el('small', {}, parts(offer.note)) : null], '',
    () => takeOffer(offer)))))] : [];

function fit(verdict) {
  const { went, came } = movesOf(verdict), one = went.length === 1 && came.length === 1, there = verdict.there.length;
  const what = one ? difference(went[0], came[0], columns()) : verdict.given.length > 1 ? `${counted(verdict.given.length, 'line')} together, all or none` : '';
  return [el('p', { class: 'verdict' }, el('span', { class: there ? 'meant' : 'yes' }, there ? 'Already there, so nothing is done' : '✓ Fits'),
    el('small', {}, what)),
    ...verdict.said.map(text => el('p', { class: 'quiet' }, short(shown(text), 300))),
      ...verdict.warnings.map(text => el('p', { class: 'meant' }, shown(text))), changed(verdict)];
}

function takeOffer(offer) {
  draftOf(offer.lines);
  const record = offer.record || desk.draft.guessed[0] || desk.draft.fresh;
  if (record) goIfFar([record[0], +record[1], +record[2]]);
  inHand();
  focusOn('why');
}

const some = (rows, kind, sign) => [...rows.slice(0, 2).map(row =>
  el('span', { class: kind }, `${sign} ${short(shown(row.split('\t').slice(1).join(' ')), 200)}`)),
  rows.length > 2 ? el('span', { class: kind }, `${sign} ${number(rows.length - 2)} more`) : null];

// Which rows of each view went and came.
function changed({ changes, compared }) {
  const views = changes.filter(one => one.view !== 'records');
  if (compared === false) return el('p', { class: 'quiet' }, 'Too much is here to compare the views before and after.');
  if (!views.length) return el('p', { class: 'quiet' }, 'No row of the other views changes.');
  return el('div', { class: 'changes' }, views.map(({ view, went, came, more, before, after }) => el('div', {}, el('b', {}, view),
    el('small', {}, ` ${number(before)} → ${number(after)}${more ? `, ${number(more)} more changes` : ''}`),
    el('div', { class: 'beside' }, el('div', {}, some(went, 'went', '−')), el('div', {}, some(came, 'came', '+'))))));
}

// A line of the script, typed; or the lines of a paragraph, which are done together.
export function raw(text = '') {
  const count = text.split('\n').length, begin = event => {
    const lines = input.value.split('\n').filter(line => line.trim());
    event.preventDefault();
    if (!lines.length) return;
    draftOf(lines.map(line => line.includes('\t') ? line : line.trim().split(/\s+/).join('\t')));
    inHand();
    focusOn('why');
  };
  const input = el(count > 1 ? 'textarea' : 'input', { id: 'raw', 'aria-label': 'lines of a script', placeholder: 'add chr1 100 200 geneA · resize chr1 5000 · removeb ..',
    autocomplete: 'off', spellcheck: 'false', rows: count > 1 && count, value: text, onkeydown: event => { if (event.key === 'Enter' && !event.shiftKey) begin(event); } });
  desk.draft = null;
  hand.className = '';
  hand.replaceChildren(el('h2', {}, count > 1 ? `${counted(count, 'line')} that are done together` : 'A line of the script', el('small', {}, 'spaces or TABs between the fields')),
    el('form', { class: 'why', onsubmit: begin }, input, el('button', { class: 'main' }, 'Try ', key('Enter'))));
  input.focus();
}
