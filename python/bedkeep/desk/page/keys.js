// The keys, the buttons that do the same, and the search.
import { add, editColumn, letGo, reach, redo, remove, select, several, takeBack, undo } from './drafts.js';
import { button, byId, columns, desk, drawing, el, focusOn, foundBox, help, key, lengthOf, main, placeBox, say, search, sequenceBox } from './state.js';
import { choose, drop, takeMended, writeAnother } from './decide.js';
import { flash, inHand, raw } from './hand.js';
import { chosen, step, tab } from './lists.js';
import { call, query } from './talk.js';
import { go, goTo, pan, rowsSeen, seenPlace, zoom } from './view.js';
import { keyOf } from './records.js';
import { counted, number, place as placed, shown, spoken } from './text.js';

const GROUPS = [
  ['To look', [['/', 'find a part of a name, or a place such as chr1:101-2,000'], ['g', 'type a place'], ['n  p', 'the next record, the one before'],
    ['+  −  0', 'zoom in, out, the whole sequence'], ['←  →', 'move along; with Shift a whole window'], ['f', 'go to the record in hand'],
    ['[  ]', 'the sequence before, the next one'], ['i', 'send the place to IGV, if it runs (port 60151)']]],
  ['To correct', [['e  s', 'edit the end, the start; ↑ ↓ change a number'], ['r', 'remove what is selected'],
    ['a', 'add a record; also by a drag along the ruler'], ['t', 'split a record in two, at the pointer'],
    ['c', 'edit a column after the sixth, such as blocks'], [':', 'type a line of the script, such as resize chr1 5000'],
    ['Enter', 'on to the reason, and save'], ['Esc', 'let go of it'], ['Alt', 'held while an end is dragged: no snapping']]],
  ['Several at once', [['N  P', 'select the next record too, or the one before; also Shift and a click, or a drag'], ['o', 'join two: one record of both'],
    ['b', 'move the end that two have in common'], ['h', 'shift by so many bases'], ['d  l', 'give all a strand, a name']]],
  ['What was done', [['u  U', 'undo: take the last correction back; do it again'], ['j  k', 'the next correction in the list, the one before'],
    ['⌫', 'take back the one that the list is at, by itself'], ['m  w  x', 'of a line that needs a decision: take the mended line, write another, drop it'],
    ['1  2  3', 'the lists: corrections, to decide, rows here'], ['?', 'this list']]]];

const actions = {
  n: () => neighbour(1), p: () => neighbour(-1), N: () => neighbour(1, true), P: () => neighbour(-1, true), '/': () => focusOn('search'), g: () => focusOn('place'),
  '+': () => zoom(.5), '=': () => zoom(.5), '-': () => zoom(2), 0: () => go([desk.view.sequence, 0, lengthOf(desk.view.sequence)]), i: toIgv,
  ArrowLeft: event => pan(event.shiftKey ? -.9 : -.2), ArrowRight: event => pan(event.shiftKey ? .9 : .2), f: () => { if (main()) goTo(main()); },
  '[': () => sequence(-1), ']': () => sequence(1), e: () => editColumn(columns()[2]), s: () => editColumn(columns()[1]), c: editMore, r: remove, a: () => add(),
  t: () => several('split'), o: () => several('join'), b: () => several('boundary'), h: () => several('shift'), d: () => several('strand'), l: () => several('name'),
  ':': () => raw(), Enter: () => { if (desk.draft) focusOn('why'); }, u: undo, U: redo, Backspace: () => takeBack(chosen()), Delete: () => takeBack(chosen()),
  j: () => step(1), k: () => step(-1), m: takeMended, w: writeAnother, x: drop, 1: () => tab('corrections'), 2: () => tab('worklist'), 3: () => tab('rows'),
  '?': () => help.showModal(),
};

document.addEventListener('keydown', event => {
  if (help.open || !desk.state) return;
  if (event.key === 'Escape') { escape(); return; }
  const isField = event.target.matches('input, select, textarea');
  if ((event.ctrlKey || event.metaKey) && !isField && event.key.toLowerCase() === 'z') { event.preventDefault(); (event.shiftKey ? redo : undo)(); return; }
  if (event.ctrlKey || event.metaKey || event.altKey || isField) return;
  const activates = event.key === 'Enter' || event.key === ' ', record = activates && drawing.recordOf(event.target);
  if (record) { event.preventDefault(); select(record, event.shiftKey); return; }
  if (activates && event.target.matches('button, a, summary')) return;
  if (event.target.matches('[role=tab]') && /^Arrow(Left|Right)$/.test(event.key)) { turn(event); return; }
  const action = actions[event.key];
  if (action) { event.preventDefault(); action(event); }
});

function escape() {
  const focused = document.activeElement, isTyped = focused.matches('input, textarea');
  foundBox.hidden = true;
  if (desk.draft || isTyped) focused.blur();
  if (desk.draft) letGo();
  else if (isTyped) { if (byId('raw')) inHand(); } else if (desk.item !== null) choose(null); else select(null);
}

// The arrows go from tab to tab of the lists.
function turn(event) {
  const tabs = [...document.querySelectorAll('[role=tab]:not([hidden])')], at = tabs.indexOf(event.target) + (event.key === 'ArrowRight' ? 1 : -1);
  const other = tabs[(at + tabs.length) % tabs.length];
  event.preventDefault();
  tab(other.id.slice(4));
  other.focus();
}

function neighbour(direction, more = false) {
  const rows = rowsSeen(), last = more ? desk.picked[desk.picked.length - 1] : main();
  if (!rows.length) { flash('No record is drawn here by itself: zoom in, or find one.'); return; }
  const at = last ? rows.findIndex(row => keyOf(row) === keyOf(last)) : -1, middle = (desk.view.start + desk.view.end) / 2;
  const start = at >= 0 ? at + direction : rows.findIndex(row => +row[2] >= (direction > 0 ? desk.view.start : middle));
  const record = rows[Math.max(0, Math.min(rows.length - 1, start))];
  if (!more || !desk.picked.some(one => keyOf(one) === keyOf(record))) select(record, more);
  say(more ? `${spoken(record)}: ${counted(desk.picked.length, 'record')} selected` : spoken(record));
  if (+record[1] < desk.view.start || +record[2] > desk.view.end) goTo(record);
}

function editMore() {
  const field = document.querySelectorAll('#hand .fields label input')[Math.min(columns().length, 6)];
  if (field) focusOn(field.id); else flash(main() ? 'The records have no columns after the sixth.' : 'Select a record first.');
}

function sequence(by) {
  const all = desk.state.sequences, at = all.findIndex(one => one[0] === desk.view.sequence),
    [other, length] = all[Math.max(0, Math.min(all.length - 1, at + by))];
  go([other, 0, length]);
}

async function toIgv() {
  const [sequence, start, end] = main() ? main() : seenPlace();
  try { flash((await call('igv', { sequence, start: +start, end: +end })).said); } catch (error) { flash(error.message); }
}

// Finding

async function find(text) {
  let answer;
  foundBox.hidden = true;
  try { answer = await call(`find?${query({ text })}`); } catch (error) { flash(error.message); return; }
  if (answer.place) { go(answer.place); say(answer.said || ''); if (!answer.found.length) return; }
  if (!answer.found.length) {
    foundBox.hidden = false;
    foundBox.replaceChildren(el('span', { class: 'no' }, shown(answer.said)), close());
    say(answer.said);
    return;
  }
  const all = answer.found.flatMap(found => found.records), more = answer.found.reduce((sum, found) => sum + (found.more || 0), 0);
  if (all.length + more > 1 || answer.found.some(found => found.said)) {
    foundBox.hidden = !answer.place && all.length + more < 2;
    foundBox.replaceChildren(...answer.found.flatMap(found =>
      [el('span', {}, `${counted(found.records.length + (found.more || 0), 'record')}${found.said ? ` ${found.said}` : ''}: `),
      ...found.records.map(row => button(all.length > 1 ? `${row[3] ? `${shown(row[3]).slice(0, 28)} ` : ''}${placed(row)}` : placed(row), '',
        () => reach(row))), found.more ? `.. and ${number(found.more)} more` : '']), close());
  }
  if (all.length && !answer.place) { reach(all[0]); say(`Found ${spoken(all[0])}`); }
}
const close = () => button('×', '', () => { foundBox.hidden = true; }, { 'aria-label': 'close' });

const entered = (box, then) => box.addEventListener('keydown', event => { if (event.key === 'Enter' && box.value.trim()) { box.blur(); then(box.value); } });
entered(search, find);
entered(placeBox, find);
placeBox.addEventListener('focus', () => placeBox.select());
sequenceBox.addEventListener('change', () => { go([sequenceBox.value, 0, lengthOf(sequenceBox.value)]); sequenceBox.blur(); });
for (const one of document.querySelectorAll('[role=tab]')) one.addEventListener('click', () => tab(one.id.slice(4)));
for (const [id, action] of Object.entries({ in: actions['+'], out: actions['-'], all: actions[0], undo, redo, add: () => add(),
  keys: actions['?'] })) byId(id).addEventListener('click', action);

help.replaceChildren(el('h2', { tabindex: '-1', autofocus: true }, 'Keys'), el('div', { class: 'keys' }, GROUPS.map(([title, rows]) => el('section', {}, el('h3', {}, title),
  el('dl', {}, rows.flatMap(([keys, what]) => [el('dt', {}, keys.split('  ').flatMap(one => [key(one), ' '])), el('dd', {}, what)]))))),
    el('form', { method: 'dialog' }, el('button', { class: 'main' }, 'Close ', key('Esc'))));
