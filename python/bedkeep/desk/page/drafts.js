// Drafts: lines that were begun by a drag, by typed fields, by a key, or taken from an offer. The server tries them while they are
// changed, and keeps nothing of it. Saved, undone and done again: one draft is one paragraph of the script, done whole or not at all.
//
// kind: change (values of one record), add, remove, lines (as they are), split, join, boundary (the common end of two), shift, strand, name
// records: those that it is about, with all columns; value: what was typed; fresh: the record as it was asked for, before the verdict
import { byId, columns, current, desk, drawing, el, focusOn, lengthOf, lostBox, main, movesOf, say } from './state.js';
import { change, call, isWell } from './talk.js';
import { goIfFar, goTo, render, seen, surveySoon, takeRegion } from './view.js';
import { flash, inHand, verdictHere } from './hand.js';
import { lists } from './lists.js';
import { drop, next } from './decide.js';
import { SIX, keyOf } from './records.js';
import { counted, parsed, told } from './text.js';

// What a draft is to the server: lines, or how lines are made.
function bodyOf(draft) {
  const { kind, records, values, value } = draft;
  if (kind === 'lines') return { lines: draft.given };
  if (kind === 'add') return { lines: [['add', ...draft.fresh].join('\t')] };
  if (kind === 'remove') return { lines: records.map(record => ['remove', ...record].join('\t')) };
  return { make: { what: kind === 'strand' || kind === 'name' ? `set ${kind}` : kind, records,
    ...(kind === 'change' ? { values } : { value: String(value ?? '') }) } };
}

export function begin(draft) {
  desk.draft = { records: [], answers: desk.item, before: desk.draft && desk.draft.verdict, ...draft, verdict: null };
  desk.changes = null;
  attempt();
}

// A change of values of a record, by the names of its columns; those that are as they were are left out.
export function changeOf(record, values) {
  const fresh = [...record].slice(0, SIX), names = columns();
  names.forEach((name, at) => { if (at < SIX && values[name] !== undefined) fresh[at] = values[name]; });
  const guess = record.length > SIX && Object.keys(values).some(one => !names.includes(one)) ? [...record] : fresh;
  begin({ kind: 'change', records: [record], values, fresh: guess });
}

// Lines from an offer, or typed; what they do is known once they are tried.
export function draftOf(lines) {
  const first = parsed(lines[0], columns().length);
  begin({ kind: 'lines', given: lines, resizes: first.kind === 'resize', fresh: lines.length === 1 && !first.command.endsWith('b') ? first.fresh : null,
    guessed: lines.length === 1 && !first.command.endsWith('b') && first.old ? [first.old] : [] });
}

let trying = false, tryAgain = false;
const SAME = { given: [], same: true, changes: [] };
const refusalOf = error => [{ reason: error.message, message: error.message, says: [], offers: [] }];
export async function attempt() {
  const { draft } = desk;
  if (!draft) return;
  if (draft.kind === 'change' && !Object.keys(draft.values).length) { take(draft, SAME); return; }
  if (trying) { tryAgain = true; return; }
  trying = true;
  const begun = performance.now(), asked = JSON.stringify(bodyOf(draft));
  try {
    const verdict = await call('try', JSON.parse(asked));
    if (draft === desk.draft && asked === JSON.stringify(bodyOf(draft))) {
      take(draft, verdict.refused?.[0].reason === 'nothing changes' ? SAME : verdict);
      requestAnimationFrame(() => setTimeout(() => desk.tries.push(performance.now() - begun)));
    }
  } catch (error) {
    if (draft === desk.draft) take(draft, { refused: refusalOf(error) });
  } finally {
    trying = false;
    if (tryAgain) { tryAgain = false; attempt(); }
  }
}

function take(draft, verdict) {
  const { waits } = draft;
  Object.assign(draft, { verdict, before: verdict, waits: null });
  desk.changes = verdict.changes || null;
  verdictHere();
  render();
  if (waits) save(waits.quick);
}

// Changes what is asked for: what was said of it before is of something else.
export function amend(draft, changes) {
  Object.assign(draft, changes, { verdict: null });
  attempt();
  render();
}

export function letGo() {
  desk.draft = desk.changes = desk.snap = null;
  inHand();
  render();
}

let asked = '';
export async function save(quick = false) {
  const { draft } = desk;
  if (!draft || draft.busy) return;
  if (!isWell()) { say(lostBox.innerText); return; }
  if (!draft.verdict) { draft.waits = { quick }; attempt(); return; } // it is saved once what was typed last has its verdict
  const { given: lines } = draft.verdict, reason = quick ? '' : (byId('why') || { value: '' }).value.trim();
  if (draft.verdict.refused || draft.verdict.same || !lines.length) return;
  if (!reason && !quick && draft.answers === null && asked !== lines.join('\n')) {
    asked = lines.join('\n');
    byId('why').placeholder = 'No reason? Enter again saves it without one';
    byId('why').focus();
    return;
  }
  asked = '';
  draft.busy = true;
  const begun = performance.now();
  try {
    const answer = await change('edit', { lines, reason, look: seen(), version: desk.state.version,
      ...(draft.answers === null ? {} : { answers: draft.answers }) });
    if (answer.refused) refuse(answer.refused);
    else if (answer.entry) saved(draft, answer, reason, begun);
    else if (draft.answers !== null) drop();
    else flash('It is there already, so nothing was done.');
  } catch (error) {
    refuse(refusalOf(error));
  } finally {
    draft.busy = false;
  }
}

function saved(draft, answer, reason, begun) {
  remember(reason);
  const item = draft.answers === null ? null : current();
  desk.draft = desk.snap = null;
  happened(answer);
  say(`Done: ${titleOf(answer.entry)}`);
  requestAnimationFrame(() => setTimeout(() => desk.times.push(performance.now() - begun)));
  if (item) next(item); else { desk.at = null; lists(); inHand({ saved: answer }); }
}

// Takes what an accepted edit, an undo or a redo has changed.
export function happened(answer) {
  const { went, came } = movesOf(answer);
  learn(answer.state);
  desk.changes = answer.changes;
  desk.picked = came;
  went.forEach((record, at) => { if (came[at]) drawing.follow(record, came[at]); });
  takeRegion(answer.region);
  surveySoon();
}

// Takes over what is new of the state: entries and lines of the worklist by their numbers, sequences by their names, all else as it is.
export function learn(state) {
  if (!state) return;
  const { corrections, worklist, sequences, ...rest } = state, known = desk.state;
  const put = (mine, theirs, mark) => theirs.forEach(one => {
    const at = mine.findLastIndex(other => other[mark] === one[mark]);
    if (at >= 0) mine[at] = one; else mine.push(one);
  });
  put(known.corrections, corrections, 'number');
  put(known.sequences, sequences, 0);
  Object.assign(known, rest, { worklist: worklist || known.worklist, version: Math.max(known.version, rest.version) });
}

function refuse(refused) {
  if (!desk.draft) return;
  desk.draft.verdict = { refused };
  desk.changes = null;
  say(`Refused: ${refused[0].message}`);
  verdictHere();
  render();
}

export const isBack = entry => ['done', 'dropped'].includes(entry.verdict);
export const titleOf = ({ lines }) => lines.length ? `${lines.length > 1 ? `${counted(lines.length, 'line')} together: ` : ''}${told(lines[0], columns())}` : 'a decision';

// Takes back the last correction, or any other one by itself; or does again what was taken back last.
let turn = Promise.resolve(); // a key waits until the one before it has its answer
const inTurn = action => { turn = turn.finally(action); };
export const undo = () => inTurn(() => desk.state.can_undo === null ? flash('Nothing to take back.') : reverse('undo', { number: desk.state.can_undo }));
export const redo = () => inTurn(() => reverse('redo', {}));
export const takeBack = entry => entry && isBack(entry) ? reverse('back', { number: entry.number })
  : flash('Nothing to take back: choose a correction that is done.');

async function reverse(path, body) {
  let answer;
  try { answer = await change(path, { ...body, look: seen(), version: desk.state.version }); } catch (error) { flash(error.message); return; }
  if (answer.refused) { inHand({ kept: answer.refused }); say(`Not taken back: ${answer.refused[0].message}`); return; }
  const { entry } = answer;
  desk.draft = null;
  happened(answer);
  desk.at = entry.number;
  say(`${path === 'redo' ? 'Done again' : 'Taken back'}: ${titleOf(entry)}`);
  if (entry.place) goIfFar(entry.place);
  lists();
  inHand({ [path === 'redo' ? 'again' : 'undone']: entry });
}

const reasons = new Set();
export function remember(reason) {
  if (!reason || reasons.has(reason)) return;
  reasons.add(reason);
  byId('reasons').prepend(el('option', { value: reason }));
}

// What is begun by a key

export function remove() {
  if (!desk.picked.length) { flash('Select a record first.'); return; }
  begin({ kind: 'remove', records: desk.picked });
  inHand();
  focusOn('why');
}

export function add(start, end, focus = true) {
  const { view } = desk, third = (view.end - view.start) / 3, length = lengthOf(view.sequence);
  const low = Math.max(0, Math.min(Math.round(start ?? view.start + third), length - 1)),
    high = Math.max(low + 1, Math.min(Math.round(end ?? view.start + 2 * third), length));
  const fresh = [view.sequence, String(low), String(high), 'new', '0', '+'].slice(0, Math.min(columns().length, SIX));
  desk.picked = [];
  begin({ kind: 'add', fresh });
  if (!focus) return;
  inHand();
  focusOn(columns().length > 3 ? 'field-name' : 'field-start');
}

export function editColumn(column) {
  if (!main() && !desk.draft) { flash('Select a record first.'); return; }
  if (desk.draft && desk.draft.kind === 'remove') { desk.draft = null; inHand(); }
  focusOn(`field-${column}`);
}

// Several records, or one that becomes two: what is asked for is typed, and tried while it is.
const NEEDED = { split: [1, 1], join: [2, 2], boundary: [2, 2], shift: [1, Infinity], strand: [1, Infinity], name: [1, Infinity] };
export const WORDS = { split: 'Split', join: 'Join', boundary: 'Move the common end of', shift: 'Shift', strand: 'Strand of', name: 'Name of' };
export const ASKS = { split: 'at', boundary: 'to', shift: 'by so many bases', strand: '+, - or .', name: 'the name' };

export function several(kind, value) {
  const records = [...desk.picked], [least, most] = NEEDED[kind];
  if (records.length < least || records.length > most) { flash(least === most
    && least > 1 ? `Select two records for that: ${records.length ? 'one more' : 'click one'}, by Shift and a click, or Shift and N.`
    : 'Select a record first.'); return; }
  if (kind === 'boundary' && records[0][0] === records[1][0]) records.sort((a, b) => a[1] - b[1]);
  begin({ kind, records, value: value ?? proposed(kind, records) });
  inHand();
  focusOn(ASKS[kind] ? 'value' : 'why');
}

function proposed(kind, [record, other]) {
  const pointed = Math.round(desk.pointer ?? -1), inside = pointed > +record[1] && pointed < +record[2];
  if (kind === 'split') return inside ? pointed : Math.round((+record[1] + +record[2]) / 2);
  if (kind === 'strand') return record[5] === '+' ? '-' : '+';
  return kind === 'name' ? record[3] : kind === 'boundary' ? record[2] === other[1] ? record[2] : Math.round((+record[2] + +other[1]) / 2) : kind === 'shift'
    ? 10 : '';
}

// Selects a record; more: besides those that are selected, or not any more if it is one of these.
export function select(record, more = false) {
  const at = record ? desk.picked.findIndex(one => keyOf(one) === keyOf(record)) : -1;
  if (!more || !record) desk.picked = record ? [record] : [];
  else if (at >= 0) desk.picked.splice(at, 1);
  else desk.picked = [...desk.picked, record];
  desk.draft = desk.changes = null;
  inHand();
  render();
}

export const reach = row => { goTo(row); select(row); };
