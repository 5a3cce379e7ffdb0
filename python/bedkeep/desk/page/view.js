// Where we are: what is loaded of it, and when it is drawn.
import { extrasOf, keyOf, rowsOf } from './records.js';
import { columns, current, desk, drawing, drawn, lengthOf, main, movesOf, placeBox, sequenceBox, span, stage, strip, strips } from './state.js';
import { call, query } from './talk.js';
import { place as placed } from './text.js';
import { rowsHere } from './lists.js';

const LEAST = 30; // bases that are seen at least
const BASES = 180; // up to which bases are seen

// A view of a size that begins near there, on a sequence of a length, with a little beyond its ends.
function within(sequence, start, size) {
  const length = lengthOf(sequence), edge = Math.max(size * .04, 2), from = Math.max(-edge, Math.min(start, length + edge - size));
  return { sequence, start: from, end: from + size };
}

export function go([sequence, start, end], roomy = false) {
  const wide = Math.max(end - start, 1);
  if (roomy) { const margin = Math.max(wide * .8, 120); start -= margin; end += margin; }
  const size = Math.min(Math.max(LEAST, end - start), Math.max(lengthOf(sequence) * 1.04, LEAST));
  const other = !desk.view || desk.view.sequence !== sequence;
  desk.view = within(sequence, (start + end) / 2 - size / 2, size);
  if (other) { desk.overview = null; survey(); }
  render();
  return look();
}

export const goTo = (record, roomy = true) => go([record[0], +record[1], +record[2]], roomy);
export function goIfFar(place) {
  const { view } = desk;
  if (place[0] !== view.sequence || place[2] < view.start || place[1] > view.end || (place[2] - place[1]) * 400 < span()) go(place, true);
}
export function panTo(start) { desk.view = within(desk.view.sequence, start, span()); render(); look(); }
export const pan = part => panTo(desk.view.start + span() * part);
export function zoom(factor, x = drawing.width / 2) {
  const at = drawing.position(x), size = Math.max(LEAST, span() * factor), part = x / drawing.width;
  go([desk.view.sequence, at - size * part, at + size * (1 - part)]);
}

export const seen = () => ({ sequence: desk.view.sequence, start: Math.floor(desk.view.start), end: Math.ceil(desk.view.end), margin: Math.ceil(span() * .5) });
export const seenPlace = () => [desk.view.sequence, Math.max(0, Math.round(desk.view.start)),
  Math.min(lengthOf(desk.view.sequence), Math.round(desk.view.end))];

export function takeRegion(region) {
  if (region && region.sequence === desk.view.sequence) desk.region = region;
  render();
  look();
}

// Whether what is there is of where we are.
function covers() {
  const { view, region } = desk;
  return Boolean(region) && region.sequence === view.sequence && region.start <= Math.max(0, view.start) && region.end >= Math.min(region.length, view.end);
}

let looking = false, again = false;
export async function look(force = false) {
  const { view, region } = desk;
  const fine = covers() && (region.mode === 'rows' || region.end - region.start <= 1.6 * span());
  if (fine && !force && !(desk.state.has_bases && !region.bases && span() <= BASES)) return;
  if (looking) { again = true; return; }
  looking = true;
  try {
    const answer = await call(`region?${query(seen())}`);
    const known = desk.region && desk.region.sequence === answer.sequence ? desk.region.version : 0;
    if (view.sequence === desk.view.sequence && answer.version >= known) { desk.region = answer; render(); } // one of before an edit may come after it
  } finally {
    looking = false;
    if (again) { again = false; look(); }
  }
}

let surveying = null;
export async function survey() {
  clearTimeout(surveying);
  surveying = null;
  const width = strips.parentElement.clientWidth, { sequence } = desk.view;
  const overview = await call(`overview?${query({ sequence, bins: Math.min(700, Math.max(1, Math.round(width / 2))) })}`);
  if (sequence !== desk.view.sequence) return;
  desk.overview = overview;
  strip.draw(overview, width);
  render();
}
export const surveySoon = () => { clearTimeout(surveying); surveying = setTimeout(survey, 250); };

let waiting = false;
export function render() {
  if (waiting) return;
  waiting = true;
  requestAnimationFrame(() => { waiting = false; paint(); });
}

function paint() {
  const { view, state, draft } = desk;
  if (!view) return;
  drawn.classList.toggle('stale', !covers());
  drawing.draw({ view, region: desk.region, format: state.format, secondFormat: state.second_format, picked: new Set(desk.picked.map(keyOf)), pair: common(),
    ghosts: ghosts(),
    changes: desk.changes, ahead: Boolean(draft), drags: Boolean(draft) && draft.kind === 'change', snap: desk.snap, area: desk.area });
  reveal();
  strip.frame(view);
  if (document.activeElement !== placeBox) placeBox.value = placed(seenPlace());
  if (sequenceBox.value !== view.sequence) sequenceBox.value = view.sequence;
  const hash = `#${encodeURIComponent(view.sequence.toWellFormed ? view.sequence.toWellFormed() : view.sequence)}:${Math.round(view.start)}-${Math.round(view.end)}`;
  if (location.hash !== hash) history.replaceState(null, '', hash);
  if (desk.tab === 'rows') rowsHere();
}

// The end that two selected records have in common, if they are neighbours.
export function common() {
  if (desk.picked.length !== 2 || desk.draft && desk.draft.kind !== 'boundary') return null;
  const [left, right] = [...desk.picked].sort((a, b) => a[1] - b[1]);
  return left[0] === right[0] && left[2] === right[1] ? { at: desk.draft ? +desk.draft.value : +left[2], left, right } : null;
}

// Scrolls to what came into the hand, once, if many lanes are above it.
let revealed = '', dragging = () => false;
export const whileDragging = test => { dragging = test; };
function reveal() {
  const item = current(), record = desk.draft && desk.draft.records[0] || main() || item && item.lines[0].asked,
    mark = record ? `${desk.item} ${Boolean(desk.draft)} ${keyOf(record)}` : '';
  const there = drawn.querySelector('.ghost.added, .ghost.refused, .ghost, .r.selected');
  if (!mark || mark === revealed || dragging() || !there || !covers()) { if (!mark) revealed = ''; return; }
  revealed = mark;
  const { top, bottom } = there.getBoundingClientRect(), seen = stage.getBoundingClientRect();
  if (top < seen.top + 24 || bottom > seen.bottom - 60) stage.scrollTop += bottom - seen.top - stage.clientHeight / 2;
}

// What a draft takes out and puts in, as it is drawn: by the verdict of its try, or as it was asked for.
function ghosts() {
  const { draft } = desk, item = current();
  if (!draft) return item && item.state === 'open' ? item.lines.filter(line => line.asked).map(line =>
    ({ record: line.asked, mark: 'refused', word: 'asked for' })) : [];
  if (draft.verdict && draft.verdict.same) return [];
  const { went, came } = movesOf(draft.verdict || draft.before), isPlain = draft.fresh && columns().length <= 6;
  if (went.length + came.length && !(draft.verdict && draft.verdict.refused) && !isPlain) {
    return [...went.map(record => ({ record, mark: 'removed', word: 'goes' })), ...came.map(record => ({ record, mark: 'added', word: '' }))];
  }
  const refused = draft.verdict && draft.verdict.refused, absent = Boolean(refused) && refused.some(one => one.reason.startsWith('no such record')), found = [];
  for (const record of draft.guessed || draft.records) if (absent
    || !refused) found.push({ record, mark: absent ? 'refused' : 'removed', word: absent ? 'asked for' : 'goes' });
  if (draft.fresh && +draft.fresh[1] < +draft.fresh[2]) found.push({ record: draft.fresh, mark: refused ? 'refused' : 'added', word: '' });
  return found;
}

// The record that is drawn where the hand is: that of the draft as it will be, or the selected one.
export function inSight() {
  const { draft } = desk, { came } = movesOf(draft && draft.verdict);
  return came.length === 1 ? came[0] : draft && draft.fresh || main();
}
export const extras = record => record ? extrasOf(record, desk.state.format) : [];
export const rowsSeen = () => desk.region && desk.region.mode === 'rows' && desk.region.sequence === desk.view.sequence ? rowsOf(desk.region.views.records) : [];
const resized = () => {
  const wide = stage.clientWidth !== drawing.width;
  Object.assign(drawing, { width: Math.max(200, stage.clientWidth), tall: stage.clientHeight });
  if (wide && desk.view) surveySoon();
  if (wide || desk.region && desk.region.mode === 'counts') render();
};
new ResizeObserver(resized).observe(stage);
