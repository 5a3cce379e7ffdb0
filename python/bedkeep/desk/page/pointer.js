// The mouse, and fingers: drags of ends, blocks and whole views, and what is selected by them.
import { add, begin, changeOf, select } from './drafts.js';
import { byId, columns, desk, drawing, drawn, focusOn, lengthOf, main, say, span, stage, strips } from './state.js';
import { inHand } from './hand.js';
import { common, go, inSight, panTo, render, whileDragging, zoom } from './view.js';
import { keyOf, movedBlock } from './records.js';
import { counted, spoken } from './text.js';

let drag = null;
whileDragging(() => Boolean(drag));
const xOf = event => event.clientX - drawn.getBoundingClientRect().left;

drawn.addEventListener('pointerdown', event => {
  if (event.button || !desk.view) return;
  const x = xOf(event), handle = event.target.closest('.handle'), at = { x, top: event.clientY };
  if (handle) {
    const change = desk.draft && desk.draft.kind === 'change' ? desk.draft : null;
    drag = { ...at, kind: 'handle', which: handle.dataset.handle, old: change ? change.records[0] : main(), values: change ? change.values : {},
      shape: inSight(), pair: common(), fresh: desk.draft && desk.draft.kind === 'add' ? desk.draft.fresh : null };
    event.preventDefault();
  } else if (event.target.closest('.ruler-back, .tick')) drag = { ...at, kind: 'new', from: drawing.position(x) };
  else drag = { ...at, kind: event.shiftKey ? 'area' : 'pan', start: desk.view.start, record: drawing.recordOf(event.target),
    more: event.shiftKey || event.ctrlKey || event.metaKey };
  drawn.setPointerCapture(event.pointerId);
});

drawn.addEventListener('pointermove', event => {
  const x = xOf(event);
  desk.pointer = desk.view ? drawing.position(x) : null;
  if (!drag) return;
  if (Math.abs(x - drag.x) > 3 || Math.abs(event.clientY - drag.top) > 3) drag.moved = true;
  if (!drag.moved) return;
  drawn.classList.toggle('pans', drag.kind === 'pan');
  if (drag.kind === 'pan') panTo(drag.start - (x - drag.x) / drawing.width * span()); else if (drag.kind === 'area') area(event, x); else place(event, x);
  render();
});

// The boxes that a rectangle touches are selected when it ends.
function area(event, x) {
  const top = drawn.getBoundingClientRect().top;
  desk.area = { x: Math.min(x, drag.x), y: Math.min(event.clientY, drag.top) - top, width: Math.abs(x - drag.x), height: Math.abs(event.clientY - drag.top) };
}

// Where an end is dragged to: a base, or what is near.
function place(event, x) {
  const but = new Set((drag.pair ? [drag.pair.left, drag.pair.right] : [drag.old]).filter(Boolean).map(keyOf));
  let position = Math.round(drawing.position(x));
  desk.snap = event.altKey ? null : drawing.snapped(position, but);
  if (desk.snap) position = desk.snap.at;
  position = Math.max(0, position);
  if (position === drag.last) return;
  drag.last = position;
  if (drag.kind === 'new') {
    const [low, high] = [drag.from, position].sort((a, b) => a - b), [start, end] = [Math.max(0, Math.round(low)), Math.round(high)];
    if (end > start) add(start, end, false);
  } else move(drag.which, position);
  if (desk.draft && !byId('verdict')) inHand();
  for (const [column, value] of Object.entries(desk.draft && (desk.draft.values || { value: desk.draft.value }) || {})) {
    const box = byId(column === 'value' ? 'value' : `field-${column}`);
    if (box) { box.value = value; box.parentElement.classList.add('changed'); }
  }
}

function move(which, position) {
  const [, start, end] = columns(), [kind, at, side] = which.split(':'), { reason } = desk.draft || {};
  if (kind === 'pair') begin({ kind: 'boundary', records: [drag.pair.left, drag.pair.right], value: position });
  else if (drag.fresh) begin({ kind: 'add', fresh: drag.fresh.with(which === 'start' ? 1 : 2, String(position)) });
  else {
    const column = { start, end, thick: +at ? 'thickEnd' : 'thickStart', summit: 'summit', block: 'blocks' }[kind];
    changeOf(drag.old, { ...drag.values, [column]: kind === 'block' ? movedBlock(drag.shape, +at, +side, position) : String(position) });
  }
  if (reason) desk.draft.reason = reason;
}

drawn.addEventListener('pointerup', event => {
  if (!drag) return;
  const { kind, moved, record, more, x, top } = drag;
  drag = desk.snap = desk.area = null;
  drawn.classList.remove('pans');
  if (kind === 'area' && moved) {
    const box = drawn.getBoundingClientRect(), now = xOf(event);
    desk.picked = drawing.recordsIn(box.left + Math.min(x, now), Math.min(top, event.clientY), box.left + Math.max(x, now), Math.max(top, event.clientY));
    desk.draft = null;
    inHand();
    say(`${counted(desk.picked.length, 'record')} selected`);
  } else if (!moved && (kind === 'pan' || kind === 'area')) {
    if (record || !more) select(record, more && desk.item === null);
    if (record) say(spoken(record));
    if (record && desk.item !== null) { changeOf(record, {}); inHand(); }
  } else if (kind === 'new' || kind === 'handle') {
    inHand();
    focusOn(kind === 'new' && columns().length > 3 ? 'field-name' : 'why');
  }
  render();
});
drawn.addEventListener('pointercancel', () => { drag = desk.snap = desk.area = null; render(); });
drawn.addEventListener('dblclick', event => { if (!drawing.recordOf(event.target)) zoom(.4, xOf(event)); });
drawn.addEventListener('focusin', event => { const record = drawing.recordOf(event.target);
  if (record && event.target.matches(':focus-visible')) say(spoken(record)); });
stage.addEventListener('scroll', () => drawing.scrolled(stage.scrollTop), { passive: true });
stage.addEventListener('wheel', event => {
  const sideways = Math.abs(event.deltaX) > Math.abs(event.deltaY);
  if (event.ctrlKey || event.metaKey) zoom(event.deltaY > 0 ? 1.25 : .8, xOf(event));
  else if (sideways || event.shiftKey) panTo(desk.view.start + (sideways ? event.deltaX : event.deltaY) / drawing.width * span());
  else return;
  event.preventDefault();
}, { passive: false });

function toStrip(event) {
  const { left, width } = strips.getBoundingClientRect(), x = (event.clientX - left) / width * lengthOf(desk.view.sequence);
  go([desk.view.sequence, x - span() / 2, x + span() / 2]);
}
strips.addEventListener('pointerdown', event => { strips.setPointerCapture(event.pointerId); toStrip(event); });
strips.addEventListener('pointermove', event => { if (event.buttons) toStrip(event); });
