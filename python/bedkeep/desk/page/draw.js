// The drawing of a region: lanes of records, blocks, depth, the second file and bases, below a ruler.
import { Lanes } from './lanes.js';
import { keyOf, rowsOf, shapeOf } from './records.js';
import { bases, counted, nameOf, number, short, shown, spoken, strandOf } from './text.js';

const SVG = 'http://www.w3.org/2000/svg';
const ROW = 22, BOX = 15, SLIM = 10, MOST_ROWS = 40, LETTER = 6.4, TITLE = 14, DEPTH = 44;
const NEAR = 8; // pixels, for snapping
const ROOM = 7; // pixels between two handles at least, else none are drawn for blocks

function make(name, attributes = {}, ...children) {
  const element = document.createElementNS(SVG, name);
  for (const [key, value] of Object.entries(attributes)) if (value !== undefined) element.setAttribute(key, value);
  element.append(...children);
  return element;
}

// The rows of a view as they would be after a line that isn't sent yet.
function foreseen(rows, change) {
  if (!change) return rows;
  const went = new Set(change.went), came = change.came.map(row => row.split('\t'));
  return [...rows.filter(row => !went.has(keyOf(row))), ...came].sort((a, b) => a[1] - b[1]);
}

// The parts of an interval that none of these rows covers.
function without(start, end, rows) {
  const parts = [];
  for (const row of rows) {
    if (+row[2] <= start || +row[1] >= end) continue;
    if (+row[1] > start) parts.push([start, +row[1]]);
    start = +row[2];
  }
  return start < end ? [...parts, [start, end]] : parts;
}

// The outline of a block, with a tip on one side if it has one.
function outline(low, high, top, tall, tip) {
  const width = Math.max(high - low, 1.5), half = tall / 2, point = width > 9 ? 6 : 0;
  const [x, w, t, h] = [low, width, top, tall].map(value => +value.toFixed(1));
  if (!tip || !point) return `M${x} ${t}h${w}v${h}h${-w}z`;
  if (tip === '-') return `M${x + point} ${t}h${w - point}v${h}h${point - w}l${-point} ${-half}z`;
  return `M${x} ${t}h${w - point}l${point} ${half}l${-point} ${half}h${point - w}z`;
}

// The least of 1, 2, 5, 10, 20 .. by which a span has no more than so many parts.
function step(span, most) {
  for (let power = 1; ; power *= 10) for (const factor of [1, 2, 5]) if (span / (factor * power) <= most) return factor * power;
}

// Has an element just these children, and touches none that is in its place already.
export function place(parent, children) {
  let next = parent.firstChild;
  for (const child of children) if (child === next) next = next.nextSibling; else parent.insertBefore(child, next);
  while (next) { const after = next.nextSibling; next.remove(); next = after; }
}

const set = (element, name, value) => { if (element.getAttribute(name) !== String(value)) element.setAttribute(name, value); };

const DEFS = make('defs', {}, make('pattern', { id: 'hatch', width: 7, height: 7, patternUnits: 'userSpaceOnUse', patternTransform: 'rotate(45)' },
  make('rect', { class: 'hatch', width: 2, height: 7 })));

// A drawing in an svg element. `model` has view {sequence, start, end}, region, formats, picked, ghosts, changes, snap, area.
export class Drawing {
  constructor(svg) {
    // lanes: of each view, and of the records; kept: what was drawn last, by keys: what shows the same isn't made again
    Object.assign(this, { svg, width: 800, tall: 400, scroll: 0, sequence: '', points: [], lanes: new Map(), kept: new Map() });
    Object.assign(this, { group: make('g', { class: 'records', role: 'group' }), over: make('g', { class: 'over' }) });
  }

  x(position) { return (position - this.view.start) / (this.view.end - this.view.start) * this.width; }
  position(x) { return this.view.start + x / this.width * (this.view.end - this.view.start); }

  // The nearest end of a neighbour, of the second file or of the sequence, if it is close enough on the screen.
  snapped(position, but) {
    let best = null;
    for (const point of this.points) {
      const away = Math.abs(this.x(point.at) - this.x(position));
      if (!but.has(point.key) && away <= NEAR && (!best || away < best.away)) best = { ...point, away };
    }
    return best;
  }

  // The record whose box an element is of, or that boxes of an area are of.
  recordOf(element) { const group = element.closest('.r'); return group && this.drawn.get(group) || null; }
  recordsIn(left, top, right, bottom) {
    return [...this.drawn].filter(([group]) => {
      const box = group.firstChild.getBoundingClientRect();
      return box.right >= left && box.left <= right && box.bottom >= top && box.top <= bottom;
    }).map(([, record]) => record);
  }
  follow(old, fresh) { this.laneOf('records').follow(keyOf(old), keyOf(fresh)); }

  draw(model) {
    const { view, region } = model;
    Object.assign(this, { view, model, top: 0, parts: [], down: [], drawn: new Map(), before: this.kept, kept: new Map() }); // down: what goes down to the end
    if (this.sequence !== view.sequence) { this.sequence = view.sequence; this.lanes.clear(); }
    this.points = [{ at: 0, what: 'the sequence begins' }, { at: region ? region.length : 0, what: 'the sequence ends' }];
    this.ruler();
    if (region && region.sequence === view.sequence) {
      this.beyond(region.length);
      if (region.mode === 'counts') this.counts(region);
      else this.rows(region);
    }
    const { snap, area } = model, over = area ? [make('rect', { class: 'area', ...area })] : [];
    if (snap) over.push(make('path', { class: 'guide', d: `M${this.x(snap.at).toFixed(1)} 18V${this.top}` }),
      make('text', { class: 'guide-name', x: Math.min(this.x(snap.at) + 5, this.width - 170), y: 37 }, `${snap.what}: ${number(snap.at)}`));
    place(this.over, over);
    this.finish();
  }

  finish() {
    const { view } = this, height = Math.max(this.top + 6, 150);
    set(this.grid, 'd', this.lines.replaceAll('V', `V${height}`));
    for (const element of this.down) element.setAttribute('height', height);
    const label = `${shown(view.sequence)}, ${number(Math.round(view.start))} to ${number(Math.round(view.end))}`;
    for (const [name, value] of Object.entries({ width: this.width, height, 'aria-label': label })) set(this.svg, name, value);
    place(this.svg, [DEFS, ...this.parts, this.over, this.ticks]);
    this.scrolled(this.scroll);
  }

  // Keeps the ruler in sight. To ask for scrollTop in a drawing would have the browser lay out all of it at once.
  scrolled(scroll) {
    this.scroll = scroll;
    if (this.ticks) set(this.ticks, 'transform', `translate(0 ${scroll})`);
  }

  // Something that was drawn before, if what it shows is the same, or else is made.
  keep(key, seen, build) {
    const old = this.before.get(key), one = old && old.seen === seen ? old : { seen, ...build() };
    this.kept.set(key, one);
    return one;
  }

  // A part of the drawing below the others.
  lane(key, seen, build) {
    const { element, height } = this.keep(key, `${this.view.start} ${this.view.end} ${this.width} ${seen}`, () => {
      const { top, parts } = this;
      Object.assign(this, { top: 0, parts: [] });
      build();
      const made = { element: make('g', {}, ...this.parts), height: this.top };
      Object.assign(this, { top, parts });
      return made;
    });
    set(element, 'transform', `translate(0 ${this.top})`);
    this.parts.push(element);
    this.top += height;
  }

  ruler() {
    const { start, end } = this.view, size = step(end - start, this.width / 95);
    const { element, grid, lines } = this.keep('ruler', `${start} ${end} ${this.width}`, () => {
      const ticks = make('g', { class: 'ruler', 'aria-hidden': 'true' }, make('rect', { class: 'ruler-back', x: 0, y: 0, width: this.width, height: 20 }));
      let d = '';
      for (let at = Math.max(0, Math.ceil(start / size) * size); at <= end; at += size) {
        const x = this.x(at);
        d += `M${Math.round(x) + .5} 20V`;
        if (x > 30 && x < this.width - 36) ticks.append(make('text', { class: 'tick', x, y: 13 }, number(at)));
      }
      return { element: ticks, grid: make('path', { class: 'grid' }), lines: d };
    });
    Object.assign(this, { ticks: element, grid, lines, top: 26 });
    this.parts.push(grid);
  }

  beyond(length) {
    for (const [low, high] of [[this.view.start, Math.min(0, this.view.end)], [Math.max(length, this.view.start), this.view.end]]) {
      if (high <= low) continue;
      const x = this.x(low), width = this.x(high) - x;
      const beyond = make('rect', { class: 'beyond', x, y: 20, width }, make('title', {}, 'past the end of the sequence'));
      this.down.push(beyond);
      this.parts.push(beyond);
    }
    if (length > this.view.end) return;
    const end = make('rect', { class: 'end', x: (this.x(length) - 1).toFixed(1), y: 18, width: 2 });
    this.down.push(end);
    this.parts.push(end);
  }

  title(text, note = '') {
    this.parts.push(make('text', { class: 'lane', x: 6, y: this.top + 10 }, text, ...(note ? [make('tspan', { class: 'note', dx: 8 }, note)] : [])));
    this.top += TITLE;
  }

  counts(region) {
    const height = Math.max(150, Math.min(360, this.tall - 90)), most = Math.max(1, ...region.depths), width = region.end - region.start;
    this.title('records', `${counted(region.near, 'record')} here: zoom in to see each`);
    const bar = values => values.map((value, at) => {
      if (!value) return '';
      const low = this.x(region.start + width * at / values.length), high = this.x(region.start + width * (at + 1) / values.length);
      const tall = Math.max(1, value / most * height);
      return `M${low.toFixed(1)} ${(this.top + height - tall).toFixed(1)}H${(high + .3).toFixed(1)}V${this.top + height}H${low.toFixed(1)}z`;
    }).join('');
    this.parts.push(make('path', { class: 'depths', d: bar(region.depths) }), make('path', { class: 'starts', d: bar(region.starts) }),
      make('text', { class: 'note', x: this.width - 6, y: this.top + 10, 'text-anchor': 'end' },
        `up to ${number(most)} in ${bases(Math.round(width / region.depths.length))}; dark: those that begin there`));
    this.top += height + 8;
  }

  rows(region) {
    const { model } = this;
    if (region.bases) this.bases(region);
    for (const [words, text] of Object.entries(region.views)) {
      const change = (model.changes || []).find(one => one.view === words);
      if (words === 'records') { this.records(rowsOf(text)); continue; }
      if (words.startsWith('getfasta')) continue; // its rows are bases, and are in the list of rows
      this.lane(words, `${model.ahead} ${change ? JSON.stringify(change) : ''} ${text}`, () => {
        const rows = foreseen(rowsOf(text), model.ahead && change);
        if (words.startsWith('genomecov')) this.depth(words, rows, change); else this.boxes(words, rows, change);
      });
    }
    if (region.second === undefined) return;
    const second = rowsOf(region.second);
    for (const record of second) this.points.push({ at: +record[1], what: `${nameOf(record, 28)} starts` },
      { at: +record[2], what: `${nameOf(record, 28)} ends` });
    this.lane('second file', region.second, () => this.second(second));
  }

  laneOf(words) {
    if (!this.lanes.has(words)) this.lanes.set(words, new Lanes(MOST_ROWS));
    return this.lanes.get(words);
  }

  // Boxes with their rows. Copies and long names have room too. `reach` is where the next one may begin, wherever the view is.
  packed(words, records, named) {
    const boxes = [];
    for (const record of records) {
      const low = this.x(+record[1]), high = Math.max(this.x(+record[2]), low + 2), seen = Math.min(high, this.width) - Math.max(low, 0);
      if (high < -this.width || low > 2 * this.width) continue;
      const name = named && record[3] && record[3] !== '.' ? short(shown(record[3])) : '', room = LETTER * name.length + 16;
      const holds = high - low >= room && !(record[9] > 1), inside = seen >= room && (holds || high >= this.width);
      boxes.push({ record, key: keyOf(record), low, high, reach: holds || !name ? high : high + room - 8, name: holds && !inside ? '' : name, inside });
    }
    return this.laneOf(words).pack(boxes, this.width, (this.view.end - this.view.start) / this.width);
  }

  records(rows) {
    const { ghosts = [], picked } = this.model;
    for (const record of rows) {
      const key = keyOf(record), name = nameOf(record, 28);
      this.points.push({ at: +record[1], what: `${name} starts`, key }, { at: +record[2], what: `${name} ends`, key });
    }
    const gone = new Map();
    for (const { record, mark } of ghosts) if (mark === 'removed') gone.set(keyOf(record), (gone.get(keyOf(record)) || 0) + 1);
    const here = rows.filter(row => { const key = keyOf(row), left = gone.get(key); if (left) gone.set(key, left - 1); return !left; });
    const { boxes, rows: count, left } = this.packed('records', here, true);
    this.title('records', left ? `and ${number(left)} more: zoom in` : rows.length ? '' : 'none here');
    let stopped = false;
    const made = boxes.map(box => {
      const mine = picked.has(box.key), stops = !stopped && (mine || !picked.size), handles = mine && picked.size === 1 && !ghosts.length;
      stopped ||= stops;
      const seen = [box.low, box.high, this.top, this.width, mine, stops, handles, box.name, box.inside].join();
      const { element } = this.keep(`${box.row} ${box.key}`, seen,
        () => ({ element: this.box(box, mine ? 'r selected' : 'r', { format: this.model.format, stops, handles }) }));
      this.drawn.set(element, box.record);
      return element;
    });
    set(this.group, 'aria-label', counted(rows.length, 'record'));
    place(this.group, made);
    this.parts.push(this.group);
    this.pair(boxes);
    this.top += count * ROW;
    if (ghosts.length) this.ghosts(ghosts);
    this.top += 6;
  }

  // The common end of two selected records, to drag.
  pair(boxes) {
    const { pair } = this.model;
    if (!pair) return;
    const rows = boxes.filter(box => this.model.picked.has(box.key)).map(box => box.row), x = this.x(pair.at);
    if (!rows.length || x < -5 || x > this.width + 5) return;
    const top = this.top + Math.min(...rows) * ROW, tall = (Math.max(...rows) - Math.min(...rows) + 1) * ROW;
    this.parts.push(this.handle('pair', x, top, tall, `drag the end of ${nameOf(pair.left)} and the start of ${nameOf(pair.right)}`));
  }

  ghosts(ghosts) {
    const here = ghosts.filter(ghost => ghost.record[0] === this.view.sequence), marks = new Map(here.map(ghost => [ghost.record, ghost]));
    const { boxes, rows, left } = this.packed('ghosts', here.map(ghost => ghost.record), true);
    const added = here.filter(ghost => ghost.mark !== 'removed');
    for (const box of boxes) {
      const { mark, word } = marks.get(box.record), handles = this.model.drags && mark === 'added' && added.length === 1;
      this.parts.push(this.box(box, `r ghost ${mark}`, { format: this.model.format, word, handles }));
    }
    this.top += rows * ROW;
    if (left) this.title('', `and ${number(left)} more that change`);
  }

  // A record: its blocks, thin but for the thick part, on a line; or one block.
  box({ record, row, low, high, name, inside }, kind, { format, word = '', stops = false, handles = false }) {
    const top = this.top + row * ROW + 3, shape = shapeOf(record, format),
      said = `${word ? `${word}: ` : ''}${spoken(record)}${shape.blocks.length > 1 ? `, ${shape.blocks.length} blocks` : ''}`;
    const group = make('g', { class: kind, role: 'button', tabindex: stops ? '0' : '-1', 'aria-label': said, 'aria-pressed': kind.includes('selected') });
    group.append(make('path', { class: 'body', d: this.body(record, shape, top) }),
      make('title', {}, `${said}${record[4] && record[4] !== '.' ? `, score ${short(shown(record[4]))}` : ''}`));
    if (shape.blocks.length > 1) {
      const from = Math.max(low, -20), to = Math.max(from, Math.min(high, this.width + 20));
      group.append(make('path', { class: 'intron', d: `M${from.toFixed(1)} ${top + BOX / 2}H${to.toFixed(1)}` }),
        make('rect', { class: 'reach', x: from, y: top, width: to - from, height: BOX }));
    }
    if (shape.summit !== null) group.append(make('path', { class: 'summit',
      d: `M${this.x(shape.summit + .5).toFixed(1)} ${top - 3}l3 4l-3 4l-3 -4zM${this.x(shape.summit + .5).toFixed(1)} ${top}v${BOX}` }));
    const thin = shape.blocks.length > 1 || shape.thick && shape.thick[0] === shape.thick[1];
    if (name && high > 0) group.append(make('text', inside && !thin ? { class: 'in', x: Math.max(low, 0) + 7, y: top + 11.5 }
      : { class: inside ? 'on' : 'out', x: inside ? Math.max(low, 0) + 7 : Math.min(high, this.width) + 7, y: top + 11.5 }, name));
    if (handles) group.append(...this.handles(record, shape, top));
    return group;
  }

  body(record, shape, top) {
    const strand = strandOf(record), last = shape.blocks.length - 1;
    const clip = ([start, end]) => [Math.max(this.x(start), -20), Math.min(this.x(end), this.width + 20)];
    return shape.blocks.flatMap((block, at) => {
      const tip = strand === '-' && at === 0 || strand === '+' && at === last ? strand : '';
      const [start, end] = block, [from, to] = shape.thick || block;
      const thick = [Math.max(start, from), Math.min(end, to), BOX];
      const parts = [[start, Math.min(end, from), SLIM], thick, [Math.max(start, to), end, SLIM]].filter(([a, b]) => a < b);
      return parts.map(([a, b, tall], part) => {
        const [low, high] = clip([a, b]);
        const tipped = tip && (tip === '-' ? part === 0 : part === parts.length - 1) ? tip : '';
        return high < low || high < -19 || low > this.width + 19 ? '' : outline(low, high, top + (BOX - tall) / 2, tall, tipped);
      });
    }).join('');
  }

  handle(which, x, top, tall, title) {
    const handle = make('g', { class: `handle ${which.split(':')[0]}` }, make('rect', { class: 'reach', x: x - 9, y: top - 4, width: 18, height: tall + 8 }),
      make('rect', { class: 'grip', x: x - 2.5, y: top - 3, width: 5, height: tall + 6, rx: 2 }), make('title', {}, title));
    handle.dataset.handle = which;
    return handle;
  }

  // What can be dragged of a record: its ends, those of its blocks, the ends of its thick part and the summit.
  handles(record, shape, top) {
    const found = [], ends = shape.blocks.flat(), free = x => found.every(other => Math.abs(other.x - x) >= ROOM);
    const take = (which, at, title, y, tall) => { const x = this.x(at);
      if (x > -5 && x < this.width + 5 && free(x)) found.push({ x, made: this.handle(which, x, y, tall, title) }); };
    take('start', record[1], 'drag the start', top, BOX);
    take('end', record[2], 'drag the end', top, BOX);
    if (shape.thick && shape.thick[0] < shape.thick[1]) shape.thick.forEach((at, side) =>
      take(`thick:${side}`, at, `drag ${side ? 'thickEnd' : 'thickStart'}`, top + 3, BOX - 3));
    if (shape.summit !== null) take('summit', shape.summit + .5, 'drag the summit', top - 2, 6);
    if (ends.length > 2) ends.forEach((at, place) => { if (place && place < ends.length - 1) take(`block:${place >> 1}:${place & 1}`, at,
      `drag the ${place & 1 ? 'end' : 'start'} of block ${(place >> 1) + 1}`, top + 3, SLIM - 2); });
    return found.map(one => one.made);
  }

  boxes(words, rows, change) {
    const came = new Set(change ? change.came : []), flat = words.startsWith('merge') || words.startsWith('complement'), slim = ROW - 12;
    const { boxes, rows: count, left } = this.packed(words, rows, false);
    this.title(words, left ? `and ${number(left)} more: zoom in` : rows.length ? '' : 'none here');
    const group = make('g', { class: 'blocks', role: 'img', 'aria-label': `${words}: ${counted(rows.length, 'row')}` });
    for (const { record, row, low, high } of boxes) {
      const from = Math.max(low, -20), to = Math.min(high, this.width + 20);
      if (to < from) continue;
      group.append(make('rect', { class: `block${came.has(keyOf(record)) ? ' came' : ''}`, x: from.toFixed(1), y: this.top + (flat ? 0 : row * slim) + 2,
        width: Math.max(to - from, 1.5).toFixed(1), height: 7, rx: 2 },
        make('title', {}, `${words}: ${short(shown(record.join(' ')), 200)}`)));
    }
    this.parts.push(group);
    this.top += (flat ? slim : count * slim) + 10;
  }

  depth(words, rows, change) {
    const here = rows.filter(row => +row[1] < this.view.end && +row[2] > this.view.start);
    const most = Math.max(1, ...here.map(row => +row[3])), came = new Set(change ? change.came : []), foot = this.top + TITLE + DEPTH;
    this.title(words, `up to ${number(most)}`);
    const bar = (start, end, tall) => {
      const low = Math.max(this.x(start), -50), high = Math.min(Math.max(this.x(end), this.x(start) + .8), this.width + 50);
      return high < low ? '' : `M${low.toFixed(1)} ${foot}v${-tall}H${high.toFixed(1)}v${tall}z`;
    };
    let d = '', fresh = '';
    for (const row of rows) {
      const tall = +(row[3] / most * DEPTH).toFixed(1);
      d += bar(+row[1], +row[2], tall);
      if (!came.has(keyOf(row))) continue;
      const before = change.went.map(one => one.split('\t')).filter(one => one[3] === row[3]);
      for (const [start, end] of without(+row[1], +row[2], before)) fresh += bar(start, end, tall);
    }
    this.parts.push(make('path', { class: 'depth', d, role: 'img', 'aria-label': `${words}: up to ${number(most)}` }),
      make('path', { class: 'depth came', d: fresh }), make('path', { class: 'grid', d: `M0 ${foot}H${this.width}` }));
    this.top += DEPTH + 8;
  }

  second(rows) {
    const { boxes, rows: count, left } = this.packed('second', rows, true);
    this.title('second file', left ? `and ${number(left)} more: zoom in` : rows.length ? '' : 'none here');
    for (const box of boxes) this.parts.push(this.box(box, 'r second', { format: this.model.secondFormat }));
    this.top += count * ROW + 6;
  }

  bases(region) {
    const each = this.x(1) - this.x(0);
    if (each < 3) return;
    this.title('bases');
    for (let at = 0; at < region.bases.length; at++) {
      const x = this.x(region.start + at);
      if (x < -each || x > this.width) continue;
      const letter = region.bases[at], kind = 'ACGT'.includes(letter.toUpperCase()) ? letter.toUpperCase() : 'N';
      this.parts.push(each >= 8 ? make('text', { class: `base base-${kind}`, x: x + each / 2, y: this.top + 11 }, shown(letter))
        : make('rect', { class: `base-${kind}`, x, y: this.top, width: Math.max(each - .5, 1), height: 12 }));
    }
    this.top += 20;
  }
}

// A whole sequence in a strip, with the corrections; `frame` shows on it what is seen.
export class Strip {
  constructor(svg) { Object.assign(this, { svg, window: make('rect', { class: 'window', y: 2, height: 43, rx: 3 }) }); }

  draw(overview, width) {
    Object.assign(this, { overview, width });
    const x = position => position / Math.max(1, overview.length) * width, most = Math.max(1, ...overview.starts), each = width / overview.starts.length;
    const bars = overview.starts.map((value, at) => value ? `M${(at * each).toFixed(1)} 34v${(-Math.max(1.5, value / most * 22)).toFixed(1)}h${each.toFixed(2)}V34z` : '').join('');
    const tips = { back: '', yes: '', no: '', open: '' };
    const tip = (kind, start, end) => { tips[kind] += `M${x((start + end) / 2).toFixed(1)} 37l3.5 7h-7z`; };
    for (const [, start, end, verdict] of overview.marks) tip(verdict === 'done' ? 'yes' : verdict === 'refused' ? 'no' : 'back', start, end);
    for (const [, start, end] of overview.open) tip('open', start, end);
    this.svg.setAttribute('width', width);
    this.svg.setAttribute('height', 46);
    this.svg.setAttribute('aria-label', `the whole of ${short(shown(overview.sequence), 60)}, ${bases(overview.length)}, with ${counted(overview.marks.length, 'correction')}`);
    this.svg.replaceChildren(make('rect', { class: 'sequence', x: 0, y: 34, width, height: 2 }), make('path', { class: 'bars', d: bars }),
      ...Object.entries(tips).map(([kind, d]) => make('path', { class: `mark ${kind}`, d })), this.window);
  }

  frame(view) {
    if (!this.overview || this.overview.sequence !== view.sequence) return;
    const x = position => position / Math.max(1, this.overview.length) * this.width, low = x(Math.max(0, view.start));
    this.window.setAttribute('x', low.toFixed(1));
    this.window.setAttribute('width', Math.max(x(Math.min(this.overview.length, view.end)) - low, 3).toFixed(1));
  }
}
