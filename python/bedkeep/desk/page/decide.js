// The worklist: lines of a script that no longer fit, each of which somebody decides about.
import { attempt, begin, changeOf, draftOf, happened, remember, save, titleOf } from './drafts.js';
import { button, byId, columns, current, desk, el, focusOn, hand, key, name, say, table } from './state.js';
import { flash, inHand, offersOf, raw } from './hand.js';
import { lists } from './lists.js';
import { change } from './talk.js';
import { go, render, seen } from './view.js';
import { counted, difference, parsed, shown, told } from './text.js';

const offeredOf = item => [item.offered || []].flat();
export const isOffered = item => Boolean(item && desk.draft && desk.draft.kind === 'lines' && offeredOf(item).length
  && desk.draft.given.join('\n') === offeredOf(item).join('\n'));
const FITS = ['fits', 'already there', 'fits but for']; export const stateOf = item => item.state === 'other' ? 'another line' : item.state;
const KINDS = { changed: 'the record at this place differs', moved: 'the record is at another place',
  conflict: 'both changed one column, or two records fit equally', 'already so': 'the file has what the line asks for',
  'taken out': 'a line above took the record', follows: 'it fits once a line above is mended', gone: 'nothing like this record is there',
    'bad line': 'it is no correction of this file' };
export const lineOf = item => item.lines.find(line => !FITS.includes(line.kind)) || item.lines[0];
export const toldOf = item => item.lines.length > 1 ? `${counted(item.lines.length, 'line')} together: ${told(lineOf(item).text, columns())}`
  : told(item.lines[0].text, columns());

export function decision(item, offered) {
  const open = item.state === 'open', has = offeredOf(item).length;
  const buttons = !open || desk.draft && !offered ? [] : [has ? el('button', { class: 'main', type: offered ? 'submit' : 'button', id: 'save',
    onclick: offered ? undefined : takeMended }, 'Take it ', key('m')) : null,
    button('Write another', 'w', writeAnother), button('Drop it', 'x', drop), button('Later', 'Esc', () => choose(null))];
  return [...item.lines.flatMap(about),
    item.reason ? el('p', {}, '“', name(item.reason), '”') : el('p', { class: 'quiet' }, 'no reason was given'),
    offered ? el('div', { id: 'verdict', 'aria-live': 'polite' }) : null, ...open && !desk.draft ? offersOf(item.offers, 'May be meant:') : [],
    !open ? el('p', { class: 'yes' }, `✓ ${stateOf(item)}`)
      : offered ? el('form', { class: 'why', onsubmit: event => { event.preventDefault(); takeMended(); } },
        el('input', { id: 'why', list: 'reasons', placeholder: 'Add to the reason, or leave it as it is', 'aria-label': 'reason', autocomplete: 'off' }),
        buttons)
        : buttons.length ? el('div', { class: 'why' }, buttons) : null];
}

// A line, and what is there instead of what it asks for.
function about(line) {
  const mended = line.mended ? parsed(line.mended, columns().length).fresh : null,
    unlike = (one, other) => one.map((text, at) => Boolean(other) && at < other.length && other[at] !== text);
  const rows = [['asked', line.asked, line.found], ['wanted', line.new !== line.asked && line.asked && line.new, line.asked],
    ['there', line.found, line.asked], ['mended', mended, line.found]];
  return [el('h2', {}, `Line ${line.at}: `, el('span', { class: 'no' }, line.kind),
    el('small', {}, `${KINDS[line.kind] || ''}${line.by ? ` (line ${line.by})` : ''}${line.note ? `; ${shown(line.note)}` : ''}`)),
    line.asked ? table(rows.filter(row => row[1]).map(([title, record, other]) => [title, record, unlike(record, other)]))
      : el('p', {}, el('code', {}, shown(line.text.replace(/\t/g, ' ')))),
    line.message && !line.found ? el('p', { class: 'quiet' }, shown(line.message)) : null];
}

// In what the record that is there differs, briefly.
export const unlikeOf = line => line.found && line.asked ? difference(line.asked, line.found, columns()) : line.note || '';

export function choose(item) {
  desk.item = item ? item.number : null;
  desk.draft = desk.changes = null;
  desk.picked = [];
  if (item) {
    desk.tab = 'worklist';
    desk.at = item.number;
    if (item.place) go(item.place, true);
    if (offeredOf(item).length && item.state === 'open') draftOf(offeredOf(item));
  }
  lists();
  inHand();
  render();
  say(item ? `Line ${lineOf(item).at}: ${lineOf(item).kind}. ${item.reason}` : '');
}

export function takeMended() {
  const item = current();
  if (!item || !offeredOf(item).length || item.state !== 'open') return;
  if (!isOffered(item)) draftOf(offeredOf(item));
  save(!byId('why') || !byId('why').value.trim());
}

export function writeAnother() {
  const item = current();
  if (!item || item.state !== 'open') return;
  const line = lineOf(item), { fresh } = parsed(line.text, columns().length),
    found = line.found && [...line.found, ...(line.tail ? line.tail.slice(1).split('\t') : [])];
  if (item.lines.length > 1) { raw(item.lines.map(one => one.text).join('\n')); return; }
  if (!found && !line.asked) { raw(line.text.replace(/\t/g, ' ')); return; }
  if (found) {
    const values = {};
    if (fresh) columns().slice(0, 6).forEach((column, at) => { if (fresh[at] !== line.asked[at] && fresh[at] !== found[at]) values[column] = fresh[at]; });
    desk.picked = [found];
    changeOf(found, values);
  } else begin({ kind: 'add', fresh: (fresh || line.asked).slice(0, Math.min(columns().length, 6)).map(String) });
  inHand();
  focusOn(`field-${columns()[1]}`);
  attempt();
}

export function drop() {
  const item = current();
  if (!item || item.state !== 'open') return;
  const isThere = lineOf(item).kind === 'already so' || Boolean(desk.draft?.verdict?.there?.length);
  desk.draft = desk.changes = null;
  inHand();
  const why = el('input', { id: 'why', placeholder: 'Why is it dropped? The script keeps the reason', 'aria-label': 'reason', autocomplete: 'off',
    value: isThere ? 'The release has it already.' : '' });
  hand.append(el('form', { class: 'why', onsubmit: async event => {
    event.preventDefault();
    try {
      const answer = await change('drop', { number: item.number, reason: why.value, version: desk.state.version, look: seen() });
      remember(why.value);
      happened(answer);
      say(`Dropped: ${titleOf(answer.entry)}`);
      next(item);
    } catch (error) { why.value = ''; why.placeholder = error.message; why.focus(); }
  } }, why, el('button', { class: 'main' }, 'Drop it ', key('Enter')), button('Cancel', 'Esc', () => choose(item))));
  why.focus();
  why.select();
  render();
}

export function next(item) {
  const { items } = desk.state.worklist, at = items.findIndex(one => one.number === item.number);
  const following = [...items.slice(at + 1), ...items.slice(0, at)].find(one => one.state === 'open');
  if (following) choose(following);
  else { choose(null); flash(`All ${counted(items.length, 'line')} have their decisions, and the script has them.`); }
}
