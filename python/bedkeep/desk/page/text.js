// Texts and numbers as the page shows them. Names come from files and may have anything in them.

const HIDDEN = /[\u0000-\u001f\u007f-\u009f\u00ad\u061c\u115f\u180e\u200b-\u200f\u2028-\u202f\u2060-\u206f\ufeff\ufff9-\ufffb]|[\ud800-\udbff](?![\udc00-\udfff])|(?<![\ud800-\udbff])[\udc00-\udfff]/g;

// A text whose characters can all be seen: what is invisible, or turns the text around, is shown by its code.
export const shown = text => String(text).replace(HIDDEN, found => {
  const code = found.charCodeAt(0);
  return code >= 0xdc80 && code <= 0xdcff ? `⟨${(code - 0xdc00).toString(16)}⟩` : `⟨${code.toString(16).padStart(4, '0')}⟩`;
});
export const hasHidden = text => shown(text) !== text;
export const short = (text, most = 28) => text.length <= most ? text : `${[...text.slice(0, 2 * most)].slice(0, most - 1).join('')}…`;
const FORMAT = new Intl.NumberFormat('en-US');
export const number = value => FORMAT.format(value);
export const counted = (value, what) => `${number(value)} ${what}${value === 1 ? '' : 's'}`;
// A place as people write it, from 1 with its end, as IGV has it.
export const place = ([sequence, start, end]) => `${shown(sequence)}:${number(+start + 1)}-${number(end)}`;

export function bases(value) {
  if (value >= 1e6) return `${+(value / 1e6).toPrecision(3)} Mb`;
  return value >= 1e4 ? `${+(value / 1e3).toPrecision(3)} kb` : `${number(value)} b`;
}

// What a record is called: by its name, or by its place.
const isNamed = record => Boolean(record[3]) && record[3] !== '.';
export const nameOf = (record, most = 60) => isNamed(record) ? short(shown(record[3]), most) : `${number(record[1])}–${number(record[2])}`;
export const strandOf = record => record[5] || '.';
export const spoken = record => [isNamed(record) ? nameOf(record) : 'a record', `${shown(record[0])} ${number(record[1])} to ${number(record[2])}`,
  { '+': 'plus strand', '-': 'minus strand' }[strandOf(record)]].filter(Boolean).join(', ');

// In what two records differ, by the names of their columns.
export function difference(old, fresh, columns) {
  const parts = [], by = fresh[1] - old[1], isShifted = by === fresh[2] - old[2];
  for (let at = 0; at < Math.min(old.length, fresh.length); at++) {
    const moved = fresh[at] - old[at], name = columns[at] || `column ${at + 1}`, isSaid = isShifted && moved === by && (at === 2 || /^thick/.test(columns[at]));
    if (isSaid || old[at] === fresh[at] || /^block(Sizes|Starts)/.test(columns[at]) && parts.at(-1) === 'blocks') continue;
    if (at === 1 || at === 2) parts.push(`${isShifted ? 'all of it' : `${name} ${number(old[at])} → ${number(fresh[at])},`} ${counted(Math.abs(moved), 'base')} ${moved > 0 ? 'later' : 'earlier'}`);
    else if (/^block(Count|Sizes|Starts)/.test(columns[at])) parts.push('blocks');
    else parts.push(`${name} ${short(shown(old[at]), 40)} → ${short(shown(fresh[at]), 40)}`);
  }
  return parts.join('; ');
}

const isRecord = fields => /^[0-9]+$/.test(fields[1]) && /^[0-9]+$/.test(fields[2]) && /^[-+.]$/.test(fields[5]);

// A line of a script, taken apart: its command, the record that it takes out and the one that it puts in. width: columns of the file
export function parsed(line, width) {
  const [command, ...fields] = line.split('\t');
  const kind = command.replace(/b$/, '');
  if (kind === 'resize') return { command, kind, sequence: fields[0], length: fields[1] };
  if (kind !== 'replace') return { command, kind, old: kind === 'remove' ? fields : null, fresh: kind === 'add' ? fields : null };
  let half = Math.ceil(fields.length / 2);
  if (width > 6 && fields.length === width + 6) { // one of the two records has six columns
    const first = fields.slice(width), last = fields.slice(6);
    half = (isRecord(first) === isRecord(last) ? first[0] === fields[0] && fields[0] !== last[0] : isRecord(first)) ? width : 6;
  }
  return { command, kind, old: fields.slice(0, half), fresh: fields.slice(half) };
}

// A line as it is read: with spaces, and not longer than can be read.
export const lineShown = (line, most = 400) => short(shown(line.replace(/\t/g, ' ')), most);

// What a line does, in few words.
export function told(line, columns) {
  const { command, kind, old, fresh, sequence, length } = parsed(line, columns.length);
  const second = command.endsWith('b') ? ' (second file)' : '';
  if (kind === 'resize') return `${shown(sequence || '')}: length ${shown(length || '')}`;
  if (kind === 'replace' && old.length > 2 && fresh.length > 2) return `${nameOf(old)}: ${difference(old, fresh, columns) || 'nothing changes'}${second}`;
  const record = old || fresh;
  if ((kind === 'add' || kind === 'remove') && record.length > 2) {
    return `${kind} ${isNamed(record) ? `${nameOf(record)}, ` : ''}${number(record[1])}–${number(record[2])}${second}`;
  }
  return lineShown(line, 200);
}
