// What a record has after its sixth column, as it is drawn and as it is typed: blocks, the thick part, the summit.

export const rowsOf = text => text ? text.replace(/\n$/, '').split('\n').map(row => row.split('\t')) : [];
export const keyOf = record => record.join('\t');

export const SIX = 6;
const FEATURE = ['source', 'type', 'phase', 'attributes'];
const NAMES = { BED8: ['thickStart', 'thickEnd'], BED9: ['thickStart', 'thickEnd', 'itemRgb'], BED12: ['thickStart', 'thickEnd', 'itemRgb', 'blocks'],
  narrowPeak: ['signalValue', 'pValue', 'qValue', 'summit'], broadPeak: ['signalValue', 'pValue', 'qValue'],
  GFF3: FEATURE, GTF: FEATURE };
const listed = text => (text || '').replace(/,$/, '').split(',').map(Number);

// The blocks of a BED12 record on the sequence, or nothing if they can't be read.
function blocksOf(record) {
  const [count, sizes, starts] = [+record[9], listed(record[10]), listed(record[11])];
  if (sizes.length !== count || starts.length !== count || [...sizes, ...starts].some(Number.isNaN)) return null;
  return starts.map((start, at) => [+record[1] + start, +record[1] + start + sizes[at]]);
}

// {blocks, thick, summit}: what is drawn of a record of a format; without blocks it is one.
export function shapeOf(record, format) {
  const whole = [[+record[1], +record[2]]], has = record.length > SIX;
  const shape = { blocks: has && format === 'BED12' && blocksOf(record) || whole, thick: null, summit: null };
  if (has && /^BED(8|9|12)$/.test(format) && +record[6] < +record[7]) shape.thick = [+record[6], +record[7]];
  else if (has && /^BED(8|9|12)$/.test(format)) shape.thick = [+record[1], +record[1]];
  if (has && format === 'narrowPeak' && +record[9] >= 0) shape.summit = +record[1] + +record[9];
  return shape;
}

// The columns after the sixth as they are typed: [name, value]. Places are on the sequence; blocks are START-END,START-END.
export function extrasOf(record, format) {
  const columns = record.slice(SIX), names = NAMES[format] || [];
  if (format === 'BED12' && columns.length >= SIX) columns.splice(3, 3,
    (blocksOf(record) || []).map(block => block.join('-')).join(',') || columns.slice(3, 6).join(' '));
  if (format === 'narrowPeak' && columns.length > 3 && +columns[3] >= 0) columns[3] = String(+record[1] + +columns[3]);
  const before = SIX + (format === 'BED12' ? 2 : 0);
  return columns.map((value, at) => [names[at] || `column_${before + at + 1}`, value]);
}

// The blocks as they are typed, with another end of one of them.
export function movedBlock(record, at, which, position) {
  const blocks = (blocksOf(record) || []).map(block => [...block]);
  const least = which ? blocks[at][0] + 1 : at ? blocks[at - 1][1] : 0, most = which ? (blocks[at + 1] || [Infinity])[0] : blocks[at][1] - 1;
  blocks[at][which] = Math.max(least, Math.min(most, position));
  return blocks.map(block => block.join('-')).join(',');
}
