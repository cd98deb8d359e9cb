// What is said of a net in a row of the table, and the table as CSV.

import { count, element } from './elements.js';

export const namesText = entry => (entry.names || []).map(({ name }) => name).join('; ');
const againText = entry => entry.source.isReading ? 'is being read again' : '';
const stateText = entry => ({ waiting: entry.source.isReading ? 'is being read' : 'waits', stopped: 'stopped' })[entry.state] ?? againText(entry);
// How a structure was read that a net is of: what became its vertices, and what was ticked.
const ticksOf = entry => entry.way ? JSON.parse(entry.way.choices) : [];
export const wayText = entry => entry.convention ? [entry.convention, ...ticksOf(entry).map(ticked => labelOf(ticked))].join('; ') : '';
const labelOf = ticked => element('choices').querySelector(`[value=${ticked}]`).parentElement.textContent.trim();
const listText = (word, texts) => texts?.length ? `${word}${texts.join('; ')}` : '';
const joinedText = texts => texts.filter(Boolean).join(' | ');
// What is shown whole: why there is no key, and what is in doubt. The rest is cut to a line.
export const doubtText = entry => joinedText([entry.why, listText('in doubt: ', entry.doubts)]);
export const restText = entry => joinedText([listText('left out: ', entry.left_out), stateText(entry),
  wayText(entry) && `read by ${wayText(entry)}`, listText('', entry.notes)]);
export const toldText = entry => joinedText([doubtText(entry), restText(entry)]);
// The group of equal nets: its number, and how many there are.
const groupText = ({ group }) => group ? `${group.number}${group.count > 1 ? ` (${group.count} nets)` : ''}` : '';
// The file of a net whose name does not tell it.
export function fileText(entry) {
  const { name } = entry.source.file, title = entry.title || name;
  return title === name || title === name.replace(/\.[^.]*(\.gz)?$/, '') ? '' : name;
}
const sizeText = entry => entry.key ? entry.classes : entry.vertices || '';

// The columns: what they are called, what is shown, and what they are sorted by where that is another thing.
export const COLUMNS = [
  { id: 'name', title: 'Net', text: entry => entry.title },
  { id: 'names', title: 'Names', text: namesText },
  { id: 'by', title: 'By', text: entry => entry.by || '' },
  { id: 'group', title: 'Group', text: groupText },
  { id: 'degrees', title: 'Connected', text: entry => (entry.degrees || []).join(', ') },
  { id: 'size', title: 'Vertices', text: sizeText },
  { id: 'dimension', title: 'Dimension', text: entry => entry.dimension || '' },
  { id: 'told', title: 'Notes and doubts', text: toldText }];

// Gives each net with a key its group: the number in the order in which they come, and how many nets it has.
export function numberGroups(entries) {
  const groups = new Map();
  for (const entry of entries) {
    entry.group = null;
    if (!entry.groupKey) continue;
    if (!groups.has(entry.groupKey)) groups.set(entry.groupKey, { number: groups.size + 1, count: 0 });
    entry.group = groups.get(entry.groupKey);
    entry.group.count += 1;
  }
}

export function hasWords(entry, words) {
  if (!words.length) return true;
  const text = [entry.source.file.name, ...COLUMNS.map(column => column.text(entry))].join('\n').toLowerCase();
  return words.every(word => text.includes(word));
}

export const isKnown = entry => entry.state === 'known' || entry.state === 'failed';

// What is reported where nets that are not read yet are not saved, and others as they were read before.
export function unreadText(entries) {
  const left = entries.filter(entry => !isKnown(entry)).length;
  const again = entries.filter(entry => isKnown(entry) && againText(entry)).length;
  return [left && `${count(left, 'net is', 'nets are')} not read yet, and not among those that are saved`,
    again && `${count(again, 'net is', 'nets are')} saved as read before, and being read again`].filter(Boolean).join('; ');
}

// The table as CSV (RFC 4180). A text that a spreadsheet would take for a formula gets an apostrophe.
export function tableText(entries) {
  const quoted = value => {
    const text = String(value ?? '');
    return `"${(/^[=+@\t\r-]/.test(text) ? `'${text}` : text).replaceAll('"', '""')}"`;
  };
  const joined = list => (list || []).join('; ');
  const rows = entries.map(entry => [entry.source.file.name, entry.title, namesText(entry), entry.by, entry.group?.number, joined(entry.degrees),
    entry.dimension, entry.vertices, entry.edges, entry.classes, entry.copies, entry.convention,
    joined(entry.convention ? ticksOf(entry) : []), entry.key, joined(entry.sequences), joined(entry.doubts), joined(entry.left_out),
    joined(entry.components), joined(entry.notes), [entry.why, stateText(entry)].filter(Boolean).join(' | ')]);
  const heads = ['file', 'net', 'names', 'by', 'group', 'connected', 'dimension', 'vertices', 'edges', 'classes', 'copies', 'convention', 'choices',
    'key', 'sequences', 'doubts', 'left_out', 'components', 'notes', 'reason'];
  return [heads, ...rows].map(row => `${row.map(quoted).join(',')}\r\n`).join('');
}
