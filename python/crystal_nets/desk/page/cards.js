// The cards of nets, made of what the server reports of them.

import { picturesOf } from './canvases.js';
import { wayText } from './columns.js';
import { count, listOf, make, textsOf } from './elements.js';
import { listedOf } from './listed.js';
import { save, saveSeen } from './saving.js';
import { structureOf } from './structure.js';
import { ask } from './work.js';

export function namesOf(names, without) {
  if (!names.length) return without ? make('p', { className: 'dim' }, without) : null;
  return make('ul', { className: 'names', 'aria-label': 'names in the archives' },
    ...names.map(({ archive, name }) => make('li', {}, name, ' ', make('small', {}, archive))));
}

function cellText(cell) {
  const letters = ['a', 'b', 'c'], angles = cell.angles.length === 3 ? ['α', 'β', 'γ'] : ['γ'];
  const lengths = cell.lengths.map((length, k) => `${letters[k]} ${length}`).join(', ');
  const bent = cell.angles.map((angle, k) => angle === 90 ? '' : `${angles[k]} ${angle}°`).filter(Boolean).join(', ');
  return `${cell.system}; ${lengths} mean edges${bent ? `; ${bent}` : ''}`;
}

function sizesOf(card) {
  const { sizes, cell } = card;
  const shells = (card.sequences || []).map(({ numbers, vertices }) =>
    make('code', {}, `${numbers.join(' ')}${card.classes > 1 ? ` (${vertices} of ${card.classes})` : ''}\n`));
  return listOf([
    ['read by', wayText(card.entry)],
    ['given', sizes && sizes.vertices ? `${count(sizes.vertices, 'vertex', 'vertices')}, ` +
      `${count(sizes.edges, 'edge', 'edges')}, dimension ${sizes.d}` : ''],
    ['interpenetrating', card.copies > 1 ? `one of ${card.copies} copies alike` +
      `${card.woven_class ? `, class ${card.woven_class}` : ''}` : ''],
    ['primitive', card.classes ? `${count(card.classes, 'vertex', 'vertices')}, ${count(cell.kinds, 'kind', 'kinds')}, ` +
      `${cell.degrees.join(', ')}-connected` : ''],
    ['cell', cell ? cellText(cell) : ''],
    ['RCSR', card.rcsr ? make('code', {}, card.rcsr) : ''],
    ['sequences', shells.length ? make('span', {}, ...shells) : '']]);
}

// Notes and doubts: doubts apart from what was left out, and from the rest.
function notesOf({ notes, doubts, left_out: leftOut, components }) {
  return [textsOf('In doubt:', doubts, 'doubts'), textsOf('Left out:', leftOut), textsOf('The structure consists of:', components),
    textsOf('How the structure was read:', notes)];
}

// Why there is no key, in words, with what to do.
export function reasonOf(reason) {
  const { what, advice, told } = typeof reason === 'string' ? { what: reason } : reason;
  return make('div', { className: 'reason' }, make('p', {}, what), advice && make('p', {}, advice),
    told && make('code', {}, told));
}

// Names of a net without a key, by what is certain of them.
export function beyondOf(beyond) {
  if (!beyond) return null;
  return make('div', { className: 'beyond' }, namesOf(beyond.names, ''), make('p', {}, beyond.what));
}

function partsOf(parts) {
  if (!parts || !parts.length) return null;
  return make('ul', { className: 'notes', 'aria-label': 'parts' }, ...parts.map(part => make('li', {},
    `${count(part.copies, 'copy', 'copies')} of `,
    part.key ? part.names.map(({ name }) => name).join('; ') || 'a net without a name in the archives' : part.reason.what)));
}

function savesOf(card, article) {
  const button = (label, work) =>
    make('button', { type: 'button', onclick: work, 'aria-label': `Save ${label} of ${card.title}` }, `Save ${label}`);
  return make('div', { className: 'saves' },
    card.block && button('.cgd', () => save(card.title, '.cgd', card.block)),
    card.report && button('report', () => save(card.title, '.report', card.report)),
    card.beyond?.certificate && button('map', () => save(card.title, '.maps', card.beyond.certificate)),
    (card.picture || card.woven) && button('SVG', () => saveSeen(article.querySelector('.views canvas'), card.title)),
    card.key && button('CIF', event => saveCrystal(card, event.target, 'barycentric')),
    card.key && button('relaxed CIF', event => saveCrystal(card, event.target, 'relaxed')));
}

async function saveCrystal(card, button, kind) {
  button.disabled = true;
  const crystal = await ask('crystal', { block: card.block, name: card.name, kind });
  button.disabled = false;
  if (crystal.cif) save(card.title, kind === 'relaxed' ? '-relaxed.cif' : '.cif', crystal.cif, 'chemical/x-cif');
  else button.after(make('span', { role: 'status' }, `no CIF: ${crystal.reason}`));
}

// Puts what is known of a net into its card, with the tools of its file.
export function fillCard(article, card, tools) {
  const { entry } = card;
  const without = card.key ? 'no name in the archives' : '';
  const key = card.key && make('details', {}, make('summary', {}, 'key'), make('code', {}, card.key));
  const facts = make('div', { className: 'facts' }, card.reason && reasonOf(card.reason), beyondOf(card.beyond), partsOf(card.parts),
    sizesOf(card), ...notesOf(entry), listedOf(entry), key, savesOf(card, article), tools);
  const drawn = [picturesOf(card, card.title), structureOf(entry)].filter(Boolean);
  article.replaceChildren(...[make('h3', {}, card.title || 'net'), namesOf(card.names || [], without),
    make('div', { className: 'beside' }, ...drawn, facts)].filter(Boolean));
  article.removeAttribute('aria-busy');
}
