// The table of all nets: sorted, filtered, some rows at a time, with thumbnails on demand.

import { forgetPictures, pictureOf } from './canvases.js';
import { fillCard, reasonOf } from './cards.js';
import { COLUMNS, doubtText, fileText, hasWords, isKnown, numberGroups, restText, tableText, toldText, unreadText } from './columns.js';
import { changed, count, element, keepingFocus, make, paintBy, setText, tell, whenInSight } from './elements.js';
import { chosen, putSideBySide } from './pairs.js';
import { save, saveAll } from './saving.js';
import { progressOf, sources } from './sources.js';

const ROWS_AT_ONCE = 100;
const collator = new Intl.Collator('en', { numeric: true, sensitivity: 'base' });
const KINDS = {
  all: () => true,
  named: entry => entry.names?.length,
  nameless: entry => entry.key && !entry.names?.length,
  keyless: entry => entry.state === 'failed' || (entry.state === 'known' && !entry.key),
  doubted: entry => entry.doubts?.length };

const view = { by: null, isDown: false, page: 0, hasPictures: false };
export let shown = [];       // all entries that the filter lets through, in their order

function entriesShown() {
  const words = element('filter').value.toLowerCase().split(/\s+/).filter(word => word);
  const isOfKind = KINDS[element('kind').value];
  const found = sources.flatMap(source => source.entries).filter(entry => isOfKind(entry) && hasWords(entry, words));
  const column = COLUMNS.find(({ id }) => id === view.by);
  if (!column) return found;
  const keyed = found.map(entry => [String(column.text(entry)), entry]);
  const turn = view.isDown ? -1 : 1;
  keyed.sort(([one], [other]) => (one === '') - (other === '') || turn * collator.compare(one, other));
  return keyed.map(([, entry]) => entry);
}

function paintTable() {
  numberGroups(sources.flatMap(source => source.entries));
  shown = entriesShown();
  const pages = Math.max(1, Math.ceil(shown.length / ROWS_AT_ONCE));
  view.page = Math.min(view.page, pages - 1);
  const first = view.page * ROWS_AT_ONCE;
  const some = shown.slice(first, first + ROWS_AT_ONCE);
  keepingFocus(() => putRows(some.flatMap(rowsOf)));
  element('results').hidden = !sources.length;
  document.body.classList.toggle('has-files', sources.length > 0);
  element('pages').hidden = pages < 2;
  element('page').textContent = `rows ${first + 1} to ${first + some.length} of ${shown.length.toLocaleString('en')}`;
  element('before').disabled = !view.page;
  element('after').disabled = view.page >= pages - 1;
  showProgress();
}

// The rows of the table, of which those that stay are not moved.
function putRows(rows) {
  const body = element('rows');
  const wanted = new Set(rows);
  for (const row of [...body.children]) if (!wanted.has(row)) row.remove();
  rows.forEach((row, k) => {
    if (body.children[k] !== row) body.insertBefore(row, body.children[k] || null);
  });
}

// The row of a net, and where it is open that of its card.
function rowsOf(entry) {
  if (!entry.rows) entry.rows = [makeRow(entry)];
  fillRow(entry);
  if (!entry.isOpen) return [entry.rows[0]];
  if (!entry.rows[1]) entry.rows[1] = detailOf(entry);
  else if (entry.stateTold !== entry.state) fillArticle(entry);
  return entry.rows;
}

function makeRow(entry) {
  entry.opener = make('button', { type: 'button', className: 'opener', onclick: () => openEntry(entry, !entry.isOpen) });
  entry.box = make('input', { type: 'checkbox', onchange: event => putSideBySide(entry, event.target.checked) });
  entry.cells = COLUMNS.slice(1).map(({ id }) => make('td', { className: `of-${id}`, role: 'cell' }));
  entry.fileTold = make('span', { className: 'dim file' });
  entry.small = make('td', { className: 'small', role: 'cell' });
  return make('tr', { role: 'row' }, make('td', { className: 'pick', role: 'cell' }, entry.box), entry.small,
    make('th', { className: 'net', scope: 'row', role: 'rowheader' }, entry.opener, entry.fileTold), ...entry.cells);
}

function fillRow(entry) {
  const [row] = entry.rows;
  const title = entry.title || entry.source.file.name;
  setText(entry.opener, title);
  entry.opener.setAttribute('aria-expanded', entry.isOpen);
  entry.box.setAttribute('aria-label', `put ${title} side by side`);
  entry.box.disabled = !entry.block;
  entry.box.checked = chosen.includes(entry);
  setText(entry.fileTold, fileText(entry));
  COLUMNS.slice(1).forEach((column, k) => column.id === 'told' ? setTold(entry.cells[k], entry) : setText(entry.cells[k], String(column.text(entry))));
  row.className = [entry.state, entry.why || entry.doubts?.length ? 'told' : '', entry.box.checked ? 'chosen' : '',
    entry.source.isReading ? 'stale' : '', entry.by === 'key' ? 'by-key' : ''].filter(word => word).join(' ');
  if (view.hasPictures && entry.state === 'known' && !entry.small.firstChild) smallPicture(entry);
}

// What is in doubt is shown whole, and the rest is cut to a line.
function setTold(cell, entry) {
  const text = toldText(entry), doubt = doubtText(entry), rest = restText(entry);
  if (cell.title === text) return;
  cell.title = text;
  cell.replaceChildren(...[doubt && make('span', { className: 'whole' }, doubt), doubt && rest && make('span', { hidden: true }, ' | '),
    rest && make('span', { className: 'rest' }, rest)].filter(Boolean));
}

// A thumbnail, which is asked for when it comes into sight.
function smallPicture(entry) {
  const place = make('span', { className: 'busy' });
  entry.small.append(place);
  whenInSight(place, async () => {
    const card = await entry.card();
    const drawn = card.woven?.picture || card.picture;
    if (!drawn) entry.small.replaceChildren(make('span', { className: 'dim' }, 'no picture'));
    else entry.small.replaceChildren(pictureOf(drawn, entry.title, 160, false));
  });
}

function openEntry(entry, isOpen) {
  setOpen(entry, isOpen);
  paintTable();
}

function setOpen(entry, isOpen) {
  entry.isOpen = isOpen;
  if (isOpen || !entry.rows?.[1]) return;
  forgetPictures(entry.rows[1]);
  entry.rows.length = 1;
}

// The row with the card of a net.
function detailOf(entry) {
  entry.article = make('article', { className: 'card', 'aria-label': entry.title || entry.source.file.name });
  if (entry.height) entry.article.style.minHeight = `${entry.height}px`;
  fillArticle(entry);
  return make('tr', { className: 'detail', role: 'row' }, make('td', { colSpan: COLUMNS.length + 2, role: 'cell' }, entry.article));
}

async function fillArticle(entry) {
  const { article, source } = entry;
  entry.stateTold = entry.state;
  const tools = () => source.entries.find(other => other.isOpen) === entry ? source.tools : null;
  const heading = () => make('h3', {}, entry.title || source.file.name);
  if (entry.state !== 'known') {
    article.replaceChildren(...[heading(), entry.why && reasonOf(entry.why), tools()].filter(Boolean));
    return;
  }
  article.setAttribute('aria-busy', 'true');
  article.replaceChildren(...[heading(), make('p', { className: 'dim busy' }, 'is being placed'), tools()].filter(Boolean));
  const card = await entry.card();
  if (article !== entry.article) return;
  keepingFocus(() => fillCard(article, { ...card, entry, title: entry.title }, tools()));
  article.style.minHeight = '';
}

function sortBy(id) {
  if (view.by !== id) Object.assign(view, { by: id, isDown: false });
  else if (!view.isDown) view.isDown = true;
  else Object.assign(view, { by: null, isDown: false });  // the order in which they were given
  for (const head of document.querySelectorAll('#heads th[data-column]')) {
    const isBy = head.dataset.column === view.by;
    head.setAttribute('aria-sort', isBy ? (view.isDown ? 'descending' : 'ascending') : 'none');
  }
  view.page = 0;
  paintTable();
}

function makeHeads() {
  const sorters = COLUMNS.map(({ id, title }) => make('th', { className: id === 'name' ? 'net' : `of-${id}`, scope: 'col', role: 'columnheader',
    'data-column': id, 'aria-sort': 'none' }, make('button', { type: 'button', onclick: () => sortBy(id) }, title)));
  element('heads').append(make('th', { className: 'pick', scope: 'col', role: 'columnheader' }, 'Pair'),
    make('th', { className: 'small', scope: 'col', role: 'columnheader' }, 'Picture'), ...sorters);
}

export function listenToTable() {
  paintBy(paintTable);
  makeHeads();
  const fromFirst = () => {
    view.page = 0;
    changed();
  };
  element('filter').oninput = fromFirst;
  element('kind').onchange = fromFirst;
  const turnPage = step => () => {
    view.page += step;
    paintTable();
    element('results').scrollIntoView({ block: 'start' });
  };
  element('before').onclick = turnPage(-1);
  element('after').onclick = turnPage(1);
  element('with-pictures').onchange = event => {
    view.hasPictures = event.target.checked;
    element('nets').classList.toggle('tiles', view.hasPictures);
    paintTable();
  };
  element('close-all').onclick = () => {
    sources.forEach(source => source.entries.forEach(entry => setOpen(entry, false)));
    paintTable();
  };
  element('save-table').onclick = () => save('nets', '.csv', tableText(shown), 'text/csv');
  element('save-all').onclick = () => saveAll(shown);
  element('save-blocks').onclick = () => {
    tell(unreadText(shown));
    save('nets', '.cgd', shown.map(entry => entry.block || '').join(''));
  };
}

// How much of the work is done, and what can be done about it.
function showProgress() {
  const { done, total, files } = progressOf();
  element('progress').hidden = done === total;
  element('bar').max = Math.max(1, total);
  element('bar').value = done;
  element('done').textContent = `${done.toLocaleString('en')} of ${count(total, 'net', 'nets')}` +
    (files ? `, ${count(files, 'file is', 'files are')} to be read` : '');
  element('stopped').hidden = !sources.some(source => source.isStopped);
  const all = sources.flatMap(source => source.entries), nets = all.filter(entry => entry.key || entry.block);
  const without = nets.filter(entry => !entry.key).length, unread = all.filter(entry => isKnown(entry) && !entry.block).length;
  element('counts').textContent = `${count(nets.length, 'net', 'nets')}${without ? `, ${without} without a key` : ''}` +
    `${unread ? `, ${unread} not read` : ''}${shown.length < all.length ? `, ${shown.length} shown` : ''}`;
  const more = sources.filter(source => source.total > source.entries.length);
  element('close-all').hidden = !sources.some(source => source.entries.some(entry => entry.isOpen));
  element('more').hidden = !more.length;
  element('more').textContent = more.map(source => `${source.file.name} has ${source.total.toLocaleString('en')} nets, and the first ` +
    `${source.entries.length.toLocaleString('en')} are shown; net_tool table makes a table of all.`).join(' ');
}
