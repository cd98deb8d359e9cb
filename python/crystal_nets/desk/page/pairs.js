// Two nets side by side: whether they are the same, by a verified map, or in what they differ.

import { forgetPictures, picturesOf } from './canvases.js';
import { beyondOf, namesOf, reasonOf } from './cards.js';
import { changed, count, element, keepingPlace, make, textsOf } from './elements.js';
import { save } from './saving.js';
import { ask } from './work.js';

export let chosen = [];  // entries side by side, two at most

// Takes a net side by side, or away; of three the first goes.
export function putSideBySide(entry, isWanted) {
  const others = chosen.filter(other => other !== entry);
  chosen = isWanted ? [...others, entry].slice(-2) : others;
  keepingPlace(entry.rows?.[0], showPair);
  changed();
}

async function showPair() {
  const [one, other] = chosen;
  element('pair').hidden = element('pair-bar').hidden = !other;
  element('verdict').replaceChildren();
  forgetPictures(element('pair-nets'));
  element('pair-nets').replaceChildren();
  if (!other) return;
  const tellPair = text => { element('pair-told').textContent = `${one.title} and ${other.title}: ${text}`; };
  tellPair('they are being compared');
  element('verdict').append(make('p', { className: 'busy' }, 'They are being compared'));
  const isThere = () => chosen[0] === one && chosen[1] === other;
  const cards = Promise.all([one.card(), other.card()]);
  const answer = await ask('pair', { one: one.block, other: other.block });
  if (!isThere()) return;
  tellPair(answer.reason ? 'there is no answer' : answer.verdict);
  keepingPlace(other.rows?.[0], () => element('verdict').replaceChildren(...verdictOf(answer, one, other)));
  const drawn = await cards;
  if (!isThere()) return;
  keepingPlace(other.rows?.[0], () => element('pair-nets').replaceChildren(...drawn.map((card, k) => make('div', {},
    make('h3', {}, [one, other][k].title), namesOf(card.names || [], ''), beyondOf(card.beyond), picturesOf(card, [one, other][k].title)))));
}

function verdictOf(answer, one, other) {
  if (answer.reason) return [reasonOf(`There is no answer: ${answer.reason}.`)];
  const kind = answer.verdict === 'not known' ? 'unknown' : answer.verdict;
  const parts = [make('p', { className: kind }, answer.verdict), make('p', {}, answer.what),
    answer.advice && make('p', {}, answer.advice)];
  (answer.reasons || []).forEach((reason, k) => {
    if (reason.what) parts.push(make('p', {}, `${[one, other][k].title}: ${reason.what}`));
  });
  for (const entry of [one, other]) {
    if (entry.copies > 1) parts.push(make('p', {}, `${entry.title} is one of ${entry.copies} interpenetrating copies: one is compared.`));
    if (entry.doubts?.length) parts.push(textsOf(`${entry.title} is in doubt:`, entry.doubts, 'doubts'));
  }
  if (answer.map) parts.push(...mapOf(answer.map, one, other));
  (answer.meeting || []).forEach((text, k) => {
    const { title } = [one, other][k];
    parts.push(make('button', { type: 'button', onclick: () => save(title, '.maps', text) }, `Save map of ${title}`));
  });
  return parts.filter(part => part);
}

// The map: how it goes on, its rows, and the text that `net_tool verify` reads.
function mapOf(map, one, other) {
  const rows = map.images.map(([u, cell, v, there]) =>
    make('tr', {}, make('td', {}, `${u} in (${cell})`), make('td', {}, `${v} in (${there})`)));
  const head = make('tr', {}, make('th', { scope: 'col' }, one.title), make('th', { scope: 'col' }, other.title));
  const told = `The map was ${map.verified ? '' : 'not '}verified edge by edge by net_tool, with no trust in keys. ` +
    `It goes on alike after ${count(map.period, 'cell', 'cells')} along each axis.`;
  const some = map.count > rows.length ? `, the first ${rows.length}` : '';
  const title = `${count(map.count, 'row', 'rows')} of the map${some}`;
  const table = make('div', { className: 'table', tabIndex: 0, role: 'region', 'aria-label': 'rows of the map' },
    make('table', {}, head, ...rows));
  return [make('p', {}, told), make('details', {}, make('summary', {}, title), table), make('button', { type: 'button',
    onclick: () => save(`${one.title}_${other.title}`, '.maps', map.text) }, 'Save map')];
}
