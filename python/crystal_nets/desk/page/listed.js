// What databases list of a net. It is asked for when it is opened, once, since it takes a while.

import { count, listOf, make } from './elements.js';
import { ask } from './work.js';

export function listedOf(entry) {
  if (!entry.net.block) return null;
  const place = make('div', { role: 'status' });
  let isAsked = false;
  const open = async () => {
    if (isAsked || !box.open) return;
    isAsked = true;
    place.replaceChildren(make('p', { className: 'dim busy' }, 'it is being computed'));
    const answer = await ask('topology', { net: JSON.stringify([entry.net]) }, entry.source.asking.signal);
    isAsked = !answer.reason;
    place.replaceChildren(answer.reason ? make('p', { className: 'dim' }, `It is not there: ${answer.reason}.`) : symbolsOf(answer));
  };
  const box = make('details', { className: 'listed', ontoggle: open }, make('summary', {}, 'what databases list'),
    make('p', { className: 'dim' }, 'The kinds of vertices and edges of a net with a key are proved. All else is computed beside the program. Two nets may agree in all of it and differ.'), place);
  return box;
}

function symbolsOf({ symmetry, group, point_symbol: points, vertex_symbols: kinds, td10, transitivity }) {
  const symbols = kinds.map(({ symbol, vertices, connectivity }) => make('code', {}, (symbol || `none, ${connectivity}-connected`) +
    `${kinds.length > 1 ? ` (${count(vertices, 'vertex', 'vertices')})` : ''}\n`));
  return listOf([...(symmetry ? [['symmetry', symmetry]] : []), ...(group ? [['group of the block', group]] : []),
    ['point symbol', make('code', {}, points)], ['vertex symbols', make('span', {}, ...symbols)], ['TD10', td10],
    ['transitivity', transitivity || 'not found, since two vertices have one position']]);
}
