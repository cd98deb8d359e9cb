// The structure beside its net: atoms with the net laid over them. The atoms of a vertex that is chosen are lit.

import { pictureOf, pictures } from './canvases.js';
import { keepingFocus, make, whenInSight } from './elements.js';
import { saveSeen } from './saving.js';
import { ask } from './work.js';

const NONE = -1;  // no vertex is chosen

// The box for the atoms of a net of a structure file, which are asked for when it comes into sight; nothing for others.
export function structureOf(entry) {
  if (!entry.provenance?.units?.length) return null;
  const box = make('div', { className: 'structure' }, make('p', { className: 'dim busy' }, 'the atoms are being drawn'));
  whenInSight(box, async () => {
    const answer = await ask('atoms', { file: entry.source.file, ...entry.way, block: entry.block }, entry.source.asking.signal);
    keepingFocus(() => answer.reason ? box.replaceChildren(make('p', { className: 'dim' }, `${answer.reason}.`)) : drawStructure(box, entry, answer));
  });
  return box;
}

function drawStructure(box, entry, { picture, units }) {
  const canvas = pictureOf(picture, `${entry.title} with its atoms`);
  const chooser = make('select', {}, make('option', { value: NONE }, 'none'),
    ...units.map(({ vertex, text }) => make('option', { value: vertex }, text)));
  const light = vertex => {
    chooser.value = vertex;
    const seen = pictures.get(canvas);
    seen.lit = vertex;
    seen.paint();
  };
  chooser.onchange = () => light(Number(chooser.value));
  listenToClicks(canvas, light);
  box.replaceChildren(canvas, make('p', { className: 'dim' }, `${picture.summary}. The net lies over the atoms. ` +
    `${picture.isWoven ? 'Each copy has a colour. ' : ''}A click on a vertex lights its atoms.`),
  make('label', {}, 'light the atoms of the vertex ', chooser),
  make('div', { className: 'saves' }, make('button', { type: 'button', 'aria-label': `Save SVG of the atoms of ${entry.title}`,
    onclick: () => saveSeen(canvas, `${entry.title} atoms`) }, 'Save SVG of the atoms')));
}

// A click that does not turn the picture chooses the vertex that is there.
function listenToClicks(canvas, choose) {
  let down = null;
  canvas.addEventListener('pointerdown', event => { down = event; });
  canvas.addEventListener('click', event => {
    if (!down || Math.hypot(event.clientX - down.clientX, event.clientY - down.clientY) > 4) return;
    const frame = canvas.getBoundingClientRect();
    const vertex = pictures.get(canvas).vertexAt((event.clientX - frame.left) * canvas.width / frame.width,
      (event.clientY - frame.top) * canvas.height / frame.height);
    choose(vertex);
  });
}
