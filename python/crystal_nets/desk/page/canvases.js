// The pictures on the page, each on a canvas.

import { make, whenInSight } from './elements.js';
import { DARK, LIGHT, Picture, makeTurnable } from './viewer.js';

export const palette = document.documentElement.dataset.palette.split(' ');
const dark = matchMedia('(prefers-color-scheme: dark)');
export const pictures = new Map();  // of each canvas its picture
const theme = () => dark.matches ? DARK : LIGHT;

dark.addEventListener('change', () => pictures.forEach(picture => {
  picture.theme = theme();
  picture.colours.clear();
  picture.paint();
}));

// A picture that is painted when it comes into sight, and is turned by dragging and by keys; a small one is not.
export function pictureOf(net, name, size = 620, isTurned = true) {
  const canvas = make('canvas', { width: size, height: size, role: 'img',
    'aria-label': `picture of ${name}: ${net.summary}${isTurned ? '. Arrow keys turn it, plus and minus change its size' : ''}` });
  pictures.set(canvas, new Picture(canvas, net, palette, theme()));
  if (isTurned) {
    canvas.tabIndex = 0;
    makeTurnable(canvas, () => pictures.get(canvas), false);
  }
  whenInSight(canvas, () => pictures.get(canvas)?.paint());
  return canvas;
}

// Those within an element, which goes away, are not kept.
export function forgetPictures(place) {
  place.querySelectorAll('canvas').forEach(canvas => pictures.delete(canvas));
}

// The picture of a net, and that of its interpenetrating copies; a button changes between them where there are both.
export function picturesOf(card, name) {
  const views = [card.picture && { picture: card.picture }, card.woven].filter(one => one);
  if (!views.length) return null;
  const box = make('div', { className: 'views' });
  let at = 0;
  const show = () => {
    const { picture, told } = views[at];
    box.replaceChildren(...[pictureOf(picture, name), make('p', { className: 'dim' }, picture.summary),
      told && make('p', { className: 'dim' }, told), views.length > 1 && change].filter(Boolean));
    change.textContent = at ? 'show one net' : `show the ${views.at(-1).picture.summary.split(',')[0]}`;
  };
  const change = make('button', { type: 'button', onclick: () => {
    pictures.delete(box.querySelector('canvas'));
    at = 1 - at;
    show();
    change.focus({ preventScroll: true });
  } });
  show();
  return box;
}
