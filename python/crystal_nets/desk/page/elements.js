// What all of the page share: its elements, what it says, and when it is painted. Texts are set as texts, never as HTML.

const PAUSE = 120;  // milliseconds between two paintings of the table

export const element = id => document.getElementById(id);

// An element with properties and children; those that are empty are left out.
export function make(tag, properties, ...children) {
  const made = document.createElement(tag);
  for (const [name, value] of Object.entries(properties || {})) {
    if (name in made && name !== 'role') made[name] = value;
    else made.setAttribute(name, value);
  }
  made.append(...children.filter(child => child));
  return made;
}

export const count = (number, one, many) => `${number.toLocaleString('en')} ${number === 1 ? one : many}`;

export const tell = text => { element('told').textContent = text; };

// What is left out stays told, whatever comes after it.
export const warn = text => element('warned').append(make('p', {}, text));

// A text, and the whole of it where the cell is too narrow.
export function setText(cell, text) {
  if (cell.textContent === text) return;
  cell.textContent = text;
  cell.title = text;
}

// Pairs of a word and what belongs to it.
export function listOf(rows) {
  const shown = rows.filter(([, value]) => value);
  if (!shown.length) return null;
  return make('dl', {}, ...shown.flatMap(([word, value]) => [make('dt', {}, word), make('dd', {}, value)]));
}

// Texts below what they are.
export function textsOf(title, texts, kind = '') {
  if (!texts?.length) return null;
  return make('div', { className: kind }, make('p', { className: 'dim' }, title),
    make('ul', { className: 'notes' }, ...texts.map(text => make('li', {}, text))));
}

// Works that wait until their element comes into sight.
const works = new WeakMap();
const sight = new IntersectionObserver(entries => entries.filter(entry => entry.isIntersecting).forEach(entry => {
  sight.unobserve(entry.target);
  works.get(entry.target)?.();
}), { rootMargin: '300px' });

export function whenInSight(place, work) {
  works.set(place, work);
  sight.observe(place);
}

// What works on the page while the focus stays where it is, also where its element is put to another place.
export function keepingFocus(work) {
  const active = document.activeElement;
  work();
  if (active.isConnected && active !== document.activeElement) active.focus({ preventScroll: true });
}

// What works while a row stays where it is seen, whatever comes or goes above it.
export function keepingPlace(row, work) {
  const before = row?.getBoundingClientRect().top;
  work();
  if (row?.isConnected) scrollBy(0, row.getBoundingClientRect().top - before);
}

let paint = () => {};  // what paints the table
export let isDue = false;     // whether it is to be painted

// From now on this paints what has changed.
export function paintBy(work) {
  paint = work;
}

// Something is another: the table is painted soon, and once for many changes.
export function changed() {
  if (isDue) return;
  isDue = true;
  setTimeout(() => {
    isDue = false;
    paint();
  }, PAUSE);
}
