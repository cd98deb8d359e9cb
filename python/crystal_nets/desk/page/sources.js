// The files on the page, and the nets in them. All state is in this page: the server keeps nothing of a file.

import { forgetPictures } from './canvases.js';
import { changed, element, make, tell } from './elements.js';
import { chosen, putSideBySide } from './pairs.js';
import { ask } from './work.js';

export const MOST_BYTES = Number(document.documentElement.dataset.mostBytes);  // of a file, as the server takes it
const NETS_AT_ONCE = 100;  // of a file, in one question
export const FILES_OPEN = 6;      // files that come together are opened where they are no more
const NETS_OPEN = 12;      // and have no more nets
const isNarrow = () => matchMedia('(max-width: 760px)').matches;  // where a card fills the screen, and none is opened
export const sources = [];        // in the order in which they were given

// How a structure is to be read: the convention, and what is ticked above.
function wayOf(convention) {
  const ticked = [...element('choices').querySelectorAll('input:checked')].map(input => input.value);
  return { convention, choices: JSON.stringify(ticked) };
}

// A net of a file, or the place of nets that are not there yet. Its state is waiting, known, failed or stopped; its way is
// how the file was read that it is of.
class Entry {
  constructor(source, state, fields = {}) {
    Object.assign(this, { source, state, isOpen: false }, fields);
  }

  // The fields of a question on this net.
  get net() {
    const { name, block, refusal, provenance } = this;
    return { name, block, refusal, provenance };
  }

  get title() {
    return this.name || (this.state === 'known' ? 'net' : '');
  }

  // All that is reported of it, for the card and the small picture; it is asked for once.
  card() {
    this.cardAnswer ||= ask('card', { net: JSON.stringify([this.net]) }, this.source.asking.signal).then(answer => {
      if (typeof answer.reason !== 'string') return answer;
      this.cardAnswer = null;
      return { ...this.net, notes: this.notes || [], reason: `There is no answer: ${answer.reason}.` };
    });
    return this.cardAnswer;
  }
}

// A file on the page: its entries, and three ways: how it is asked for, how its entries were read, and how it was to be
// read again where that was stopped. A file of blocks has no convention, whatever its name is.
export class Source {
  constructor(file, isOpened, refusal = '') {
    Object.assign(this, { file, isOpened, refusal, isBlocks: false, way: null, wayShown: null, wayLeft: null });
    this.entries = [new Entry(this, 'waiting')];
    this.asking = new AbortController();  // of what is asked on single nets
    this.tools = toolsOf(this);
    sources.push(this);
    this.read(element('convention').value);
  }

  async read(convention) {
    this.control?.abort();
    this.control = new AbortController();
    const { signal } = this.control;
    this.again.value = convention;
    Object.assign(this, { way: wayOf(convention), wayLeft: null, isReading: true });
    changed();
    if (this.refusal) return this.fail(`No net was read: ${this.refusal}.`);
    if (this.file.size > MOST_BYTES) return this.fail(`The file is larger than ${MOST_BYTES / 2 ** 20} MB.`);
    const answer = await ask('nets', { file: this.file, ...this.way }, signal);
    if (signal.aborted) return null;
    if (answer.reason) return this.fail(`No net was read: ${answer.reason}.`);
    this.total = answer.total;
    this.isBlocks = !answer.isStructure;
    if (this.isBlocks) this.wayChosen.remove();
    this.put([...answer.rows.map(row => new Entry(this, 'known', row)),
      ...answer.waiting.map(item => new Entry(this, 'waiting', { item }))]);
    return this.readRest(signal);
  }

  fail(reason) {
    this.put([new Entry(this, 'failed', { why: reason })]);
    tell(`${this.file.name}: ${reason}`);
  }

  // New entries in the place of those before: what was open stays open.
  put(entries) {
    const wasOpen = this.entries.map(entry => entry.isOpen);
    const isFirst = this.entries.length === 1 && this.entries[0].state === 'waiting';
    const heights = this.entries.map(entry => entry.article?.offsetHeight || 0);
    this.askNoMore();
    forget(this.entries);
    this.isReading = false;
    this.entries = entries;
    this.wayShown = this.way;
    entries.forEach((entry, k) => {
      entry.way = this.way;
      entry.isOpen = wasOpen[k] || (isFirst && this.isOpened && entries.length <= NETS_OPEN && !isNarrow());
      entry.height = heights[k];
    });
    changed();
  }

  // The nets that were not answered with the file, some at a time.
  readRest(signal) {
    const left = this.entries.filter(entry => entry.state === 'waiting' && entry.item);
    const parts = [];
    while (left.length) parts.push(this.readRows(left.splice(0, NETS_AT_ONCE), signal));
    return Promise.all(parts);
  }

  // Of those that have no answer together each half is asked by itself.
  async readRows(entries, signal) {
    const answer = await ask('rows', { nets: JSON.stringify(entries.map(entry => entry.item)) }, signal);
    if (signal.aborted) return;
    if (Array.isArray(answer)) {
      entries.forEach((entry, k) => Object.assign(entry, answer[k], { state: 'known', item: null }));
    } else if (entries.length > 1) {
      const half = entries.length >> 1;
      await Promise.all([this.readRows(entries.slice(0, half), signal), this.readRows(entries.slice(half), signal)]);
    } else {
      Object.assign(entries[0], { state: 'failed', why: `There is no answer: ${answer.reason}.` });
    }
    changed();
  }

  // Nothing more is asked for it; what is there stays, and is reported as what it is of.
  stop() {
    if (!this.isReading && !this.entries.some(entry => entry.state === 'waiting')) return;
    this.control.abort();
    this.askNoMore();
    if (this.isReading && this.wayShown) this.stayAsShown();
    this.isReading = false;
    for (const entry of this.entries) if (entry.state === 'waiting') entry.state = 'stopped';
    changed();
  }

  // Where it was not read again: what is shown is as it was read before, and so says what is chosen for it.
  stayAsShown() {
    Object.assign(this, { wayLeft: this.way, way: this.wayShown });
    this.again.value = this.way.convention;
    tell(`${this.file.name}: it was not read again; what is shown is as it was read before`);
  }

  askNoMore() {
    this.asking.abort();
    this.asking = new AbortController();
  }

  get isStopped() {
    return !this.isReading && (this.wayLeft !== null || this.entries.some(entry => entry.state === 'stopped'));
  }

  // What was stopped goes on.
  goOn() {
    if (!this.isStopped) return;
    if (this.wayLeft || !this.entries.some(entry => entry.item)) {
      this.read((this.wayLeft || this.way).convention);
      return;
    }
    for (const entry of this.entries) if (entry.state === 'stopped') entry.state = 'waiting';
    this.control = new AbortController();
    changed();
    this.readRest(this.control.signal);
  }

  takeAway() {
    this.control.abort();
    this.askNoMore();
    forget(this.entries);
    const place = sources.indexOf(this);
    sources.splice(place, 1);
    changed();
    const near = sources[Math.min(place, sources.length - 1)];
    (near?.entries[0].opener || element('choose')).focus();
  }
}

// Entries that go away: no longer side by side, and their pictures are not kept.
function forget(entries) {
  for (const entry of entries) {
    if (chosen.includes(entry)) putSideBySide(entry, false);
    entry.rows?.forEach(forgetPictures);
  }
}

// What is done with a file: read again by another convention, or taken away. It stands in the first open card of it.
function toolsOf(source) {
  const { name } = source.file;
  source.again = element('convention').cloneNode(true);
  source.again.removeAttribute('id');
  source.again.setAttribute('aria-label', `how ${name} was read; another choice reads it again`);
  const read = () => source.read(source.again.value);
  source.again.onchange = read;
  source.wayChosen = make('label', {}, 'How the structure was read ', source.again);
  return make('div', { className: 'tools' }, make('span', { className: 'dim' }, name), source.wayChosen,
    make('button', { type: 'button', onclick: read, 'aria-label': `read ${name} again with what is chosen above` },
      'Read again'),
    make('button', { type: 'button', onclick: () => source.takeAway(), 'aria-label': `Remove ${name}` }, 'Remove'));
}

// How much is read: of each file that is not read one step, and of each net one.
export function progressOf() {
  let done = 0, total = 0, files = 0;
  for (const source of sources) {
    const left = source.entries.filter(entry => entry.state === 'waiting').length;
    files += source.isReading;
    total += source.entries.length;
    done += source.isReading ? 0 : source.entries.length - left;
  }
  return { done, total, files };
}
