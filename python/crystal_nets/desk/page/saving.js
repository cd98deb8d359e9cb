// What is saved: a file, or all nets in one ZIP archive: the table, and of each net its block, report and picture. Nothing
// is packed.

import { palette, pictures } from './canvases.js';
import { tableText, unreadText } from './columns.js';
import { count, element, make, tell } from './elements.js';
import { LIGHT, Picture } from './viewer.js';
import { MOST_AT_ONCE } from './work.js';

const LOCAL = 0x04034b50, CENTRAL = 0x02014b50, END = 0x06054b50;  // how the parts of a ZIP archive begin
const VERSION = 20, IS_UTF_8 = 0x800, DAY = 33;  // 1 January 1980
const HEAD_BYTES = 30, ENTRY_BYTES = 46;
const MOST_SAVED = 45000;  // nets: a ZIP archive has 65,535 files at most
const MOST_DRAWN = 20000;  // files, from which on blocks are saved alone

// A name as a file may have it.
const plainName = name => name.replace(/[^A-Za-z0-9._-]+/g, '_').replace(/^[._]+/, '').slice(0, 60) || 'net';

// A file that the browser saves; it is made here, and comes from nowhere.
export function save(name, ending, text, kind = 'text/plain') {
  const address = URL.createObjectURL(new Blob([text], { type: kind }));
  make('a', { href: address, download: `${plainName(name)}${ending}` }).click();
  setTimeout(() => URL.revokeObjectURL(address), 60000);
}

// The view that is seen.
export function saveSeen(canvas, title, ending = '.svg') {
  save(title, ending, pictures.get(canvas).svg(title), 'image/svg+xml');
}

const sums = Array.from({ length: 256 }, (_, byte) => {
  let sum = byte;
  for (let k = 0; k < 8; k += 1) sum = sum & 1 ? sum >>> 1 ^ 0xedb88320 : sum >>> 1;
  return sum >>> 0;
});

// CRC-32, as a ZIP archive has it.
const sumOf = bytes => (bytes.reduce((sum, byte) => sum >>> 8 ^ sums[(sum ^ byte) & 255], -1) ^ -1) >>> 0;

// Numbers of two or four bytes each.
function bytesOf(...pairs) {
  const view = new DataView(new ArrayBuffer(pairs.reduce((sum, [, size]) => sum + size, 0)));
  let at = 0;
  for (const [number, size] of pairs) {
    if (size === 2) view.setUint16(at, number, true);
    else view.setUint32(at, number, true);
    at += size;
  }
  return new Uint8Array(view.buffer);
}

// The parts of a ZIP archive of files, which are pairs of a name and a text.
function zipOf(files) {
  const encoder = new TextEncoder(), parts = [], entries = [];
  let at = 0, length = 0;
  for (const [name, text] of files) {
    const title = encoder.encode(name), content = encoder.encode(text), size = content.length;
    const told = [[VERSION, 2], [IS_UTF_8, 2], [0, 2], [0, 2], [DAY, 2], [sumOf(content), 4], [size, 4], [size, 4], [title.length, 2], [0, 2]];
    parts.push(bytesOf([LOCAL, 4], ...told), title, content);
    entries.push(bytesOf([CENTRAL, 4], [VERSION, 2], ...told, [0, 2], [0, 2], [0, 2], [0, 4], [at, 4]), title);
    at += HEAD_BYTES + title.length + size;
    length += ENTRY_BYTES + title.length;
  }
  return [...parts, ...entries, bytesOf([END, 4], [0, 2], [0, 2], [files.length, 2], [files.length, 2], [length, 4], [at, 4], [0, 2])];
}

let saving = null;  // what ends the saving that goes on

// Saves all nets that are shown. What is not drawn yet is asked for, one net after another; the same button stops it. What
// is not saved is reported.
export async function saveAll(entries) {
  if (saving) {
    saving.abort();
    return;
  }
  const { signal } = saving = new AbortController();
  const all = entries.filter(entry => entry.block), nets = all.slice(0, MOST_SAVED), taken = new Map();
  const files = [['nets.csv', tableText(entries)]];
  element('save-all').textContent = 'stop saving';
  const left = nets.entries();
  let bare = 0;
  const work = async () => {
    for (const [place, entry] of left) {
      if (signal.aborted) return;
      tell(`${place} of ${count(nets.length, 'net', 'nets')} are ready to be saved`);
      const found = await filesOfNet(entry, stemOf(entry.title, taken), files.length < MOST_DRAWN);
      bare += found.length === 1;
      files.push(...found);
    }
  };
  await Promise.all(Array.from({ length: MOST_AT_ONCE }, work));
  element('save-all').textContent = 'Save all (ZIP)';
  saving = null;
  tell(signal.aborted ? 'nothing was saved' : [`${count(nets.length, 'net was', 'nets were')} saved`,
    bare && `${bare} of them without a report and a picture`, all.length > nets.length && `${all.length - nets.length} are too many for a ZIP archive`,
    unreadText(entries)].filter(Boolean).join('; '));
  if (!signal.aborted) save('nets', '.zip', new Blob(zipOf(files)), 'application/zip');
}

async function filesOfNet(entry, stem, isDrawn) {
  const found = [[`${stem}.cgd`, entry.block]];
  if (!isDrawn) return found;
  const card = await entry.card();
  if (card.report) found.push([`${stem}.report`, card.report]);
  const drawn = card.woven?.picture || card.picture;
  if (drawn) found.push([`${stem}.svg`, new Picture(null, drawn, palette, LIGHT).svg(entry.title)]);
  return found;
}

// A name of a file, which no other net has, also where capital letters are no others.
export function stemOf(title, taken) {
  const plain = plainName(title), first = plain.toLowerCase();
  let stem, times = taken.get(first) || 0;
  do {
    times += 1;
    stem = times > 1 ? `${plain}-${times}` : plain;
  } while (taken.has(stem.toLowerCase()));
  taken.set(stem.toLowerCase(), 1).set(first, times);
  return stem;
}
