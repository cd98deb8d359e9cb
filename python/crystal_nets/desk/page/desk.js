// Files come in, and what is chosen above holds for those that are shown, too.

import { element, tell, warn } from './elements.js';
import { ENDED, hasEnded, proved } from './proof.js';
import { FILES_OPEN, MOST_BYTES, Source, sources } from './sources.js';
import { listenToTable } from './table.js';
import { NO_ANSWER, answerOf, ask } from './work.js';

const MOST_FILES = 2000;
const ZIP = [0x50, 0x4b, 3, 4];  // how a file begins that holds others

const CANNOT_BE_READ = 'it cannot be read';

// What is given: a file with its place among the others, and the reason where it is not read.
const unread = (name, refusal) => ({ file: new File([], name), refusal });

// All files of what was dropped; folders are gone through, as far as the page takes files.
async function filesOf(transfer) {
  const entries = [...transfer.items].map(item => item.webkitGetAsEntry && item.webkitGetAsEntry());
  if (!entries.some(entry => entry && entry.isDirectory)) return [...transfer.files].map(file => ({ file }));
  const found = [];
  const left = entries.filter(entry => entry);
  while (left.length && found.length <= MOST_FILES) {
    const entry = left.shift();
    try {
      if (entry.isFile) found.push({ file: await new Promise((resolve, reject) => entry.file(resolve, reject)) });
      else left.unshift(...await entriesOf(entry.createReader()));
    } catch {
      found.push(unread(entry.name, CANNOT_BE_READ));
    }
  }
  return found;
}

// What is in a folder, by name; a browser gives it in portions.
async function entriesOf(reader) {
  const all = [];
  for (;;) {
    const some = await new Promise((resolve, reject) => reader.readEntries(resolve, reject));
    if (!some.length) return all.sort((one, other) => one.name < other.name ? -1 : 1);
    all.push(...some);
  }
}

// Files in their order, and in the place of each ZIP archive what it holds.
export async function take(given) {
  if (hasEnded) return;
  tell('');
  const found = [];
  let at = 0;
  for (; at < given.length && found.length < MOST_FILES; at += 1) found.push(...await opened(given[at]));
  const some = found.slice(0, MOST_FILES);
  some.forEach(({ file, refusal }) => new Source(file, some.length <= FILES_OPEN, refusal));
  const left = found[MOST_FILES] || given[at];
  if (left) warn(`Only the first ${MOST_FILES.toLocaleString('en')} files are taken; ${left.file.name} and those after it are left out.`);
}

// What is given itself; the files of a ZIP archive; or the reason why it cannot be read.
async function opened(given) {
  if (given.refusal) return [given];
  try {
    return await isZip(given.file) ? await unzipped(given.file) : [given];
  } catch {
    return [unread(given.file.name, CANNOT_BE_READ)];
  }
}

async function isZip(file) {
  const begin = new Uint8Array(await file.slice(0, ZIP.length).arrayBuffer());
  return file.size <= MOST_BYTES && ZIP.every((byte, k) => begin[k] === byte);
}

// The files of a ZIP archive, or the archive itself with the reason why it is not read.
async function unzipped(archive) {
  tell(`${archive.name} is being unpacked`);
  const answer = await ask('unzip', { file: archive });
  tell('');
  if (answer.told) warn(`${archive.name}: ${answer.told}.`);
  if (answer.reason) return [{ file: archive, refusal: answer.reason }];
  return answer.files.map(({ name, content }) =>
    ({ file: new File([Uint8Array.from(atob(content), sign => sign.charCodeAt(0))], name) }));
}

// What is chosen above holds for the structures that are shown, too.
function readAllAgain() {
  for (const source of sources) {
    if (!source.isBlocks) source.read(element('convention').value);
  }
}

function listenToFiles() {
  const over = isOver => event => {
    event.preventDefault();
    element('drop').classList.toggle('over', isOver);
  };
  addEventListener('dragover', over(true));
  addEventListener('dragleave', over(false));
  addEventListener('drop', event => {
    over(false)(event);
    filesOf(event.dataTransfer).then(take).catch(() => tell('What was dropped cannot be read.'));
  });
  element('convention').onchange = readAllAgain;
  element('choices').onchange = readAllAgain;
  element('stop').onclick = () => sources.forEach(source => source.stop());
  element('go-on').onclick = () => sources.forEach(source => source.goOn());
  element('all-away').onclick = () => {
    [...sources].forEach(source => source.takeAway());
    element('warned').replaceChildren();
  };
  element('show-pair').onclick = () => {
    element('pair').scrollIntoView({ block: 'start' });
    element('pair-title').focus({ preventScroll: true });
  };
  element('choose').onchange = event => {
    take([...event.target.files].map(file => ({ file }))).catch(() => tell('What was chosen cannot be read.'));
    event.target.value = '';
  };
}

async function showArchives() {
  const told = await answerOf('archives', {});
  if (told.reason) {
    element('archives').textContent = `No archive could be read: ${told.reason}.`;
    return;
  }
  const texts = told.map(({ stem, names, reason }) => reason ? `${stem} is not read: ${reason}` : `${stem} ${names}`);
  element('archives').textContent = texts.length ? `Names are from the archives ${texts.join(', ')}.`
    : 'There is no archive.';
}

// The files that were named at the start.
async function showGiven() {
  const names = await answerOf('given', {});
  if (!Array.isArray(names)) return;
  const given = [];
  for (const [number, name] of names.entries()) given.push(await givenFile(number, name));
  await take(given);
}

// A file that was named at the start, or the reason why it is not there.
async function givenFile(number, name) {
  try {
    const { isGood, content } = await proved(`given/${number}`, {});
    return isGood ? { file: new File([content], name) } : unread(name, JSON.parse(new TextDecoder().decode(content)).reason);
  } catch {
    return unread(name, hasEnded ? ENDED : NO_ANSWER);
  }
}

listenToFiles();
listenToTable();
showArchives();
showGiven();
