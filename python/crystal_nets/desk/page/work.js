// What is asked of the server: some questions at a time, in their order.

import { ENDED, hasEnded, proved } from './proof.js';

export const MOST_AT_ONCE = 4;  // requests; the others wait
const STOPPED = 'it was stopped, or taken away';
export const NO_ANSWER = 'net_tool desk does not answer. Look whether it runs yet in its terminal, and start it again';
const waiting = [];
export let running = 0;

// Runs work when there is room for it.
function inLine(work) {
  return new Promise((resolve, reject) => {
    waiting.push(() => work().then(resolve, reject).finally(() => {
      running -= 1;
      next();
    }));
    next();
  });
}

function next() {
  while (running < MOST_AT_ONCE && waiting.length) {
    running += 1;
    waiting.shift()();
  }
}

// What the server answers to a question; {reason} where it does not.
export function ask(path, fields, signal) {
  return inLine(() => {
    const form = new FormData();
    for (const [name, value] of Object.entries(fields)) form.append(name, value);
    return answerOf(path, { method: 'POST', body: form, signal });
  });
}

export async function answerOf(path, request) {
  if (request.signal?.aborted) return { reason: STOPPED };
  try {
    return JSON.parse(new TextDecoder().decode((await proved(path, request)).content));
  } catch {
    if (request.signal?.aborted) return { reason: STOPPED };
    if (!await isThere(request.body?.get('file'))) return { reason: 'the file cannot be read, or was changed since it was given' };
    return { reason: hasEnded ? ENDED : NO_ANSWER };
  }
}

// Whether a file can be read yet; what is no file can.
async function isThere(file) {
  try {
    await file?.slice(0, 1).arrayBuffer();
    return true;
  } catch {
    return false;
  }
}
