// The server proves itself at each request, by a secret that came with the page and is never sent. Who takes its port later
// has no secret: then the page has ended, says so and sends nothing more.

import { element } from './elements.js';

export const ENDED = 'the server of this page has ended, and nothing more is sent';
const TRIES = 3, PAUSE = 300;  // of a proof that has no answer at all, and the milliseconds between them
const encoder = new TextEncoder();
export let hasEnded = false;

class Unproved extends Error {}

const hexOf = bytes => Array.from(bytes, byte => byte.toString(16).padStart(2, '0')).join('');
const bytesOf = hex => Uint8Array.from(hex?.match(/../g) || [], pair => parseInt(pair, 16));
const key = keyOf(document.documentElement).catch(() => null);

async function keyOf({ dataset }) {
  const secret = bytesOf(dataset.secret);
  delete dataset.secret;
  return crypto.subtle.importKey('raw', secret, { name: 'HMAC', hash: 'SHA-256' }, false, ['verify']);
}

// The content of an answer, and whether its status is good. The server proves itself by a request without content before
// anything is sent, and by the answer again. Raises what `fetch` raises, and an error of its own when there is no proof.
export async function proved(path, request) {
  await proveServer(request.signal);
  try {
    return await answered(path, request);
  } catch (fault) {
    if (!hasEnded) await proveServer(request.signal);
    throw fault;
  }
}

async function proveServer(signal) {
  for (let left = TRIES; ; left -= 1) {
    try {
      await answered('proof', { signal });
      return;
    } catch (fault) {
      if (signal?.aborted || hasEnded) throw fault;
      if (left === 1) end();
    }
    await new Promise(done => setTimeout(done, PAUSE));
  }
}

// An answer with the right proof. One without it ends the page at once.
async function answered(path, request) {
  if (hasEnded) throw new Unproved(ENDED);
  const nonce = hexOf(crypto.getRandomValues(new Uint8Array(16)));
  const answer = await fetch(path, { ...request, headers: { Nonce: nonce }, redirect: 'error' });
  const content = new Uint8Array(await answer.arrayBuffer());
  const told = encoder.encode(`${nonce} ${request.method || 'GET'} ${path} ${answer.status}\n`);
  if (!await isOfServer(answer.headers.get('Proof'), told, content)) end();
  return { isGood: answer.ok, content };
}

async function isOfServer(proof, told, content) {
  const all = new Uint8Array(told.length + content.length);
  all.set(told);
  all.set(content, told.length);
  return await key !== null && crypto.subtle.verify('HMAC', await key, bytesOf(proof), all);
}

function end() {
  hasEnded = true;
  element('ended').hidden = false;
  element('choose').disabled = true;
  throw new Unproved(ENDED);
}
