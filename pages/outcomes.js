// A write has an outcome: it was done, or it wasn't. Where no reply says which, the page reads what stands, and tells.

import { Refusal } from './api.js';
import { ask } from './session.js';

// After these a write may have been done.
const UNKNOWN = new Set(['no_reply', 'no_server', 'storage', 'memory']);

// Asks a command that writes. `look` reads whether it was done: it resolves to what the reply would have had, as far as it is read,
// or to null where it wasn't done. `done` is given the reply, which has the member `looked` where it was read. `by` asks.
export async function write(command, body, { look, done, by = ask }) {
  let reply = null;
  try {
    reply = await by(command, body);
  } catch (refusal) {
    if (!UNKNOWN.has(refusal.word)) throw refusal;
    return find_out(look, done);
  }
  return done(reply);
}

// Where the reading fails, too, the refusal has a function `look` that reads once more, and sends nothing.
async function find_out(look, done) {
  let found = null;
  try {
    found = await look();
  } catch (refusal) {
    if (!(refusal instanceof Refusal)) throw refusal;
    throw Object.assign(new Refusal(0, { error: 'not_known', number: 0 }), { look: () => find_out(look, done) });
  }
  if (!found) throw new Refusal(0, { error: 'not_done', number: 0 });
  return done({ ...found, looked: true });
}
