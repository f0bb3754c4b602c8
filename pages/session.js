// The session: who is signed in, in which laboratory, what the person may do, and how long it lasts. The token is in this
// module's memory alone, and goes with the page; it is handed to another tab of this browser that asks for it. All tabs of a session
// know of it what one of them learns: that it goes on, has ended, is replaced by another one, or is closed.

import {
  Refusal, amend_a_record, change_the_password, close_the_session, open_a_session, read_records, read_the_card, read_the_persons,
  sign_a_version,
} from './api.js';
import { lab_of_address } from './lab.js';
import { GREATEST_NUMBER as NO_RECORD, IDLE_SECONDS, LONGEST_SECONDS } from './limits.js';
import { is_lab_code } from './rules.js';
import { ask_tabs, join_tabs, tell_tabs } from './tabs.js';

const MILLISECONDS_FOR_AN_ANSWER = 40;
const NOT_SENT_AGAIN = new Set([sign_a_version, change_the_password]);
// Words of requests that didn't come as far as the session: they don't prolong it.
const BEFORE_THE_SESSION = new Set(['no_reply', 'too_often', 'no_server', 'head_too_long', 'bad_head', 'transfer_coding',
  'length_wanted', 'body_too_long', 'short_body', 'no_route', 'method', 'bad_body', 'bad_name', 'no_fields', 'key_twice',
  'too_many_fields', 'bad_field', 'no_such_lab', 'clock_behind', 'no_session', 'memory', 'storage']);

let door = null;
let person = null;
let page = null;
let opening = null;
let told = null;
const listeners = new Set();
let kept = new Map();

// What pages may know: { id, lab, lab_name, code, name, roles, due, signed, opened, asked }, or null. The name is null where the
// person may not read the persons; the id is that of the session among tabs.
export function who() {
  return person;
}

export function has(...roles) {
  return Boolean(person) && roles.some((role) => person.roles.has(role));
}

export const may_read = () => has('analyst', 'reviewer', 'manager', 'inspector');
export const may_see_persons = () => has('administrator', 'manager', 'inspector');
export const may_copy = () => has('manager', 'inspector');

// Calls `listener` whenever somebody signs in or out, or something of the person changes.
export function on_session(listener) {
  listeners.add(listener);
}

// What the page does: { ask_again, end_asking, has_work, is_typing, tell_closed }. `ask_again` asks for the password where the session has ended,
// and for another where it has become due: it is given whether it has become due, and resolves to whether the same person is back.
// `end_asking` ends that, and is given what it resolves to. `has_work` says whether something is typed that isn't sent, and
// `is_typing` whether somebody is about to sign in. `tell_closed` says that another tab has signed out.
export function on_session_ended(functions) {
  page = functions;
}

// What is read once a session, by names. Who waits for a reply asks for them before: the reply may come in another session.
export const notes = () => kept;

export async function card_of(lab) {
  if (!is_lab_code(lab)) throw new Refusal(0, { error: 'no_lab_code', number: 0 });
  return read_the_card({ lab });
}

export async function sign_in(lab, code, password) {
  const card = await card_of(lab);
  const opened = Date.now();
  const reply = await open_a_session({ lab }, { code, password });
  const before = { door, person };
  if (person?.lab !== lab || person.code !== code) kept = new Map();
  const id = crypto.randomUUID();
  door = { lab, token: reply.token };
  person = { id, lab, lab_name: card.name, code, name: null, roles: new Set(), due: reply.due, signed: false, opened, asked: opened };
  try {
    if (!reply.due) await learn_roles();
  } catch (refusal) {
    ({ door, person } = before);
    throw refusal;
  }
  if (!opening) tell_opened();
  tell();
}

// The session is closed on the server where that still can be done, and forgotten here in any case.
export async function sign_out() {
  const left = door;
  if (person) tell_tabs({ what: 'closed', id: person.id });
  forget();
  try {
    if (left?.token) await close_the_session(left);
  } catch (refusal) {
    if (refusal.word !== 'no_session') throw refusal;
  }
}

function forget() {
  door = null;
  person = null;
  kept = new Map();
  tell();
}

function tell() {
  told = person;
  for (const listener of listeners) listener(person);
}

// The password was changed: the session goes on, and its next signature wants the code again.
export async function password_changed() {
  if (!person) return;
  Object.assign(person, { due: false, signed: false });
  await learn_roles();
  tell_known();
  tell();
}

// Something was signed in the session of `signer`; the reply to a signature has the person's printed name.
export function has_signed(signer, name) {
  Object.assign(signer, { signed: true, name });
  if (signer === person) tell_known();
  tell();
}

// Asks a command of api.js in this session. Where the session has ended the person signs in again, and where the password has
// become due changes it. Then the command is sent once more, for the server did nothing; but not what has a password in it.
export async function ask(command, ...words) {
  try {
    return await ask_once(command, ...words);
  } catch (refusal) {
    const can_be_mended = person && ['no_session', 'password_due'].includes(refusal.word);
    const is_back = can_be_mended && await back_again(refusal.word === 'password_due');
    if (!is_back || NOT_SENT_AGAIN.has(command)) throw refusal;
    return ask_once(command, ...words);
  }
}

// The records to which something was written in this session, until what was read of them before is read again.
export function altered_records() {
  if (!kept.has('altered')) kept.set('altered', new Set());
  return kept.get('altered');
}

// Asks a command once, whatever becomes of it.
export async function ask_once(command, ...words) {
  const asked = Date.now();
  const { record } = words[0] ?? {};
  if (record && record !== NO_RECORD) altered_records().add(record);
  try {
    const reply = await command(door ?? {}, ...words);
    prolong(asked);
    return reply;
  } catch (refusal) {
    if (refusal.word && !BEFORE_THE_SESSION.has(refusal.word)) prolong(asked);
    throw refusal;
  }
}

function prolong(asked) {
  if (!person || asked <= person.asked) return;
  person.asked = asked;
  tell_tabs({ what: 'prolonged', id: person.id, asked });
}

// Several commands may meet the end of a session: the person is asked once, and is_opening_again until then.
export const is_opening_again = () => opening !== null;

export async function back_again(is_due = false) {
  if (!opening) tell_tabs({ what: 'ended', id: person.id, is_due });
  return open_again(is_due);
}

function open_again(is_due) {
  if (is_due) person.due = true;
  const { id } = person;
  opening ??= page.ask_again(is_due).finally(() => {
    opening = null;
    if (person && person.id !== id) tell_opened(id);
  });
  return opening;
}

// Seconds that the session still lives, and whether a request makes them more.
export function seconds_left(now = Date.now()) {
  const idle = IDLE_SECONDS - (now - person.asked) / 1000;
  const whole = LONGEST_SECONDS - (now - person.opened) / 1000;
  return { seconds: Math.max(0, Math.floor(Math.min(idle, whole))), can_go_on: idle < whole };
}

// Any request by a live session prolongs it, also one that is refused for a role.
export async function go_on() {
  await granted(() => ask(read_records, 1, 1));
}

// Whether the password is still due, by a request that changes nothing.
export async function is_password_due() {
  try {
    await granted(() => ask_once(read_records, 1, 1));
    return false;
  } catch (refusal) {
    if (refusal.word === 'password_due') return true;
    throw refusal;
  }
}

// The reply to an opening doesn't have the person's roles. Who may read the persons finds them there. For anybody else the roles
// show in what is refused: two requests that are granted to nobody, since no record has the number, the amendment has no reason,
// and the signature has no code, so that no password is looked at. They change nothing, and the trail has no row of them.
async function learn_roles() {
  const persons = await granted(() => ask_once(read_the_persons));
  const own = persons && persons.persons.find(({ code }) => code === person.code);
  if (own) {
    person.name = own.name;
    person.roles = new Set(own.roles);
    return;
  }
  const analyst = await has_role(amend_a_record, { record: NO_RECORD, altered: [] });
  const reviewer = await has_role(sign_a_version,
    { record: NO_RECORD, version: 1, digest: '0'.repeat(64), meaning: 'review', password: '' });
  person.roles = new Set([analyst && 'analyst', reviewer && 'reviewer'].filter(Boolean));
}

// Another role may have been given since.
export async function learn_roles_again() {
  await learn_roles();
  tell();
}

async function has_role(command, body) {
  try {
    await ask_once(command, body);
  } catch (refusal) {
    if (refusal.word === 'no_such_record' || refusal.word === 'code_wanted') return true;
    if (refusal.word !== 'role_wanted') throw refusal;
  }
  return false;
}

async function granted(command) {
  try {
    return await command();
  } catch (refusal) {
    if (refusal.word === 'role_wanted') return null;
    throw refusal;
  }
}

// ---- the other tabs of this browser

// Joins the tabs, and asks for a session that one of them has. It resolves once one is given, or after a moment; one that is given
// later is taken, too, unless somebody is about to sign in here.
export function join_other_tabs() {
  join_tabs({
    ask: ({ lab, id }) => (may_be_given(lab, id) ? { token: door.token, person } : null),
    opened: ({ id, lab, before }) => {
      const is_own = () => (person ? person.id === before : [lab, ''].includes(lab_of_address()) && !page.is_typing());
      ask_tabs({ lab, id }, is_own, take);
    },
    prolonged: ({ id, asked }) => {
      if (person?.id === id) person.asked = Math.max(person.asked, asked);
    },
    known: ({ id, known }) => {
      if (person?.id === id) learn(known);
    },
    ended: ({ id, is_due }) => {
      if (person?.id === id) open_again(is_due);
    },
    closed: ({ id }) => {
      if (person?.id === id) close_here();
    },
  });
  return new Promise((go_on) => {
    setTimeout(go_on, MILLISECONDS_FOR_AN_ANSWER);
    ask_tabs({ lab: lab_of_address() }, () => !person && !page.is_typing(), (given) => {
      take(given);
      go_on();
    });
  });
}

// A session is given to a tab of its laboratory, or of none, as long as it lives; once it has ended, nobody knows whose tab it is.
function may_be_given(lab, id) {
  if (!person || person !== told || !door.token || opening || !seconds_left().seconds) return false;
  return [person.lab, ''].includes(lab) && [person.id, undefined].includes(id);
}

// A session in place of the one that this tab had, or of none.
function take({ token, person: given }) {
  if (person?.lab !== given.lab || person.code !== given.code) kept = new Map();
  door = { lab: given.lab, token };
  person = given;
  come_back();
}

function learn(known) {
  Object.assign(person, known);
  come_back();
}

function come_back() {
  if (opening && !person.due) page.end_asking(true);
  tell();
}

// A session was opened, in place of one before, if any.
function tell_opened(before) {
  tell_tabs({ what: 'opened', id: person.id, lab: person.lab, before });
}

function tell_known() {
  const { id, due, signed, name, roles } = person;
  tell_tabs({ what: 'known', id, known: { due, signed, name, roles } });
}

// Another tab signed out. What is typed here and isn't sent waits for the same person.
function close_here() {
  if (page.has_work()) {
    door = { lab: person.lab };
    open_again(false);
  } else {
    if (opening) page.end_asking(false);
    forget();
    page.tell_closed();
  }
}
