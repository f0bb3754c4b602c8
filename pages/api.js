// The commands of docs/COMMANDS.md, each a function of its name. A door is where a command goes: { lab, token }.
// What the server refuses is thrown as a Refusal; nothing here knows a page, a session or a text on the screen.

const LONGEST_WAIT = 150_000;

// A refusal of docs/REFUSALS.md, with its number, its word and its further member, if it has one: rule, record, key or digest.
// Three words have the number 0, for no server of laboratories said them: no_reply, too_often and no_server.
export class Refusal extends Error {
  constructor(status, { error, number, ...further }) {
    super(error);
    Object.assign(this, further, { name: 'Refusal', status, word: error, number });
  }
}

export async function read_the_card(door) {
  return got({ lab: door.lab }, '');
}

export async function open_a_session(door, { code, password }) {
  return posted({ lab: door.lab }, '/open', { code, password });
}

export async function close_the_session(door) {
  return posted(door, '/close', {});
}

export async function change_the_password(door, { old, new: chosen }) {
  return posted(door, '/password', { old, new: chosen });
}

export async function enrol_a_person(door, { code, name, roles }) {
  return posted(door, '/persons', { code, name, roles });
}

export async function read_the_persons(door) {
  return got(door, '/persons');
}

export async function ask_for_a_one_time_password(door, code) {
  return posted(door, '/issue', { code });
}

export async function confirm_a_one_time_password(door, code) {
  return posted(door, '/confirm', { code });
}

export async function set_a_persons_roles(door, { code, roles }) {
  return posted(door, '/roles', { code, roles });
}

export async function retire_a_person(door, code) {
  return posted(door, '/retire', { code });
}

export async function unlock_a_person(door, code) {
  return posted(door, '/unlock', { code });
}

export async function make_a_form(door, { form, approval, fields }) {
  return posted(door, '/forms', { form, approval, fields });
}

export async function read_a_form(door, form, version) {
  return got(door, `/forms/${form}/${version}`);
}

export async function open_a_record(door, { form, sample }) {
  return posted(door, '/records', { form, sample });
}

// A reason is left out where it is undefined.
export async function enter_a_value(door, { record, key, value, unit, reason }) {
  return posted(door, '/entries', { record, key, value, unit, reason });
}

export async function amend_a_record(door, { record, reason, altered }) {
  return posted(door, '/amendments', { record, reason, altered });
}

// A code and a reason are left out where they are undefined.
export async function sign_a_version(door, { record, version, digest, meaning, password, code, reason }) {
  return posted(door, '/signatures', { record, version, digest, meaning, password, code, reason });
}

export async function read_a_record(door, record) {
  return got(door, `/records/${record}`);
}

export async function read_a_version(door, record, version) {
  return got(door, `/records/${record}/versions/${version}`);
}

export async function read_records(door, from, to) {
  return got(door, `/records?from=${from}&to=${to}`);
}

export async function read_the_trail(door, from, to) {
  return got(door, `/trail?from=${from}&to=${to}`);
}

// The bytes of the copy, as the server gave them.
export async function take_an_inspection_copy(door, from, to) {
  const reply = await sent(door, 'GET', `/copy?from=${from}&to=${to}`);
  return new Uint8Array(await whole(reply.arrayBuffer()));
}

async function got(door, place) {
  return read(await sent(door, 'GET', place));
}

async function posted(door, place, body) {
  return read(await sent(door, 'POST', place, JSON.stringify(body)));
}

async function sent({ lab, token }, method, place, body) {
  const headers = token ? { Authorization: `LabSession ${token}` } : {};
  if (body !== undefined) headers['Content-Type'] = 'application/json';
  const reply = await whole(fetch(`/labs/${lab}${place}`, {
    method, headers, body, credentials: 'omit', cache: 'no-store', redirect: 'error', referrerPolicy: 'no-referrer',
    signal: AbortSignal.timeout(LONGEST_WAIT),
  }));
  if (!reply.ok) throw await refusal_of(reply);
  return reply;
}

async function read(reply) {
  const text = await whole(reply.text());
  try {
    return JSON.parse(text);
  } catch {
    throw new Refusal(reply.status, { error: 'no_server', number: 0 });
  }
}

async function refusal_of(reply) {
  const text = await whole(reply.text());
  try {
    const members = JSON.parse(text);
    if (typeof members.error === 'string' && Number.isInteger(members.number)) return new Refusal(reply.status, members);
  } catch {
    // It is the page of another server, as of nginx.
  }
  return new Refusal(reply.status, { error: reply.status === 429 ? 'too_often' : 'no_server', number: 0 });
}

// What a promise of a reply gives, or the refusal that none came whole.
async function whole(promise) {
  try {
    return await promise;
  } catch {
    throw new Refusal(0, { error: 'no_reply', number: 0 });
  }
}
