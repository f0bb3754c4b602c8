// What is read in the background, at most six reads at a time in all, and what is kept of it for the session: the rows of the
// list of records, of the last version of some of them what lists tell, and the rows of the trail.

import { read_a_version } from './api.js';
import { AT_ONCE } from './limits.js';
import { records_between, rows_between } from './reading.js';
import { altered_records, ask, notes, who } from './session.js';

const [MOST_AT_A_TIME, MOST_TRIES] = [6, 5];
const [MILLISECONDS_FRESH, MILLISECONDS_BETWEEN] = [60_000, 1000];
const queue = [];
let under_way = 0;

// Reads once fewer than six such reads are under way.
export async function in_turn(read) {
  if (under_way === MOST_AT_A_TIME) await new Promise((go_on) => { queue.push(go_on); });
  else under_way += 1;
  try {
    return await read_patiently(read);
  } finally {
    const next = queue.shift();
    if (next) next();
    else under_way -= 1;
  }
}

// Where too many requests come from one address at once, a read is tried again a little later.
async function read_patiently(read) {
  for (let tries = 1; tries < MOST_TRIES; tries += 1) {
    try {
      return await read();
    } catch (refusal) {
      if (refusal.word !== 'too_often') throw refusal;
      await new Promise((go_on) => { setTimeout(go_on, MILLISECONDS_BETWEEN); });
    }
  }
  return read();
}

// Works at each of some jobs, six at a time, as long as `goes_on` says so. Where one fails no other one is begun.
export async function walk(jobs, work, goes_on) {
  const left = one_after_the_other(jobs);
  const worker = async () => {
    for (const job of left) {
      if (!goes_on()) return;
      await work(job);
    }
  };
  await Promise.all(Array.from({ length: MOST_AT_A_TIME }, worker));
}

// (a generator ends for all workers where one of them leaves its loop)
function* one_after_the_other(jobs) {
  yield* jobs;
}

function kept(name) {
  const own = notes();
  if (!own.has(name)) own.set(name, new Map());
  return own.get(name);
}

// By their numbers, each as it was read last.
export const kept_records = () => kept('records read');
export const kept_rows = () => kept('rows read');
const kept_versions = () => kept('versions read');

export const read_records_into = (rows, range) => read_into(rows, range, records_between, ({ record }) => record);
export const read_rows_into = (rows, range) => read_into(rows, range, rows_between, ({ number }) => number);

async function read_into(rows, [from, to], read, number_of) {
  const found = await in_turn(() => read(from, to));
  for (const row of found) rows.set(number_of(row), row);
  return found;
}

// The numbers from a last one down to a first that aren't kept, in hundreds: pairs of from and to.
export function* missing_hundreds(rows, last, first = 1) {
  for (let to = last; to >= first; to -= 1) {
    if (rows.has(to)) continue;
    const from = Math.max(first, to - AT_ONCE + 1);
    yield [from, to];
    to = from;
  }
}

// Reads again what this person has written to since it was read.
export async function read_altered() {
  const [altered, rows, versions] = [altered_records(), kept_records(), kept_versions()];
  await walk([...altered], async (record) => {
    await read_records_into(rows, [record, record]);
    if (versions.delete(record) && rows.has(record)) await learn(rows.get(record));
    altered.delete(record);
  }, () => true);
}

export const known_of = ({ record, current, state }) => {
  const known = kept_versions().get(record);
  return known?.version === current && known.state === state ? known : null;
};

// Of a record of a list, what its last version tells. With another signature its state is another one, so it is read once a state;
// of an open one of this person, where others may enter values, too, again after a minute if `is_fresh`.
export async function learn(row, is_fresh) {
  const [known, versions] = [known_of(row), kept_versions()];
  const is_old = is_fresh && known?.is_mine && known.state === 'open' && Date.now() - known.read > MILLISECONDS_FRESH;
  if (known && !is_old) return known;
  const told = told_by(await in_turn(() => ask(read_a_version, row.record, row.current)));
  versions.set(row.record, told);
  row.state = told.state;
  return told;
}

const deed_of = ({ person, moment }) => ({ person, day: moment.slice(0, 10) });

function told_by({ version, state, opener, moment, form_version, rows, signatures, values }) {
  const deeds = [{ person: opener, moment }, ...rows, ...signatures];
  const own = (list) => list.some(({ person }) => person === who()?.code);
  const last = deeds.at(-1);
  return {
    version, state, form_version, read: Date.now(), last: { person: last.person, moment: last.moment },
    deeds: [...new Map(deeds.map((deed) => [`${deed.person} ${deed.moment.slice(0, 10)}`, deed])).values()].map(deed_of),
    signature: signatures.at(-1), keys: values.map(({ key }) => key), is_entered: own(rows), is_own: own([...rows, ...signatures]),
    is_mine: own(deeds),
  };
}
