// A record with its versions up to one of them: { record, versions, form }, each version as the server gave it. All versions before a
// last one are settled and never change, so each is read once a session.

import { read_a_record, read_a_version } from './api.js';
import { form_of, once, remember } from './reading.js';
import { ask, notes } from './session.js';
import { in_turn, walk } from './walking.js';

// A record with one of its versions, by default its last, and the version before that.
export async function newest_of(number, version) {
  const own = notes();
  const record = await ask(read_a_record, number);
  const last = version ?? record.current;
  const has_before = last > 1 && last <= record.current;
  const [form, before, shown] = await Promise.all([
    form_of(record.form, record.form_version), has_before && settled_version(number, last - 1), ask(read_a_version, number, last),
  ]);
  remember(own, [shown]);
  return { record, versions: [before, shown].filter(Boolean), form };
}

// Whether all versions up to the last one are there.
export const is_whole = ({ versions }) => versions[0].version === 1;

// The same with all versions before, which are read six at a time, as long as `goes_on` says so. `read` is told how many there are.
export async function with_older(history, goes_on = () => true, read = () => {}) {
  const { record: { record }, versions } = history;
  const older = new Map();
  await walk(numbers_below(versions[0].version), async (number) => {
    older.set(number, await in_turn(() => settled_version(record, number)));
    read(older.size + versions.length);
  }, goes_on);
  return { ...history, versions: [...[...older.values()].sort((one, other) => one.version - other.version), ...versions] };
}

export const history_of = async (number, version) => with_older(await newest_of(number, version));

const settled_version = (number, version) => once(`version ${number} ${version}`, () => ask(read_a_version, number, version));

function* numbers_below(first) {
  for (let number = first - 1; number >= 1; number -= 1) yield number;
}
