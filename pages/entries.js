// A value on its way into an open version, and a record on its way into the laboratory: each is done once.

import { enter_a_value, open_a_record, read_a_version } from './api.js';
import { hundred_to } from './numbers.js';
import { write } from './outcomes.js';
import { last_record, records_between, remember } from './reading.js';
import { ask, notes, who } from './session.js';

// What is refused for one of these is about one value: the next one is sent.
const ABOUT_VALUE = new Set(['bad_value', 'wrong_unit', 'out_of_range', 'no_such_field', 'bad_body']);
const ABOUT_REASON = new Set(['reason_wanted', 'bad_name']);

export const is_about_reason = ({ word }) => ABOUT_REASON.has(word);
export const is_about_value = (refusal) => ABOUT_VALUE.has(refusal.word) || is_about_reason(refusal);

// Enters a value of a field into a version: `at` has the record, the version, and how many rows the version is known to have. Where no
// reply says whether the value was entered, it is a row behind those, or none. `done` is given whether that was looked up.
export function enter_at(at, { key, unit = '' }, { value, reason }, done) {
  const { record, version } = at;
  const body = { key, value, unit, reason };
  const is_it = (one) => one.person === who().code && Object.keys(body).every((name) => one[name] === (body[name] ?? ''));
  return write(enter_a_value, { record, ...body }, {
    look: async () => {
      const { rows } = await ask(read_a_version, record, version);
      return rows.slice(at.count).some(is_it) ? { rows: rows.length } : null;
    },
    done: ({ rows, looked }) => {
      at.count = rows;
      return done(Boolean(looked));
    },
  });
}

// Opens a record. Where no reply says whether it was opened, it is among the newest, or it isn't there. `done` is given its number.
export function open_once(form, sample, done) {
  const own = notes();
  const is_it = (row) => row.form === form && row.sample === sample;
  return write(open_a_record, { form, sample }, {
    look: async () => (await records_between(...hundred_to(Math.max(1, await last_record())))).find(is_it),
    done: ({ record, looked }) => {
      remember(own, [{ record, form, sample }]);
      return done(record, Boolean(looked));
    },
  });
}
