// Remarks on a copy that is good: its rows that no server writes, although no rule of a check forbids them, as docs/COPIES.md lists
// them. A remark changes no verdict.
//
//     remarks_on(bytes)   a list of {remark, row, record}; record is that of `same_sample` alone

import { rows_of } from './checking.js';

// What is kept of a copy while its rows come: of a form and a sample the first record, and of a key of a form the first unit.
function nothing_seen() {
  return {
    made: '', form: [], before: '', opened: '', is_first: false,
    values: new Map(), known: new Map(), samples: new Map(), units: new Map(),
  };
}

const key_of = (...words) => JSON.stringify(words);

// The first that was there under a key, which is this one where nothing was.
function first_under(map, key, one) {
  if (!map.has(key)) map.set(key, one);
  return map.get(key);
}

const are_equal = (one, other) => one.size === other.size && [...one].every(([key, value]) => other.get(key) === value);

// Of each kind of row what is remarked, once what it says is kept.
const REMARKS = {
  copy: (seen, { moment }) => {
    seen.made = moment;
    return [];
  },
  record: (seen, { record, version, key, value }) => {
    Object.assign(seen, { form: [key, version], before: '', values: new Map() });
    return first_under(seen.samples, key_of(key, value), record) === record ? [] : ['same_sample'];
  },
  version: (seen, { person, moment, reason }) => {
    Object.assign(seen, { opened: reason && key_of(person, moment, reason), known: new Map(seen.values), is_first: true });
    return [];
  },
  entry: (seen, { key, value, unit, person, moment, reason }) => {
    const found = [
      seen.opened && seen.is_first && key_of(person, moment, reason) !== seen.opened && 'not_of_amendment',
      seen.values.has(key) && !reason && 'no_reason',
      first_under(seen.units, key_of(...seen.form, key), unit) !== unit && 'other_unit',
    ];
    seen.values.set(key, value);
    seen.is_first = false;
    return found;
  },
  signature: (seen, { value }) => [value === 'authorship' && seen.opened && are_equal(seen.values, seen.known) && 'nothing_amended'],
};

// What is remarked on the moment of a row within a record. (Moments are compared as texts: they have one form.)
function remarks_on_moment(seen, { kind, moment }) {
  if (!['version', 'entry', 'signature'].includes(kind)) return [];
  const found = [moment < seen.before && 'goes_back', moment > seen.made && 'after_copy'];
  if (moment > seen.before) seen.before = moment;
  return found;
}

export function remarks_on(bytes) {
  const [seen, found] = [nothing_seen(), []];
  let row = 0;
  for (const [kind, , record, version, key, value, unit, person, , moment, reason] of rows_of(bytes)) {
    row += 1;
    const line = { kind, record, version, key, value, unit, person, moment, reason };
    const remarks = Object.hasOwn(REMARKS, kind) ? [...remarks_on_moment(seen, line), ...REMARKS[kind](seen, line)] : [];
    for (const remark of remarks.filter(Boolean)) {
      found.push({ remark, row, record: remark === 'same_sample' ? seen.samples.get(key_of(key, value)) : '' });
    }
  }
  return found;
}
