// What several views read of the laboratory; what never changes is read once a session.

import { read_a_form, read_records, read_the_trail } from './api.js';
import { AT_ONCE, MOST_VERSIONS } from './limits.js';
import { last_number } from './numbers.js';
import { ask, notes } from './session.js';

export async function records_between(from, to) {
  const own = notes();
  const { records } = await ask(read_records, from, to);
  remember(own, records);
  return records;
}

// The records that these pages know in this session, each { record, form, sample }, which never changes.
export const known_records = () => [...notes().get('records')?.values() ?? []];

export function remember(own, records) {
  if (!own.has('records')) own.set('records', new Map());
  const known = own.get('records');
  for (const { record, form, sample } of records) if (!known.has(record)) known.set(record, { record, form, sample });
}

// The focus of the page of a record that was just opened will be where values are entered, once.
export function set_just_opened(own, record) {
  own.set('just opened', record);
}

export function is_just_opened(record) {
  const own = notes();
  const is_it = own.get('just opened') === record;
  own.delete('just opened');
  return is_it;
}

export const rows_between = async (from, to) => (await ask(read_the_trail, from, to)).trail;

// The number of the last record, and of the trail's last row, which is found faster once one was found in this session.
export const last_record = () => last_of('record', records_between);
export const last_row = () => last_of('row', rows_between);

async function last_of(name, read) {
  const own = notes();
  const last = await last_number(read, own.get(name) ?? 0);
  own.set(name, last);
  return last;
}

export async function once(name, read) {
  const own = notes();
  if (!own.has(name)) own.set(name, await read());
  return own.get(name);
}

// A version of a form, which never changes.
export const form_of = (form, version) => once(`form ${form} ${version}`, () => ask(read_a_form, form, version));

export async function form_or_null(form, version) {
  try {
    return await form_of(form, version);
  } catch (refusal) {
    if (refusal.word === 'no_such_form') return null;
    throw refusal;
  }
}

// The rows of the trail behind one, of which there are few.
export async function rows_after(last) {
  return rows_between(last + 1, last + AT_ONCE);
}

// The number of a form's last version, 0 where there is no such form. No command says it, so versions are asked for.
export async function last_version(form, known = 0) {
  let low = known;
  let high = known + 1;
  while (high <= MOST_VERSIONS && await form_or_null(form, high)) {
    low = high;
    high *= 2;
  }
  high = Math.min(high, MOST_VERSIONS + 1);
  while (high - low > 1) {
    const middle = Math.floor((low + high) / 2);
    if (await form_or_null(form, middle)) low = middle;
    else high = middle;
  }
  return low;
}
