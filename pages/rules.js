// What docs/NAMES.md and docs/FORMS.md admit, so that a person is advised before a text is sent. The server decides; these don't.

import {
  KEY, LAB_CODE, MOST_CHOICES, MOST_DECIMALS, MOST_DIGITS, MOST_OF_NAME, MOST_OF_NOTE, MOST_OF_UNIT, PERSON_CODE,
} from './limits.js';

const BYTES = new TextEncoder();
const AMOUNT = new RegExp(`^[<>]?([+-]?)([0-9]{1,${MOST_DIGITS}})(?:\\.([0-9]{1,${MOST_DECIMALS}}))?$`);

export function bytes_of(text) {
  return BYTES.encode(text).length;
}

const is_whole = (pattern) => {
  const whole = new RegExp(`^${pattern}$`);
  return (text) => whole.test(text);
};

export const is_lab_code = is_whole(LAB_CODE);
export const is_person_code = is_whole(PERSON_CODE);
export const is_key = is_whole(KEY);
export const is_name = (text, most = MOST_OF_NAME) => /^(?! )[^\x00-\x1f\x7f]+(?<! )$/.test(text) && bytes_of(text) <= most;
const is_note = (text, most = MOST_OF_NOTE) => /^[^\x00-\x09\x0b-\x1f\x7f]+$/.test(text) && bytes_of(text) <= most;
const is_unit = (text) => text === '' || is_name(text, MOST_OF_UNIT);

// A number's amount in whole millionths, without < and >; null where the text is none with so many decimals.
function amount_of(text, decimals = MOST_DECIMALS) {
  const [, sign, whole, behind = ''] = AMOUNT.exec(text) ?? [];
  if (whole === undefined || behind.length > decimals) return null;
  const amount = BigInt(whole + behind.padEnd(MOST_DECIMALS, '0'));
  return sign === '-' ? -amount : amount;
}

export function is_day(text) {
  const [, year, month, day] = /^([0-9]{4})-([0-9]{2})-([0-9]{2})$/.exec(text) ?? [];
  if (!year || year === '0000') return false;
  const made = new Date(`${text}T00:00:00Z`);
  return !Number.isNaN(made.getTime()) && made.getUTCMonth() + 1 === Number(month) && made.getUTCDate() === Number(day);
}

// The word of the refusal that a value of a field would meet, or null.
export function flaw_of_value(field, value) {
  if (field.kind === 'number') return flaw_of_number(field, value);
  const reads = {
    text: () => is_note(value, field.size),
    choice: () => field.choices.includes(value),
    date: () => is_day(value),
    yesno: () => value === 'yes' || value === 'no',
  };
  return reads[field.kind]() ? null : 'bad_value';
}

function flaw_of_number({ decimals, min, max }, value) {
  const amount = amount_of(value, decimals);
  if (amount === null) return 'bad_value';
  const below = min !== undefined && amount < amount_of(min);
  const above = max !== undefined && amount > amount_of(max);
  return below || above ? 'out_of_range' : null;
}

// Of the fields of a form that is to be made, all that the server would refuse: each a field, a name in it, and the word.
export function suspects(fields) {
  return fields.flatMap((field, at) => [
    { at, name: bad_name_in(field), word: 'bad_name' }, { at, name: bad_rule_in(field), word: 'bad_field' },
    { at, name: fields.findIndex(({ key }) => key === field.key) < at && 'key', word: 'key_twice' },
  ]).filter(({ name }) => name);
}

function bad_name_in({ key, label, unit, choices }) {
  if (!is_key(key)) return 'key';
  if (!is_name(label)) return 'label';
  if (unit !== undefined && !is_unit(unit)) return 'unit';
  return choices?.every((text) => is_name(text)) ?? true ? null : 'choices';
}

function bad_rule_in({ kind, decimals, min, max, size, choices }) {
  if (kind === 'number') return bad_bound_in(decimals, min, max);
  if (kind === 'text') return size >= 1 && size <= MOST_OF_NOTE ? null : 'size';
  if (kind !== 'choice') return null;
  const are_different = new Set(choices).size === choices.length;
  return are_different && choices.length >= 1 && choices.length <= MOST_CHOICES ? null : 'choices';
}

function bad_bound_in(decimals, min, max) {
  if (decimals > MOST_DECIMALS) return 'decimals';
  const reads = (bound) => bound === undefined || (!/[<>]/.test(bound) && amount_of(bound, decimals) !== null);
  if (!reads(min)) return 'min';
  if (!reads(max)) return 'max';
  return min !== undefined && max !== undefined && amount_of(min) > amount_of(max) ? 'min' : null;
}
