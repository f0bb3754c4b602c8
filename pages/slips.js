// What is probably meant by a text that doesn't fit, so that a message can say what to type: a word of `texts.slips`, and what stands
// in its holes. Nothing here touches a page, and nothing is altered: the person types it.

import { MOST_DIGITS, MOST_OF_NAME } from './limits.js';
import { bytes_of, flaw_of_value, is_day, is_key, is_name } from './rules.js';
import { texts } from './texts.js';

// In this order: what a number looks like, the word, and what is meant.
const NUMBERS = [
  [/^\s|\s$/, 'space_at_end', (value) => [value.trim()]],
  [/^[≤≥]/, 'at_most', () => []],
  [/^[<>]\s/, 'space_behind_sign', (value) => [value.replace(/\s+/, '')]],
  [/^[<>]?[−–]\s?\d/, 'minus', (value) => [value.replace(/[−–]\s?/, '-')]],
  [/^\d{1,3}([  ]\d{3})+$/, 'space_within', (value) => [value.replace(/\s/g, '')]],
  [/\d\s+[<>+-]?\d/, 'several', () => []],
  [/^\d{1,3},\d{3}$/, 'comma_of_two', (value) => [value.replace(',', ''), value.replace(',', '.')]],
  [/^[<>]?[+-]?\d+,\d+$/, 'comma', (value) => [value.replace(',', '.')]],
  [/,/, 'no_comma', () => []],
  [/^[<>]?[+-]?\d+(\.\d+)?e[+-]?\d+$/i, 'exponent', () => []],
  [/^[<>]?[+-]?\.\d+$/, 'no_digit_before', (value) => [value.replace('.', '0.')]],
  [/^[<>]?[+-]?\d+\.$/, 'no_digit_behind', (value) => [value.replace('.', '')]],
  [new RegExp(`^[<>]?[+-]?\\d{${MOST_DIGITS + 1}}`), 'long_number', () => []],
  [/^[<>]?[+-]?\d+(\.\d+)?\s?[^\s\d.]+$/, 'unit', () => []],
  [/^[a-zäöüéèà]/i, 'no_number', () => []],
];

const DECIMALS = new RegExp(`^[<>]?[+-]?\\d{1,${MOST_DIGITS}}\\.(\\d+)$`);

const ABOUT_KIND = { number: slip_of_number, date: slip_of_date, text: slip_of_text };

// The text of a slip, or null of none.
export const text_of_slip = (slip) => (slip ? texts.slips[slip[0]](...slip.slice(1)) : null);

// What is wrong with a value of a field: [word, ...holes], or null where nothing is, or where nothing is known of it.
export function slip_of_value(about, value) {
  if (value === '' || !flaw_of_value(about, value)) return null;
  return ABOUT_KIND[about.kind]?.(about, value) ?? null;
}

function slip_of_number(about, value) {
  const { decimals, min, max, unit } = about;
  if (flaw_of_value(about, value) === 'out_of_range') {
    return flaw_of_value({ ...about, max: undefined }, value) ? ['below', value, min] : ['above', value, max];
  }
  const behind = DECIMALS.exec(value)?.[1].length;
  if (behind > decimals) return ['decimals', decimals, behind];
  const [, word, holes] = NUMBERS.find(([pattern]) => pattern.test(value)) ?? [];
  return word ? [word, ...holes(value, unit)] : null;
}

// A day as people of many places write it is offered as year-month-day; where it may be two days, both are.
function slip_of_date(about, value) {
  const text = value.trim();
  const days = days_in(text);
  const meant = [...new Set(days)].filter(is_day);
  if (meant.includes(text)) return ['space_at_end', text];
  if (meant.length) return ['day', ...meant];
  return days.length ? ['no_such_day'] : ['no_day'];
}

function days_in(text) {
  const [, year, month, day] = /^(\d{4})[./-](\d{1,2})[./-](\d{1,2})$/.exec(text) ?? [];
  if (year) return [day_of(year, month, day)];
  const [, first, sign, second, last] = /^(\d{1,2})([./ -])\s?(\d{1,2})[./ -]\s?(\d{4})$/.exec(text) ?? [];
  if (!last) return [];
  return sign === '.' ? [day_of(last, second, first)] : [day_of(last, second, first), day_of(last, first, second)];
}

const day_of = (year, month, day) => [year, month.padStart(2, '0'), day.padStart(2, '0')].join('-');

function slip_of_text({ size }, value) {
  return bytes_of(value) > size ? ['long', bytes_of(value), size] : ['control'];
}

// What is wrong with a name, as that of a sample or a person.
export function slip_of_name(text, most = MOST_OF_NAME) {
  if (is_name(text, most)) return null;
  if (text === '') return ['empty'];
  if (/^\s|\s$/.test(text)) return ['space_at_end', text.trim()];
  return bytes_of(text) > most ? ['long', bytes_of(text), most] : ['control'];
}

// What is wrong with a code of a form or a key; `fits` says whether one fits, and of a person another does.
export function slip_of_code(text, fits = is_key) {
  if (fits(text)) return null;
  if (text === '') return ['empty'];
  if (fits(text.toLowerCase())) return ['capitals', text.toLowerCase()];
  return /^[a-z]/.test(text) ? ['letters'] : ['first_letter'];
}
