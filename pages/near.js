// Names of samples that are nearly alike, so that one of them may be a slip. Nothing here touches a page.

import { pieces_of } from './unseen.js';

const MOST = 5;
const LETTER = /\p{L}/u;
const ASCII = /^[ -~]*$/;
// What is compared of the names of rows, as long as these are kept: a name is compared with many.
const compared = new WeakMap();

const plain = (text) => (ASCII.test(text) ? text : pieces_of(text).map(({ seen = '' }) => seen).join('').normalize('NFKC')).toLowerCase();

// A name without blanks, and the characters of one with single blanks.
function forms_of_name(text) {
  const name = plain(text);
  return { bare: name.replace(/\s+/g, ''), characters: [...name.trim().replace(/\s+/g, ' ')] };
}

function compared_of(row) {
  if (!compared.has(row)) compared.set(row, forms_of_name(row.sample));
  return compared.get(row);
}

// The records, each { record, form, sample }, whose sample is nearly that of a record to be opened, the newest first. Where the
// sample itself is there by another form, its name is meant, and only this form's are looked at.
export function near_records(known, form, sample) {
  const wanted = forms_of_name(sample);
  const is_known = known.some((row) => row.sample === sample);
  const near = known.filter((row) => row.sample !== sample && (row.form === form || !is_known) && are_near(compared_of(row), wanted));
  return near.sort((one, other) => other.record - one.record).slice(0, MOST);
}

// Whether two names differ by case, by blanks, by what isn't seen, or by one letter within a word. A digit, and a letter that stands
// alone, count samples: they are no slip.
export const is_near = (one, other) => are_near(forms_of_name(one), forms_of_name(other));

const are_near = (one, other) => one.bare === other.bare || is_letter_apart(one.characters, other.characters);

function is_letter_apart(one, other) {
  if (Math.abs(one.length - other.length) > 1) return false;
  const shorter = Math.min(one.length, other.length);
  let start = 0;
  while (start < shorter && one[start] === other[start]) start += 1;
  let end = 0;
  while (end < shorter - start && one.at(-1 - end) === other.at(-1 - end)) end += 1;
  if (Math.max(one.length, other.length) - start - end > 1) return false;
  return [one, other].some((text) => is_within_word(text, start, text.length - end));
}

// Whether what stands between two places is a letter beside a letter.
function is_within_word(text, start, end) {
  const beside = [text[start - 1] ?? '', text[end] ?? ''];
  return end > start && LETTER.test(text[start]) && beside.some((letter) => LETTER.test(letter));
}
