// The places of the pages, behind the # of the address. No place has a token or a password. That of a list has its filter.

import { KEY as KEY_PATTERN, PERSON_CODE } from './limits.js';

const NUMBER = '([1-9][0-9]{0,9})';
const KEY = `(${KEY_PATTERN})`;

export const first_place = () => '#/';
export const day_place = () => '#/day';
export const records_place = (filter) => `#/records${query_of(filter)}`;
export const opening_place = (form) => (form ? `#/opening/${form}` : '#/opening');
export const grid_place = (form) => `#/grid/${form}`;
export const record_place = (record) => `#/records/${record}`;
export const version_place = (record, version) => `#/records/${record}/versions/${version}`;
export const signing_place = (record, version, meaning) => `#/records/${record}/versions/${version}/${meaning}`;
// The same on the way from one record that waits to the next.
export const signing_on_place = (record, version, meaning) => `${signing_place(record, version, meaning)}/next`;
export const amending_place = (record) => `#/records/${record}/amending`;
export const paper_place = (record) => `#/records/${record}/paper`;
export const forms_place = () => '#/forms';
export const form_place = (form, version) => `#/forms/${form}/${version}`;
export const making_place = (form, version) => (form ? `#/making/${form}/${version}` : '#/making');
export const persons_place = () => '#/persons';
export const person_place = (code) => `#/persons/${code}`;
export const enrolling_place = () => '#/enrolling';
export const trail_place = (filter) => `#/trail${query_of(filter)}`;
export const copies_place = () => '#/copies';
export const checking_place = () => '#/checking';
export const password_place = () => '#/password';
export const no_role_place = () => '#/no-role';

// The views by their places, each with a name and a pattern whose groups are what the view is about.
export const PATTERNS = {
  day: /^#\/day$/,
  records: /^#\/records(\?.*)?$/,
  opening: new RegExp(`^#/opening(?:/${KEY})?$`),
  grid: new RegExp(`^#/grid/${KEY}$`),
  record: new RegExp(`^#/records/${NUMBER}$`),
  version: new RegExp(`^#/records/${NUMBER}/versions/${NUMBER}$`),
  signing: new RegExp(`^#/records/${NUMBER}/versions/${NUMBER}/(authorship|review|approval|rejection)(/next)?$`),
  amending: new RegExp(`^#/records/${NUMBER}/amending$`),
  paper: new RegExp(`^#/records/${NUMBER}/paper$`),
  forms: /^#\/forms$/,
  form: new RegExp(`^#/forms/${KEY}/${NUMBER}$`),
  making: new RegExp(`^#/making(?:/${KEY}/${NUMBER})?$`),
  persons: /^#\/persons$/,
  person: new RegExp(`^#/persons/(${PERSON_CODE})$`),
  enrolling: /^#\/enrolling$/,
  trail: /^#\/trail(\?.*)?$/,
  copies: /^#\/copies$/,
  checking: /^#\/checking$/,
  password: /^#\/password$/,
  no_role: /^#\/no-role$/,
};

// A filter as the address has it, without what is empty, and read from there: of the members that are named each is a text.
function query_of(filter = {}) {
  const given = Object.entries(filter).filter(([, value]) => value);
  return given.length ? `?${new URLSearchParams(given)}` : '';
}

export function filter_of_query(query, names) {
  const given = new URLSearchParams(query ?? '');
  return Object.fromEntries(names.map((name) => [name, given.get(name) ?? '']));
}
