// The records of the laboratory, the newest first. What was read of them is kept for the session, and filtered by sample, form,
// state, person and day; the filter stands in the address. All records are looked through at a click.

import {
  action, actions, button, buttons, element, field, filter_choice, filter_form, first_rows, folded_filter, given, heading, input, link,
  moment, more_button, named, offer, reading, replace, replace_focused, table,
} from './elements.js';
import { is_left, is_over, leave_at, left_at, take_up } from './life.js';
import { AT_ONCE } from './limits.js';
import { hundred_to, hundreds, number_of } from './numbers.js';
import { filter_of_query, opening_place, record_place, records_place } from './places.js';
import { last_record } from './reading.js';
import { say } from './saying.js';
import { clear_refusals, refuse, sending_form, show_refusal } from './sending.js';
import { has } from './session.js';
import { state_of } from './showing.js';
import { slip_of_value, text_of_slip } from './slips.js';
import { texts } from './texts.js';
import { kept_records, known_of, learn, missing_hundreds, read_altered, read_records_into, walk } from './walking.js';

const words = texts.records;
const FILTERS = ['state', 'form', 'sample', 'person', 'day'];
const [MILLISECONDS_SAID, MILLISECONDS_SHOWN] = [100, 500];

export async function records_view(view, query) {
  const body = element('div', null, reading());
  const above = actions(has('analyst') && action(opening_place(), words.open_one), go_to_form());
  replace(view, heading(words.title), above, body);
  const rows = kept_records();
  const filter = filter_of_query(query, FILTERS);
  if (!texts.states[filter.state]) filter.state = '';
  const list = { view, body, rows, filter, most: first_rows(), last: 0, walk: null, said_at: 0 };
  await read_altered();
  list.last = await last_record();
  if (list.last) await read_records_into(rows, hundred_to(list.last));
  if (is_over(view)) return;
  draw_list(list);
  if (wants_versions(list)) look_through(list, []);
}

const wants_versions = ({ filter }) => Boolean(filter.person || filter.day);
const newest_first = (one, other) => other.record - one.record;

// The rows that pass the filter, the newest first. Where a person or a day is wanted, and the version isn't read yet, a row doesn't pass.
function passing(list) {
  const [person, day] = [list.filter.person.trim(), list.filter.day.trim()];
  const is_wanted = (deed) => [deed.person, ''].includes(person) && deed.day.startsWith(day);
  return matching(list).filter((row) => !wants_versions(list) || known_of(row)?.deeds.some(is_wanted)).sort(newest_first);
}

// The rows that pass by what lists tell.
function matching({ rows, filter }) {
  const sample = filter.sample.toLowerCase();
  return [...rows.values()].filter((row) => [row.state, ''].includes(filter.state) && [row.form, ''].includes(filter.form)
    && row.sample.toLowerCase().includes(sample));
}

const unread = (list) => (wants_versions(list) ? matching(list).filter((row) => !known_of(row)).sort(newest_first) : []);

function draw_list(list) {
  const [shown, going, below] = ['div', 'div', 'div'].map((name) => element(name));
  const counts = element('p', { role: 'status', 'data-part': 'counts' });
  const left = passing(list).findIndex(({ record }) => record === left_at());
  Object.assign(list, { shown, going, below, counts, drawn: null, most: Math.max(list.most, left + 1) });
  replace(list.body, filter_of(list), element('div', { class: 'counts' }, counts, going), shown, below);
  draw(list);
  draw_going(list);
  take_up(shown);
}

// The rows are drawn anew where others are to be shown. What has the focus among them has it afterwards.
function draw(list) {
  list.drawn_at = Date.now();
  const found = passing(list);
  replace(list.counts, counts_of(list, found));
  const rows = found.slice(0, list.most);
  const drawn = JSON.stringify([wants_versions(list), rows.map((row) => [row, wants_versions(list) && known_of(row).last])]);
  if (drawn !== list.drawn) draw_rows(list, rows);
  list.drawn = drawn;
  replace_focused(list.below, buttons(more_of(list, found)));
}

function draw_rows(list, rows) {
  const { shown } = list;
  const focused = shown.contains(document.activeElement) && document.activeElement.closest('[data-record]');
  const columns = [words.sample, words.form, words.record, words.version, words.state, wants_versions(list) && words.last].filter(Boolean);
  replace(shown, rows.length > 0 && table(words.title, columns, rows.map((row) => row_of(list, row))));
  if (focused) shown.querySelector(`[data-record="${focused.dataset.record}"] a`)?.focus();
}

function row_of(list, row) {
  const { record, form, sample, current, state } = row;
  const last = wants_versions(list) && known_of(row).last;
  const name = link(record_place(record), given(sample, 'sample'), { click: () => leave_at(record) });
  const cells = [name, named('form', form), record, named('current', current), state_of(state)];
  if (last) cells.push([named('person', last.person), ', ', moment(last.moment, 'last')]);
  return { attributes: { 'data-record': record }, cells };
}

function counts_of(list, found) {
  const { rows, last } = list;
  const count = unread(list).length;
  const is_filtered = Object.values(list.filter).some(Boolean);
  return [is_filtered && [words.shown(found.length, rows.size), ' '], last ? words.loaded(rows.size, last) : words.none,
    count > 0 && [' ', words.unread(count)]];
}

// What is below the list: more of what is read, or else a hundred that isn't.
function more_of(list, found) {
  const [older] = missing_hundreds(list.rows, list.last);
  if (found.length <= list.most) return older && load_more_button(list, older);
  return more_button(list.most, found.length, () => list.shown.querySelectorAll('tbody a'), (most) => {
    list.most = most;
    draw(list);
  });
}

function load_more_button(list, older) {
  return button('load_more', words.more(AT_ONCE), async () => {
    try {
      const before = list.shown.querySelectorAll('tr[data-record]').length;
      await read_records_into(list.rows, older);
      if (is_left(list.shown)) return;
      list.most = Math.max(list.most, before + AT_ONCE);
      offer(list.filters.querySelector('[name="form"]'), forms_of(list));
      draw(list);
      if (!list.walk) draw_going(list);
      list.shown.querySelectorAll('tbody a')[before]?.focus();
      say(words.said_loaded(list.rows.size));
    } catch (refusal) {
      show_refusal(list.below, refusal);
    }
  });
}

// ---- looking through all

// What may be looked through: what isn't read yet, or all of it once more.
function draw_going(list) {
  const is_whole = missing_hundreds(list.rows, list.last).next().done && !unread(list).length;
  const name = is_whole ? words.look_again : words.look_through;
  replace_focused(list.going, list.last > 0 && buttons(button('look_through', name, () => {
    look_through(list, is_whole ? hundreds(1, list.last) : missing_hundreds(list.rows, list.last));
  })));
}

// Reads lists in the background, and then, where a person or a day is wanted, the versions of what passes the filter. It goes on
// until it is stopped, or the view is over.
async function look_through(list, jobs) {
  const own = {};
  list.walk = own;
  const goes_on = () => list.walk === own && !is_over(list.view);
  const { going } = list;
  const how_far = element('span', { 'data-part': 'how_far' }, words.loaded(list.rows.size, list.last));
  clear_refusals(going);
  replace_focused(going, buttons(button('stop', texts.copies.stop, () => end_walk(list, own)), how_far));
  going.setAttribute('aria-busy', 'true');
  const said = () => show_how_far(list, how_far, goes_on);
  try {
    await walk(jobs, (range) => read_records_into(list.rows, range).then(said), goes_on);
    await learn_unread(list, said, goes_on);
    end_walk(list, own);
  } catch (refusal) {
    const is_own = goes_on();
    end_walk(list, own);
    if (is_own) show_refusal(going, refusal);
  }
}

// (while versions are read, the filter may want others)
async function learn_unread(list, said, goes_on) {
  while (goes_on() && unread(list).length) {
    const wanted = records_place(list.filter);
    await walk(unread(list), (row) => learn(row).then(said), () => goes_on() && wanted === records_place(list.filter));
  }
}

function show_how_far(list, how_far, goes_on) {
  if (!goes_on() || Date.now() - list.said_at < MILLISECONDS_SAID) return;
  list.said_at = Date.now();
  const count = unread(list).length;
  replace(how_far, words.loaded(list.rows.size, list.last), count > 0 && [' ', words.unread(count)]);
  if (Date.now() - list.drawn_at > MILLISECONDS_SHOWN) draw(list);
}

function end_walk(list, own) {
  if (list.walk !== own || is_over(list.view)) return;
  list.walk = null;
  list.going.removeAttribute('aria-busy');
  offer(list.filters.querySelector('[name="form"]'), forms_of(list));
  draw(list);
  draw_going(list);
}

// ---- the filter

function filter_of(list) {
  const { filter } = list;
  const changed = () => filter_changed(list);
  const text = (name, label, hint, attributes) => field(label, input(name, {
    value: filter[name], type: 'search', ...attributes, input: ({ target }) => {
      filter[name] = target.value;
      changed();
    },
  }), hint);
  const advice = element('p', { class: 'advice', 'data-part': 'advice' });
  const made = filter_form(
    field(words.state, filter_choice('state', Object.entries(texts.states), filter, changed)),
    field(words.form, filter_choice('form', forms_of(list), filter, changed)),
    text('sample', words.sample_has), text('person', words.person), text('day', words.day, '', { inputmode: 'numeric' }));
  made.querySelector('[data-field="day"]').append(advice);
  Object.assign(list, { filters: made, advice });
  return folded_filter(made, filter);
}

const forms_of = ({ rows, filter }) =>
  [...new Set([...[...rows.values()].map(({ form }) => form), filter.form])].filter(Boolean).sort().map((form) => [form, form]);

// The filter stands in the address, but makes no entry of the browser's history.
function filter_changed(list) {
  const { filter, advice } = list;
  history.replaceState(null, '', records_place(filter));
  const day = filter.day.trim();
  advice.textContent = /^[0-9-]*$/.test(day) ? '' : text_of_slip(slip_of_value({ kind: 'date' }, day)) ?? '';
  draw(list);
  if (list.walk) return;
  draw_going(list);
  if (unread(list).length) look_through(list, []);
}

function go_to_form() {
  return sending_form({
    command: 'go_to_record', submit: words.go, about: { no_number: 'record' }, keeps: false, attributes: { class: 'inline' },
    send: ({ record }) => {
      const number = number_of(record);
      if (number === null) refuse('no_number');
      return record_place(number);
    },
  }, field(words.go_to, input('record', { inputmode: 'numeric', size: 10 })));
}
