// The trail: the newest rows first, or those of a range, of a day or of a month, filtered by person and action. The day and the
// filter stand in the address.

import {
  button, buttons, element, field, filter_choice, filter_form, first_rows, given, heading, input, link, moment, more_button, named,
  offer, paragraph, reading, replace, replace_focused, table,
} from './elements.js';
import { is_over } from './life.js';
import { AT_ONCE } from './limits.js';
import { first_number, hundred_to, hundreds, number_of } from './numbers.js';
import { filter_of_query, form_place, person_place, record_place, trail_place, version_place } from './places.js';
import { last_row, rows_between } from './reading.js';
import { say } from './saying.js';
import { refuse, sending_form, show_refusal } from './sending.js';
import { may_read } from './session.js';
import { slip_of_value, text_of_slip } from './slips.js';
import { texts } from './texts.js';
import { kept_rows, missing_hundreds, read_rows_into, walk } from './walking.js';

const words = texts.trail;
const MILLISECONDS_SHOWN = 500;
const DAY = /^[0-9]{4}(-[0-9]{2}(-[0-9]{2})?)?$/;
const ABOUT_PERSONS = ['lock', 'password', 'issue', 'confirm', 'retire', 'unlock', 'roles', 'enrol'];

// The codes of all forms that the trail names, row by row from the first on, as long as `looked` says that they are wanted.
export async function forms_in_trail(looked) {
  const found = new Set();
  for (const [from, to] of hundreds(1, await last_row())) {
    for (const { action, subject } of await rows_between(from, to)) {
      if (action === 'form') found.add(subject.split('/')[0]);
    }
    if (from % (AT_ONCE * 10) === 1 && !looked(to)) break;
  }
  return found;
}

export async function trail_view(view, query) {
  const filter = filter_of_query(query, ['day', 'person', 'action']);
  if (!DAY.test(filter.day)) filter.day = '';
  const trail = { view, rows: kept_rows(), filter, last: 0, range: [1, 0], is_newest: true, most: first_rows(), walk: null };
  const body = element('div', null, reading());
  replace(view, heading(words.title), paragraph(words.intro), body);
  trail.last = await last_row();
  trail.range = hundred_to(trail.last);
  const range = filter.day ? await range_of_day(trail, filter.day) : null;
  if (!range) await read_rows_into(trail.rows, trail.range);
  if (is_over(view)) return;
  draw_frame(trail, body);
  if (range) look_through(trail, range);
}

function range_form(trail) {
  return sending_form({
    command: 'read_the_trail', submit: words.read, about: { no_number: 'from', no_range: 'to' }, keeps: false,
    attributes: { class: 'inline' }, send: async ({ from, to }) => {
      const [first, last] = [number_of(from), number_of(to)];
      if (first === null || last === null) refuse('no_number');
      if (first > last) refuse('no_range');
      await show_range(trail, [first, Math.min(last, await last_row())], '');
    },
  },
  field(words.from, input('from', { inputmode: 'numeric', size: 10 })),
  field(words.to, input('to', { inputmode: 'numeric', size: 10 })));
}

function day_form(trail) {
  return sending_form({
    command: 'read_a_day', submit: words.read_day, about: about_day, keeps: false,
    attributes: { class: 'inline' }, send: async ({ day }) => {
      if (!DAY.test(day.trim())) refuse('no_day');
      await show_range(trail, await range_of_day(trail, day.trim()), day.trim());
    },
  }, field(words.day, input('day', { inputmode: 'numeric', size: 10, value: trail.filter.day })));
}

function about_day({ word }, { elements: { day } }) {
  const slip = text_of_slip(slip_of_value({ kind: 'date' }, day.value.trim()));
  return word === 'no_day' ? { control: day, what_to_do: slip ?? undefined } : null;
}

// The numbers of the rows of a day, a month or a year. Rows stand in the order of their moments, so few are read to find them.
async function range_of_day(trail, day) {
  trail.last = await last_row();
  const first = await first_from(trail, day);
  return [first, await first_from(trail, `${day}~`) - 1];
}

// The first row whose moment isn't before a text, or the one behind the last.
function first_from({ rows, last }, text) {
  return first_number(last, async (number) => {
    if (!rows.has(number)) await read_rows_into(rows, [number, number]);
    return rows.get(number).moment < text;
  });
}

async function show_range(trail, range, day) {
  if (is_over(trail.view)) return;
  trail.filter.day = day;
  history.replaceState(null, '', trail_place(trail.filter));
  await look_through(trail, range);
  if (!is_over(trail.view)) say(words.said_loaded(rows_of(trail).length));
}

// The rows of the range that are read, the newest first, and those of them that pass the filter.
function rows_of({ rows, range: [from, to] }) {
  const found = [];
  for (let number = to; number >= from; number -= 1) if (rows.has(number)) found.push(rows.get(number));
  return found;
}

const passing = ({ filter }, rows) =>
  rows.filter(({ person, action }) => [person, ''].includes(filter.person) && [action, ''].includes(filter.action));

// Reads a range of rows in the background, until it is stopped or the view is over.
async function look_through(trail, range) {
  const own = {};
  Object.assign(trail, { range, walk: own, is_newest: false });
  const goes_on = () => trail.walk === own && !is_over(trail.view);
  const { going } = trail;
  const how_far = element('span', { 'data-part': 'how_far' });
  replace_focused(going, buttons(button('stop', texts.copies.stop, () => end_walk(trail, own)), how_far));
  going.setAttribute('aria-busy', 'true');
  draw(trail);
  try {
    await walk(missing_hundreds(trail.rows, range[1], range[0]), async (hundred) => {
      await read_rows_into(trail.rows, hundred);
      if (goes_on()) show_how_far(trail, how_far);
    }, goes_on);
    end_walk(trail, own);
  } catch (refusal) {
    const is_own = goes_on();
    end_walk(trail, own);
    if (is_own) show_refusal(going, refusal);
  }
}

function show_how_far(trail, how_far) {
  replace(how_far, words.said_loaded(rows_of(trail).length));
  if (Date.now() - trail.drawn_at > MILLISECONDS_SHOWN) draw(trail);
}

function end_walk(trail, own) {
  if (trail.walk !== own || is_over(trail.view)) return;
  trail.walk = null;
  trail.going.removeAttribute('aria-busy');
  draw(trail);
  draw_going(trail);
}

function draw_frame(trail, body) {
  const [going, shown, below] = ['div', 'div', 'div'].map((name) => element(name));
  shown.dataset.part = 'trail';
  const counts = element('p', { role: 'status', 'data-part': 'counts' });
  Object.assign(trail, { going, shown, below, counts, filters: filter_of(trail) });
  const forms = element('div', { class: 'forms' }, range_form(trail), day_form(trail));
  replace(body, forms, trail.filters, element('div', { class: 'counts' }, counts, going), shown, below);
  draw(trail);
  draw_going(trail);
}

// What may be looked through: what isn't read of the range, or all rows.
function draw_going(trail) {
  const [[from, to], rows] = [trail.range, trail.rows];
  const is_whole = missing_hundreds(rows, to, from).next().done;
  const is_all = is_whole && from === 1 && to >= trail.last;
  replace_focused(trail.going, !is_all && buttons(
    !is_whole && button('go_on', words.go_on, () => look_through(trail, [from, to])),
    button('look_through', words.look_through, () => {
      trail.filter.day = '';
      history.replaceState(null, '', trail_place(trail.filter));
      return look_through(trail, [1, trail.last]);
    })));
}

function load_more_button(trail) {
  return button('load_more', words.more, async () => {
    try {
      const [from, to] = trail.range;
      await read_rows_into(trail.rows, hundred_to(from - 1));
      if (is_over(trail.view)) return;
      trail.range = [hundred_to(from - 1)[0], to];
      trail.most += AT_ONCE;
      draw(trail);
      draw_going(trail);
      say(words.said_loaded(rows_of(trail).length));
      trail.shown.querySelector(`[data-row="${from - 1}"]`)?.focus();
    } catch (refusal) {
      show_refusal(trail.below, refusal);
    }
  });
}

function filter_of(trail) {
  const { filter } = trail;
  const changed = () => {
    history.replaceState(null, '', trail_place(filter));
    draw(trail);
  };
  return filter_form(
    field(words.person, filter_choice('person', options_of([], filter, 'person'), filter, changed)),
    field(words.action, filter_choice('action', options_of([], filter, 'action'), filter, changed)));
}

// What can be chosen of a member: what the rows have, and what the filter wants.
function options_of(rows, filter, member) {
  const words_of = [...new Set([...rows.map((row) => row[member]), filter[member]])].filter(Boolean).sort();
  return words_of.map((word) => [word, member === 'action' ? text_of(word) : word]);
}

const text_of = (action) => words.actions[action] ?? action;

// The rows are drawn anew where others are to be shown.
function draw(trail) {
  trail.drawn_at = Date.now();
  const { counts, filter, filters, shown, below } = trail;
  const rows = rows_of(trail);
  for (const member of ['person', 'action']) offer(filters.querySelector(`[name="${member}"]`), options_of(rows, filter, member));
  const found = passing(trail, rows);
  const columns = [words.number, words.moment, words.person, words.action, words.subject];
  replace(counts, words.shown(found.length, rows.length), filter.day && ` ${words.of_day(filter.day)}`);
  const drawn = found.slice(0, trail.most);
  const numbers = drawn.map(({ number }) => number).join(' ');
  if (numbers !== trail.drawn) replace(shown, drawn.length > 0 && table(words.title, columns, drawn.map(row_of)));
  trail.drawn = numbers;
  replace_focused(below, buttons(more_of(trail, found)));
}

function more_of(trail, found) {
  if (found.length <= trail.most) return trail.is_newest && trail.range[0] > 1 && load_more_button(trail);
  return more_button(trail.most, found.length, () => trail.shown.querySelectorAll('tr[data-row]'), (most) => {
    trail.most = most;
    draw(trail);
  });
}

function row_of({ number, moment: at, person, action, subject }) {
  const done = element('span', { 'data-part': 'action', 'data-action': action }, text_of(action));
  return {
    attributes: { 'data-row': number, tabindex: '-1' },
    cells: [number, moment(at), named('person', person || words.nobody), done, subject_of(action, subject)],
  };
}

// The subject as the server wrote it, and a link to what it is about where there is a page of it.
function subject_of(action, subject) {
  const [first, second] = subject.split('/');
  const places = {
    record: () => record_place(first), entry: () => version_place(first, second), amend: () => version_place(first, second),
    sign: () => version_place(first, second), form: () => form_place(first, second),
  };
  const text = given(subject, 'subject');
  if (places[action] && may_read()) return link(places[action](), text);
  return ABOUT_PERSONS.includes(action) ? link(person_place(subject.split(' ')[0]), text) : text;
}
