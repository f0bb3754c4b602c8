// My day: what this person has open, what of it was rejected and why, and what waits for the person, the oldest first. All records
// are looked through, while the page is shown.

import {
  action, actions, button, buttons, element, given, heading, link, moment, more_button, named, paragraph, reading, replace,
  replace_focused, section, table,
} from './elements.js';
import { is_over, leave_at, take_up } from './life.js';
import { hundreds } from './numbers.js';
import { amending_place, opening_place, record_place, records_place, signing_on_place, signing_place } from './places.js';
import { form_of, last_record, records_between } from './reading.js';
import { clear_refusals, is_here, show_refusal } from './sending.js';
import { has, notes } from './session.js';
import { state_of } from './showing.js';
import { texts } from './texts.js';
import { marked } from './unseen.js';
import { in_turn, kept_records, known_of, learn, read_altered, read_records_into, walk } from './walking.js';

const words = texts.day;
const MOST_ROWS = 12;
const [MILLISECONDS_SHOWN, MILLISECONDS_COUNTED] = [1000, 200];

// What is told of records: of which a kind is, whether a version is one of it, and what a row of it has behind the record.
const KINDS = {
  rejected: {
    is_for: () => has('analyst'), states: () => ['rejected'], is_one: (known) => known.is_mine,
    columns: [words.why, words.rejected_by, words.to_do],
    cells: (row, { signature }) => [given(signature.reason, 'reason'), done_by(signature),
      to_do(row, amending_place(row.record), texts.versions.amend, 'amend')],
  },
  open: {
    is_for: () => has('analyst'), states: () => ['open'], is_one: (known) => known.is_mine,
    columns: [words.missing, words.last, words.to_do],
    cells: (row, known) => [missing_of(known), done_by(known.last), next_of_open(row, known)],
  },
  waiting: {
    is_for: () => has('reviewer', 'manager'), states: states_for_me, is_one: (known) => !known.is_own,
    columns: [texts.records.state, words.since, words.to_do],
    cells: (row, known) => [[state_of(row.state), ' ', texts.records.waits[row.state]], done_by(known.last), next_of_waiting(row)],
  },
};

// The states that wait for somebody with this person's roles, and what the person signs then.
function states_for_me() {
  return [has('reviewer') && 'signed', has('manager') && 'reviewed'].filter(Boolean);
}

export const meaning_for = ({ state }) => (state === 'signed' ? 'review' : 'approval');

const kinds = () => Object.entries(KINDS).filter(([, kind]) => kind.is_for());

// What was found by now: of each kind the rows with what is known of them, the oldest first; and how many of its states aren't.
function found_of({ states, is_one }) {
  const rows = [...kept_records().values()].filter(({ state }) => states().includes(state));
  const known = rows.map((row) => [row, known_of(row)]).filter(([, one]) => one);
  const found = known.filter(([, one]) => is_one(one)).sort(by_age);
  return { found, others: known.length - found.length };
}

const key_of = ([{ record }, { last }]) => `${last.moment} ${String(record).padStart(10, '0')}`;
const by_age = (one, other) => (key_of(one) < key_of(other) ? -1 : 1);

export async function day_view(view) {
  const day = { left: [], last: 0, most: new Map(), drawn: 0, counted: 0, parts: new Map() };
  const counts = element('p', { role: 'status', 'data-part': 'counts' });
  const [going, sections] = [element('div'), element('div', { class: 'day' }, reading())];
  replace(view, heading(words.title), has('analyst') && actions(action(opening_place(), texts.records.open_one)), counts, going, sections);
  Object.assign(day, { view, counts, going, sections });
  await read_altered();
  day.last = await last_record();
  if (is_over(view)) return;
  day.left = [...hundreds(1, day.last)];
  draw(day);
  take_up(sections);
  look_on(day);
}

// Looks at some hundreds of records: at the list, and at what versions of the states tell that are shown here.
async function look(day, jobs) {
  await look_through(jobs, () => !is_over(day.view) && !day.is_stopped, (range) => {
    day.left.splice(day.left.indexOf(range), 1);
    if (is_over(day.view)) return;
    if (Date.now() - day.drawn > MILLISECONDS_SHOWN) draw(day);
    else if (Date.now() - day.counted > MILLISECONDS_COUNTED) draw_counts(day);
  });
}

async function look_through(jobs, goes_on, looked) {
  const [records, states] = [kept_records(), new Set(kinds().flatMap(([, kind]) => kind.states()))];
  await walk(jobs, async (range) => {
    const rows = await read_records_into(records, range);
    await Promise.all(rows.filter(({ state }) => states.has(state)).map(learn_for_the_day));
    looked(range);
  }, goes_on);
}

// Of what is open the labels of the form are wanted, too.
async function learn_for_the_day(row) {
  const known = await learn(row, true);
  if (known.state === 'open' && known.is_mine) known.form = await in_turn(() => form_of(row.form, known.form_version));
}

// Looks through what is left, until it is stopped or the view is over. What is left then is looked through at a click.
async function look_on(day) {
  const { going, view } = day;
  day.is_stopped = false;
  replace_focused(going, buttons(button('stop', texts.copies.stop, () => { day.is_stopped = true; })));
  going.setAttribute('aria-busy', 'true');
  let refused = null;
  try {
    await look(day, [...day.left]);
    if (!day.left.length) notes().set('day is whole', true);
  } catch (refusal) {
    refused = refusal;
  }
  going.removeAttribute('aria-busy');
  if (is_over(view)) return;
  replace_focused(going, day.left.length > 0 && look_on_button(day));
  if (refused) show_refusal(going, refused);
  draw(day);
}

function look_on_button(day) {
  return buttons(button('look_on', texts.records.look_on, () => {
    clear_refusals(day.going);
    look_on(day);
  }));
}

function draw(day) {
  day.drawn = Date.now();
  draw_counts(day);
  for (const [name, kind] of kinds()) draw_part(day, name, kind);
}

function draw_counts(day) {
  const { counts, left, last } = day;
  day.counted = Date.now();
  const looked = left.reduce((count, [from, to]) => count - (to - from + 1), last);
  const parts = kinds().map(([name, kind]) => words.counts[name](found_of(kind).found.length));
  const own = has('reviewer', 'manager') ? found_of(KINDS.waiting).others : 0;
  replace(counts, parts.join(' '), own > 0 && [' ', texts.records.own(own)], ' ',
    last ? texts.records.looked(looked, last) : texts.records.none);
}

// A part is drawn anew where something else is to be shown. What has the focus in it has it afterwards.
function draw_part(day, name, kind) {
  const { found, others } = found_of(kind);
  const most = day.most.get(name) ?? MOST_ROWS;
  const drawn = JSON.stringify([found.slice(0, most), found.length, others]);
  const part = day.parts.get(name) ?? { body: element('div') };
  if (part.drawn === drawn) return;
  day.sections.querySelector('.reading')?.remove();
  if (!part.drawn) day.sections.append(section(words.titles[name], { 'data-part': name }, part.body));
  day.parts.set(name, Object.assign(part, { drawn }));
  const focused = is_here(part.body) ? place_of(document.activeElement) : null;
  replace(part.body, found.length ? table_of(name, kind, found.slice(0, most)) : paragraph(words.none[name]),
    buttons(more_button(most, found.length, () => part.body.querySelectorAll('tbody th a'), (more) => {
      day.most.set(name, more);
      draw_part(day, name, kind);
    })),
    name !== 'waiting' && others > 0 && paragraph(link(records_place({ state: name }), words.others[name](others))));
  if (focused) part.body.querySelector(focused)?.focus();
}

// How what has the focus is found again.
function place_of(node) {
  const record = node.closest('[data-record]')?.dataset.record;
  return record ? `[data-record="${record}"] a[href="${node.getAttribute('href')}"]` : null;
}

function table_of(name, { columns, cells }, found) {
  return table(words.titles[name], [texts.records.sample, texts.records.record, ...columns], found.map(([row, known]) => ({
    attributes: { 'data-record': row.record },
    cells: [[link(record_place(row.record), given(row.sample, 'sample'), { click: () => leave_at(row.record) }), ' · ', named('form', row.form)],
      element('span', { class: 'whole' }, words.record_and_version(row.record, named('current', row.current))), ...cells(row, known)],
  })));
}

const done_by = ({ person, moment: at }) => [named('person', person), ', ', moment(at, 'since')];

// A link to what is to be done with a record, whose name has the sample.
function to_do({ record, sample }, place, text, name) {
  return link(place, text, { 'data-do': name, 'aria-label': words.about(text, marked(sample)), click: () => leave_at(record) });
}

function next_of_waiting(row) {
  const meaning = meaning_for(row);
  return to_do(row, signing_on_place(row.record, row.current, meaning), texts.meanings[meaning].act, meaning);
}

function missing_keys({ keys, form }) {
  return form ? form.fields.filter(({ key, required }) => required && !keys.includes(key)) : [];
}

function missing_of(known) {
  if (!known.keys.length) return words.nothing_entered;
  const labels = missing_keys(known).flatMap(({ label }, at) => [at > 0 && ', ', given(label)]);
  return labels.length ? labels : words.nothing_missing;
}

function next_of_open(row, known) {
  const is_ready = known.is_entered && known.form && !missing_keys(known).length;
  return is_ready ? to_do(row, signing_place(row.record, row.current, 'authorship'), texts.meanings.authorship.act, 'authorship')
    : to_do(row, record_place(row.record), words.enter, 'enter');
}

// The next record that waits for this person, behind one that was shown: { record, current, state }, or null. Each is read once
// more before, since somebody else may have signed it. Where not all records were looked through in this session, they are now.
export async function next_that_waits(shown, goes_on) {
  await read_altered();
  if (!notes().has('day is whole')) {
    await look_through(hundreds(1, await last_record()), goes_on, () => {});
    notes().set('day is whole', true);
  }
  const place = `${shown.since} ${String(shown.record).padStart(10, '0')}`;
  const found = found_of(KINDS.waiting).found.filter(([{ record }]) => record !== shown.record);
  const behind = found.filter((one) => key_of(one) > place);
  for (const [row] of [...behind, ...found.filter((one) => !behind.includes(one))]) {
    if (!goes_on()) return null;
    const [now] = await records_between(row.record, row.record);
    kept_records().set(row.record, now);
    if (states_for_me().includes(now.state) && !(await learn(now)).is_own) return now;
  }
  return null;
}

export const count_of_waiting = () => found_of(KINDS.waiting).found.length;
