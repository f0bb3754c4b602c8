// The opening of a record. It can't be taken back, so the page asks first where a name that is nearly the same is known.

import { Refusal } from './api.js';
import { button, element, field, given, heading, input, link, paragraph, replace } from './elements.js';
import { open_once } from './entries.js';
import { near_records } from './near.js';
import { record_place } from './places.js';
import { known_records, set_just_opened } from './reading.js';
import { forms_seen, load_newest } from './records.js';
import { say } from './saying.js';
import { all_slips, refuse, sending_form } from './sending.js';
import { notes } from './session.js';
import { slip_of_code, slip_of_name } from './slips.js';
import { texts } from './texts.js';
import { marked } from './unseen.js';

const words = texts.records;
const LIST = 'forms-seen';

// With a form, that one stands there, and the focus is in the sample.
export async function opening_view(view, code = '') {
  const offered = element('datalist', { id: LIST });
  const known = offer_forms(offered);
  const asked = { known, sure: null };
  const made = sending_form({
    command: 'open_a_record', submit: words.open, about: (refusal, place) => about_opening(refusal, place, asked),
    send: ({ form, sample }) => open_unless_near(form.trim(), sample, asked),
  },
  field(words.form_code, input('form', { list: LIST, value: code, 'data-first': !code }), words.form_hint), offered,
  field(words.sample, input('sample', { dir: 'auto', 'data-first': Boolean(code) }), words.sample_hint));
  replace(view, heading(words.opening_title), paragraph(words.opening_intro), made);
  await known;
}

// Offers the forms that were seen.
async function offer_forms(offered) {
  await know_newest();
  replace(offered, forms_seen().map((form) => element('option', { value: form })));
}

// The newest records are read once a session, so that they are known; where they can't be read, the page goes on without them.
export async function know_newest() {
  const own = notes();
  if (own.has('newest')) return;
  try {
    await load_newest();
    own.set('newest', true);
  } catch (refusal) {
    if (!(refusal instanceof Refusal)) throw refusal;
  }
}

// A name that isn't one is the server's to refuse.
async function open_unless_near(form, sample, asked) {
  await asked.known;
  if (!slip_of_code(form) && asked.sure !== JSON.stringify([form, sample])) refuse_near(form, sample);
  return open(form, sample);
}

// Of a record that is there already nothing is opened.
export function refuse_near(form, sample) {
  const known = known_records();
  const is_there = known.some((row) => row.form === form && row.sample === sample);
  const near = is_there || slip_of_name(sample) ? [] : near_records(known, form, sample);
  if (near.length) refuse('near_name', { near });
}

function open(form, sample) {
  const own = notes();
  return open_once(form, sample, (record, looked) => {
    set_just_opened(own, record);
    say(words.said_opened(record), looked && [' ', texts.said_looked]);
    return record_place(record);
  });
}

function about_opening({ word, near }, made, asked) {
  const { form, sample } = made.elements;
  if (word === 'near_name') return { control: sample, what_to_do: near_question(near, sample.value, () => open_surely(made, asked), true) };
  if (word === 'record_exists') return 'sample';
  if (word === 'no_such_form') return 'form';
  return word === 'bad_name' ? all_slips([[form, slip_of_code(form.value.trim())], [sample, slip_of_name(sample.value)]]) : null;
}

function open_surely(made, asked) {
  const { form, sample } = made.elements;
  asked.sure = JSON.stringify([form.value.trim(), sample.value]);
  made.requestSubmit();
}

// What is there already, and a button that opens the record all the same. Where `is_done`, a link leads there without a question.
export function near_question(near, sample, open_it, is_done) {
  const links = near.flatMap((row, at) => [
    at > 0 && ', ', link(record_place(row.record), given(row.sample), { 'data-done': is_done }), ' ', words.of_form(row.form, row.record),
  ]);
  return [words.near, ' ', links, '. ', words.not_taken_back, ' ', button('open_surely', words.open_surely(marked(sample)), open_it)];
}
