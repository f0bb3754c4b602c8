// Amending a settled record: each value that stands, with a control for another one beside it.

import { amend_a_record, read_a_record, read_a_version } from './api.js';
import { what_to_type, value_control } from './controls.js';
import { area, element, field, given, heading, link, paragraph, reading, replace, section } from './elements.js';
import { newest_of } from './history.js';
import { write } from './outcomes.js';
import { record_place } from './places.js';
import { flaw_of_value } from './rules.js';
import { say } from './saying.js';
import { sending_form } from './sending.js';
import { ask, who } from './session.js';
import { facts_of, head_of, label_of, value_in, value_of } from './showing.js';
import { texts } from './texts.js';

const words = texts.entering;

export async function amending_view(view, number) {
  replace(view, heading(words.amend), reading());
  const history = await newest_of(number);
  const head = element('div', { class: 'record-head' }, head_of(history.versions.at(-1), words.amend));
  replace(view, head, paragraph(words.amending_intro),
    section(words.stands, null, facts_of(history.versions.at(-1), history.record)), amending_form(history),
    paragraph(link(record_place(number), words.leave_it)));
}

function amending_form({ record, versions, form }) {
  const shown = versions.at(-1);
  const rows = form.fields.map((about) => amending_row(about, value_in(shown, about.key)));
  return sending_form({
    command: 'amend_a_record', submit: words.amend, about: (refusal) => about_amendment(refusal, form, rows),
    send: ({ reason }) => {
      const typed = form.fields.map(({ key, unit }, at) => ({ key, value: rows[at].control.value, unit: unit ?? '' }));
      return amend(record, reason || undefined, typed.filter(({ value }) => value !== ''));
    },
  },
  rows.map(({ part }) => part),
  field(words.amending_reason, area('reason', { dir: 'auto' }), words.reason_hint));
}

// Amends a record as it is known. Where no reply says whether it was amended, the next version is there, or it isn't.
function amend({ record, current }, reason, altered) {
  return write(amend_a_record, { record, reason, altered }, {
    look: async () => {
      if ((await ask(read_a_record, record)).current === current) return null;
      const next = await ask(read_a_version, record, current + 1);
      return next.opener === who().code && next.reason === reason ? next : null;
    },
    done: ({ version, looked }) => {
      say(words.said_amended(record, version), looked && [' ', texts.said_looked]);
      return record_place(record);
    },
  });
}

function amending_row(about, value) {
  const { part, control } = value_control(about, `value_${about.key}`, words.other_value(given(about.label)));
  const standing = element('div', { class: 'standing' }, paragraph(label_of(about)),
    paragraph(words.stands_now, ' ', value_of(value, 'standing')));
  return { part: element('div', { class: 'amend-row', 'data-key': about.key }, standing, part), control };
}

// Of a value that doesn't fit the server doesn't say which: it is the first that these pages see, and all others are told with it.
function about_amendment({ word, key }, form, rows) {
  const { fields } = form;
  if (word === 'not_altered') return rows[fields.findIndex((about) => about.key === key)]?.control;
  if (word === 'reason_wanted') return 'reason';
  if (word === 'nothing_altered') return rows[0].control;
  if (word === 'bad_name') return 'reason';
  const flaws = rows.map(({ control }, at) => ({ control, about: fields[at], word: flaw_of_value(fields[at], control.value) }))
    .filter((one) => one.control.value !== '' && one.word);
  const first = flaws.find((one) => one.word === word);
  const told = (one) => ({
    control: one.control, what_to_do: what_to_type(one.word, form, one.about, one.control.value) ?? words.flaws[one.word],
  });
  return first ? { ...told(first), others: flaws.filter((one) => one !== first).map(told) } : null;
}
