// What several views show alike: a state, a value, a field's label and what fits it, and what is known of a version.

import { element, facts, given, heading, link, moment, paragraph } from './elements.js';
import { form_place } from './places.js';
import { who } from './session.js';
import { texts } from './texts.js';

const words = texts.versions;

// The state as a word in a frame of its own kind, so that no colour is needed.
export function state_of(state) {
  return element('span', { class: `state ${state}`, 'data-part': 'state', 'data-state': state }, texts.states[state]);
}

// The head of a page of a record, which stays in sight, and stands on each sheet of paper: the sample first, for by it people know
// the record; what is done with it, if anything; and record, version and state.
export function head_of({ sample, form, record, version, state }, act, versions = words.one(version)) {
  return [heading(given(sample), ' · ', form, act && ` – ${act}`),
    paragraph(texts.record(record), ', ', versions, ' ', state_of(state))];
}

export function value_in({ values }, key) {
  return values.find((value) => value.key === key);
}

export function value_of(value, name = 'value') {
  if (!value) return element('span', { class: 'none' }, words.no_value);
  return element('span', { class: 'value', 'data-part': name }, value_text(value));
}

export function value_text({ value, unit }) {
  return [given(value), unit && [' ', given(unit)]];
}

export function label_of({ label, key, required }, has_key = true) {
  return [given(label, 'label'), required && [' ', element('span', { class: 'required' }, texts.required)],
    has_key && element('span', { class: 'key', 'aria-hidden': 'true' }, ' ', key)];
}

// What fits a field, in words.
export function hint_of({ kind, decimals, min, max, size, choices }) {
  const { number, text, choice, date, yesno } = texts.entering;
  if (kind === 'number') return number(decimals, min, max);
  if (kind === 'text') return text(size);
  if (kind === 'choice') return choice(choices.length);
  return kind === 'date' ? date : yesno;
}

// The same in few words, where a list shows what may be chosen.
export function short_hint_of({ kind, decimals, min, max, size }) {
  const { short } = texts.entering;
  if (kind === 'number') return short.number(decimals, min, max);
  if (kind === 'text') return short.text(size);
  return kind === 'date' ? short.date : '';
}

export function facts_of(shown, record) {
  const lab = who();
  const form = words.form_and_version(shown.form, shown.form_version);
  return facts([
    [words.lab, [given(lab.lab_name), ` (${lab.lab})`], 'lab'],
    [texts.records.record, shown.record, 'record'],
    [texts.records.sample, given(shown.sample), 'sample'],
    [texts.records.form, link(form_place(shown.form, shown.form_version), form), 'form'],
    [texts.records.version, words.version_of(shown.version, record.current), 'version'],
    [texts.records.state, state_of(shown.state)],
    [words.opener, [shown.opener, ', ', moment(shown.moment, 'opened')], 'opener'],
    shown.reason && [words.reason, given(shown.reason), 'reason'],
    [words.approval, shown.approval ? words.with_approval : words.without_approval, 'approval'],
  ]);
}
