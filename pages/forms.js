// Forms: a version of one beside the version before, and the making of the next.

import { Refusal, make_a_form } from './api.js';
import {
  action, actions, area, button, buttons, checkbox, choice, element, facts, field, fresh_id, given, heading, input, link, link_row,
  paragraph, radios, reading, replace, section, table,
} from './elements.js';
import { go, is_left, view_of } from './life.js';
import { MOST_DECIMALS } from './limits.js';
import { write } from './outcomes.js';
import { form_place, forms_place, grid_place, making_place, opening_place } from './places.js';
import { form_of, form_or_null, last_version } from './reading.js';
import { is_key, suspects } from './rules.js';
import { forms_seen, load_newest, remember_forms } from './records.js';
import { say } from './saying.js';
import { refuse, sending_form, show_refusal } from './sending.js';
import { has, may_see_persons } from './session.js';
import { hint_of } from './showing.js';
import { slip_of_code, text_of_slip } from './slips.js';
import { texts } from './texts.js';
import { forms_in_trail } from './trail.js';

const words = texts.forms;
const KINDS = ['number', 'text', 'choice', 'date', 'yesno'];
// An editor of more fields shows each in a line at first.
const MOST_OPEN = 5;
const DECIMALS = Array.from({ length: MOST_DECIMALS + 1 }, (_, count) => [String(count), String(count)]);

export async function forms_view(place) {
  const list = element('div', { 'data-part': 'forms' }, reading());
  const go = sending_form({
    command: 'go_to_form', submit: words.go, about: { no_key: 'form', no_such_form: 'form' }, keeps: false,
    attributes: { class: 'inline' }, send: ({ form }) => place_of(form.trim()),
  }, field(words.code, input('form'), words.code_hint));
  replace(place, heading(words.title), has('manager') && actions(action(making_place(), words.make_one)), go, list);
  await load_newest();
  draw_forms(list);
}

async function place_of(form) {
  if (!is_key(form)) refuse('no_key');
  const last = await last_version(form);
  if (!last) refuse('no_such_form');
  return form_place(form, last);
}

function draw_forms(list) {
  const seen = forms_seen();
  const go_there = async (form) => {
    try {
      go(view_of(list), await place_of(form));
    } catch (refusal) {
      show_refusal(list, refusal);
    }
  };
  const items = seen.map((form) => element('li', { 'data-form-code': form },
    button('go_to_form', form, () => go_there(form), { class: 'as-link' })));
  replace(list, element('h2', null, words.seen), seen.length ? element('ul', null, items) : paragraph(words.none_seen),
    may_see_persons() && buttons(button('look_in_trail', words.look_in_trail, () => look_in_trail(list))));
}

async function look_in_trail(list) {
  try {
    const found = await forms_in_trail((rows) => !is_left(list) && say(words.said_looking(rows)));
    if (is_left(list)) return;
    remember_forms(found);
    draw_forms(list);
    say(words.said_looked(found.size));
  } catch (refusal) {
    show_refusal(list, refusal);
  }
}

export async function form_view(place, form, version) {
  replace(place, heading(words.form(form)), reading());
  const shown = await form_of(form, version);
  const before = version > 1 ? await form_of(form, version - 1) : null;
  const last = await last_version(form, version);
  const versions = Array.from({ length: last }, (_, at) => at + 1);
  replace(place, heading(words.form(form)),
    link_row(words.versions, versions.map((number) => ({
      place: form_place(form, number), text: texts.version(number), is_shown: number === version,
    }))),
    facts([[words.code, form, 'form'], [words.version, words.version_of(version, last), 'version'],
      [words.approval, shown.approval ? words.with_approval : words.without_approval, 'approval']]),
    section(words.fields, null, fields_table(shown, before)),
    before && section(words.compared(version - 1), { 'data-part': 'compared' }, differences_of(before, shown)),
    actions(has('manager') && action(making_place(form, last), words.make_next), has('analyst') && [
      action(opening_place(form), texts.versions.open_another(form), 'open_another'), ' ',
      link(grid_place(form), texts.versions.open_many(form), { 'data-do': 'open_many' })]), paragraph(link(forms_place(), words.back)));
}

function fields_table({ fields }, before) {
  const has_keys = has('manager', 'inspector');
  const columns = [words.label, has_keys && words.key, words.kind, words.fits, words.required].filter(Boolean);
  return table(words.fields, columns, fields.map((about) => {
    const mark = before && mark_of(before.fields.find(({ key }) => key === about.key), about);
    const label = [given(about.label, 'label'), mark && [' ', element('strong', { class: 'altered' }, mark)]];
    return {
      attributes: { 'data-key': about.key, class: mark ? 'altered-row' : null },
      cells: [label, ...has_keys ? [about.key] : [], words.kinds[about.kind], what_fits(about), about.required ? texts.yes : texts.no],
    };
  }));
}

function mark_of(before, about) {
  if (!before) return words.is_new;
  return JSON.stringify(before) === JSON.stringify(about) ? '' : words.altered;
}

function what_fits(about) {
  if (about.kind === 'choice') return element('ul', null, about.choices.map((text) => element('li', null, given(text))));
  return [hint_of(about), about.unit && [' ', words.unit, ': ', given(about.unit)]];
}

// What one version of a form has otherwise than the one before, as a list.
function differences_of(before, after) {
  const lines = [
    before.approval !== after.approval && (after.approval ? words.approval_now : words.approval_no_more),
    ...after.fields.flatMap((about) => lines_of(before.fields.find(({ key }) => key === about.key), about)),
    ...before.fields.filter(({ key }) => !after.fields.some((about) => about.key === key)).map(({ key }) => words.left_out(key)),
    is_reordered(before.fields, after.fields) && words.reordered,
  ].filter(Boolean);
  return lines.length ? element('ul', null, lines.map((line) => element('li', null, line))) : paragraph(words.no_difference);
}

function lines_of(before, after) {
  if (!before) return [words.added(after.key)];
  const members = [...new Set([...Object.keys(before), ...Object.keys(after)])].sort();
  const others = members.filter((member) => JSON.stringify(before[member]) !== JSON.stringify(after[member]));
  return others.map((member) =>
    words.altered_member(after.key, member, element('s', null, member_text(before[member])), member_text(after[member])));
}

function member_text(value) {
  if (value === undefined || value === '') return words.nothing;
  return given(typeof value === 'boolean' ? (value ? texts.yes : texts.no) : [value].flat().join(', '));
}

function is_reordered(before, after) {
  const common = (one, other) => one.map(({ key }) => key).filter((key) => other.some((about) => about.key === key)).join();
  return common(before, after) !== common(after, before);
}

// The making of a form, or of its next version, which begins as the version before.
export async function making_view(view, form, version) {
  replace(view, heading(form ? words.next_title(form) : words.making_title), reading());
  const editor = editor_of(form ? await form_of(form, version) : null);
  const made = sending_form({
    command: 'make_a_form', submit: form ? words.make_next : words.make, about: (refusal) => about_making(refusal, editor, made),
    send: (values) => make(form ?? values.form.trim(), editor),
  }, form ? null : field(words.code, input('form'), words.code_hint), editor.part);
  replace(view, heading(form ? words.next_title(form) : words.making_title), paragraph(words.making_intro), made,
    paragraph(link(forms_place(), words.back)));
}

// Makes the version behind the one with which the editor's fields are compared. Where no reply says whether it was made, it is
// there, or it isn't.
async function make(form, editor) {
  await look_for_newer(form, editor);
  const [known, typed] = [editor.known(), editor.read()];
  return write(make_a_form, { form, ...typed }, {
    look: async () => {
      const next = await form_or_null(form, known + 1);
      return next && is_alike(typed, next) ? next : null;
    },
    done: ({ version, looked }) => {
      remember_forms([form]);
      say(words.said_made(form, version), version > known + 1 && [' ', words.said_between(version - 1)],
        looked && [' ', texts.said_looked]);
      return form_place(form, version);
    },
  });
}

// A version that somebody made meanwhile isn't undone unseen: what is typed is compared with it, and nothing is sent yet.
async function look_for_newer(form, editor) {
  const last = is_key(form) ? await last_version(form, editor.known()) : editor.known();
  if (last === editor.known()) return;
  editor.compare_with(await form_of(form, last));
  throw new Refusal(0, { error: 'form_grew', number: 0, form, version: last });
}

// Whether two forms have the same fields, whatever the order of their members.
function is_alike(one, other) {
  const told = ({ approval, fields }) => JSON.stringify([approval, fields.map((about) => Object.entries(about).sort())]);
  return told(one) === told(other);
}

// The editor of fields and approval: { part, list, read, known, compare_with }. `read` gives { fields, approval } as they are typed,
// `known` the number of the version with which they are compared, 0 of none, and `compare_with` compares them with another one.
function editor_of(before) {
  const approval = checkbox('approval', words.approval_box, { checked: before?.approval ?? false });
  const list = element('div', { 'data-part': 'fields' });
  const compared = element('div');
  const read = () => ({ approval: approval.querySelector('input').checked, fields: [...list.children].map(read_field) });
  for (const about of before?.fields ?? [{ kind: 'number' }]) list.append(field_editor(about, list));
  number_fields(list);
  if (list.children.length > MOST_OPEN) for (const made of list.children) fold(made, true);
  const add_one = button('add_field', words.add, () => insert(list));
  let newest = before;
  const compare = () => newest && replace(compared,
    section(words.compared(newest.version), { 'data-part': 'compared' }, differences_of(newest, read())));
  const part = element('div', { input: compare, change: compare, click: compare }, approval, list, buttons(add_one), compared);
  compare();
  return {
    part, list, read, known: () => newest?.version ?? 0, compare_with: (form) => {
      newest = form;
      compare();
    },
  };
}

function field_editor(about, list) {
  const rest = element('div', { class: 'rest' });
  const kind = radios('kind', KINDS.map((word) => [word, words.kinds[word]]), about.kind);
  kind.addEventListener('change', () => draw_rest(rest, { kind: kind.value }));
  draw_rest(rest, about);
  const body = element('div', { class: 'body', id: fresh_id('field') },
    field(words.key, input('key', { value: about.key ?? '' }), words.key_hint),
    field(words.label, input('label', { value: about.label ?? '', dir: 'auto' }), words.label_hint),
    checkbox('required', words.required_box, { checked: about.required ?? false }), field(words.kind, kind), rest);
  const made = element('fieldset', null, element('legend'), body,
    buttons(button('fold_field', words.fold, () => fold(made, !made.matches('.folded')), { 'aria-controls': body.id, 'aria-expanded': 'true' }),
      button('insert_below', words.insert_below, () => insert(list, made)),
      button('move_up', words.move_up, (event) => move(made, list, -1, event.target)),
      button('move_down', words.move_down, (event) => move(made, list, 1, event.target)),
      button('remove', words.remove, () => remove(made, list))));
  return made;
}

// What a field of its kind says beside its key and label.
function draw_rest(rest, { kind, unit = '', decimals = 2, min = '', max = '', size = 200, choices = [] }) {
  const parts = {
    number: () => [
      field(words.unit, input('unit', { value: unit, dir: 'auto' }), words.unit_hint),
      field(words.decimals, choice('decimals', DECIMALS, String(decimals)), words.decimals_hint),
      field(words.min, input('min', { value: min }), words.bound_hint),
      field(words.max, input('max', { value: max }), words.bound_hint),
      element('p', { class: 'hint bounds' }, words.bounds_hint),
    ],
    text: () => [field(words.size, input('size', { value: String(size), inputmode: 'numeric' }), words.size_hint)],
    choice: () => [field(words.choices, area('choices', { rows: 4, dir: 'auto' }), words.choices_hint)],
    date: () => [],
    yesno: () => [],
  };
  replace(rest, parts[kind]());
  if (kind === 'choice') rest.querySelector('textarea').defaultValue = choices.join('\n');
}

function read_field(made) {
  const value = (name) => made.querySelector(`[name="${name}"]`)?.value;
  const required = made.querySelector('[name="required"]').checked;
  const about = { key: value('key'), label: value('label'), required, kind: value('kind') };
  if (about.kind === 'number') {
    Object.assign(about, { unit: value('unit'), decimals: Number(value('decimals')) });
    if (value('min') !== '') about.min = value('min');
    if (value('max') !== '') about.max = value('max');
  }
  if (about.kind === 'text') about.size = /^[0-9]{1,9}$/.test(value('size')) ? Number(value('size')) : 0;
  if (about.kind === 'choice') about.choices = value('choices').split('\n').filter((text) => text !== '');
  return about;
}

// Numbers the fields of an editor anew. One in which fields were added, moved or removed is altered, like one that is typed into.
function number_fields(list, is_altered = false) {
  if (is_altered) list.closest('form').setAttribute('data-altered', '');
  for (const [at, made] of [...list.children].entries()) {
    made.dataset.at = at + 1;
    made.querySelector('legend').textContent = words.field_number(at + 1);
  }
}

// Adds a field below another one, or at the end.
function insert(list, above = list.lastElementChild) {
  const made = field_editor({ kind: 'number' }, list);
  if (above) above.after(made);
  else list.append(made);
  number_fields(list, true);
  made.querySelector('[name="key"]').focus();
}

// Shows a field in a line, or with its controls. What was typed in it isn't lost by that.
function fold(made, is_folded) {
  const button_of_it = made.querySelector('[data-do="fold_field"]');
  made.classList.toggle('folded', is_folded);
  button_of_it.setAttribute('aria-expanded', !is_folded);
  replace(button_of_it, is_folded ? line_of(read_field(made)) : words.fold);
}

function line_of({ key, label, required, kind, unit }) {
  return [given(key), ': ', given(label), ' (', words.kinds[kind], unit && [', ', given(unit)], required && `, ${texts.required}`, ')'];
}

function move(made, list, by, pressed) {
  const other = by < 0 ? made.previousElementSibling : made.nextElementSibling;
  if (!other) return;
  if (by < 0) other.before(made);
  else other.after(made);
  number_fields(list, true);
  pressed.focus();
  say(words.said_moved(made.dataset.at));
}

function remove(made, list) {
  const near = made.nextElementSibling ?? made.previousElementSibling;
  made.remove();
  number_fields(list, true);
  (near?.querySelector('.folded [data-do="fold_field"], :not(.folded) > .body [name="key"]')
    ?? list.parentNode.querySelector('[data-do="add_field"]')).focus();
  say(words.said_removed);
}

function about_making({ word }, { list, read }, made) {
  const code = made.elements.form;
  const slip = code && slip_of_code(code.value.trim());
  const flaws = suspects(read().fields).map((one) => ({
    word: one.word, control: list.children[one.at].querySelector(`[name="${one.name}"]`),
    what_to_do: words.advice[one.word]?.[one.name] ?? texts.refusals[one.word].what_to_do,
  }));
  if (slip) flaws.unshift({ word: 'bad_name', control: code, what_to_do: text_of_slip(slip) });
  const first = flaws.find((one) => one.word === word);
  if (first) for (const { control } of flaws) if (control.closest('.folded')) fold(control.closest('.folded'), false);
  return first ? { ...first, others: flaws.filter((one) => one !== first) } : null;
}
