// A row of the table in which values are entered: a field with what fits it, its control, what stands, and what came of the value.

import { advice_part, advise_at, control_of, unit_of } from './controls.js';
import { area, button, element, field, fresh_id, moment, named, replace } from './elements.js';
import { label_of, short_hint_of, value_of } from './showing.js';
import { texts } from './texts.js';
import { marked } from './unseen.js';

const words = texts.entering;

// A row by its parts. `look` is there while it isn't known whether what was sent before was entered.
export function entry_row(about) {
  const row = {
    about, look: null, stood: null, control: control_of(about, 'value', 1), advice: advice_part(about), outcome: named('outcome'),
    stands: element('span', { class: 'stood' }), by: element('p', { class: 'by' }),
    told: element('div', { class: 'told', id: fresh_id('told') }),
  };
  const [label, hint] = name_control(row);
  row.reason = reason_field(label);
  row.body = element('div', { id: fresh_id('entry') }, element('div', { class: 'beside' }, row.control, row.unit), row.reason);
  row.opener = button('replace', words.replace, () => {
    show_body(row, row.body.hidden);
    if (!row.body.hidden) row.control.focus();
  }, { 'aria-controls': row.body.id, 'aria-label': words.replace_field(marked(about.label)) });
  row.attributes = { 'data-key': about.key, 'data-field': 'value' };
  row.cells = [[label, ' ', hint], row.body, [element('div', { class: 'stands' }, row.stands, row.outcome), row.by, row.advice, row.told]];
  return row;
}

// Gives the control its name, which has its unit, and what describes it.
function name_control(row) {
  const { about, control, advice, told } = row;
  row.unit = unit_of(about);
  control.id = fresh_id('value');
  const is_group = control.matches('fieldset');
  const label = element(is_group ? 'span' : 'label', { class: 'label', for: is_group ? null : control.id, id: fresh_id('label') }, label_of(about, false));
  const hint = element('span', { class: 'hint', id: fresh_id('hint') }, short_hint_of(about));
  if (row.unit) row.unit.id = fresh_id('behind');
  control.setAttribute('aria-labelledby', [label.id, row.unit?.id].filter(Boolean).join(' '));
  control.setAttribute('aria-describedby', `${hint.id} ${advice.id}`);
  if (about.required) control.setAttribute('aria-required', 'true');
  control.dataset.told = told.id;
  advise_at(control, about, advice);
  return [label, hint];
}

function reason_field(label) {
  const control = area('reason', { dir: 'auto', rows: 1 });
  const made = field(words.reason, control);
  const own = made.querySelector('label');
  own.id = fresh_id('label');
  control.setAttribute('aria-labelledby', `${own.id} ${label.id}`);
  made.hidden = true;
  return made;
}

// Where a value stands, its control waits behind a button, so that nothing is typed over it by a slip.
export function show_body({ body, opener }, is_shown) {
  body.hidden = !is_shown;
  opener.setAttribute('aria-expanded', is_shown);
}

export const is_open = ({ body }) => !body.hidden;
export const is_typed = (row) => is_open(row) && row.control.value !== '';
export const place_of = ({ control }) => control.closest('tr');

// What is typed in a row, as it is sent.
export function typed_in({ control, reason }) {
  return { value: control.value, reason: reason.hidden ? undefined : reason.querySelector('[name]').value || undefined };
}

// Shows what stands in a row, and the entry by which it does, where that one was read.
export function stand(row, value, entry) {
  const stood = value ? JSON.stringify([value.value, value.unit]) : '';
  replace(row.by, entry && [named('person', entry.person), ', ', moment(entry.moment)]);
  row.reason.hidden = !value;
  if (row.stood === stood) return;
  row.stood = stood;
  replace(row.stands, value_of(value, 'standing'), value && row.opener);
  show_body(row, !value || row.control.value !== '');
}

// Puts a value into a row as if it was typed. A list has it, or it stays as it is.
export function put(row, value) {
  const { control } = row;
  const before = control.value;
  control.value = value;
  const is_put = control.value === value;
  if (!is_put) control.value = before;
  for (const event of ['input', 'change']) control.dispatchEvent(new Event(event, { bubbles: true }));
  if (!is_put) row.advice.textContent = words.no_such_choice(marked(value));
  return is_put;
}

// Empties a row, unless something else was typed since it was sent.
export function empty(row, sent) {
  if (row.control.value !== sent.value) return;
  row.control.value = '';
  row.reason.querySelector('[name]').value = '';
  row.advice.textContent = '';
}

// Says what came of a row: `typed`, `sending`, `entered` or nothing.
export function tell(row, outcome) {
  row.outcome.textContent = outcome ? words.outcomes[outcome] : '';
  if (outcome) row.outcome.dataset.outcome = outcome;
  else row.outcome.removeAttribute('data-outcome');
}
