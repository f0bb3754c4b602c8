// The rows of a grid: a sample with a cell for each field of the form. What is entered stands as a text, and isn't sent again.

import { advice_part, advise_at, control_of } from './controls.js';
import { element, fresh_id, given, input, link, named, replace, table_row } from './elements.js';
import { record_place } from './places.js';
import { value_of } from './showing.js';
import { texts } from './texts.js';
import { marked } from './unseen.js';

const words = texts.grid;

// A row by its number. `heads` are the headers of the columns, which name the controls. Below stands what is refused of it.
export function grid_row(number, fields, heads) {
  const row = {
    number, record: null, at: null, values: [], sure: null, look: null, sample: input('sample', { dir: 'auto', size: 16 }),
    state: named('row_state'), told: element('td', { id: fresh_id('told'), role: 'cell', colspan: fields.length + 1 }),
  };
  const own = element('span', { class: 'hint', id: fresh_id('row') }, number);
  name(row.sample, [heads[0], own], row);
  row.cells = fields.map((about, at) => grid_cell(about, [heads[at + 1], own], row));
  row.first = element('div', { class: 'beside' }, own, row.sample);
  const labels = [words.sample, ...fields.map(({ label, unit }) => [marked(label), unit && marked(unit)].filter(Boolean).join(' '))];
  row.place = table_row(labels, { attributes: { 'data-at': number }, cells: [[row.first, row.state], ...row.cells.map(({ part }) => part)] });
  row.below = element('tr', { class: 'below', role: 'row' }, row.told);
  return row;
}

function name(control, heads, { told }) {
  control.id = fresh_id(control.name);
  control.setAttribute('aria-labelledby', heads.map(({ id }) => id).join(' '));
  control.dataset.told = told.id;
}

function grid_cell(about, heads, row) {
  const [control, advice, outcome] = [control_of(about, 'value', 1, true), advice_part(about), named('outcome')];
  if (control.size) control.size = 9;
  name(control, heads, row);
  control.setAttribute('aria-describedby', advice.id);
  advise_at(control, about, advice);
  const stood = element('span', { class: 'stood' });
  const part = element('div', { 'data-key': about.key }, stood, control, outcome, advice);
  return { about, control, advice, outcome, stood, part, look: null };
}

export const is_shown = (control) => control.isConnected && !control.hidden;
export const is_typed = ({ control }) => is_shown(control) && control.value !== '';

// The record of a row's sample is known: the sample leads there, and isn't typed any more.
export function show_record(row, record, sample) {
  row.record = record;
  replace(row.first, row.first.firstElementChild, link(record_place(record), given(sample, 'sample')));
  row.state.textContent = words.row_record(record);
}

// A value stands: it is shown, and the control is gone unless something else is typed by now.
export function show_standing({ control, advice, outcome, stood }, value, word = 'entered') {
  replace(stood, value_of(value, 'standing'));
  if (['', value.value].includes(control.value)) {
    control.value = '';
    control.hidden = true;
    advice.textContent = '';
    tell(outcome, word);
  }
}

// Says what came of a cell: `typed`, `sending`, `entered`, `there` where the value stood already, or nothing.
export function tell(outcome, word) {
  outcome.textContent = word ? texts.entering.outcomes[word] : '';
  if (word) outcome.dataset.outcome = word;
  else outcome.removeAttribute('data-outcome');
}
