// Many samples of one form: a row for each sample, a column for each field. One button opens the records, and enters what is typed cell
// by cell, in order. What stopped is gone on with, and nothing is entered twice.

import { read_a_record, read_a_version } from './api.js';
import { grid_row, is_shown, is_typed, show_record, show_standing, tell } from './cells.js';
import { what_to_type } from './controls.js';
import { button, buttons, control_at, element, fresh_id, given, heading, link, reading, replace } from './elements.js';
import { enter_at, is_about_value, open_once } from './entries.js';
import { is_left } from './life.js';
import { MOST_SAMPLES } from './limits.js';
import { know_newest, near_question, refuse_near } from './opening.js';
import { block_of } from './pasting.js';
import { record_place } from './places.js';
import { form_of, last_version } from './reading.js';
import { put } from './rows.js';
import { flaw_of_value } from './rules.js';
import { forget_said, say } from './saying.js';
import { clear_refusals, is_here, refuse, tell_refusal } from './sending.js';
import { ask, who } from './session.js';
import { label_of, short_hint_of, value_in } from './showing.js';
import { slip_of_name, text_of_slip } from './slips.js';
import { texts } from './texts.js';
import { while_pressed, while_silent } from './waiting.js';

const words = texts.grid;
const ROWS = 5;
// What is refused for one of these is about one sample: the next one is gone on with.
const ABOUT_SAMPLE = new Set(['near_name', 'no_sample', 'bad_name', 'bad_body', 'not_open', 'other_form']);

export async function grid_view(view, code) {
  replace(view, heading(words.title(code)), reading());
  const version = await last_version(code);
  if (!version) refuse('no_such_form');
  await know_newest();
  const grid = {
    form: await form_of(code, version), rows: [], cells: new Map(), pasted: [], heads: [], body: element('tbody', { role: 'rowgroup' }),
  };
  grid.sender = element('button', { type: 'submit', 'data-do': 'enter_a_value' }, texts.entering.enter_all);
  grid.typed = element('span', { role: 'status', 'data-part': 'typed' });
  grid.take_back = button('take_back', texts.entering.take_back, () => take_back(grid));
  grid.take_back.hidden = true;
  const more = button('add_rows', words.add_rows(ROWS), () => add_rows(grid, ROWS)[0]?.sample.focus());
  grid.made = element('form', { 'data-form': 'enter_a_value', 'data-keep': true, novalidate: true, autocomplete: 'off' },
    element('div', { class: 'wide' }, table_of(grid)), buttons(grid.sender, more, grid.take_back, grid.typed));
  listen(grid);
  add_rows(grid, ROWS)[0].sample.dataset.first = '';
  replace(view, heading(words.title(code)), element('section', { class: 'grid', 'data-part': 'grid', 'aria-label': words.title(code) },
    grid.made, element('p', { class: 'hint' }, words.intro)));
}

function table_of(grid) {
  const head = (...children) => element('th', { scope: 'col', role: 'columnheader', id: fresh_id('head') }, children);
  grid.heads = [head(words.sample), ...grid.form.fields.map((about) =>
    head(label_of(about, false), about.unit && [' ', given(about.unit)], ' ', element('span', { class: 'hint' }, short_hint_of(about))))];
  return element('table', { role: 'table' }, element('caption', null, words.caption),
    element('thead', { role: 'rowgroup' }, element('tr', { role: 'row' }, grid.heads)), grid.body);
}

// Adds rows, as long as there is room for them.
function add_rows({ rows, cells, form, heads, body }, count) {
  const room = Math.min(count, MOST_SAMPLES - rows.length);
  const added = Array.from({ length: room }, (_, at) => grid_row(rows.length + at + 1, form.fields, heads));
  rows.push(...added);
  for (const cell of added.flatMap((row) => row.cells)) cells.set(cell.control, cell);
  body.append(...added.flatMap(({ place, below }) => [place, below]));
  return added;
}

function listen(grid) {
  const { made } = grid;
  made.addEventListener('submit', (event) => {
    event.preventDefault();
    enter_all(grid);
  });
  made.addEventListener('keydown', (event) => go_down(grid, event));
  made.addEventListener('paste', (event) => paste(grid, event));
  made.addEventListener('input', ({ target }) => {
    const cell = grid.cells.get(control_at(target));
    if (cell) tell(cell.outcome, cell.control.value === '' ? null : 'typed');
    count_typed(grid);
  });
}

const typed_of = ({ cells }) => [...cells.values()].filter(is_typed).length;

function count_typed(grid) {
  const text = texts.entering.typed(typed_of(grid));
  if (grid.typed.textContent !== text) grid.typed.textContent = text;
}

// The controls of a grid by their columns; the first column is that of the samples.
const columns_of = ({ rows, form }) => [rows.map(({ sample }) => sample),
  ...form.fields.map((_, at) => rows.map(({ cells }) => cells[at].control))];

// Enter goes down the column, and from its end to the top of the next one; below the last sample it begins another row. Behind all of
// them is the button.
function go_down(grid, event) {
  const { key, target } = event;
  if (key !== 'Enter' || event.isComposing || !target.name) return;
  if (event.shiftKey && target.matches('textarea')) return;
  event.preventDefault();
  if (event.repeat) return;
  if (event.ctrlKey || event.metaKey) grid.made.requestSubmit();
  else next_of(grid, control_at(target)).focus();
}

function next_of(grid, control) {
  const columns = columns_of(grid);
  const at = columns.findIndex((column) => column.includes(control));
  const down = columns[at].slice(columns[at].indexOf(control) + 1).find(is_shown);
  if (down) return down;
  const [added] = at === 0 && control.value !== '' ? add_rows(grid, 1) : [];
  return added?.sample ?? columns.slice(at + 1).flat().find(is_shown) ?? grid.sender;
}

// ---- a block that is pasted

// Cells that are pasted fill the rows below and the columns behind, each as if it was typed. Nothing is sent.
function paste(grid, event) {
  const columns = columns_of(grid);
  const target = control_at(event.target);
  const across = columns.findIndex((column) => column.includes(target));
  const block = across < 0 ? null : block_of(event.clipboardData.getData('text'));
  if (!block) return;
  event.preventDefault();
  const down = columns[across].indexOf(target);
  const lacking = down + block.length - grid.rows.length;
  if (lacking > 0) add_rows(grid, lacking);
  fill(grid, block, down, across);
}

function fill(grid, block, down, across) {
  const columns = columns_of(grid);
  const cells = block.flatMap((texts_of_row, at) => texts_of_row.map((text, beside) => (
    { text, control: columns[across + beside]?.[down + at] }))).filter(({ text }) => text !== '');
  const placed = cells.filter(({ control }) => control && is_shown(control)).map((one) => ({ ...one, before: one.control.value }));
  const wrong = placed.filter(({ control, text }) => !put_into(grid, control, text)).length;
  grid.pasted = placed.filter(({ control, text }) => control.value === text);
  grid.take_back.hidden = !grid.pasted.length;
  say(words.said_pasted(grid.pasted.length, wrong, cells.length - placed.length));
}

// Puts a text into a control, and gives whether it fits.
function put_into(grid, control, text) {
  const cell = grid.cells.get(control);
  if (cell) return put(cell, text) && !flaw_of_value(cell.about, text);
  control.value = text;
  return !slip_of_name(text);
}

// What was typed over since then stays.
function take_back(grid) {
  for (const { control, before } of grid.pasted.filter((one) => is_shown(one.control) && one.control.value === one.text)) {
    control.value = before;
    for (const event of ['input', 'change']) control.dispatchEvent(new Event(event, { bubbles: true }));
  }
  grid.take_back.hidden = true;
  columns_of(grid).flat().find(is_shown)?.focus();
}

// ---- what is sent

// Opens and enters what is typed. A sample without a value isn't opened. Where it isn't known whether something was done, the page
// looks, and sends nothing.
async function enter_all(grid) {
  const { made, rows, sender } = grid;
  if (sender.getAttribute('aria-busy')) return;
  clear_refusals(made);
  forget_said();
  const unknown = rows.flatMap((row) => [row, ...row.cells].map((one) => ({ row, one }))).find(({ one }) => one.look);
  const steps = unknown ? [unknown] : rows.filter(({ cells }) => cells.some(is_typed)).map(step_of);
  const came = { opened: 0, entered: 0, refused: 0, looked: false };
  set_busy(grid, steps, true);
  try {
    await while_pressed(sender, texts.sending, () => (unknown ? look_at(grid, unknown, came) : take_all(grid, steps, came)));
  } finally {
    set_busy(grid, steps, false);
  }
  count_typed(grid);
  say_what_came(grid, steps, came);
  if (!is_left(made) && is_here(made)) (made.querySelector('[aria-invalid]') ?? document.activeElement).focus();
}

// A sample isn't altered while it is opened, nor while that isn't known.
function set_busy({ sender, take_back: taking_back }, steps, is_busy) {
  taking_back.hidden = true;
  for (const one of [sender, ...steps.map(({ row }) => row.place)]) {
    if (is_busy) one.setAttribute('aria-busy', 'true');
    else one.removeAttribute('aria-busy');
  }
  for (const { row } of steps) row.sample.readOnly = is_busy || Boolean(row.look);
}

const step_of = (row) => ({
  row, sample: row.sample.value, cells: row.cells.filter(is_typed).map((cell) => ({ cell, value: cell.control.value })),
});

function say_what_came(grid, steps, came) {
  say(steps.length ? words.said_all(came, typed_of(grid)) : words.nothing, came.looked && [' ', texts.said_looked]);
}

function look_at(grid, { row, one }, came) {
  const { look } = one;
  return take(grid, came, row, one, look);
}

// Row by row and cell by cell, as long as the same person is signed in.
async function take_all(grid, steps, came) {
  const { lab, code } = who();
  for (const { row, sample, cells } of steps) {
    const works = [
      [row, () => !row.record && find_record(grid, row, sample)], [row, () => !row.at && read_record(grid, row)],
      ...cells.map(({ cell, value }) => [cell, () => enter_cell(row, cell, value)]),
    ];
    for (const [one, work] of works) {
      if (who()?.lab !== lab || who()?.code !== code) return;
      const went = await take(grid, came, row, one, work);
      if (went === 'stop') return;
      if (went === 'next' && one === row) break;
    }
    row.place.removeAttribute('aria-busy');
  }
}

// Takes a step of a row or of a cell, and counts what came of it: it is `done`, or the `next` one follows, or here is a `stop`.
async function take(grid, came, row, one, work) {
  one.look = null;
  if (one.outcome) tell(one.outcome, 'sending');
  try {
    const { opened = 0, entered = 0, looked = false } = await while_silent(grid.sender, work) || {};
    Object.assign(came, { opened: came.opened + opened, entered: came.entered + entered, looked: came.looked || looked });
    return 'done';
  } catch (refusal) {
    one.look = refusal.look ?? null;
    came.refused += 1;
    if (one.outcome) tell(one.outcome, one.look ? null : 'typed');
    if (one === row) tell_refusal(row.sample, refusal, about_sample(grid, row, refusal), words.row(row.number));
    else tell_refusal(one.control, refusal, about_cell(grid, row, one, refusal), given(one.about.label));
    const is_about_one = one === row ? ABOUT_SAMPLE.has(refusal.word) : is_about_value(refusal) || refusal.word === 'stands_already';
    return is_about_one ? 'next' : 'stop';
  }
}

// Opens the record of a row, or finds the one that is there.
async function find_record({ form }, row, sample) {
  if (sample === '') refuse('no_sample');
  if (row.sure !== sample) refuse_near(form.form, sample);
  try {
    return await open_once(form.form, sample, (record, looked) => {
      show_record(row, record, sample);
      return { opened: 1, looked };
    });
  } catch (refusal) {
    if (refusal.word !== 'record_exists') throw refusal;
    return show_record(row, refusal.record, sample);
  }
}

// Reads what stands in the record of a row.
async function read_record({ form }, row) {
  const { current } = await ask(read_a_record, row.record);
  const { state, form_version, rows, values } = await ask(read_a_version, row.record, current);
  if (state !== 'open') refuse('not_open');
  if (form_version !== form.version) refuse('other_form');
  row.at = { record: row.record, version: current, count: rows.length };
  row.values = values;
  for (const cell of row.cells.filter((one) => !is_typed(one))) {
    const standing = value_in(row, cell.about.key);
    if (standing) show_standing(cell, standing, null);
  }
}

// What stands already as it is typed isn't sent. In the place of another value one is entered on the record's own page.
async function enter_cell(row, cell, value) {
  const { about } = cell;
  const entered = { key: about.key, value, unit: about.unit ?? '' };
  const standing = value_in(row, about.key);
  if (standing && standing.value !== value) refuse('stands_already');
  if (standing) return show_standing(cell, standing, 'there');
  return enter_at(row.at, about, { value }, (looked) => {
    row.values.push(entered);
    show_standing(cell, entered);
    return { entered: 1, looked };
  });
}

function about_sample(grid, row, { word, near }) {
  const there = row.record && link(record_place(row.record), texts.go_to_record(row.record));
  if (word === 'near_name') {
    return near_question(near, row.sample.value, () => {
      row.sure = row.sample.value;
      grid.made.requestSubmit();
    });
  }
  if (word === 'bad_name') return text_of_slip(slip_of_name(row.sample.value));
  if (word === 'other_form') return [words.other_form, ' ', there];
  return word === 'not_open' ? [texts.refusals.not_open.what_to_do, ' ', there] : null;
}

function about_cell({ form }, row, { about, control }, { word }) {
  if (['stands_already', 'reason_wanted'].includes(word)) {
    return [words.stands_already, ' ', link(record_place(row.record), texts.go_to_record(row.record))];
  }
  return what_to_type(word, form, about, control.value);
}
