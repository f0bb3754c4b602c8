// Entering values into an open version: a table with a row for each field of its form. One button sends all that is typed, one value
// after the other, and each row says what came of its own.

import { what_to_type } from './controls.js';
import { button, buttons, control_at, element, given, section, table } from './elements.js';
import { enter_at, is_about_reason, is_about_value } from './entries.js';
import { is_left, view_of } from './life.js';
import { column_of } from './pasting.js';
import { empty, entry_row, is_open, is_typed, place_of, put, show_body, stand, tell, typed_in } from './rows.js';
import { flaw_of_value } from './rules.js';
import { forget_said, say } from './saying.js';
import { clear_refusals, is_here, refuse, show_refusal, tell_refusal } from './sending.js';
import { who } from './session.js';
import { value_in } from './showing.js';
import { texts } from './texts.js';
import { while_pressed, while_silent } from './waiting.js';

const words = texts.entering;

// The part of the page where values are entered. `read_again` reads the version anew after entries by a form, updates this part too,
// and gives whether it was read.
export function entering_part(history, read_again) {
  const sheet = { form: history.form, rows: history.form.fields.map(entry_row), read_again };
  sheet.sender = element('button', { type: 'submit', 'data-do': 'enter_a_value' }, words.enter_all);
  sheet.typed = element('span', { role: 'status', 'data-part': 'typed' });
  sheet.take_back = button('take_back', words.take_back, () => take_back(sheet));
  sheet.take_back.hidden = true;
  sheet.made = element('form', { 'data-form': 'enter_a_value', 'data-keep': true, novalidate: true, autocomplete: 'off' },
    table(words.caption, [words.field, words.value, words.what_stands], sheet.rows),
    buttons(sheet.sender, sheet.take_back, sheet.typed));
  listen(sheet);
  const part = section(words.title, { class: 'entering', 'data-part': 'entering' }, sheet.made,
    element('p', { class: 'hint' }, words.intro));
  const update = (newer) => {
    sheet.shown = newer.versions.at(-1);
    sheet.at = { record: sheet.shown.record, version: sheet.shown.version, count: sheet.shown.rows.length };
    part.hidden = sheet.shown.state !== 'open' || newer.record.current !== sheet.shown.version;
    for (const row of sheet.rows) stand(row, value_in(sheet.shown, row.about.key), entry_of(newer.versions, row.about.key));
  };
  update(history);
  return { part, update };
}

// The entry by which a value stands.
const entry_of = (versions, wanted) => versions.flatMap(({ rows }) => rows).findLast(({ key }) => key === wanted);

function listen(sheet) {
  const { made, rows } = sheet;
  made.addEventListener('submit', (event) => {
    event.preventDefault();
    enter_all(sheet);
  });
  made.addEventListener('keydown', (event) => go_down(sheet, event));
  made.addEventListener('paste', (event) => paste(sheet, event));
  made.addEventListener('input', ({ target }) => {
    const row = rows.find(({ control }) => control === control_at(target));
    if (row) tell(row, row.control.value === '' ? null : 'typed');
    count_typed(sheet);
  });
}

function count_typed({ rows, typed }) {
  const text = words.typed(rows.filter(is_typed).length);
  if (typed.textContent !== text) typed.textContent = text;
}

// Enter goes to the next control, and behind the last one enters all; with Control it enters all at once. Shift and Enter begins
// another line of a text. A key that is held down doesn't run through the table.
function go_down({ made }, event) {
  const { key, target } = event;
  if (key !== 'Enter' || event.isComposing || !target.name) return;
  if (event.shiftKey && target.matches('textarea')) return;
  event.preventDefault();
  if (event.repeat) return;
  const controls = [...made.querySelectorAll('[name]')].filter((control) => control.type !== 'radio' && !control.closest('[hidden]'));
  const next = event.ctrlKey || event.metaKey ? null : controls[controls.indexOf(control_at(target)) + 1];
  if (next) next.focus();
  else made.requestSubmit();
}

// ---- a column that is pasted

// Several lines that are pasted fill the rows below, each as if it was typed; a text keeps its lines. Nothing is sent.
function paste(sheet, event) {
  const at = sheet.rows.findIndex(({ control }) => control === control_at(event.target));
  const column = at < 0 || sheet.rows[at].about.kind === 'text' ? null : column_of(event.clipboardData.getData('text'));
  if (!column) return;
  event.preventDefault();
  if (column.is_wide) say(words.paste_is_wide);
  else fill(sheet, at, column.cells);
}

function fill(sheet, first, cells) {
  const rows = sheet.rows.slice(first, first + cells.length);
  const pairs = rows.map((row, at) => ({ row, cell: cells[at], before: row.control.value, was_open: is_open(row) }))
    .filter(({ row, cell }) => cell !== '' && cell !== standing_in(sheet, row));
  sheet.pasted = pairs.filter(({ row, cell }) => {
    show_body(row, true);
    return put(row, cell);
  });
  const wrong = pairs.filter(({ row, cell }) => flaw_of_value(row.about, cell)).length;
  sheet.take_back.hidden = !sheet.pasted.length;
  say(words.said_pasted(sheet.pasted.length, wrong, cells.length - rows.length));
}

const standing_in = ({ shown }, { about }) => value_in(shown, about.key)?.value;

// What was typed over since then stays.
function take_back(sheet) {
  for (const { row, before, was_open } of sheet.pasted.filter(({ row, cell }) => row.control.value === cell)) {
    put(row, before);
    show_body(row, was_open);
  }
  sheet.take_back.hidden = true;
  sheet.rows.find(is_open)?.control.focus();
}

// ---- what is sent

// Enters all that is typed, in order. What isn't about a value alone stops it: what is left stays typed. Where it isn't known whether
// a value was entered, the page looks, and sends nothing.
async function enter_all(sheet) {
  const { made, sender, rows } = sheet;
  if (sender.getAttribute('aria-busy')) return;
  clear_refusals(made);
  forget_said();
  const unknown = rows.filter(({ look }) => look);
  const steps = unknown.length ? unknown.map((row) => ({ row, send: row.look })) : rows.filter(is_typed).map((row) => step_of(sheet, row));
  if (steps.length) await send_all(sheet, { steps, began: document.activeElement, entered: [], refused: [], looked: false });
  else tell_none(sheet);
}

// A row is busy until it is sent, and the button until the version is read again.
async function send_all(sheet, came) {
  const { made, sender } = sheet;
  const places = came.steps.map(({ row }) => place_of(row));
  sheet.take_back.hidden = true;
  for (const busy of [sender, ...places]) busy.setAttribute('aria-busy', 'true');
  sender.setAttribute('aria-disabled', 'true');
  try {
    await while_pressed(sender, texts.sending, () => take_all(sheet, came));
    for (const place of places) place.removeAttribute('aria-busy');
    say_what_came(sheet, came);
    if (is_left(made)) return;
    const is_read = !came.entered.length || await sheet.read_again(made);
    if (is_read && !is_left(made)) go_on(sheet, came);
  } finally {
    for (const name of ['aria-busy', 'aria-disabled']) sender.removeAttribute(name);
  }
}

function tell_none({ made, rows }) {
  const about = rows.find(({ control }) => control === control_at(document.activeElement)) ?? rows.find(is_open);
  try {
    refuse('no_value');
  } catch (refusal) {
    show_refusal(made, refusal, () => about?.control);
  }
}

function step_of(sheet, row) {
  const sent = typed_in(row);
  return { row, send: () => enter(sheet, row, sent) };
}

// One value after the other, as long as the same person is signed in.
async function take_all(sheet, came) {
  const { lab, code } = who();
  for (const { row, send } of came.steps) {
    if (who()?.lab !== lab || who()?.code !== code || !await take(sheet, row, send, came)) return;
  }
}

// Takes a step, and gives whether the next one follows.
async function take({ form, made, sender }, row, send, came) {
  tell(row, 'sending');
  row.look = null;
  try {
    const looked = await while_silent(sender, send);
    came.looked ||= looked;
    came.entered.push(row);
    return true;
  } catch (refusal) {
    row.look = refusal.look ?? null;
    tell(row, row.look ? null : 'typed');
    came.refused.push(row);
    tell_at(row, form, refusal);
    return is_about_value(refusal);
  } finally {
    place_of(row).removeAttribute('aria-busy');
  }
}

function tell_at(row, form, refusal) {
  if (refusal.word === 'reason_wanted') row.reason.hidden = false;
  const about = is_about_reason(refusal) && !row.reason.hidden ? row.reason.querySelector('[name]') : row.control;
  tell_refusal(about, refusal, what_to_type(refusal.word, form, row.about, row.control.value));
}

// Enters a value, and gives whether that was looked up.
function enter(sheet, row, sent) {
  return enter_at(sheet.at, row.about, sent, (looked) => {
    empty(row, sent);
    stand(row, { value: sent.value, unit: row.about.unit ?? '' });
    tell(row, is_typed(row) ? 'typed' : 'entered');
    count_typed(sheet);
    return looked;
  });
}

function say_what_came({ made, shown }, { steps, entered, refused, looked }) {
  if (!entered.length && !is_left(made)) return;
  const [one] = entered;
  const unknown = refused.filter(({ look }) => look).length;
  const counts = { entered: entered.length, refused: refused.length - unknown, unknown, left: steps.length - entered.length - refused.length };
  const what = steps.length === 1 && one ? words.said_entered(given(one.about.label)) : words.said_all(counts);
  say(texts.record(shown.record), ': ', what, looked && [' ', texts.said_looked]);
}

// The focus goes to what was refused first, to the next field without a value, or to the signature; but not away from who types
// elsewhere by now.
function go_on({ made, rows, sender }, { steps, began, refused }) {
  const active = rows.find((row) => place_of(row).contains(document.activeElement));
  const is_elsewhere = active && !refused.includes(active) && (is_typed(active)
    || (document.activeElement !== began && !steps.some(({ row }) => row === active)));
  if (!is_here(made) || is_elsewhere) return;
  const [wrong] = refused.flatMap((row) => [...place_of(row).querySelectorAll('[aria-invalid]')]);
  const is_next = (row) => is_open(row) && row.control.value === '';
  const next = rows.slice(rows.indexOf(steps.at(-1).row) + 1).find(is_next) ?? rows.find(is_next);
  (wrong ?? next?.control ?? view_of(made).querySelector('[data-do="authorship"]') ?? sender).focus();
}
