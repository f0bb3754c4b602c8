// Inspection copies: a copy of a range, taken in copies of a hundred records and saved as the server gave them, or joined; and
// the check of any copy, which asks no server.

import { take_an_inspection_copy } from './api.js';
import { checked_copy, line_of, rows_of, text_of } from './checking.js';
import {
  button, buttons, element, facts, field, first_rows, given, heading, input, moment, more_button, paragraph, replace, save_file, section,
  table,
} from './elements.js';
import { is_left } from './life.js';
import { AT_ONCE } from './limits.js';
import { hundreds, number_of } from './numbers.js';
import { last_record } from './reading.js';
import { remarks_on } from './remarks.js';
import { say } from './saying.js';
import { refuse, sending_form } from './sending.js';
import { ask, who } from './session.js';
import { texts } from './texts.js';

const words = texts.copies;
const TYPE = 'text/csv';
const LINE_FEED = 10;

export async function copies_view(place) {
  const taken = element('div', { 'data-part': 'taken' });
  const from = input('from', { inputmode: 'numeric', size: 12, value: '1' });
  const to = input('to', { inputmode: 'numeric', size: 12 });
  const made = sending_form({
    command: 'take_an_inspection_copy', submit: words.take, about: { no_number: 'to', no_range: 'to' }, keeps: false,
    send: async (values) => take(number_of(values.from), number_of(values.to), taken),
  }, field(words.from, from), field(words.to, to, words.to_hint));
  replace(place, heading(words.title), paragraph(words.intro), made, taken);
  to.defaultValue = String(Math.max(1, await last_record()));
}

// Takes the copies one after the other. They go to the last record, since numbers behind it have nothing to copy.
async function take(from, to, place) {
  if (from === null || to === null) refuse('no_number');
  if (from > to) refuse('no_range');
  const last = Math.min(to, Math.max(from, await last_record()));
  const copies = [];
  const progress = progress_of(place, Math.ceil((last - from + 1) / AT_ONCE));
  for (const [start, end] of hundreds(from, last)) {
    const bytes = await ask(take_an_inspection_copy, start, end);
    copies.push({ from: start, to: end, bytes, verdict: await checked_copy(bytes) });
    if (is_left(place)) return;
    if (progress.is_stopped()) break;
    progress.show(copies.length);
  }
  draw_copies(copies, place);
  say(words.said_taken(copies.length));
}

function progress_of(place, all) {
  let is_stopped = false;
  const bar = element('progress', { max: all, value: 0, 'aria-label': words.progress });
  const text = element('span');
  replace(place, paragraph(bar, ' ', text, ' ', button('stop', words.stop, () => { is_stopped = true; })));
  return {
    is_stopped: () => is_stopped,
    show: (done) => {
      bar.value = done;
      text.textContent = words.done_of(done, all);
    },
  };
}

function draw_copies(copies, place) {
  const { lab } = who();
  const name = (from, to) => `${lab}-${from}-${to}.csv`;
  const range = [copies[0].from, copies.at(-1).to];
  const columns = [words.records, words.bytes, words.check, words.save];
  const row_of = (copy) => ({
    attributes: { 'data-from': copy.from, 'data-to': copy.to },
    cells: [words.range(copy.from, copy.to), copy.bytes.length, verdict_of(copy.verdict),
      button('save', words.save_one(copy.from, copy.to), () => save_file(name(copy.from, copy.to), copy.bytes, TYPE))],
  });
  const listed = element('div');
  const list = (most) => replace(listed, table(words.copies, columns, [...copies].sort(bad_first).slice(0, most).map(row_of)),
    buttons(more_button(most, copies.length, () => listed.querySelectorAll('tbody button'), list)));
  list(first_rows());
  replace(place, section(words.taken(...range), null, paragraph(words.taken_intro), listed,
    buttons(button('save_all', words.save_all(copies.length), () => {
      for (const copy of copies) save_file(name(copy.from, copy.to), copy.bytes, TYPE);
      say(words.said_saved(copies.length));
    }), copies.length > 1 && words.several),
    copies.length > 1 && joined_part(() => save_file(name(...range).replace('.csv', '-joined.csv'), joined_copy(copies), TYPE))));
}

// (what isn't good mustn't hide below)
const bad_first = (one, other) => (one.verdict.verdict === 'good') - (other.verdict.verdict === 'good');

function verdict_of(verdict) {
  return element('code', { 'data-part': 'verdict' }, line_of(verdict));
}

function joined_part(save) {
  const save_it = button('save_joined', words.save_joined, save);
  return section(words.joined_title, null, paragraph(words.joined_intro), buttons(save_it));
}

// One copy of the whole range: the header and the copy row of the first, its last number that of the last, the rows of all, and
// an end row with the sums. A copy's header, copy row and end row are a line each, for no text in them holds a line feed.
function joined_copy(copies) {
  const parts = copies.map(({ bytes }) => parts_of(bytes));
  const first = parts[0].copy_row.split(',');
  first[3] = String(copies.at(-1).to);
  const counts = parts.map(({ end_row }) => end_row.split(',').slice(2, 6).map(Number));
  const sums = counts.reduce((sum, more) => sum.map((count, at) => count + more[at]));
  const end = ['end', first[1], ...sums, '', '', '', '', '', '', ''].join(',');
  return new Blob([parts[0].header, '\n', first.join(','), '\n', ...parts.map(({ rows }) => rows), end, '\n'], { type: TYPE });
}

function parts_of(bytes) {
  const first = bytes.indexOf(LINE_FEED);
  const second = bytes.indexOf(LINE_FEED, first + 1);
  const last = bytes.lastIndexOf(LINE_FEED, bytes.length - 2);
  const text = (start, end) => new TextDecoder('utf-8', { fatal: true }).decode(bytes.subarray(start, end));
  return {
    header: text(0, first), copy_row: text(first + 1, second), rows: bytes.subarray(second + 1, last + 1),
    end_row: text(last + 1, bytes.length - 1),
  };
}

// The check of a copy: a file of this machine, read and checked here.
export function checking_view(place) {
  const shown = element('div', { 'data-part': 'checked', tabindex: '-1' });
  const file = input('copy', { type: 'file', accept: '.csv,text/csv' });
  const made = sending_form({
    command: 'check_a_copy', submit: words.check_it, about: { no_file: 'copy' }, keeps: false, send: async () => {
      if (!file.files.length) refuse('no_file');
      replace(shown, paragraph(words.checking));
      await check(file.files[0], shown);
    },
  }, field(words.file, file, words.file_hint));
  replace(place, heading(words.checking_title), paragraph(words.checking_intro), made, shown);
}

async function check(file, shown) {
  const bytes = new Uint8Array(await file.arrayBuffer());
  const [verdict, hash] = await Promise.all([checked_copy(bytes), crypto.subtle.digest('SHA-256', bytes)]);
  const digits = [...new Uint8Array(hash)].map((byte) => byte.toString(16).padStart(2, '0')).join('');
  const is_good = verdict.verdict === 'good';
  replace(shown, element('div', { class: is_good ? 'good' : 'refusal', role: 'alert', 'data-verdict': verdict.verdict },
    paragraph(element('strong', null, is_good ? words.good : words.bad), ' ', verdict_of(verdict)),
    paragraph(is_good ? words.good_text(verdict.counts) : words.flaws[verdict.verdict]),
    !is_good && verdict.row && paragraph(words.at_row(verdict.row), ' ', record_at(bytes, verdict.row))),
  is_good && facts_of_copy(bytes),
  is_good && remarks_part(remarks_on(bytes)),
  paragraph(words.file_digest, ' ', element('code', { class: 'digest', 'data-part': 'file_digest' }, digits)),
  paragraph(words.cannot_know));
  shown.focus();
}

// Of which record a row of a copy is, by the rows up to it.
function record_at(bytes, row) {
  let [at, record, version] = [0, null, ''];
  for (const [kind, , number, number_of_version, , value] of rows_of(bytes)) {
    at += 1;
    if (kind === 'record') [record, version] = [[number, text_of(value ?? '')], ''];
    if (kind === 'version') version = number_of_version;
    if (at === row) break;
  }
  return record && words.in_record(...record, version);
}

// What is remarked on a good copy, if something is: the first hundred.
function remarks_part(found) {
  if (found.length === 0) return null;
  const lines = found.slice(0, AT_ONCE).map(({ remark, row, record }) => element('li', { 'data-remark': remark }, words.remarks[remark](row, record)));
  const more = found.length - lines.length;
  return section(words.remarks_title, { 'data-part': 'remarks' }, paragraph(words.remarks_intro), element('ul', null, ...lines),
    more > 0 && paragraph(words.more_remarks(more)));
}

// What the copy row of a good copy says.
function facts_of_copy(bytes) {
  const rows = rows_of(bytes);
  rows.next();
  const [, lab, from, to, , , , person, name, at] = rows.next().value.map(text_of);
  return facts([
    [words.laboratory, [given(name), ` (${lab})`], 'lab'],
    [words.records, words.range(from, to), 'range'],
    [words.asked_by, person || words.nobody, 'person'],
    [words.made_at, moment(at)],
  ]);
}
