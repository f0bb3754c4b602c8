// A version of a record as it stands: what is known of it, its values beside those of the version before, every entry, and the
// signatures. The same is shown on the screen, before a signature, and on paper.

import {
  action, actions, button, buttons, element, facts, folded, given, heading, link, link_row, moment, named, paragraph, reading, replace,
  replace_focused, section, table, unfolding,
} from './elements.js';
import { entering_part } from './entering.js';
import { is_whole, newest_of, with_older } from './history.js';
import { is_over } from './life.js';
import { amending_place, grid_place, opening_place, paper_place, record_place, signing_place, version_place } from './places.js';
import { is_just_opened } from './reading.js';
import { read_anew } from './sending.js';
import { has, who } from './session.js';
import { facts_of, head_of, label_of, state_of, value_in, value_of, value_text } from './showing.js';
import { texts } from './texts.js';

const words = texts.versions;
// Of a longer list what is older is folded.
const [MOST_OVERWRITTEN, MOST_ENTRIES] = [3, 12];

// The version and the one before are shown first. Those before are read then, for what was overwritten in them, and by whom what stands
// was entered.
export async function version_view(view, number, version) {
  const [head, body] = [element('div', { class: 'record-head' }, heading(texts.record(number))), element('div', null, reading())];
  replace(view, head, body);
  const [doing, missed, article, read] = ['div', 'div', 'div', 'div'].map((name) => element(name));
  let entering = null;
  const draw = (history) => {
    replace(head, head_of(shown_of(history)));
    const is_open = article.querySelector('.on-paper')?.open;
    replace_focused(article, article_of(history, { is_folded: true }));
    article.querySelector('.on-paper').open = Boolean(is_open);
    replace(doing, doing_of(history));
    replace(read, read_line());
    entering?.update(history);
  };
  const read_again = async () => draw(await with_older(await newest_of(number, version)));
  const history = await newest_of(number, version);
  draw(history);
  if (may_enter(history)) entering = entering_part(history, (made) => read_anew(missed, read_again, made));
  const again = button('read_again', words.read_again, () => read_anew(missed, read_again));
  const parts = entering ? [missed, entering.part, doing, versions_line(history)] : [versions_line(history), doing, missed];
  replace(body, parts, article, read, buttons(again));
  if (entering && is_just_opened(number)) entering.part.querySelector('[name="value"]').dataset.first = '';
  if (is_whole(history)) return;
  const whole = await with_older(history, () => !is_over(view));
  if (!is_over(view)) draw(whole);
}

const shown_of = ({ versions }) => versions.at(-1);
const is_last = (history) => history.record.current === shown_of(history).version;
const may_enter = (history) => has('analyst') && is_last(history) && shown_of(history).state === 'open';

// The versions of the record, each a link, with its state.
function versions_line(history) {
  const { record, versions } = history.record;
  return link_row(words.versions, versions.map(({ version, state }) => ({
    place: version_place(record, version), text: texts.version(version), is_shown: version === shown_of(history).version,
    behind: state_of(state),
  })));
}

// Whether this person entered a value of a version, or signed it.
const is_own = ({ rows, signatures }) => [...rows, ...signatures].some(({ person }) => person === who().code);

// Whether this person may sign a version now. The server decides in the end.
export function may_sign(history, meaning) {
  const shown = shown_of(history);
  const is_pending = ['signed', 'reviewed'].includes(shown.state);
  const may = {
    authorship: shown.state === 'open' && has('analyst') && is_own(shown),
    review: shown.state === 'signed' && has('reviewer') && !is_own(shown),
    approval: shown.state === 'reviewed' && shown.approval && has('manager') && !is_own(shown),
    rejection: is_pending && has('reviewer', 'manager') && !is_own(shown),
  };
  return may[meaning];
}

// What this person may do with the version now, and what comes next.
function doing_of(history) {
  const { record, form } = shown_of(history);
  const others = has('analyst') ? [
    link(opening_place(form), words.open_another(form), { 'data-do': 'open_another' }),
    link(grid_place(form), words.open_many(form), { 'data-do': 'open_many' }),
  ] : [];
  return [
    actions(...acts_of(history), ...others, button('print', words.print, () => print()),
      link(paper_place(record), words.paper, { 'data-do': 'paper' })),
    element('p', { class: 'note', 'data-part': 'note' }, note_of(history, is_own(shown_of(history)))),
  ];
}

function acts_of(history) {
  const { record, state, version } = shown_of(history);
  const signing = Object.keys(texts.meanings).filter((meaning) => may_sign(history, meaning));
  const may_amend = is_last(history) && ['released', 'rejected'].includes(state) && has('analyst');
  return [
    ...signing.map((meaning) => action(signing_place(record, version, meaning), texts.meanings[meaning].act, meaning)),
    may_amend && action(amending_place(record), words.amend, 'amend'),
  ];
}

// What comes next with the version, and why this person can't do it, if so.
function note_of(history, is_own_work) {
  const { record, state } = shown_of(history);
  if (!is_last(history)) return [words.not_last, ' ', link(record_place(record), words.go_to_last)];
  if (state === 'open') {
    const to_analyst = is_own_work ? words.sign_when_done : words.sign_once_entered;
    return [has('analyst') ? to_analyst : words.next.open, ' ', missing_in(history)];
  }
  if (is_own_work && ['signed', 'reviewed'].includes(state) && has('reviewer', 'manager')) return words.own_work;
  return words.next[state];
}

// The required fields that have no value yet.
function missing_in({ versions, form }) {
  const missing = form.fields.filter(({ key, required }) => required && !value_in(versions.at(-1), key));
  const labels = missing.flatMap(({ label }, at) => [at > 0 && ', ', given(label)]);
  return missing.length > 0 && named('missing', words.missing(labels));
}

// A version, for the screen, above a signature and on paper. Where it is only looked at, digest and seals are folded. Of what was
// overwritten it has all, or its own share, as where the versions before are on the same paper.
export function article_of({ record, versions, form }, { is_folded = false, has_all = true } = {}) {
  const shown = shown_of({ versions });
  const is_released = shown.state === 'released';
  const about = {
    'data-version': shown.version, 'data-record': shown.record, 'aria-label': texts.version(shown.version), 'data-unreleased': !is_released,
  };
  const article = element('article', about,
    !is_released && element('p', { class: 'unreleased' }, words.unreleased),
    section(texts.version(shown.version), null, facts_of(shown, record)),
    section(words.values, null, values_table(versions, form, has_all)),
    section(words.entries, null, shown.rows.length ? entries_table(shown, form) : paragraph(words.no_entries)),
    section(words.signatures, null, signatures_of(shown)), integrity_of(shown, is_folded));
  if (article.querySelector('.unseen')) article.append(element('p', { 'data-part': 'unseen' }, words.unseen));
  return article;
}

// The standing values, each with who entered it, and from the second version on beside the value of the version before.
function values_table(versions, form, has_all) {
  const before = versions.at(-2);
  const columns = [words.field, before && words.value_before(before.version), words.value, words.entered].filter(Boolean);
  return table(words.values_caption, columns, form.fields.map((field) => values_row(versions, field, has_all)));
}

function values_row(versions, field, has_all) {
  const [before, shown] = [versions.at(-2), versions.at(-1)];
  const is_altered = Boolean(before) && shown.altered.includes(field.key);
  const entries = entries_of(versions, field.key);
  const overwritten = entries.slice(0, -1).filter(({ version }) => has_all || version === shown.version);
  const mark = is_altered && [' ', element('strong', { class: 'altered' }, words.altered)];
  const value = [value_of(value_in(shown, field.key)), mark, overwritten_list(overwritten, shown)];
  const is_unread = !entries.length && !is_whole({ versions }) && value_in(shown, field.key);
  const entered = entries.length ? entered_by(entries.at(-1), shown) : is_unread && texts.reading;
  return {
    attributes: { 'data-key': field.key, class: is_altered ? 'altered-row' : null },
    cells: [label_of(field), ...before ? [value_before(before, field, is_altered)] : [], value, entered],
  };
}

function value_before(before, { key }, is_altered) {
  const value = value_in(before, key);
  return is_altered && value ? element('s', { 'data-part': 'value_before' }, value_text(value)) : value_of(value, 'value_before');
}

// Every entry of a key in these versions, in order, each with its version.
function entries_of(versions, key) {
  return versions.flatMap(({ rows, version }) => rows.filter((row) => row.key === key).map((row) => ({ ...row, version })));
}

function entered_by({ person, moment: at, reason, version }, shown) {
  return [named('person', person), ', ', moment(at), version !== shown.version && `, ${words.in_version(version)}`,
    reason && element('span', { class: 'reason' }, words.reason, ': ', given(reason, 'reason'))];
}

function overwritten_list(entries, shown) {
  if (!entries.length) return null;
  const list = element('ul', { class: 'overwritten', 'aria-label': words.overwritten }, entries.map((entry, at) =>
    element('li', { class: at < entries.length - MOST_OVERWRITTEN && 'older' },
      element('span', { class: 'mark' }, words.overwritten), ' ',
      element('s', { 'data-part': 'overwritten' }, value_text(entry)), ' ', entered_by(entry, shown))));
  return [unfolding(list, texts.show_older), list];
}

// The entries of this version in their order; one that a later one replaced is struck through.
function entries_table({ rows, version }, form) {
  const columns = [words.number, words.field, words.value, words.by, words.at, words.reason];
  const made = table(words.entries_caption(version), columns, rows.map((row, at) => {
    const is_replaced = rows.slice(at + 1).some(({ key }) => key === row.key);
    const field = form.fields.find(({ key }) => key === row.key);
    return {
      attributes: { 'data-entry': at + 1, class: at < rows.length - MOST_ENTRIES && 'older' },
      cells: [at + 1, field ? given(field.label) : row.key, is_replaced ? replaced_value(row) : value_of(row),
        named('person', row.person), moment(row.moment), row.reason && given(row.reason, 'reason')],
    };
  }));
  return [unfolding(made, texts.show_older), made];
}

function replaced_value(row) {
  return [element('s', { 'data-part': 'value' }, value_text(row)), ' ', element('span', { class: 'mark' }, words.replaced)];
}

// By what a change of the version shows.
function integrity_of({ digest, signatures }, is_folded) {
  const seals = signatures.map(({ meaning, seal }) =>
    [words.seal(texts.meanings[meaning].word), element('code', { class: 'digest', 'data-part': 'seal' }, seal)]);
  const list = facts([[words.digest, element('code', { class: 'digest' }, digest), 'digest'], ...seals]);
  return (is_folded ? folded : section)(words.integrity, { 'data-part': 'integrity' }, list);
}

// The signatures in order, each with the printed name, the moment and the meaning.
function signatures_of({ signatures }) {
  if (!signatures.length) return paragraph(words.no_signatures);
  return element('ol', { class: 'signatures' }, signatures.map(({ meaning, moment: at, name, person, reason }) =>
    element('li', { 'data-signature': meaning }, facts([
      [words.signed_by, [given(name, 'name'), ' (', named('person', person), ')']],
      [words.at, moment(at)],
      [words.meaning, [named('meaning', texts.meanings[meaning].word), ': ', texts.meanings[meaning].statement]],
      reason && [words.reason, given(reason, 'reason')],
    ]))));
}

// Who read what stands on the page, and when.
function read_line() {
  const now = new Date().toISOString().replace(/\.[0-9]+Z$/, 'Z');
  return paragraph(words.read_by(who().code, moment(now, 'read')));
}

// All versions of a record, one below the other, for paper. Each has what it overwrote of the version before.
export async function paper_view(place, number) {
  const how_far = reading();
  replace(place, heading(texts.record(number)), how_far);
  const newest = await newest_of(number);
  const last = shown_of(newest).version;
  const history = await with_older(newest, () => !is_over(place), (count) => replace(how_far, words.read_of(count, last)));
  if (is_over(place)) return;
  const articles = history.versions.map((_, at) => article_of({ ...history, versions: history.versions.slice(0, at + 1) }, { has_all: false }));
  const print_it = button('print', words.print, () => print());
  const head = element('div', { class: 'record-head' }, head_of(shown_of(history), '', words.all(history.versions.length)));
  replace(place, head, actions(print_it, link(record_place(number), words.back)), read_line(), articles);
}
