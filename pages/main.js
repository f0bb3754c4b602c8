// The start of the pages: the head with its links and the countdown, and the view that the place in the address names.

import { amending_view } from './amending.js';
import { button, buttons, element, focus_view, given, heading, link, named, paragraph, replace } from './elements.js';
import { again_dialog, end_again_dialog, entrance_view, is_typing, no_role_view, password_view } from './entrance.js';
import { checking_view, copies_view } from './copies.js';
import { records_view } from './finding.js';
import { form_view, forms_view, making_view } from './forms.js';
import { grid_view } from './grid.js';
import { help_button } from './help.js';
import { remember_lab } from './lab.js';
import { ask_first, guard_views, has_work } from './leaving.js';
import { begin_view, is_over, name_view } from './life.js';
import { WARNING_SECONDS } from './limits.js';
import { enrolling_view, person_view, persons_view } from './persons.js';
import { opening_view } from './opening.js';
import {
  PATTERNS, checking_place, copies_place, day_place, enrolling_place, first_place, forms_place, grid_place, making_place, no_role_place,
  opening_place, password_place, persons_place, records_place, trail_place,
} from './places.js';
import { guard_reloads } from './reloading.js';
import { forget_said, say } from './saying.js';
import { show_refusal } from './sending.js';
import {
  back_again, go_on, has, is_opening_again, join_other_tabs, may_copy, may_read, may_see_persons, on_session, on_session_ended,
  seconds_left, sign_out, who,
} from './session.js';
import { signing_view } from './signing.js';
import { texts } from './texts.js';
import { trail_view } from './trail.js';
import { paper_view, version_view } from './versions.js';
import { day_view } from './worklist.js';

const VIEWS = {
  day: day_view, records: records_view, opening: opening_view, grid: grid_view, record: version_view, version: version_view,
  signing: signing_view, amending: amending_view, paper: paper_view, forms: forms_view, form: form_view, making: making_view,
  persons: persons_view, person: person_view, enrolling: enrolling_view, trail: trail_view, copies: copies_view,
  checking: checking_view, password: password_view, no_role: no_role_view,
};
const main = document.getElementById('main');
const head = document.getElementById('head');
const ending = document.getElementById('ending');
let shown_for = null;

// The links of the head: place, text, and who has use for it. Who isn't signed in has use for two.
const LINKS_OUTSIDE = [[first_place(), texts.links.sign_in], [checking_place(), texts.links.checking]];
const LINKS = [
  [day_place(), texts.links.day, () => has('analyst', 'reviewer', 'manager')],
  [records_place(), texts.links.records, may_read],
  [forms_place(), texts.links.forms, may_read],
  [persons_place(), texts.links.persons, may_see_persons],
  [trail_place(), texts.links.trail, may_see_persons],
  [copies_place(), texts.links.copies, may_copy],
  [checking_place(), texts.links.checking, () => true],
  [password_place(), texts.links.password, () => true],
];

function home() {
  if (has('analyst', 'reviewer', 'manager')) return day_place();
  if (may_read()) return records_place();
  return may_see_persons() ? persons_place() : no_role_place();
}

// The view of the place in the address: its name, the function that fills it, and what it is about.
function view_of_place() {
  const person = who();
  for (const [name, pattern] of Object.entries(PATTERNS)) {
    const found = pattern.exec(location.hash);
    if (!found) continue;
    if (name === 'checking') return [name, checking_view, []];
    if (person && !person.due) return [name, VIEWS[name], found.slice(1).map(number_or_text)];
  }
  if (!person) return ['entrance', entrance_view, []];
  return person.due ? ['password', password_view, []] : ['unknown', unknown_view, []];
}

function number_or_text(group) {
  return /^[0-9]+$/.test(group) ? Number(group) : group;
}

function unknown_view(view) {
  replace(view, heading(texts.unknown_place), paragraph(link(home(), texts.go_home)));
}

async function show() {
  if (who() && !who().due && ['', first_place()].includes(location.hash)) {
    main.setAttribute('aria-busy', 'true');
    location.replace(home());
    return;
  }
  const [name, fill, about] = view_of_place();
  const view = begin_view(main, name);
  main.setAttribute('aria-busy', 'true');
  draw_links();
  forget_said();
  scrollTo(0, 0);
  try {
    const filled = fill(view, ...about);
    name_view(view);
    focus_view(view);
    await filled;
  } catch (refusal) {
    if (is_over(view)) return;
    for (const unread of view.querySelectorAll('.reading')) unread.remove();
    show_refusal(view, refusal);
    view.append(buttons(button('read_again', texts.read_again, show)));
  }
  if (is_over(view)) return;
  name_view(view);
  main.removeAttribute('aria-busy');
  if (document.activeElement === document.body) focus_view(view);
}

function draw_head() {
  const person = who();
  replace(head,
    paragraph(element('span', { class: 'program' }, texts.program),
      person && [' ', named('lab', given(person.lab_name), ` (${person.lab})`)]),
    person && person_part(person),
    element('nav', { 'aria-label': texts.pages, id: 'links' }));
  draw_links();
  count_down();
}

function person_part({ name, code, roles, due }) {
  const roles_text = [...roles].map((role) => texts.roles[role]).join(', ') || texts.no_roles;
  return element('div', { class: 'person' },
    named('person', texts.signed_in_as, ' ', name ? [given(name), ` (${code})`] : code),
    named('roles', !due && roles_text),
    element('span', { class: 'left' }, texts.left, ' ', element('span', { id: 'left', role: 'timer' })),
    button('close_the_session', texts.sign_out, () => ask_first(leave)));
}

function draw_links() {
  const links = document.getElementById('links');
  if (!links) return;
  const person = who();
  const useful = person ? LINKS.filter(([, , has_use]) => !person.due && has_use()) : LINKS_OUTSIDE;
  const name = main.querySelector('[data-page]')?.dataset.page;
  replace(links, useful.length > 0 && element('ul', null, useful.map(([place, text]) =>
    element('li', null, link(place, text, { 'aria-current': is_within(place) ? 'page' : null, click: read_again })))),
  name && help_button(name));
}

// A link to the page that is shown reads it again.
function read_again(event) {
  if (event.currentTarget.hash === location.hash) show();
}

// Whether the view is one of a link's, by its place.
function is_within(place) {
  if (place === first_place()) return location.hash !== checking_place();
  const others = {
    [records_place()]: [opening_place(), grid_place('')], [forms_place()]: [making_place()], [persons_place()]: [enrolling_place()],
  };
  return [place, ...others[place] ?? []].some((start) => location.hash.startsWith(start));
}

async function leave() {
  try {
    await sign_out();
    say(texts.said_signed_out);
  } catch {
    say(texts.said_not_closed);
  }
}

// Each second: how long the session lives, a warning two minutes before its end, and the dialog at its end.
function count_down() {
  const left = document.getElementById('left');
  if (!left || !who()) {
    ending.hidden = true;
    return;
  }
  const { seconds, can_go_on } = seconds_left();
  left.textContent = texts.minutes(seconds);
  if (is_opening_again()) return;
  warn(seconds, can_go_on);
  if (seconds === 0) back_again();
}

// The warning is written once, so that it is read out once; its seconds are those of the head.
function warn(seconds, can_go_on) {
  const is_due = seconds > 0 && seconds <= WARNING_SECONDS;
  if (is_due === !ending.hidden) return;
  ending.hidden = !is_due;
  replace(ending, is_due && paragraph(can_go_on ? texts.ends_soon : texts.ends_for_good, ' ',
    can_go_on && button('go_on', texts.go_on, prolong)));
}

async function prolong() {
  try {
    await go_on();
    count_down();
    focus_view(main);
  } catch (refusal) {
    show_refusal(ending, refusal);
  }
}

function state_of_session(person) {
  return person ? `${person.lab} ${person.code} ${person.due}` : '';
}

on_session_ended({
  ask_again: again_dialog, end_asking: end_again_dialog, has_work, is_typing, tell_closed: () => say(texts.said_closed_elsewhere),
});
on_session((person) => {
  draw_head();
  if (person) remember_lab(person.lab);
  if (is_opening_again() && person) return;
  const state = state_of_session(person);
  if (state === shown_for) return;
  shown_for = state;
  if (!person) history.replaceState(null, '', location.pathname + location.search);
  show();
});

guard_views(show);
guard_reloads(show);
// A page that Back brings from the browser's memory didn't hear of a sign-out meanwhile: it asks whether its session lives.
addEventListener('pageshow', ({ persisted }) => {
  if (persisted && who()) prolong();
});
const skip = document.getElementById('skip');
skip.textContent = texts.skip;
document.documentElement.lang = texts.language;
skip.addEventListener('click', (event) => {
  event.preventDefault();
  main.focus();
});
setInterval(count_down, 1000);
shown_for = state_of_session(null);
draw_head();
await join_other_tabs();
if (!who()) show();
