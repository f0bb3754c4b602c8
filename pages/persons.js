// The persons of the laboratory: their roles and locks, enrolling, one-time passwords by two administrators, retiring, unlocking.

import {
  ask_for_a_one_time_password, confirm_a_one_time_password, enrol_a_person, read_the_persons, retire_a_person,
  set_a_persons_roles, unlock_a_person,
} from './api.js';
import {
  action, actions, button, buttons, checkbox, element, facts, field, filter_choice, filter_form, first_rows, focus_view, given, heading,
  input, link, more_button, named, paragraph, reading, replace, section, table,
} from './elements.js';
import { is_left } from './life.js';
import { write } from './outcomes.js';
import { enrolling_place, person_place, persons_place } from './places.js';
import { last_row, rows_after } from './reading.js';
import { is_person_code } from './rules.js';
import { say } from './saying.js';
import { all_slips, asked_twice, clear_refusals, is_here, read_anew, refuse, sending_form } from './sending.js';
import { ask, has, notes, who } from './session.js';
import { slip_of_code, slip_of_name } from './slips.js';
import { texts } from './texts.js';

const words = texts.persons;
// Of each half of a one-time password: who asks for it, the row that the trail has of it, and the refusal where it is lost.
const HALVES = {
  first: { command: 'ask_for_a_one_time_password', send: ask_for_a_one_time_password, action: 'issue', lost: 'first_half_lost' },
  second: { command: 'confirm_a_one_time_password', send: confirm_a_one_time_password, action: 'confirm', lost: 'second_half_lost' },
};
const ROLES = ['analyst', 'reviewer', 'manager', 'administrator', 'inspector'];

export async function persons_view(place) {
  const body = element('div', null, reading());
  replace(place, heading(words.title), has('administrator') && actions(action(enrolling_place(), words.enrol_one)), body);
  const { persons } = await ask(read_the_persons);
  const filter = { has: '', role: '', account: '' };
  const shown = element('div', { 'data-part': 'persons' });
  const draw = (most = first_rows()) => draw_rows(persons, filter, shown, most, draw);
  replace(body, filter_of(filter, () => draw()), shown);
  draw();
}

function filter_of(filter, changed) {
  const has_text = input('has', {
    type: 'search', input: ({ target }) => {
      filter.has = target.value.toLowerCase();
      changed();
    },
  });
  return filter_form(
    field(words.has, has_text),
    field(words.role, filter_choice('role', Object.entries(texts.roles), filter, changed)),
    field(words.account, filter_choice('account', Object.entries(words.accounts), filter, changed)));
}

function draw_rows(persons, { has: text, role, account }, shown, most, draw) {
  const found = persons.filter((person) => `${person.code} ${person.name.toLowerCase()}`.includes(text)
    && (!role || person.roles.includes(role)) && [account_word(person), ''].includes(account));
  const columns = [words.code, words.name, words.roles, words.account];
  replace(shown, element('p', { role: 'status', 'data-part': 'counts' }, words.shown(found.length, persons.length)),
    found.length > 0 && table(words.title, columns, found.slice(0, most).map(row_of)),
    buttons(more_button(most, found.length, () => shown.querySelectorAll('tbody a'), draw)));
}

function row_of(person) {
  return {
    attributes: { 'data-person': person.code },
    cells: [link(person_place(person.code), person.code), given(person.name, 'name'),
      named('roles', roles_text(person.roles)), account_of(person)],
  };
}

function roles_text(roles) {
  return roles.map((role) => texts.roles[role]).join(', ') || words.no_roles;
}

function account_word({ locked, retired }) {
  return retired ? 'retired' : locked ? 'locked' : 'usable';
}

function account_of(person) {
  const word = account_word(person);
  return element('span', { class: `account ${word}`, 'data-part': 'account', 'data-account': word }, words.accounts[word]);
}

const person_of = async (code) => (await ask(read_the_persons)).persons.find((one) => one.code === code);

// A person's page. After a command only the parts that it is about are drawn anew: another one may have what isn't sent, or what is
// shown once.
export async function person_view(view, code) {
  replace(view, heading(words.person(code)), reading());
  const [known, missed, roles, one_time, account] = ['div', 'div', 'div', 'div', 'div'].map((name) => element(name));
  const read = async (...parts) => {
    const person = await person_of(code);
    if (!person) refuse('no_such_person');
    replace(known, facts_of_person(person));
    if (person.retired) replace(one_time);
    if (parts.includes(roles) || person.retired) replace(roles, may_administer(person) && roles_part(person, after(roles)));
    if (parts.includes(account) || person.retired) replace(account, account_of_person(person, after(account)));
    return person;
  };
  const after = (part) => async (began) => {
    const is_moved = is_here(began);
    if (await read_anew(missed, () => read(part), began) && is_moved) focus_view(view);
  };
  const person = await read(roles, account);
  replace(one_time, may_administer(person) && one_time_part(person));
  replace(view, heading(words.person(code)), known, missed, roles, one_time, account, paragraph(link(persons_place(), words.back)));
}

function facts_of_person(person) {
  return facts([[words.code, person.code, 'code'], [words.name, given(person.name), 'name'],
    [words.roles, roles_text(person.roles), 'roles'], [words.account, account_of(person)]]);
}

const may_administer = (person) => has('administrator') && !person.retired && person.code !== who().code;

// What an administrator may do with another person's account, or why nothing can be done.
function account_of_person(person, after) {
  if (!has('administrator')) return null;
  if (may_administer(person)) return account_part(person, after);
  return element('p', { class: 'note' }, person.retired ? words.is_retired : words.is_own);
}

function roles_boxes(chosen) {
  return element('fieldset', { 'data-field': 'roles' }, element('legend', null, words.roles),
    ROLES.map((role) => checkbox('roles', words.role_texts[role], { 'data-word': role, checked: chosen.includes(role) })));
}

function roles_part({ code, roles: before }, after) {
  return section(words.roles_title, null, sending_form({
    command: 'set_a_persons_roles', submit: words.set_roles, send: ({ roles }, made) => write(set_a_persons_roles, { code, roles }, {
      look: async () => {
        const person = await person_of(code);
        return person && has_roles(person, roles) ? person : null;
      },
      done: async (reply) => {
        say(words.said_roles(code, roles_text(reply.roles)), reply.looked && [' ', texts.said_looked]);
        await after(made);
      },
    }),
  }, roles_boxes(before)));
}

const has_roles = (person, roles) => [...person.roles].sort().join() === [...roles].sort().join();

// Both halves of a one-time password: one administrator asks, another confirms, and each is given a half, once. While a half is
// shown, no other takes its place.
function one_time_part(person) {
  const given_half = element('div', { 'data-part': 'halves' });
  const half_form = (which) => sending_form({
    command: HALVES[which].command, submit: words.halves[which].button, send: () => {
      if (given_half.hasChildNodes()) refuse('half_shown');
      return ask_for_half(person, which, given_half);
    },
  }, paragraph(words.halves[which].intro(person.code)));
  return section(words.one_time_title, null, paragraph(words.one_time_intro), half_form('first'), half_form('second'), given_half);
}

// Who has asked in this session is told that another ask makes the first half worthless. Where no reply came, the trail has a row
// of it, or it wasn't done; the half is lost then.
async function ask_for_half(person, which, place) {
  const { send, action, lost } = HALVES[which];
  const [own, name] = [notes(), `issue ${person.code}`];
  if (which === 'first' && own.delete(name)) refuse('asked_already');
  const last = await last_row();
  await write(send, person.code, {
    look: async () => (await rows_after(last)).find((row) =>
      row.action === action && row.person === who().code && row.subject === person.code),
    done: ({ half, looked }) => {
      if (looked) refuse(lost);
      if (which === 'first') own.set(name, true);
      if (is_left(place)) refuse(lost);
      clear_refusals(place.parentNode);
      show_half(place, person, half, which);
    },
  });
}

function show_half(place, person, half, which) {
  const { title, what_to_do } = words.halves[which];
  const fours = half.match(/.{4}/g).map((four) => element('span', null, four));
  const shown = element('div', { class: 'half', tabindex: '-1', role: 'group', 'aria-label': title, 'data-once': true },
    element('h3', null, title),
    paragraph(element('output', { 'data-part': 'half', 'data-half': which }, fours)),
    paragraph(what_to_do(person.code)),
    buttons(button('hide_half', words.hide_half, () => {
      place.replaceChildren();
      say(words.said_hidden);
      place.closest('section').querySelector('button').focus();
    })));
  place.replaceChildren(shown);
  shown.focus();
}

function account_part({ code, locked }, after) {
  const twice = (command, send, texts_of, is_done) => asked_twice({
    command, text: texts_of.button, question: texts_of.question(code), yes: texts_of.yes(code), no: words.leave_it,
    send: (place) => write(send, code, {
      look: async () => {
        const person = await person_of(code);
        return person && is_done(person) ? person : null;
      },
      done: async ({ looked }) => {
        say(texts_of.said(code), looked && [' ', texts.said_looked]);
        await after(place);
      },
    }),
  });
  return section(words.account_title, null,
    paragraph(locked ? words.locked_now : words.not_locked_now),
    twice('unlock_a_person', unlock_a_person, words.unlock, (person) => !person.locked),
    paragraph(words.retire.intro), twice('retire_a_person', retire_a_person, words.retire, (person) => person.retired));
}

export function enrolling_view(view) {
  const made = sending_form({
    command: 'enrol_a_person', submit: words.enrol, about: about_enrolling,
    send: ({ code, name, roles }) => enrol({ code: code.trim(), name, roles }),
  },
  field(words.code, input('code'), words.code_hint),
  field(words.name, input('name', { dir: 'auto' }), words.name_hint), roles_boxes([]));
  replace(view, heading(words.enrolling_title), paragraph(words.enrolling_intro), made,
    paragraph(link(persons_place(), words.back)));
}

// A code is given once: who has it with this name and these roles was enrolled by this.
function enrol(typed) {
  return write(enrol_a_person, typed, {
    look: async () => {
      const person = await person_of(typed.code);
      return person && person.name === typed.name && has_roles(person, typed.roles) ? person : null;
    },
    done: ({ code, looked }) => {
      say(words.said_enrolled(code), looked && [' ', texts.said_looked]);
      return person_place(code);
    },
  });
}

function about_enrolling({ word }, { elements }) {
  if (word === 'code_taken') return 'code';
  const [code, name] = [elements.namedItem('code'), elements.namedItem('name')];
  const slips = [[code, slip_of_code(code.value.trim(), is_person_code)], [name, slip_of_name(name.value)]];
  return word === 'bad_name' ? all_slips(slips) : null;
}
