// Signing in, signing in again over a page that stays as it is, and changing the password.

import { Refusal, change_the_password } from './api.js';
import { button, buttons, element, facts, field, given, heading, input, paragraph, password_field, replace } from './elements.js';
import { go } from './life.js';
import { LEAST_OF_PASSWORD, MOST_OF_PASSWORD } from './limits.js';
import { write } from './outcomes.js';
import { last_lab } from './lab.js';
import { first_place, password_place } from './places.js';
import { bytes_of } from './rules.js';
import { say } from './saying.js';
import { clear_refusals, refuse, sending_form, show_refusal } from './sending.js';
import {
  ask, ask_once, card_of, is_password_due, learn_roles_again, password_changed, sign_in, sign_out, who,
} from './session.js';
import { texts } from './texts.js';

const words = texts.entrance;
const ABOUT_OPENING = {
  no_lab_code: 'lab', no_route: 'lab', no_such_lab: 'lab', bad_name: 'code', no_code: 'code', credentials: 'password',
  no_password: 'password',
};
const ABOUT_CHANGE = { credentials: 'old', bad_password: 'new', same_password: 'new', again_differs: 'again' };

// A password that is due is changed in one go with the opening: the one just typed is kept for that alone.
let typed = null;
// How the dialog that is shown is ended, if one is.
let end_dialog = null;

export function entrance_view(place) {
  const named = element('output', { 'data-part': 'lab_name', 'aria-live': 'polite' });
  const known = last_lab();
  const lab = input('lab', { value: known, 'data-first': !known });
  const code = input('code', { autocomplete: 'username', 'data-first': Boolean(known) });
  const made = sending_form({
    command: 'open_a_session', submit: words.sign_in, about: ABOUT_OPENING, keeps: false, send: (values) => enter(values),
  },
  field(words.lab, lab, words.lab_hint), element('p', { class: 'named' }, named),
  field(words.code, code, words.code_hint),
  password_field('password', words.password, words.password_hint, 'current-password'));
  lab.addEventListener('change', () => show_card(made, lab, named));
  replace(place, heading(words.title), paragraph(words.intro), made);
  if (lab.value) show_card(made, lab, named);
}

async function show_card(made, lab, named) {
  clear_refusals(made);
  named.replaceChildren();
  const asked = lab.value.trim();
  if (!asked) return;
  try {
    const card = await card_of(asked);
    if (lab.value.trim() === asked) named.replaceChildren(given(card.name));
  } catch (refusal) {
    if (lab.value.trim() === asked) show_refusal_there(made, refusal);
  }
}

// A card that is refused is said beside the laboratory, but the focus stays where the person is by now.
function show_refusal_there(made, refusal) {
  const there = document.activeElement;
  show_refusal(made, refusal, ABOUT_OPENING);
  if (there && made.contains(there)) there.focus();
}

async function enter({ lab, code, password }) {
  if (!lab.trim()) refuse('no_lab_code');
  if (!code.trim()) refuse('no_code');
  if (!password) refuse('no_password');
  typed = password;
  try {
    await sign_in(lab.trim(), code.trim(), password);
  } finally {
    if (!who()?.due) typed = null;
  }
  say(who().due ? words.said_due : words.said_signed_in(who().code));
}

export function password_view(place) {
  const due = who().due;
  replace(place, heading(due ? words.title_due : words.title_change),
    paragraph(due ? words.intro_due : words.intro_change), change_form(() => {
      say(words.said_changed);
      if (location.hash === password_place()) location.replace(first_place());
    }));
}

// Who has no role is told whom to ask. One that was given meanwhile is found without signing in again.
export function no_role_view(view) {
  const look = async () => {
    await learn_roles_again();
    if (who().roles.size) go(view, first_place(), true);
    else say(words.said_no_role);
  };
  const check = button('look_for_role', words.look_for_role, async () => {
    clear_refusals(view);
    await look().catch((refusal) => show_refusal(view, refusal));
  });
  replace(view, heading(words.no_role_title), paragraph(words.no_role(who().code)), paragraph(words.no_role_then), buttons(check));
}

// The form that changes the password. `by` asks the command.
function change_form(done, by = ask) {
  const old = typed;
  typed = null;
  return sending_form({
    command: 'change_the_password', submit: words.change, about: ABOUT_CHANGE, send: (values) => {
      if (values.again !== values.new) refuse('again_differs');
      const was_due = who().due;
      return write(change_the_password, { old: values.old ?? old, new: values.new }, {
        by, look: () => look_for_change(was_due), done: ({ is_unsure }) => {
          if (is_unsure) refuse('password_not_known');
          return read_roles(done);
        },
      });
    },
  },
  known_code(),
  old === null ? password_field('old', words.old, words.old_hint, 'current-password') : paragraph(words.old_typed),
  new_password_field(), password_field('again', words.again, words.again_hint, 'new-password'));
}

// A password that isn't due any more was changed. Of one that wasn't due only another opening would tell.
async function look_for_change(was_due) {
  if (!was_due) return { is_unsure: true };
  return await is_password_due() ? null : {};
}

// The password is changed. Where only the reading of the roles fails, the next try reads, and changes nothing.
async function read_roles(done) {
  try {
    await password_changed();
  } catch {
    throw Object.assign(new Refusal(0, { error: 'roles_not_read', number: 0 }), { look: () => read_roles(done) });
  }
  done();
}

// The new password with how long it is by now, in bytes.
function new_password_field() {
  const made = password_field('new', words.new, words.new_hint, 'new-password');
  const length = element('p', { class: 'advice', 'data-part': 'length' });
  made.append(length);
  made.querySelector('[name="new"]').addEventListener('input', (event) => {
    const bytes = bytes_of(event.target.value);
    length.textContent = bytes < LEAST_OF_PASSWORD || bytes > MOST_OF_PASSWORD ? words.length(bytes) : '';
  });
  return made;
}

// The session has ended, or its password is due: a dialog over the page, which stays as it is behind it. It resolves to whether
// the person is back; who signs out instead leaves the page.
export function again_dialog(is_due) {
  const dialog = document.getElementById('again');
  const first_focus = document.activeElement;
  return new Promise((resolve) => {
    const end = (is_back) => {
      dialog.onclose = null;
      dialog.close();
      dialog.removeAttribute('aria-labelledby');
      dialog.replaceChildren();
      if (is_back && first_focus?.isConnected) first_focus.focus();
      end_dialog = null;
      resolve(is_back);
    };
    end_dialog = end;
    dialog.oncancel = (event) => event.preventDefault();
    dialog.onclose = () => dialog.showModal();
    if (is_due) show_change(dialog, end);
    else show_opening(dialog, end);
    dialog.setAttribute('aria-labelledby', 'again-title');
    if (!dialog.open) dialog.showModal();
    focus_first(dialog);
  });
}

// Another tab opened the session again, changed the password, or signed out.
export const end_again_dialog = (is_back) => end_dialog?.(is_back);

// Whether somebody has begun to sign in.
export const is_typing = () => [...document.querySelectorAll('form[data-form="open_a_session"] input:not([type="checkbox"])')]
  .some(({ value, defaultValue }) => value !== defaultValue);

const focus_first = (dialog) => dialog.querySelector('input:not([hidden])').focus();

function show_opening(dialog, end) {
  const { lab, lab_name, code } = who();
  const made = sending_form({
    command: 'open_a_session_again', submit: words.sign_in_again, about: { credentials: 'password', no_password: 'password' },
    send: async ({ password }) => {
      if (!password) refuse('no_password');
      typed = password;
      await sign_in(lab, code, password);
      if (who().due) {
        show_change(dialog, end);
        return;
      }
      typed = null;
      say(words.said_back);
      end(true);
    },
  }, known_code(), password_field('password', words.password, words.password_hint, 'current-password'));
  replace(dialog, again_title(words.again_title), paragraph(words.again_intro),
    facts([[words.lab, [given(lab_name), ` (${lab})`]], [words.code, code]]), made, leave_line(end));
  focus_first(dialog);
}

// Where the session ends before the password is changed, it is opened first.
function show_change(dialog, end) {
  const change = async (command, body) => {
    try {
      return await ask_once(command, body);
    } catch (refusal) {
      if (refusal.word === 'no_session') show_opening(dialog, end);
      throw refusal;
    }
  };
  replace(dialog, again_title(words.title_due), paragraph(words.intro_due), change_form(() => {
    say(words.said_changed);
    end(true);
  }, change), leave_line(end));
  focus_first(dialog);
}

// The code, for programs that keep passwords; it isn't shown.
function known_code() {
  return element('input', { type: 'text', autocomplete: 'username', value: who().code, hidden: true });
}

function again_title(text) {
  return element('h2', { id: 'again-title' }, text);
}

function leave_line(end) {
  return element('p', { class: 'leave' }, words.leave_intro, ' ', button('sign_out', words.leave, async () => {
    end(false);
    await sign_out().then(() => say(texts.said_signed_out), () => say(texts.said_not_closed));
  }));
}
