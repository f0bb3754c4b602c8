// Signing: the version is read anew and stands on the page, with the statement that the signature makes, above the password.

import { Refusal, read_a_version, sign_a_version } from './api.js';
import {
  area, button, buttons, element, field, focus_view, fresh_id, heading, input, link, paragraph, password_field, reading, replace,
  section,
} from './elements.js';
import { history_of } from './history.js';
import { go, is_over, view_of } from './life.js';
import { write } from './outcomes.js';
import { day_place, record_place, signing_on_place, signing_place, version_place } from './places.js';
import { say } from './saying.js';
import { refuse, sending_form, show_refusal } from './sending.js';
import { ask, has_signed, who } from './session.js';
import { head_of } from './showing.js';
import { texts } from './texts.js';
import { article_of, may_sign } from './versions.js';
import { count_of_waiting, meaning_for, next_that_waits } from './worklist.js';

const words = texts.signing;
const ABOUT = {
  code_wanted: 'code', bad_name: 'code', credentials: 'password', no_password: 'password', reason_wanted: 'reason',
};

// On the way from one record that waits to the next the field to type in has the focus, but the page shows its top: first it is read.
export async function signing_view(view, record, version, meaning, on_the_way) {
  const signing = { view, record, version, meaning, on_the_way: Boolean(on_the_way) };
  replace(view, heading(texts.meanings[meaning].title), reading());
  signing.again = button('read_again', words.read_again, async () => {
    try {
      await draw(signing);
      focus_view(view);
    } catch (refusal) {
      show_refusal(view, refusal);
    }
  });
  await draw(signing);
  const first = view.querySelector('[name="reason"], [data-field="code"]:not([hidden]) input, [name="password"]');
  if (on_the_way && !is_over(view)) first?.focus({ preventScroll: true });
}

// What is signed is what was read last. A reason that is typed is still there after another reading. Where this person has nothing
// to sign, as once it is signed, there is no form.
async function draw(signing) {
  const { view, record, version, meaning, on_the_way } = signing;
  const history = await history_of(record, version);
  const form = may_sign(history, meaning) ? signing_form(signing, history.versions.at(-1)) : null;
  const typed = view.querySelector('[name="reason"]')?.value;
  const about = { class: 'record-head', id: fresh_id('head') };
  const head = element('div', about, head_of(history.versions.at(-1), texts.meanings[meaning].title));
  describe(form, about.id);
  replace(view, head, paragraph(words.intro, form && on_the_way && ` ${words.focus_is_below}`), article_of(history),
    section(words.sign, { class: 'signing' }, form ?? paragraph(words.nothing)),
    buttons(signing.again, ...others_than_signing(signing, history)));
  if (typed && form) form.elements.reason.value = typed;
}

// With the password, where the focus may be at first, a screen reader reads what is signed.
function describe(form, id) {
  const password = form?.elements.password;
  password?.setAttribute('aria-describedby', `${id} ${password.getAttribute('aria-describedby')}`);
}

// What else may be done: to reject, to go on to the next one, and to go back.
function others_than_signing(signing, history) {
  const { view, record, version, meaning, on_the_way } = signing;
  const reject = ['review', 'approval'].includes(meaning) && may_sign(history, 'rejection');
  const place = on_the_way ? signing_on_place : signing_place;
  const leave_it = button('leave_it', words.leave_it, async () => {
    try {
      const next = await place_of_next(history.versions.at(-1), view);
      go(view, next ?? day_place());
      if (!next) say(words.no_more);
    } catch (refusal) {
      show_refusal(view, refusal);
    }
  });
  return [reject && link(place(record, version, 'rejection'), words.reject, { 'data-do': 'rejection' }),
    on_the_way && leave_it, link(version_place(record, version), words.back)];
}

// The place where the next one that waits for this person is signed, or null.
async function place_of_next({ record, rows, signatures, moment }, view) {
  const since = [...rows, ...signatures].at(-1)?.moment ?? moment;
  const next = await next_that_waits({ record, since }, () => !is_over(view));
  return next && signing_on_place(next.record, next.current, meaning_for(next));
}

function signing_form(signing, shown) {
  const { meaning, on_the_way } = signing;
  const { statement, act } = texts.meanings[meaning];
  const also = meaning !== 'authorship' && { name: 'sign_and_next', text: words.and_next(act), is_first: on_the_way };
  return sending_form({
    command: 'sign_a_version', submit: act, also, about: about_refusal,
    send: (values, made, pressed) => sign(shown, meaning, { values, made, goes_on: pressed === 'sign_and_next' }),
  },
  element('p', { class: 'statement', 'data-part': 'statement' }, statement),
  paragraph(words.under, ' ', element('code', { class: 'digest', 'data-part': 'signed_digest' }, shown.digest)),
  meaning === 'rejection' && field(words.reason, area('reason', { dir: 'auto' }), words.reason_hint),
  code_field(), password_field('password', words.password, words.password_hint));
}

// The code is wanted at the first signature of a session.
function code_field() {
  const made = field(words.code, input('code', { 'data-secret': true }), words.code_hint);
  made.hidden = who().signed;
  return made;
}

function show_code(made) {
  made.querySelector('[data-field="code"]').hidden = false;
}

async function sign(shown, meaning, { values, made, goes_on }) {
  const { record, version, digest } = shown;
  if (!values.password) refuse('no_password');
  if (meaning === 'rejection' && !values.reason) refuse('reason_wanted');
  const signer = who();
  const code = signer.signed ? undefined : values.code.trim() || undefined;
  const reason = meaning === 'rejection' ? values.reason : undefined;
  try {
    return await write(sign_a_version, { record, version, digest, meaning, password: values.password, code, reason }, {
      look: () => look_for_signature(record, version, meaning),
      done: ({ name, state, looked }) => {
        has_signed(signer, name);
        const said = [words.said_signed(record, version, texts.states[state]), looked && [' ', texts.said_looked]];
        say(said);
        return goes_on ? lead_on(shown, made, said) : record_place(record);
      },
    });
  } finally {
    made.elements.password.value = '';
    if (!who()?.signed) show_code(made);
  }
}

// It is signed, and the next one that waits is looked for. Where that fails, or none waits, the day is shown.
async function lead_on(shown, made, said) {
  const view = view_of(made);
  try {
    const next = await place_of_next(shown, view);
    if (!is_over(view)) say(said, ' ', next ? words.more(count_of_waiting()) : words.no_more);
    return next ?? day_place();
  } catch (refusal) {
    if (!(refusal instanceof Refusal)) throw refusal;
    say(said, ' ', words.next_not_found);
    return day_place();
  }
}

// A version has one signature of a meaning at most.
async function look_for_signature(record, version, meaning) {
  const { signatures, state } = await ask(read_a_version, record, version);
  const own = signatures.find((one) => one.meaning === meaning && one.person === who().code);
  return own ? { name: own.name, state } : null;
}

function about_refusal({ word }, made) {
  if (word === 'bad_name' && made.elements.reason && !made.elements.code.value) return 'reason';
  return ABOUT[word];
}
