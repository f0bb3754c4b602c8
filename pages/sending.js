// A form on the page that sends a command, and the place where its refusal is shown: next to the field that it is about.

import { Refusal } from './api.js';
import { button, buttons, element, focus_view, fresh_id, link, paragraph, replace } from './elements.js';
import { go, is_over, name_view, title_of, view_of } from './life.js';
import { making_place, record_place } from './places.js';
import { forget_said, say } from './saying.js';
import { text_of_slip } from './slips.js';
import { texts } from './texts.js';
import { while_waiting } from './waiting.js';

// A form. `about` says which control a refusal is about: an object of words and names of controls, or a function of the refusal
// and the form, which may also give { control, what_to_do }. `send` is given the values and the form; what it gives is the place
// to go to, if any. What is typed isn't left without a question, unless `keeps` is false, of a form that alters nothing.
// `submit_name` is what a screen reader reads for the button. Control and Enter send from a text of several lines. `also` is another
// button that sends, { name, text, is_first }; `send` is given the name of the one that was pressed. Enter presses the first one.
export function sending_form({ command, submit, submit_name, about, send, also, keeps = true, attributes }, ...fields) {
  const sender = element('button', { type: 'submit', 'data-do': command, 'aria-label': submit_name }, submit);
  const other = also && element('button', { type: 'submit', 'data-do': also.name }, also.text);
  const senders = also?.is_first ? [other, sender] : [sender, other];
  const made = element('form', { 'data-form': command, 'data-keep': keeps, novalidate: true, autocomplete: 'off', ...attributes },
    fields, buttons(...senders));
  const work = { sender: senders[0], send, about, keeps, look: null };
  made.addEventListener('submit', (event) => {
    event.preventDefault();
    if (senders.includes(event.submitter)) work.sender = event.submitter;
    send_once(made, work);
  });
  made.addEventListener('keydown', (event) => {
    if (event.key === 'Enter' && (event.ctrlKey || event.metaKey)) made.requestSubmit();
  });
  return made;
}

// Where it isn't known whether what was sent before was done, nothing is sent: the page looks.
async function send_once(made, work) {
  if (made.getAttribute('aria-busy')) return;
  const view = view_of(made);
  clear_refusals(made);
  forget_said();
  made.setAttribute('aria-busy', 'true');
  const { sender, send } = work;
  sender.setAttribute('aria-disabled', 'true');
  try {
    const place = await while_waiting(sender, texts.sending, work.look ?? (() => send(values_of(made), made, sender.dataset.do)));
    work.look = null;
    if (place) leave_for(place, view, made, work);
  } catch (refusal) {
    work.look = refusal.look ?? null;
    if (!is_over(view)) show_refusal(made, refusal, work.about);
    else if (work.keeps) say_refusal(view, refusal);
  } finally {
    made.removeAttribute('aria-busy');
    sender.removeAttribute('aria-disabled');
  }
}

// What is typed in the form is done now; what is typed beside it isn't.
function leave_for(place, view, made, { keeps }) {
  made.removeAttribute('data-keep');
  made.removeAttribute('data-altered');
  go(view, place, keeps);
}

// What is typed and chosen: texts, flags of single boxes, and lists of boxes that share a name.
function values_of(made) {
  const values = {};
  for (const control of made.elements) {
    if (!control.name || control.type === 'radio') continue;
    if (control.type !== 'checkbox') values[control.name] = control.value;
    else if (control.dataset.word === undefined) values[control.name] = control.checked;
    else (values[control.name] ??= []).push(...(control.checked ? [control.dataset.word] : []));
  }
  return values;
}

export function clear_refusals(place) {
  for (const shown of place.querySelectorAll('[data-refusal], [data-flaw]')) shown.remove();
  name_view(view_of(place));
  for (const control of place.querySelectorAll('[aria-invalid]')) {
    control.removeAttribute('aria-invalid');
    describe_by(control, described_by(control).filter((id) => !id.startsWith('refusal-')));
  }
}

function described_by(control) {
  return (control.getAttribute('aria-describedby') ?? '').split(' ').filter(Boolean);
}

function describe_by(control, ids) {
  if (ids.length) control.setAttribute('aria-describedby', ids.join(' '));
  else control.removeAttribute('aria-describedby');
}

// A refusal that no server said: the page itself saw that a request would make no sense.
export function refuse(word, further) {
  throw new Refusal(0, { error: word, number: 0, ...further });
}

// Shows a refusal next to the control that it is about, or else above the buttons of a form, or at the end of a place. It takes the
// focus, unless the person is elsewhere by now than where it `began`. What is no refusal is a fault of these pages, and shown as one.
export function show_refusal(place, refusal, about, began = place) {
  if (!(refusal instanceof Refusal)) console.error(refusal);
  const found = typeof about === 'function' ? about(refusal, place) : about?.[refusal.word];
  const is_control = typeof found === 'string' || found instanceof Element;
  const { control: wanted, what_to_do, others = [] } = is_control ? { control: found } : found ?? {};
  const shown = refusal_element(place, refusal, what_to_do);
  const control = control_of(place, wanted);
  const buttons = place.matches('form') ? [...place.children].findLast((child) => child.matches('.buttons')) : null;
  if (control) show_at(control, shown);
  else if (buttons) buttons.before(shown);
  else place.append(shown);
  for (const other of others) {
    show_at(other.control, element('p', { class: 'refusal', id: fresh_id('refusal'), 'data-flaw': true }, other.what_to_do));
  }
  name_view(view_of(place), texts.error);
  if (is_here(began)) (control ?? shown).focus();
}

// A control may name the place where it is told.
function show_at(control, shown) {
  control.setAttribute('aria-invalid', 'true');
  describe_by(control, [...described_by(control), shown.id]);
  (document.getElementById(control.dataset.told) ?? control.closest('.field') ?? control.parentNode).append(shown);
}

// Tells a refusal at a control, and leaves the focus where it is. Where several controls are told in one place, each has its name.
export function tell_refusal(control, refusal, what_to_do, name) {
  if (!(refusal instanceof Refusal)) console.error(refusal);
  const shown = refusal_element(control, refusal, what_to_do);
  if (name) shown.prepend(paragraph(name));
  show_at(control, shown);
  name_view(view_of(control), texts.error);
}

// Of pairs of a control and its slip: the first control that has one, and the others that have one, each with what to type.
export function all_slips(pairs) {
  const [first, ...others] = pairs.filter(([, slip]) => slip).map(([control, slip]) => ({ control, what_to_do: text_of_slip(slip) }));
  return first ? { ...first, others } : null;
}

// Whether the person is at a place, or nowhere, so that the focus may be moved.
export const is_here = (place) => document.activeElement === document.body || place.contains(document.activeElement);

// A refusal of what was sent from a view that is over.
function say_refusal(view, refusal) {
  const { first, when } = texts_of(refusal);
  say(title_of(view), ' – ', first, ' ', when);
}

// Reads anew after something was done, and gives whether it was read. Where only the reading fails, a place says so, and reads
// alone at a click.
export async function read_anew(place, read, began = view_of(place)) {
  replace(place);
  try {
    await read();
    return true;
  } catch (refusal) {
    show_refusal(place, refusal, null, began);
    place.append(paragraph(texts.shown_is_old), buttons(button('read_alone', texts.read_again, async () => {
      if (await read_anew(place, read)) focus_view(view_of(place));
    })));
    return false;
  }
}

function control_of(place, found) {
  const control = typeof found === 'string' ? place.elements?.namedItem(found) : found;
  return control && !control.closest('[hidden]') ? control : null;
}

function texts_of(refusal) {
  const word = refusal instanceof Refusal ? refusal.word : 'page_fault';
  return { word, first: texts.refused, ...texts.refusals[word] ?? texts.refusals.unknown };
}

function refusal_element(place, refusal, advice) {
  const { word, first, when, what_to_do } = texts_of(refusal);
  const about = { class: 'refusal', role: 'alert', id: fresh_id('refusal'), tabindex: '-1', 'data-refusal': word,
    'data-number': refusal.number };
  return element('div', about,
    paragraph(element('strong', null, first), ' ', when, ' ', element('span', { class: 'word' }, texts.word_of_refusal(word, refusal.number))),
    paragraph(advice ?? what_to_do, further(place, refusal)),
    refusal.look && buttons(element('button', { type: 'submit', 'data-do': 'look' }, texts.look)));
}

// The label of a field as the view has it, or else its key.
function label_of(place, key) {
  const label = view_of(place)?.querySelector(`[data-key="${key}"] [data-part="label"]`);
  return label?.cloneNode(true) ?? key;
}

// What some refusals say beside their word.
function further(place, refusal) {
  if (refusal.rule) return [' ', texts.rule(refusal.rule)];
  if (refusal.record) return [' ', link(record_place(refusal.record), texts.go_to_record(refusal.record), { 'data-done': true })];
  if (refusal.key) return [' ', texts.about_key(label_of(place, refusal.key))];
  if (refusal.digest) return [' ', texts.digest_now, ' ', element('code', { class: 'digest' }, refusal.digest)];
  if (refusal.form) return [' ', link(making_place(refusal.form, refusal.version), texts.forms.begin_from(refusal.version))];
  return [];
}

// Asks once more before what can't be taken back: a button opens a question with two buttons. `send` does it.
export function asked_twice({ command, text, question, yes, no, send }) {
  const place = element('div', { class: 'twice', 'data-part': `${command}_twice` });
  const first = button(command, text, () => open(), { 'aria-expanded': 'false' });
  const open = () => {
    const surely = sending_form({ command: `${command}_surely`, submit: yes, send: () => send(place) },
      element('p', { tabindex: '-1', class: 'question' }, question));
    surely.lastElementChild.append(' ', button('leave_it', no, () => close()));
    first.setAttribute('aria-expanded', 'true');
    place.replaceChildren(first, surely);
    surely.querySelector('.question').focus();
  };
  const close = () => {
    first.setAttribute('aria-expanded', 'false');
    place.replaceChildren(first);
    first.focus();
  };
  place.append(first);
  return place;
}
