// What was typed and isn't sent, and what is shown only once, isn't lost by a slip of the hand. Before a link, the browser's Back,
// another address, a reload or signing out takes it away, the page asks.

import { button, buttons, element, paragraph, replace } from './elements.js';
import { who } from './session.js';
import { texts } from './texts.js';

const words = texts.leaving;
const ONCE = '[data-once]';
// Forms whose contents are kept, and what is being sent.
const KEEPS = 'form[data-keep]';
const SENDING = ':is(form, tr)[aria-busy]';
const TYPED = '[name]:not([data-secret])';
const ALTERED = '[data-altered] [type="submit"]';
// A link to where it is that was typed.
const DONE = '[data-done]';
const main = document.getElementById('main');
let may_be_lost = false;

// Does what takes the view away; where something would be lost, only once the person has said so.
export function ask_first(leave) {
  const lost = what_is_lost();
  return lost ? ask(lost, leave) : leave();
}

// Guards the views, which `show` shows anew by the address.
export function guard_views(show) {
  const lead_to = (hash) => {
    may_be_lost = location.hash !== hash;
    if (may_be_lost) location.hash = hash;
    else show();
  };
  addEventListener('hashchange', ({ oldURL }) => {
    const lost = may_be_lost ? null : what_is_lost();
    const wanted = location.hash;
    may_be_lost = false;
    if (lost) {
      history.pushState(null, '', oldURL);
      ask(lost, () => lead_to(wanted));
    } else show();
  });
  document.addEventListener('click', (event) => {
    const anchor = event.target.closest('a[href^="#/"]');
    if (!anchor || event.ctrlKey || event.metaKey || event.shiftKey || !what_is_lost()) return;
    if (anchor.matches(DONE)) {
      may_be_lost = true;
      return;
    }
    event.preventDefault();
    event.stopPropagation();
    ask_first(() => lead_to(anchor.hash));
  }, { capture: true });
  addEventListener('beforeunload', (event) => {
    if (what_is_lost(true)) event.preventDefault();
  });
}

// Whether something is typed and isn't sent, or is shown only once.
export const has_work = () => Boolean(what_is_lost(true));

// Where the focus goes if the person stays; or null. What a form, or a row of one, is sending by now isn't lost, unless the whole
// page is.
function what_is_lost(is_all = false) {
  if (!who()) return null;
  const may_be = (one) => is_all || !one.closest(SENDING);
  const typed = [...main.querySelectorAll(`${KEEPS} ${TYPED}`)].find((control) => is_typed(control) && may_be(control));
  return main.querySelector(ONCE) ?? typed ?? [...main.querySelectorAll(`${KEEPS}${ALTERED}`)].find(may_be) ?? null;
}

function is_typed(control) {
  if (control.closest('[hidden]')) return false;
  if (control.type === 'checkbox') return control.checked !== control.defaultChecked;
  if (!control.matches('select')) return control.value !== control.defaultValue;
  return [...control.options].some((option) => option.selected !== option.defaultSelected);
}

// After Back the browser has put its caret elsewhere, also where the focus is: what had the focus loses it first.
function focus_anew(lost) {
  document.activeElement.blur();
  lost.closest('.folded')?.querySelector('[aria-expanded="false"]').click();
  lost.focus();
}

function ask(lost, leave) {
  const dialog = document.getElementById('leaving');
  const { title, text, leave: lose } = lost.matches(ONCE) ? words.once : words.typed;
  const stay_button = button('stay', words.stay, () => {
    dialog.close();
    focus_anew(lost);
  });
  const leave_button = button('leave', lose, () => {
    dialog.close();
    leave();
  });
  dialog.setAttribute('aria-label', title);
  replace(dialog, element('h2', null, title), paragraph(text), buttons(stay_button, leave_button));
  if (!dialog.open) dialog.showModal();
  stay_button.focus();
}
