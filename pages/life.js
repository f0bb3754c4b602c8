// A view has a life: it begins where it is shown, and is over where another one takes its place. What a view started may be done
// later than that. Then it leads nowhere, gives the page no title and writes nothing: it only says what was done.

import { element, replace } from './elements.js';
import { texts } from './texts.js';

// A view that begins, in place of the one before.
export function begin_view(main, name) {
  const view = element('div', { 'data-page': name });
  replace(main, view);
  return view;
}

// The view that something stands in; null of a dialog, which no view ends.
export const view_of = (node) => node.closest('[data-page]');

export const is_over = (view) => view !== null && !view.isConnected;

// Whether the view that something stands in is over.
export const is_left = (node) => is_over(view_of(node));

export const title_of = (view) => view.querySelector('h1')?.textContent ?? '';

// Gives the page the title of a view, as it is by now, with a word in front where something is refused.
export function name_view(view, before = '') {
  if (view?.isConnected) document.title = before + texts.title(title_of(view));
}

// Leads to another place, unless the view is over. Where the view is done, Back doesn't lead to it again.
export function go(view, place, is_done) {
  if (is_over(view)) return;
  if (is_done) location.replace(place);
  else location.hash = place;
}

// A list that is left by the link of a record notes the record in the browser's history, so that Back leads to its row.
export const leave_at = (record) => history.replaceState({ record }, '');

export const left_at = () => history.state?.record;

export function take_up(list) {
  const record = left_at();
  if (!record) return;
  list.querySelector(`[data-record="${record}"] a`)?.focus();
  history.replaceState(null, '');
}
