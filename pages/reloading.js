// F5, and Control and R, read the view anew, so that the only tab of a session keeps it. With Shift they are the browser's.

import { has_work } from './leaving.js';
import { say } from './saying.js';
import { who } from './session.js';
import { texts } from './texts.js';

const is_reload = ({ key, ctrlKey, metaKey, shiftKey, altKey }) =>
  !shiftKey && !altKey && (key === 'F5' ? !ctrlKey && !metaKey : ['r', 'R'].includes(key) && ctrlKey !== metaKey);

export function guard_reloads(show) {
  addEventListener('keydown', (event) => {
    if (!who() || !is_reload(event)) return;
    event.preventDefault();
    if (!event.repeat && !document.querySelector('dialog[open]')) read_view_anew(show);
  });
}

// Where something is typed the view reads anew what stands beside it, if it has such a button, and else stays as it is.
function read_view_anew(show) {
  const again = document.querySelector('#main [data-do="read_again"]');
  if (!has_work()) show();
  else if (again) again.click();
  else say(texts.said_kept);
}
