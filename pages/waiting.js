// Who waits for the server is told so: the button that was pressed says it, and after a second the line below, and after ten.

import { is_opening_again } from './session.js';
import { say, unsay } from './saying.js';
import { texts } from './texts.js';

const AT_BUTTON = 200;
const SAID_AFTER = [[1000, texts.waiting.soon], [10_000, texts.waiting.long]];

// Does some work while a button that was pressed bears another word, and says so where it takes long.
export const while_waiting = (pressed, word, work) => while_pressed(pressed, word, () => while_silent(pressed, work));

// Where the person signs in again meanwhile, or has left the view of the button, nothing is said.
export async function while_silent(pressed, work) {
  let said = null;
  const timers = SAID_AFTER.map(([after, words]) => setTimeout(() => {
    if (pressed.isConnected && !is_opening_again()) said = say(words);
  }, after));
  try {
    return await work();
  } finally {
    timers.forEach(clearTimeout);
    unsay(said);
  }
}

export async function while_pressed(pressed, word, work) {
  let is_changed = false;
  const [text, name] = [pressed.textContent, pressed.getAttribute('aria-label')];
  const timer = setTimeout(() => {
    is_changed = true;
    pressed.textContent = word;
    pressed.removeAttribute('aria-label');
    pressed.setAttribute('data-waiting', '');
  }, AT_BUTTON);
  try {
    return await work();
  } finally {
    clearTimeout(timer);
    if (is_changed) show_again(pressed, text, name);
  }
}

function show_again(pressed, text, name) {
  pressed.removeAttribute('data-waiting');
  pressed.textContent = text;
  if (name !== null) pressed.setAttribute('aria-label', name);
}
