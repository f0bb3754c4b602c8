// What a page is for and what to do next: a button in the head shows it above the view, and hides it.

import { element, paragraph, replace } from './elements.js';
import { texts } from './texts.js';

const place = document.getElementById('help');

// The button of a view, by its name. The help of one view isn't left open above another.
export function help_button(name) {
  if (place.dataset.of !== name) {
    place.hidden = true;
    place.dataset.of = name;
    place.setAttribute('aria-label', texts.help.title);
    replace(place, paragraph(texts.help[name]));
  }
  const made = element('button', { type: 'button', 'data-do': 'help', 'aria-controls': place.id, 'aria-expanded': String(!place.hidden) },
    texts.help.title);
  made.addEventListener('click', () => {
    place.hidden = !place.hidden;
    made.setAttribute('aria-expanded', !place.hidden);
  });
  return made;
}
