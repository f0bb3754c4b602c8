// A control for a value of a field, made from the form: what fits it, and the advice beside it.

import { area, choice, element, field, fresh_id, given, input, radios } from './elements.js';
import { MOST_OF_NAME } from './limits.js';
import { bytes_of, flaw_of_value } from './rules.js';
import { slip_of_value, text_of_slip } from './slips.js';
import { hint_of } from './showing.js';
import { texts } from './texts.js';

const words = texts.entering;

// A control for a value of a field, and the part of the page with its hint, unit and advice: { part, control }.
export function value_control(about, name, label) {
  // (a text that may be longer than a name has room for several lines)
  const control = control_of(about, name, about.size > MOST_OF_NAME ? 3 : 1);
  const advice = advice_part(about);
  const part = field(label, control, hint_of(about), unit_of(about));
  part.append(advice);
  control.setAttribute('aria-describedby', `${control.getAttribute('aria-describedby')} ${advice.id}`);
  advise_at(control, about, advice);
  return { part, control };
}

// So few choices are all seen at once; in a narrow place, where they are so short together.
const [FEW, SHORT_TOGETHER] = [5, 12];

export function control_of({ kind, choices }, name, rows, is_narrow) {
  if (kind === 'choice') return choice_of(name, choices.map((text) => [text, text]), is_narrow);
  if (kind === 'yesno') return choice_of(name, [['yes', words.yes], ['no', words.no]], is_narrow);
  if (kind === 'text') return area(name, { dir: 'auto', rows });
  return input(name, { size: kind === 'date' ? 12 : 18 });
}

function choice_of(name, options, is_narrow) {
  const are_short = options.map(([, text]) => text).join('').length <= SHORT_TOGETHER;
  if (options.length <= FEW && (are_short || !is_narrow)) return radios(name, options);
  return choice(name, [['', texts.choose], ...options], '');
}

export const unit_of = ({ unit }) => unit && element('span', { class: 'unit', 'data-part': 'unit' }, given(unit));

// Where an advice stands. What a text of several lines counts isn't read out at each key.
export function advice_part({ kind }) {
  return element('p', { class: 'advice', 'data-part': 'advice', 'aria-live': kind === 'text' ? null : 'polite', id: fresh_id('advice') });
}

// Advises once a value is typed, and while a text or what doesn't fit is typed on.
export function advise_at(control, about, advice) {
  const advise = () => { advice.textContent = advice_of(about, control.value); };
  control.addEventListener('change', advise);
  control.addEventListener('input', () => { if (advice.textContent || about.kind === 'text') advise(); });
}

// What the server would say about a value, before it is sent; and how long a text is by now.
function advice_of(about, value) {
  if (value === '') return '';
  const flaw = flaw_of_value(about, value);
  if (flaw) return text_of_slip(slip_of_value(about, value)) ?? words.flaws[flaw];
  if (about.kind !== 'text') return '';
  return [words.length(bytes_of(value), about.size), value.endsWith('\n') && words.ends_with_line].filter(Boolean).join(' ');
}

// What to do about a value that is refused, where these pages know more than the refusal.
export function what_to_type(word, form, about, value) {
  const text = text_of_slip(slip_of_value(about, value));
  if (word === 'out_of_range') return [text, words.out_of_range(form.version)].filter(Boolean).join(' ');
  return word === 'bad_value' ? text : null;
}
