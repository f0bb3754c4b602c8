// Small helpers over the document. Texts become text nodes and attributes, never HTML.

import { texts } from './texts.js';
import { marked, pieces_of } from './unseen.js';
import { while_waiting } from './waiting.js';

const MOST_LINKS = 5;
let last_id = 0;

export function fresh_id(word) {
  last_id += 1;
  return `${word}-${last_id}`;
}

// An element. An attribute that is a function listens to the event of its name; true is an empty attribute, and false, null and
// undefined are none. Children are nodes and texts, in lists too; what is empty is left out.
export function element(name, attributes, ...children) {
  const made = document.createElement(name);
  for (const [key, value] of Object.entries(attributes ?? {})) set_attribute(made, key, value);
  made.append(...children.flat(Infinity).filter((child) => child || child === 0));
  return made;
}

function set_attribute(made, key, value) {
  if (typeof value === 'function') made.addEventListener(key, value);
  else if (value === true) made.setAttribute(key, '');
  else if (value !== false && value !== null && value !== undefined) made.setAttribute(key, value);
}

export function paragraph(...children) {
  return element('p', null, children);
}

export function buttons(...children) {
  return element('p', { class: 'buttons' }, children.flatMap((child) => [child, ' ']));
}

export function actions(...children) {
  return element('div', { class: 'actions' }, children.flatMap((child) => [child, ' ']));
}

// A piece of a line, by the name by which it is found.
export function named(name, ...children) {
  return element('span', { 'data-part': name }, children);
}

// A text that the laboratory gave: kept apart from the direction of the text around it, and with marks beside what isn't seen, so
// that who signs it sees that it is there. Its characters stay as they are.
export function given(text, part) {
  const pieces = pieces_of(text).map(({ seen, unseen, code }) =>
    seen ?? element('span', { class: 'unseen', 'data-code': code }, unseen));
  return element('bdi', { class: 'given', 'data-part': part }, pieces);
}

export function moment(text, part = 'moment') {
  const utc = `${text.slice(0, 10)} ${text.slice(11, 19)} ${texts.moments.utc}`;
  return element('span', { class: 'moment' },
    element('time', { datetime: text, 'data-part': part }, utc),
    element('span', { class: 'local' }, ' ', texts.moments.local(local_time(new Date(text)))));
}

function local_time(date) {
  const two = (number) => String(number).padStart(2, '0');
  const day = [String(date.getFullYear()).padStart(4, '0'), two(date.getMonth() + 1), two(date.getDate())].join('-');
  return `${day} ${two(date.getHours())}:${two(date.getMinutes())}`;
}

// What stands in a view until it is read.
export function reading() {
  return element('p', { class: 'reading' }, texts.reading);
}

// The heading of a view, which takes the focus once the view is shown, and is the title of the browser's page.
export function heading(...children) {
  return element('h1', { tabindex: '-1' }, children);
}

export function section(title, attributes, ...children) {
  const id = fresh_id('title');
  return element('section', { 'aria-labelledby': id, ...attributes }, element('h2', { id }, title), children);
}

export function link(hash, text, attributes) {
  return element('a', { href: hash, ...attributes }, text);
}

// A link to what this person may do here.
export function action(hash, text, name) {
  return link(hash, text, { class: 'action', 'data-do': name });
}

// Links of which one is to the page that is shown: each { place, text, is_shown, behind }. Of many the last two, and the one that is
// shown, are seen at first.
export function link_row(label, links) {
  const is_older = (at, is_shown) => links.length > MOST_LINKS && at < links.length - 2 && !is_shown;
  const items = links.map(({ place, text, is_shown, behind }, at) =>
    element('li', { class: is_older(at, is_shown) && 'older' },
      link(place, text, { 'aria-current': is_shown ? 'page' : null }), ' ', behind));
  const list = element('ol', null, items);
  return element('nav', { 'aria-label': label, class: 'versions' }, unfolding(list, texts.show_older), list);
}

// How many rows a list has at first, so that it isn't much longer than three windows, and how many more a press shows.
export const first_rows = () => (matchMedia('(min-width: 46rem)').matches ? 36 : 11);
const MORE_ROWS = 300;

// A button that shows more of a list: `show` draws it with `most` rows at most. The focus goes to the first row that is added.
export function more_button(shown, all, rows_of, show) {
  const count = Math.min(MORE_ROWS, all - shown);
  return count > 0 && button('show_more', texts.show_more(count), () => {
    show(shown + count);
    rows_of()[shown]?.focus();
  });
}

// A button that shows, and hides, what is older in a part: its descendants of that class, if it has any. On paper they are there in
// any case. `text` is a function of how many there are.
export function unfolding(part, text) {
  const count = part.querySelectorAll('.older').length;
  if (!count) return null;
  part.id ||= fresh_id('part');
  part.setAttribute('data-folded', '');
  const made = button('unfold', text(count), () => {
    made.setAttribute('aria-expanded', !part.toggleAttribute('data-folded'));
  }, { class: 'as-link', 'aria-expanded': 'false', 'aria-controls': part.id });
  return made;
}

// A button. While what it does isn't done it says so, and another click does nothing.
export function button(command, text, click, attributes) {
  const made = element('button', { type: 'button', 'data-do': command, ...attributes }, text);
  made.addEventListener('click', async (event) => {
    if (made.getAttribute('aria-busy')) return;
    made.setAttribute('aria-busy', 'true');
    try {
      await while_waiting(made, texts.busy, () => click(event));
    } finally {
      made.removeAttribute('aria-busy');
    }
  });
  return made;
}

// What is known, as pairs: label, content, and the name by which the content is found.
export function facts(pairs) {
  const kept = pairs.filter((pair) => pair);
  return element('dl', { class: 'facts' }, kept.map(([label, content, part]) =>
    element('div', null, element('dt', null, label), element('dd', { 'data-part': part }, content))));
}

// A table. A row is { attributes, cells }, and its first cell is its header. Roles are named, since narrow pages lay tables out as
// lists.
export function table(caption, columns, rows) {
  const head = columns.map((text) => element('th', { scope: 'col', role: 'columnheader' }, text));
  return element('table', { role: 'table' },
    element('caption', null, caption),
    element('thead', { role: 'rowgroup' }, element('tr', { role: 'row' }, head)),
    element('tbody', { role: 'rowgroup' }, rows.map((row) => table_row(columns, row))));
}

export function table_row(columns, { attributes, cells }) {
  const about = (at) => (at ? { role: 'cell' } : { role: 'rowheader', scope: 'row' });
  return element('tr', { role: 'row', ...attributes }, cells.map((cell, at) =>
    element(at ? 'td' : 'th', { ...about(at), 'data-label': columns[at] }, element('div', null, cell))));
}

export function input(name, attributes) {
  return element('input', { name, type: 'text', autocomplete: 'off', autocapitalize: 'off', spellcheck: 'false', ...attributes });
}

export function area(name, attributes) {
  return element('textarea', { name, rows: 2, ...attributes });
}

// A list to choose from: options are pairs of value and text.
export function choice(name, options, chosen, attributes) {
  return element('select', { name, ...attributes }, options.map(([value, text]) =>
    element('option', { value, selected: value === chosen, dir: 'auto' }, marked(text))));
}

// A few options, each a radio button. The group is used like a list to choose from: it has a name and a value, and takes the focus. A
// letter chooses the next option that begins with it. Where nothing was chosen at first, Delete and a button choose nothing again.
export function radios(name, options, chosen = '') {
  const own = fresh_id(name);
  const boxes = options.map(([value]) => element('input', { type: 'radio', name: own, value, checked: value === chosen }));
  const none = element('button', { type: 'button', 'data-do': 'clear', click: () => choose('') }, texts.clear);
  const group = element('fieldset', { class: 'radios', role: 'radiogroup', name, input: () => show_none() },
    boxes.map((box, at) => element('label', null, box, ' ', given(options[at][1]))), chosen === '' && none);
  const chosen_box = () => boxes.find(({ checked }) => checked);
  const show_none = () => { none.toggleAttribute('data-idle', !chosen_box()); };
  const put = (value) => {
    for (const box of boxes) box.checked = box.value === value;
    show_none();
  };
  const choose = (value) => {
    put(value);
    group.focus();
    for (const event of ['input', 'change']) group.dispatchEvent(new Event(event, { bubbles: true }));
  };
  show_none();
  Object.defineProperties(group, {
    value: { get: () => chosen_box()?.value ?? '', set: put },
    defaultValue: { value: chosen },
    focus: { value: (how) => (chosen_box() ?? boxes[0]).focus(how) },
  });
  group.addEventListener('keydown', (event) => {
    const value = value_by_key(event, options, group.value, chosen === '');
    if (value === null) return;
    event.preventDefault();
    choose(value);
  });
  return group;
}

// What a key chooses among options, or null.
function value_by_key({ key, ctrlKey, metaKey, altKey }, options, value, may_be_none) {
  if (ctrlKey || metaKey || altKey) return null;
  if (['Delete', 'Backspace'].includes(key)) return may_be_none ? '' : null;
  const at = options.findIndex(([one]) => one === value);
  const in_turn = [...options.slice(at + 1), ...options.slice(0, at + 1)];
  const found = key.length === 1 && key !== ' ' && in_turn.find(([, text]) => text.toLowerCase().startsWith(key.toLowerCase()));
  return found ? found[0] : null;
}

// The control that a node is, or is of: the group of a radio button.
export const control_at = (node) => node.closest('fieldset[name]') ?? node;

// The legend and the hint of a group of radio buttons.
function group_field(label, group, hint) {
  const legend = element('legend', { id: fresh_id('legend') }, label);
  const about = hint && element('p', { class: 'hint', id: fresh_id('hint') }, hint);
  group.setAttribute('aria-labelledby', legend.id);
  if (about) group.setAttribute('aria-describedby', about.id);
  group.prepend(...[legend, about].filter(Boolean));
  return element('div', { class: 'field', 'data-field': group.name }, group);
}

// A control with its label and hint. What stands behind it, as a unit, is part of its name.
export function field(label, control, hint, behind) {
  if (control.matches('fieldset')) return group_field(label, control, hint);
  control.id ||= fresh_id(control.name);
  const name = behind ? fresh_id('label') : null;
  if (behind) {
    behind.id ||= fresh_id('behind');
    control.setAttribute('aria-labelledby', `${name} ${behind.id}`);
  }
  const about = hint ? element('p', { class: 'hint', id: fresh_id('hint') }, hint) : null;
  if (about) control.setAttribute('aria-describedby', about.id);
  return element('div', { class: 'field', 'data-field': control.name },
    element('label', { for: control.id, id: name }, label), about,
    behind ? element('span', { class: 'beside' }, control, behind) : control);
}

// Controls that filter a list among what is loaded, and ask no server.
export function filter_form(...fields) {
  return element('form', { class: 'filter', 'data-form': 'filter', 'aria-label': texts.filter,
    submit: (event) => event.preventDefault() }, fields);
}

// A filter that is folded at first where the window is narrow, unless it filters.
export function folded_filter(made, filter) {
  const is_open = matchMedia('(min-width: 46rem)').matches || Object.values(filter).some(Boolean);
  return element('details', { open: is_open }, element('summary', null, texts.filter), made);
}

// A part that is folded on the screen until it is opened, and stands on paper.
export function folded(title, attributes, ...children) {
  return element('details', { class: 'on-paper', ...attributes }, element('summary', null, title), children);
}

let opened_for_paper = [];
addEventListener('beforeprint', () => {
  opened_for_paper = [...document.querySelectorAll('details.on-paper:not([open])')];
  for (const one of opened_for_paper) one.open = true;
});
addEventListener('afterprint', () => {
  for (const one of opened_for_paper) one.open = false;
});

// A control of a filter: a list to choose from, and any of it at first.
export function filter_choice(name, options, filter, changed) {
  return choice(name, [['', texts.any], ...options], filter[name], {
    change: ({ target }) => {
      filter[name] = target.value;
      changed();
    },
  });
}

// Offers more in a list to choose from, in the order of their values.
export function offer(list, options) {
  const there = new Set([...list.options].map(({ value }) => value));
  for (const [value, text] of options.filter(([one]) => !there.has(one))) {
    const behind = [...list.options].find((one) => one.value > value) ?? null;
    list.insertBefore(element('option', { value, dir: 'auto' }, marked(text)), behind);
  }
}

export function checkbox(name, label, attributes) {
  const control = element('input', { type: 'checkbox', name, id: fresh_id(name || 'box'), ...attributes });
  return element('div', { class: 'check', 'data-field': name }, control, element('label', { for: control.id }, label));
}

// A password, which its owner may look at while it is typed.
export function password_field(name, label, hint, autocomplete = 'off') {
  const control = input(name, { type: 'password', autocomplete, 'data-secret': true });
  const shown = checkbox('', texts.passwords.show, {
    change: (event) => { control.type = event.target.checked ? 'text' : 'password'; },
  });
  const made = field(label, control, hint);
  made.append(shown);
  return made;
}

export function replace(place, ...children) {
  place.replaceChildren(...children.flat(Infinity).filter((child) => child));
}

// Replaces what stands in a place. If that takes the focus away, the first button there has it, or else the heading of the view.
export function replace_focused(place, ...children) {
  const had_focus = place.contains(document.activeElement);
  replace(place, ...children);
  if (had_focus) (place.querySelector('button') ?? place.closest('[data-page]')?.querySelector('h1'))?.focus();
}

// The focus of a view that is shown: where a person types first, or else its heading.
export function focus_view(place) {
  (place.querySelector('[data-first]') ?? place.querySelector('h1'))?.focus();
}

// Bytes as a file that the browser saves.
export function save_file(name, bytes, type) {
  const address = URL.createObjectURL(bytes instanceof Blob ? bytes : new Blob([bytes], { type }));
  const anchor = element('a', { href: address, download: name, hidden: true });
  document.body.append(anchor);
  anchor.click();
  anchor.remove();
  setTimeout(() => URL.revokeObjectURL(address), 60_000);
}
