// The line at the foot of the window, which screen readers read out: what was just done, in few words. It stays until the next
// one, until it is closed, or until the person does something that sends a command or shows another view.

import { texts } from './texts.js';

const line = document.getElementById('said');
const text = line.querySelector('p');
const close = line.querySelector('button');
let last = null;
let said_at = 0;
let acted_at = 0;

// Says something, and gives what `unsay` takes.
export function say(...children) {
  text.replaceChildren(...children.flat(Infinity).filter((child) => child));
  close.hidden = !text.hasChildNodes();
  said_at = performance.now();
  last = {};
  uncover();
  return last;
}

// Takes away what was said, unless something else was said since.
export function unsay(said) {
  if (said && said === last) say();
}

export function forget_said() {
  if (said_at < acted_at) say();
}

// What has the focus doesn't stay behind the line.
function uncover() {
  const focused = document.activeElement;
  if (close.hidden || focused === document.body || line.contains(focused)) return;
  const [there, own] = [focused.getBoundingClientRect(), line.getBoundingClientRect()];
  if (there.bottom > own.top && there.top < own.bottom) focused.scrollIntoView({ block: 'nearest' });
}

for (const event of ['keydown', 'pointerdown', 'click']) {
  addEventListener(event, () => { acted_at = performance.now(); }, { capture: true });
}
addEventListener('keydown', ({ key }) => {
  if (key === 'Escape' && !document.querySelector('dialog[open]')) say();
});
close.textContent = texts.close;
close.addEventListener('click', () => {
  say();
  document.getElementById('main').focus();
});
