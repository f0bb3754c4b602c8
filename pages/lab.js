// The code of the laboratory that this browser was in last. It is no secret. It stands in the address, so that a bookmark has it, and
// in the browser's storage under one key; nothing else of these pages is kept there.

import { is_lab_code } from './rules.js';

const KEY = 'koghdise lab';

export const lab_of_address = () => new URLSearchParams(location.search).get('lab') ?? '';

// The laboratory of the address, or else the one that is remembered, or ''.
export function last_lab() {
  try {
    const remembered = localStorage.getItem(KEY) ?? '';
    return lab_of_address() || (is_lab_code(remembered) ? remembered : '');
  } catch {
    return lab_of_address();
  }
}

export function remember_lab(lab) {
  const address = new URL(location.href);
  address.searchParams.set('lab', lab);
  if (address.href !== location.href) history.replaceState(history.state, '', address);
  try {
    localStorage.setItem(KEY, lab);
  } catch {
    // A browser may be set to keep nothing.
  }
}
