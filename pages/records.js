// The forms that these pages know.

import { hundred_to } from './numbers.js';
import { known_records, last_record, records_between } from './reading.js';
import { notes } from './session.js';

// No command lists the forms, so those are known that were seen in this session: of records that were read, and these.
export function remember_forms(forms) {
  notes().set('forms', new Set([...notes().get('forms') ?? [], ...forms]));
}

export function forms_seen() {
  return [...new Set([...known_records().map(({ form }) => form), ...notes().get('forms') ?? []])].sort();
}

export async function load_newest() {
  const last = await last_record();
  if (last) await records_between(...hundred_to(last));
}
