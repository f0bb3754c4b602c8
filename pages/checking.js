// The check of an inspection copy, in the browser: order, digests, seals and signers by the rules of docs/COPIES.md. No server is
// asked, and nothing here touches the page.
//
//     checked_copy(bytes)   the verdict on a copy, the same as that of `labdesk check`
//     line_of(verdict)      the line that `labdesk check` prints
//
// A field is kept as a string of which each character is one byte, so that lengths are those of bytes; `text_of` gives it as people
// read it.

import { GREATEST_NUMBER, MOST_OF_NAME, MOST_OF_NOTE, MOST_OF_UNIT } from './limits.js';
import { is_key, is_lab_code, is_person_code } from './rules.js';

const HEADER = 'kind,lab,record,version,key,value,unit,person,name,moment,reason,digest,seal';
const COLUMNS = HEADER.split(',');
const BYTE_ORDER_MARK = [0xef, 0xbb, 0xbf];
const BATCH = 256;

// What each kind of row fills in, by the rule of its text; `?` may be empty, and a column that isn't named is.
const FIELDS = {
  copy: { record: 'number', version: 'number', key: 'format', person: 'person?', name: 'name', moment: 'moment' },
  record: { record: 'number', version: 'number', key: 'key', value: 'name' },
  version: {
    record: 'number', version: 'number', key: 'format', value: 'state', person: 'person', name: 'approval?', moment: 'moment',
    reason: 'note?', digest: 'digest',
  },
  entry: {
    record: 'number', version: 'number', key: 'key', value: 'note', unit: 'unit?', person: 'person', moment: 'moment',
    reason: 'note?',
  },
  signature: {
    record: 'number', version: 'number', value: 'meaning', person: 'person', name: 'name', moment: 'moment', reason: 'note?',
    digest: 'digest', seal: 'digest',
  },
  end: { record: 'count', version: 'count', key: 'count', value: 'count' },
};

const FOLLOWERS = {
  copy: ['record', 'end'],
  record: ['version'],
  version: ['entry', 'signature', 'version', 'record', 'end'],
  entry: ['entry', 'signature', 'version', 'record', 'end'],
  signature: ['signature', 'version', 'record', 'end'],
  end: [],
};

// The state of a version by the meanings of its signatures.
const STATES = { '': 'open', authorship: 'signed', 'authorship review': 'released', 'authorship rejection': 'rejected' };
const STATES_WITH_APPROVAL = {
  '': 'open', authorship: 'signed', 'authorship review': 'reviewed', 'authorship rejection': 'rejected',
  'authorship review approval': 'released', 'authorship review rejection': 'rejected',
};

// ---- bytes and rows

const COMMA = 0x2c, QUOTE = 0x22, CR = 0x0d, LF = 0x0a;

// What a field says, as people read it. Bytes that are no UTF-8 throw a TypeError.
export function text_of(field) {
  const bytes = Uint8Array.from(field, (one) => one.charCodeAt(0));
  return new TextDecoder('utf-8', { fatal: true, ignoreBOM: true }).decode(bytes);
}

function is_utf8(field) {
  if (/^[\x00-\x7f]*$/.test(field)) {
    return true;
  }
  try {
    text_of(field);
    return true;
  } catch {
    return false;
  }
}

// A string of which each character is one of the bytes.
function string_of(bytes) {
  let text = '';
  for (let at = 0; at < bytes.length; at += 8192) {
    text += String.fromCharCode(...bytes.subarray(at, at + 8192));
  }
  return text;
}

// Reads the field that begins at a place: what it says, and where what ends it stands. A quote that doesn't stand in front of a
// field is a byte like others, and so is all that follows a closing quote.
function field_at(bytes, start) {
  let at = start, text = '';
  if (bytes[at] === QUOTE) {
    let from = ++at;
    while (at < bytes.length && (bytes[at] !== QUOTE || bytes[at + 1] === QUOTE)) {
      if (bytes[at] === QUOTE) {
        text += string_of(bytes.subarray(from, at + 1));
        from = ++at + 1;
      }
      at += 1;
    }
    text += string_of(bytes.subarray(from, Math.min(at, bytes.length)));
    at = Math.min(at + 1, bytes.length);
  }
  const from = at;
  while (at < bytes.length && bytes[at] !== COMMA && bytes[at] !== CR && bytes[at] !== LF) {
    at += 1;
  }
  return { text: text + string_of(bytes.subarray(from, at)), end: at };
}

// The rows of a file as a reader of CSV counts them: lists of fields. Rows end in LF, CR LF or CR, and an empty line is no row.
export function* rows_of(bytes) {
  let at = BYTE_ORDER_MARK.every((byte, place) => bytes[place] === byte) ? BYTE_ORDER_MARK.length : 0;
  let row = [];
  while (at < bytes.length) {
    if (row.length === 0 && (bytes[at] === CR || bytes[at] === LF)) {
      at += 1;
      continue;
    }
    const field = field_at(bytes, at);
    row.push(field.text);
    at = field.end + 1;
    if (bytes[field.end] !== COMMA) {
      yield row;
      row = [];
    }
  }
  if (row.length > 0) {
    // (a comma was the last byte)
    yield [...row, ''];
  }
}

// ---- texts

function is_text(field, least, most, control) {
  return field.length >= least && field.length <= most && !control.test(field);
}

function is_name(field, most) {
  return is_text(field, 1, most, /[\x00-\x1f\x7f]/) && !field.startsWith(' ') && !field.endsWith(' ');
}

function is_moment(field) {
  const parts = /^([0-9]{4})-([0-9]{2})-([0-9]{2})T([0-9]{2}):([0-9]{2}):([0-9]{2})Z$/.exec(field);
  if (!parts) {
    return false;
  }
  const [year, month, day, hour, minute, second] = parts.slice(1).map(Number);
  const is_day = month >= 1 && month <= 12 && day >= 1 && day <= new Date(Date.UTC(year, month, 0)).getUTCDate();
  return year >= 1970 && is_day && hour <= 23 && minute <= 59 && second <= 59;
}

const TEXTS = {
  lab: is_lab_code,
  person: is_person_code,
  key: is_key,
  name: (field) => is_name(field, MOST_OF_NAME),
  unit: (field) => is_name(field, MOST_OF_UNIT),
  note: (field) => is_text(field, 1, MOST_OF_NOTE, /[\x00-\x09\x0b-\x1f\x7f]/),
  digest: (field) => /^[0-9a-f]{64}$/.test(field),
  number: (field) => /^[1-9][0-9]{0,9}$/.test(field) && Number(field) <= GREATEST_NUMBER,
  count: (field) => /^(0|[1-9][0-9]{0,11}|1000000000000)$/.test(field),
  format: (field) => field === '1' || field === '2',
  state: (field) => ['open', 'signed', 'reviewed', 'released', 'rejected'].includes(field),
  meaning: (field) => ['authorship', 'review', 'rejection', 'approval'].includes(field),
  approval: (field) => field === 'approval',
  moment: is_moment,
};

// Whether a field is a text of that rule; where there is none it is empty.
function admits(rule, field) {
  if (!rule || field === '') {
    return field === '' && (!rule || rule.endsWith('?'));
  }
  return TEXTS[rule.replace('?', '')](field) && is_utf8(field);
}

// The row as an object by its columns, or null where a copy, of the older rules or the newer ones, can't have such a row.
function line_in(row, is_older) {
  const fields = Object.hasOwn(FIELDS, row[0]) ? { lab: 'lab', ...FIELDS[row[0]] } : null;
  if (!fields || row.length !== COLUMNS.length) {
    return null;
  }
  const line = Object.fromEntries(COLUMNS.map((column, place) => [column, row[place]]));
  const reads = COLUMNS.slice(1).every((column) => admits(fields[column], line[column]));
  return reads && agrees(line) && !(is_older && is_of_newer_rules(line)) ? line : null;
}

// Whether the fields of a line agree with one another.
function agrees(line) {
  if (line.kind === 'version') {
    return (line.version === '1') === (line.reason === '') && !(line.key === '1' && line.name !== '');
  }
  return line.kind !== 'signature' || (line.value === 'rejection') === (line.reason !== '');
}

function is_of_newer_rules(line) {
  if (line.kind === 'version') {
    return line.key === '2' || line.value === 'reviewed';
  }
  return line.kind === 'signature' && line.value === 'approval';
}

// ---- order

// What is kept of a copy while its rows come.
function nothing_kept() {
  return {
    copy: null, record: null, version: null, version_row: 0, previous: '', last: '', entries: [], signatures: [],
    counts: { record: 0, version: 0, entry: 0, signature: 0 },
  };
}

function is_in_place(kept, line) {
  if (!kept.copy) {
    return line.kind === 'copy' && Number(line.record) <= Number(line.version);
  }
  if (line.lab !== kept.copy.lab || !FOLLOWERS[kept.last].includes(line.kind)) {
    return false;
  }
  if (line.kind === 'record') {
    return is_next_record(kept, Number(line.record));
  }
  if (line.kind === 'version') {
    return is_next_version(kept, line);
  }
  if (line.kind === 'end') {
    const counts = Object.values(kept.counts).map(String);
    return [line.record, line.version, line.key, line.value].every((count, place) => count === counts[place]);
  }
  return line.record === kept.version.record && line.version === kept.version.version;
}

function is_next_record(kept, number) {
  const above = kept.record ? Number(kept.record.record) : 0;
  return number > above && number >= Number(kept.copy.record) && number <= Number(kept.copy.version);
}

function is_next_version(kept, line) {
  if (kept.last === 'record') {
    return line.record === kept.record.record && line.version === '1';
  }
  const is_settled = ['released', 'rejected'].includes(kept.version.value);
  return line.record === kept.version.record && Number(line.version) === Number(kept.version.version) + 1 && is_settled;
}

// ---- digests, seals and signers

function text_of_items(items) {
  return items.map((item) => `${item.length}:${item}\n`).join('');
}

// The text of the version that is kept, which its digest covers.
function text_of_version(kept) {
  const { version, record, entries } = kept;
  const items = [`labrecord ${version.key}`, version.lab, version.record, version.version, record.key, record.version];
  if (version.key === '2') {
    items.push(version.name === '' ? 'no' : 'yes');
  }
  items.push(record.value, version.version === '1' ? '-' : kept.previous, version.reason, version.person, version.moment);
  items.push(String(entries.length));
  for (const entry of entries) {
    items.push(entry.key, entry.value, entry.unit, entry.person, entry.moment, entry.reason);
  }
  return text_of_items(items);
}

// The text of which a signature's seal is the SHA-256.
function text_of_seal(line) {
  return text_of_items([line.digest, line.lab, line.person, line.name, line.value, line.moment, line.reason]);
}

// Whether the signatures are those of the version's state, and of persons who may sign.
function has_its_signers(kept) {
  const entered = new Set(kept.entries.map((entry) => entry.person));
  const signers = kept.signatures.map((signature) => signature.person);
  const meanings = kept.signatures.map((signature) => signature.value).join(' ');
  const states = kept.version.name === '' ? STATES : STATES_WITH_APPROVAL;
  if (!Object.hasOwn(states, meanings) || states[meanings] !== kept.version.value) {
    return false;
  }
  const is_authored = signers.length === 0 || entered.has(signers[0]);
  return is_authored && !signers.slice(1).some((person) => entered.has(person)) && new Set(signers).size === signers.length;
}

// The SHA-256 of a text, in lower hexadecimal digits.
async function sha256(text) {
  const bytes = Uint8Array.from(text, (one) => one.charCodeAt(0));
  const hash = new Uint8Array(await crypto.subtle.digest('SHA-256', bytes));
  return Array.from(hash, (byte) => byte.toString(16).padStart(2, '0')).join('');
}

// ---- the check

function flaw(word, row) {
  return { verdict: word, row };
}

// The rest of a check is a list of claims, in the order in which flaws are told: that the hash of a text is so, or else there is
// this flaw. Each of these generators yields claims, and returns the flaw that was found without a hash, if one was.

// The version whose rows have ended, if any have.
function* end_of_version(kept) {
  if (!['version', 'entry', 'signature'].includes(kept.last)) {
    return null;
  }
  yield { text: text_of_version(kept), hash: kept.version.digest, flaw: flaw('digest', kept.version_row) };
  return has_its_signers(kept) ? null : flaw('one_person', kept.version_row);
}

function* taken_signature(kept, line, row) {
  if (line.digest !== kept.version.digest) {
    return flaw('digest', row);
  }
  yield { text: text_of_seal(line), hash: line.seal, flaw: flaw('seal', row) };
  kept.signatures.push(line);
  return null;
}

function keep(kept, line, row) {
  if (line.kind === 'copy') {
    kept.copy = line;
  } else if (line.kind === 'record') {
    kept.record = line;
  } else if (line.kind === 'version') {
    kept.previous = kept.version ? kept.version.digest : '';
    Object.assign(kept, { version: line, version_row: row, entries: [], signatures: [] });
  } else if (line.kind === 'entry') {
    kept.entries.push(line);
  }
  if (Object.hasOwn(kept.counts, line.kind)) {
    kept.counts[line.kind] += 1;
  }
  kept.last = line.kind;
}

function* taken_row(kept, fields, row) {
  const line = line_in(fields, !kept.copy || kept.copy.key === '1');
  if (!line) {
    return flaw('bad_row', row);
  }
  if (!is_in_place(kept, line)) {
    return flaw('order', row);
  }
  let found = null;
  if (line.kind === 'signature') {
    found = yield* taken_signature(kept, line, row);
  } else if (line.kind !== 'entry') {
    found = yield* end_of_version(kept);
  }
  keep(kept, line, row);
  return found;
}

// The claims of a whole copy, and what is found where all of them hold.
function* claims_of(bytes) {
  const kept = nothing_kept();
  let row = 0;
  for (const fields of rows_of(bytes)) {
    row += 1;
    let found = null;
    if (row > 1) {
      found = yield* taken_row(kept, fields, row);
    } else if (fields.length !== COLUMNS.length || fields.some((field, place) => field !== COLUMNS[place])) {
      found = flaw('bad_row', 1);
    }
    if (found) {
      return found;
    }
  }
  if (kept.last !== 'end') {
    return (yield* end_of_version(kept)) ?? flaw('no_end', null);
  }
  return { verdict: 'good', row: null, counts: kept.counts };
}

// The flaw of the first of these claims that doesn't hold, if there is one.
async function first_that_fails(claims) {
  const hashes = await Promise.all(claims.map((claim) => sha256(claim.text)));
  const place = claims.findIndex((claim, at) => hashes[at] !== claim.hash);
  return place < 0 ? null : claims[place].flaw;
}

// Checks a copy, which is a Uint8Array or an ArrayBuffer. The verdict is {verdict: "good", row: null, counts: {record, version, entry,
// signature}}, or that of the first flaw: {verdict: WORD, row: NUMBER}, where WORD is that of docs/COPIES.md, and no_end has no row.
export async function checked_copy(bytes) {
  const claims = claims_of(bytes instanceof Uint8Array ? bytes : new Uint8Array(bytes));
  for (;;) {
    const batch = [];
    let next = claims.next();
    while (!next.done && batch.push(next.value) < BATCH) {
      next = claims.next();
    }
    const found = (await first_that_fails(batch)) ?? (next.done ? next.value : null);
    if (found) {
      return found;
    }
  }
}

// The line that `labdesk check` prints for a verdict.
export function line_of(verdict) {
  if (verdict.verdict === 'good') {
    return `good ${Object.values(verdict.counts).join(' ')}`;
  }
  return verdict.row === null ? `bad ${verdict.verdict}` : `bad ${verdict.verdict} ${verdict.row}`;
}
