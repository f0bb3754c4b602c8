// The limits of the server, as its documents give them, and those of these pages. Each number stands here alone; tests/pages_code
// compares them with the documents, and with what texts.js says of them.

// Codes, as patterns (docs/NAMES.md).
export const LAB_CODE = '[a-z][a-z0-9-]{0,11}';
export const PERSON_CODE = '[a-z][a-z0-9-]{1,15}';
export const KEY = '[a-z][a-z0-9_]{0,23}';

// Bytes of a name, of a note and of a unit (docs/NAMES.md), and of a new password (docs/PERSONS.md).
export const [MOST_OF_NAME, MOST_OF_NOTE, MOST_OF_UNIT] = [120, 1000, 20];
export const [LEAST_OF_PASSWORD, MOST_OF_PASSWORD] = [12, 128];

// Numbers of records, versions and rows (docs/NAMES.md), how many of them one request reads (docs/COMMANDS.md), and the versions
// of a form or a record (docs/RECORDS.md).
export const GREATEST_NUMBER = 1_000_000_000;
export const AT_ONCE = 100;
export const MOST_VERSIONS = 99;

// Fields and values (docs/FORMS.md).
export const [MOST_DIGITS, MOST_DECIMALS, MOST_CHOICES] = [15, 6, 20];

// A session, in seconds (docs/COMMANDS.md), and how long before its end the pages warn.
export const [IDLE_SECONDS, LONGEST_SECONDS, WARNING_SECONDS] = [900, 28_800, 120];

// Samples of a grid (docs/PAGES.md).
export const MOST_SAMPLES = 200;
