// Tables of cases for the modules of the pages that touch no page. The word is the folder of the modules; each line that is printed is a
// check's.
import { isDeepStrictEqual } from 'node:util';
import { pathToFileURL } from 'node:url';

const folder = pathToFileURL(`${process.argv[2]}/`);
const load = (name) => import(new URL(`${name}.js`, folder));
const shown = (one) => JSON.stringify(one)?.slice(0, 400);

function same(what, there, wanted) {
  const good = isDeepStrictEqual(there, wanted);
  console.log(`${good ? 'ok' : 'FAILED'} pages_code: ${what}${good ? '' : `: ${shown(there)}, and ${shown(wanted)} is wanted`}`);
}

// What of a table of [words, wanted] comes otherwise.
function table(what, called, cases) {
  const otherwise = cases.map(([words, wanted]) => [words, called(...words), wanted]).filter(([, there, wanted]) => !isDeepStrictEqual(there, wanted));
  same(`${cases.length} cases of ${what}`, otherwise, []);
}

const [numbers, near, pasting, places, unseen, slips, walking, texts, outcomes, api] = await Promise.all(
  ['numbers', 'near', 'pasting', 'places', 'unseen', 'slips', 'walking', 'texts', 'outcomes', 'api'].map(load));

// ---- numbers.js

async function look_for_last() {
  const wrong = [];
  for (const last of [0, 1, 2, 99, 100, 101, 199, 200, 201, 1500, 6400, 6401, 65_537, 999_999_999, 1_000_000_000]) {
    for (const known of [0, 1, last - 250, last - 100, last - 1, last].filter((one) => one >= 0 && one <= last)) {
      let reads = 0;
      const read = (from, to) => {
        reads += 1;
        if (from < 1 || to < from || to - from > 99 || to > 1_000_000_000) throw new Error(`${from} to ${to}`);
        return Array.from({ length: Math.max(0, Math.min(to, last) - from + 1) });
      };
      const found = await numbers.last_number(read, known);
      if (found !== last || reads > 60 || (last - known < 99 && known > 0 && reads > 1)) wrong.push([last, known, found, reads]);
    }
  }
  same('the last number is found from each known one, by requests that the server takes, and at once where it is near', wrong, []);
}

async function look_for_first() {
  const wrong = [];
  for (const last of [0, 1, 2, 3, 100, 4711]) {
    for (const first of [1, 2, 3, 50, 4000, last, last + 1].filter((one) => one >= 1 && one <= last + 1)) {
      const asked = [];
      const found = await numbers.first_number(last, (number) => {
        asked.push(number);
        return number < first;
      });
      if (found !== first || asked.some((one) => one < 1 || one > last) || asked.length > 14) wrong.push([last, first, found, asked.length]);
    }
  }
  same('the first number of which something holds is found in few steps', wrong, []);
}

async function look_at_numbers() {
  await look_for_last();
  await look_for_first();
  table('hundreds', (from, to) => [...numbers.hundreds(from, to)],
    [[[1, 1], [[1, 1]]], [[1, 100], [[1, 100]]], [[1, 101], [[1, 100], [101, 101]]], [[5, 250], [[5, 104], [105, 204], [205, 250]]], [[2, 1], []]]);
  table('the hundred that ends with a number', numbers.hundred_to, [[[1], [1, 1]], [[100], [1, 100]], [[101], [2, 101]], [[1_000_000_000], [999_999_901, 1_000_000_000]]]);
  table('a number as it is typed', numbers.number_of, [
    [['1'], 1], [[' 7 '], 7], [['1000000000'], 1_000_000_000], [['1000000001'], null], [['0'], null], [['01'], null], [['-1'], null], [['1.0'], null],
    [['1e3'], null], [[''], null], [['seven'], null], [['1,000'], null], [['9'.repeat(30)], null],
  ]);
}

// ---- near.js, pasting.js, places.js, unseen.js

function look_at_near() {
  const known = ['Well 1', 'well 2', 'Well  3', 'Wel 4', 'Pond A', 'Well 1', 'Sample-1'].map((sample, at) => ({ record: at + 1, form: at === 5 ? 'soil' : 'water', sample }));
  const found = (form, sample) => near.near_records(known, form, sample).map(({ record }) => record);
  table('names that are nearly alike', found, [
    [['water', 'Well 2'], [2]], [['water', 'Well 3'], [3]], [['water', 'Well 4'], [4]], [['water', 'Pool4'], []], [['water', 'WELL 1'], [6, 1]],
    [['water', 'Well 9'], []], [['water', 'Pond B'], []], [['water', 'Ponds A'], [5]], [['water', 'Pond\u200b A'], [5]], [['water', 'Sample-2'], []],
    [['water', 'Sampel-1'], []], [['water', 'Well 1'], []], [['soil', 'Well 1'], []], [['soil', 'Wells 1'], [6, 1]], [['air', ''], []],
  ]);
  const many = Array.from({ length: 40 }, (_, at) => ({ record: at + 1, form: 'water', sample: `Well${' '.repeat(at + 2)}1` }));
  same('of many names the newest few are told', near.near_records(many, 'water', 'Well 1').map(({ record }) => record), [40, 39, 38, 37, 36]);
}

function look_at_pasting() {
  table('a column that is pasted', pasting.column_of, [
    [['7.5'], null], [['7.5\n'], null], [['7.5\r\n'], null], [['1\n2'], { is_wide: false, cells: ['1', '2'] }],
    [['1\r\n\r\n3\r\n'], { is_wide: false, cells: ['1', '', '3'] }], [['1\r2\r'], { is_wide: false, cells: ['1', '2'] }],
    [['1\t2\n3\t4\n'], { is_wide: true, cells: ['1\t2', '3\t4'] }], [['1\t2'], null], [['\n\n'], { is_wide: false, cells: ['', ''] }],
  ]);
  table('a block that is pasted', pasting.block_of, [
    [['7.5'], null], [['7.5\n'], null], [[''], null], [['1\t2'], [['1', '2']]], [['1\n2'], [['1'], ['2']]], [['a\t\r\n\tb\r\n'], [['a', ''], ['', 'b']]],
  ]);
}

// Each place that the pages write is read as the view that it is of.
function look_at_places() {
  const view_of = (hash) => {
    const [name, groups] = Object.entries(places.PATTERNS).map(([one, pattern]) => [one, pattern.exec(hash)]).find(([, one]) => one) ?? ['none', []];
    return [name, ...groups.slice(1)];
  };
  const filter = { state: 'open', form: '', sample: 'Well & 1?#', person: 'dan', day: '2026-11' };
  table('places', (name, ...words) => view_of(places[`${name}_place`](...words)), [
    [['day'], ['day']], [['records'], ['records', undefined]], [['opening'], ['opening', undefined]], [['opening', 'water'], ['opening', 'water']],
    [['grid', 'water'], ['grid', 'water']], [['record', 7], ['record', '7']], [['version', 7, 2], ['version', '7', '2']],
    [['signing', 7, 2, 'review'], ['signing', '7', '2', 'review', undefined]], [['signing_on', 7, 2, 'approval'], ['signing', '7', '2', 'approval', '/next']],
    [['amending', 7], ['amending', '7']], [['paper', 1_000_000_000], ['paper', '1000000000']], [['forms'], ['forms']], [['form', 'water', 99], ['form', 'water', '99']],
    [['making'], ['making', undefined, undefined]], [['making', 'water', 1], ['making', 'water', '1']], [['persons'], ['persons']],
    [['person', 'd-1'], ['person', 'd-1']], [['enrolling'], ['enrolling']], [['trail'], ['trail', undefined]], [['copies'], ['copies']],
    [['checking'], ['checking']], [['password'], ['password']], [['first'], ['none']], [['grid', ''], ['none']],
  ]);
  same('a filter is read from the address as it was written', places.filter_of_query(view_of(places.records_place(filter))[1], Object.keys(filter)), filter);
  table('addresses that are none', view_of, ['#/records/0', '#/records/x', '#/records/1/', '#/records/1/versions/1/approve', '#/forms/Water/1',
    '#/persons/D', `#/grid/${'k'.repeat(25)}`, '#/records/12345678901', '#', ''].map((hash) => [[hash], ['none']]));
}

function look_at_unseen() {
  table('characters that are not seen', unseen.marked, [
    [['Well 1'], 'Well 1'], [['Well\u00a0 1'], 'Well[U+00A0] 1'], [['a\u00a0b'], 'a\u00a0b'], [[' a'], '[U+0020]a'], [['a  '], 'a[U+0020][U+0020]'],
    [['a\n'], 'a[U+000A]'], [['a\nb'], 'a\nb'], [['a\u202eb'], 'a[U+202E]b'], [['\u200bx'], '[U+200B]x'], [['x\u{e0041}'], 'x[U+E0041]'],
    [['\u{1f469}\u200d\u{1f52c}'], '\u{1f469}\u200d\u{1f52c}'], [['a\u200db'], 'a[U+200D]b'], [['\u2764\ufe0f'], '\u2764\ufe0f'], [['a\ufe0f'], 'a[U+FE0F]'],
    [['\ufeffa'], '[U+FEFF]a'], [['\u0085'], '[U+0085]'], [[''], ''], [['caf\u00e9'], 'caf\u00e9'], [['\u3164'], '[U+3164]'], [['\u202f7'], '[U+202F]7'],
  ]);
  const whole = ['a\u202eb ', ' \u00a0x\ufeff', 'plain', ''].map((text) => [text, unseen.pieces_of(text).map((one) => one.seen ?? one.unseen).join('')]);
  same('the pieces of a text are the text', whole.filter(([text, joined]) => text !== joined), []);
}

// ---- slips.js

const LEAD = { kind: 'number', decimals: 2, min: '0', max: '50', unit: 'mg/L' };

function look_at_slips() {
  table('slips of a number', (value) => slips.slip_of_value(LEAD, value), [
    [['7.05'], null], [[''], null], [['7.05 '], ['space_at_end', '7.05']], [['7,05'], ['comma', '7.05']], [['< 0.05'], ['space_behind_sign', '<0.05']],
    [['<0,05'], ['comma', '<0.05']], [['nd'], ['no_number']], [['\u22640.05'], ['at_most']], [['.5'], ['no_digit_before', '0.5']], [['5.'], ['no_digit_behind', '5']],
    [['1e-3'], ['exponent']], [['1 000'], ['space_within', '1000']], [['1,000'], ['comma_of_two', '1000', '1.000']], [['0.055'], ['decimals', 2, 3]],
    [['\u22121'], ['minus', '-1']], [['1.1 2.2'], ['several']], [['7.05 mg/L'], ['unit']], [['7mg/L'], ['unit']], [['77'], ['above', '77', '50']],
    [['>77'], ['above', '>77', '50']], [['-1'], ['below', '-1', '0']], [['1234567890123456'], ['long_number']], [['1;2'], null], [['1,2,3'], ['no_comma']],
  ]);
  table('slips of a day', (value) => slips.slip_of_value({ kind: 'date' }, value), [
    [['2026-11-02'], null], [['02.11.2026'], ['day', '2026-11-02']], [['2026/11/2'], ['day', '2026-11-02']], [['02/11/2026'], ['day', '2026-11-02', '2026-02-11']],
    [['31.2.2026'], ['no_such_day']], [['yesterday'], ['no_day']], [['2026-11-02 '], ['space_at_end', '2026-11-02']], [['13/12/2026'], ['day', '2026-12-13']],
    [['29.2.2024'], ['day', '2024-02-29']], [['29.2.2023'], ['no_such_day']],
  ]);
  table('slips of a text', (size, value) => slips.slip_of_value({ kind: 'text', size }, value), [
    [[4, 'abcd'], null], [[4, 'abcde'], ['long', 5, 4]], [[4, '\u00e9\u00e9x'], ['long', 5, 4]], [[9, 'a\tb'], ['control']], [[4, ''], null],
  ]);
  table('slips of a name', slips.slip_of_name, [
    [['Well 1'], null], [[''], ['empty']], [['Well 1 '], ['space_at_end', 'Well 1']], [['x'.repeat(121)], ['long', 121, 120]], [['a\tb'], ['control']],
  ]);
  table('slips of a code', slips.slip_of_code, [
    [['water'], null], [[''], ['empty']], [['Water'], ['capitals', 'water']], [['4water'], ['first_letter']], [['wa ter'], ['letters']], [['w'.repeat(25)], ['letters']],
  ]);
  const words = ['space_at_end', 'comma', 'at_most', 'no_number', 'decimals', 'above', 'below', 'day', 'no_such_day', 'long', 'control', 'empty', 'capitals', 'letters'];
  const silent = words.filter((word) => !slips.text_of_slip([word, 'one', 'two']));
  same('each of them has a text', [silent, slips.text_of_slip(null)], [[], null]);
}

// ---- walking.js and outcomes.js

async function look_at_walking() {
  let [under_way, most] = [0, 0];
  const ends = [];
  const read = () => walking.in_turn(async () => {
    under_way += 1;
    most = Math.max(most, under_way);
    await new Promise((end) => { ends.push(end); });
    under_way -= 1;
    return under_way;
  });
  const all = Array.from({ length: 20 }, read);
  for (let done = 0; done < 20;) {
    await new Promise(setImmediate);
    for (const end of ends.splice(0)) {
      end();
      done += 1;
    }
  }
  await Promise.all(all);
  same('of twenty reads at once six are under way at most, and all are done', [most, under_way], [6, 0]);
  const worked = [];
  await walking.walk([1, 2, 3, 4, 5, 6, 7, 8, 9], async (job) => { worked.push(job); }, () => worked.length < 7);
  same('a walk works at each job in order, and ends where it is to end', worked, [1, 2, 3, 4, 5, 6, 7]);
  const begun = [];
  const failed = walking.walk(Array.from({ length: 30 }, (_, at) => at), async (job) => {
    begun.push(job);
    await new Promise(setImmediate);
    if (job === 3) throw new Error('three');
  }, () => true);
  const fault = await failed.then(() => null, (one) => one.message);
  await new Promise((end) => { setTimeout(end, 20); });
  same('where a job fails no other one is begun', [fault, begun.length <= 12], ['three', true]);
  table('hundreds that are not kept', (there, last, first) => [...walking.missing_hundreds(new Map(there.map((one) => [one, one])), last, first)], [
    [[[], 250, 1], [[151, 250], [51, 150], [1, 50]]], [[[250, 249, 100], 250, 1], [[149, 248], [49, 148], [1, 48]]], [[[1], 1, 1], []], [[[], 0, 1], []],
    [[[5], 5, 3], [[3, 4]]],
  ]);
}

// Where nginx turns a read away it is tried again, five times in all; another refusal is told at once.
async function look_at_patience() {
  const whole = globalThis.setTimeout;
  const waits = [];
  globalThis.setTimeout = (work, after) => {
    waits.push(after);
    return whole(work, 0);
  };
  const tries = async (word, fails) => {
    let count = 0;
    const come = await walking.in_turn(async () => {
      count += 1;
      if (count <= fails) throw new api.Refusal(429, { error: word, number: 0 });
      return 'read';
    }).catch((refusal) => refusal.word);
    return [come, count];
  };
  const there = [await tries('too_often', 4), await tries('too_often', 9), await tries('no_session', 9)];
  globalThis.setTimeout = whole;
  same('a read that is turned away is tried again a second later, five times in all', [there, new Set(waits)],
    [[['read', 5], ['too_often', 5], ['no_session', 1]], new Set([1000])]);
}

async function look_at_outcomes() {
  const refuse = (word) => async () => { throw new api.Refusal(0, { error: word, number: 0 }); };
  const come = (by, look) => outcomes.write(null, null, { by, look, done: (reply) => reply }).catch((refusal) => [refusal.word, Boolean(refusal.look)]);
  const found = async () => ({ record: 7 });
  const cases = [
    [await come(async () => ({ record: 7 }), refuse('none')), { record: 7 }], [await come(refuse('bad_name'), found), ['bad_name', false]],
    ...await Promise.all(['no_reply', 'no_server', 'storage', 'memory'].map(async (word) => [await come(refuse(word), found), { record: 7, looked: true }])),
    [await come(refuse('no_reply'), async () => null), ['not_done', false]], [await come(refuse('no_reply'), refuse('no_reply')), ['not_known', true]],
  ];
  same(`${cases.length} outcomes of a write: done, refused, looked up, not done, not known`, cases.filter(([there, wanted]) => !isDeepStrictEqual(there, wanted)), []);
}

await look_at_numbers();
look_at_near();
look_at_pasting();
look_at_places();
look_at_unseen();
look_at_slips();
await look_at_walking();
await look_at_patience();
await look_at_outcomes();
