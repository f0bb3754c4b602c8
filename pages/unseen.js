// Characters of a text that aren't seen, or that turn the order of others. Who signs a text has to see that they are there.

const BLANKS = '[\\u00a0\\u1680\\u2000-\\u200a\\u202f\\u205f\\u3000]';
const SEEN_BEYOND_ASCII = '[^\\u0000-\\u007f\\u200c\\u200d]';
const UNSEEN = new RegExp([
  // Controls, fillers, marks of direction, tags.
  '[\\u0080-\\u009f\\u00ad\\u034f\\u061c\\u115f\\u1160\\u17b4\\u17b5\\u180b-\\u180f\\u200b\\u200e\\u200f\\u2028-\\u202e]',
  '[\\u2060-\\u206f\\u2800\\u3164\\ufeff\\uffa0\\ufff9-\\ufffb\\u{e0000}-\\u{e0fff}]',
  // Joiners and variants, but where a letter or a sign beyond ASCII needs them.
  `(?<!${SEEN_BEYOND_ASCII})[\\u200c\\u200d\\ufe00-\\ufe0f]`, `[\\u200c\\u200d](?!${SEEN_BEYOND_ASCII})`,
  // Blanks beside blanks, and blanks and line feeds at the ends.
  `(?<!\\S)${BLANKS}`, `${BLANKS}(?!\\S)`, '(?<=^[ \\n]*)[ \\n]', '[ \\n](?=[ \\n]*$)',
].join('|'), 'gu');

const code_of = (character) => `U+${character.codePointAt(0).toString(16).toUpperCase().padStart(4, '0')}`;

// A text in pieces, in order: { seen } or { unseen, code }.
export function pieces_of(text) {
  const pieces = [];
  let from = 0;
  for (const { 0: character, index } of text.matchAll(UNSEEN)) {
    pieces.push({ seen: text.slice(from, index) }, { unseen: character, code: code_of(character) });
    from = index + character.length;
  }
  return [...pieces, { seen: text.slice(from) }];
}

// A text where no element can stand: what isn't seen is written by its code.
export function marked(text) {
  return pieces_of(text).map(({ seen, code }) => seen ?? `[${code}]`).join('');
}
