// Numbers that are given without gaps from 1 on, as those of records and of rows of the trail. No command says which is the last.

import { AT_ONCE, GREATEST_NUMBER } from './limits.js';

// The last number that is given, 0 where there is none. `read(from, to)` gives the list of what has these numbers, and `known` is
// a number that is given, or 0. Up to a hundred above the known one it is a single request.
export async function last_number(read, known = 0) {
  const first = Math.max(known, 1);
  const near = await read(first, end_of(first));
  if (near.length < AT_ONCE) return first + near.length - 1;
  let low = first + AT_ONCE - 1;
  let high = Math.min(low * 2, GREATEST_NUMBER);
  while (high > low && (await read(high, high)).length) {
    low = high;
    high = Math.min(high * 2, GREATEST_NUMBER);
  }
  while (high - low > AT_ONCE) {
    const middle = Math.floor((low + high) / 2);
    if ((await read(middle, middle)).length) low = middle;
    else high = middle;
  }
  return low + (await read(low, end_of(low))).length - 1;
}

// The first number from 1 to `last` of which `is_before` doesn't hold, or the one behind them. It holds of the first ones alone.
export async function first_number(last, is_before) {
  let [low, high] = [1, last + 1];
  while (low < high) {
    const middle = Math.floor((low + high) / 2);
    if (await is_before(middle)) low = middle + 1;
    else high = middle;
  }
  return low;
}

function end_of(first) {
  return Math.min(first + AT_ONCE - 1, GREATEST_NUMBER);
}

// The hundred that ends with a number: [from, to].
export function hundred_to(to) {
  return [Math.max(1, to - AT_ONCE + 1), to];
}

// A range in hundreds: pairs of from and to.
export function* hundreds(from, to) {
  for (let start = from; start <= to; start += AT_ONCE) yield [start, Math.min(to, start + AT_ONCE - 1)];
}

// A number as the server reads it, or null.
export function number_of(text) {
  const number = /^[1-9][0-9]{0,9}$/.test(text.trim()) ? Number(text.trim()) : 0;
  return number >= 1 && number <= GREATEST_NUMBER ? number : null;
}
