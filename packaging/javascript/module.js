// The module's calls, its memory, and whether a number is that of rules.

import { instance } from "./load.js";

const PAGE = 65536;
export const MOST_TEXT = PAGE;
export const MOST_ANSWER = 4 * PAGE - 8;

export const calls = instance.exports;
// What a call is given lies here, and what it tells there.
export const LINE = calls.memory.grow(5) * PAGE;
export const ROOM = LINE + MOST_TEXT;
// A call takes no memory; a text that is longer than any before makes it longer.
export let memory = new Uint8Array(calls.memory.buffer);
export let view = new DataView(calls.memory.buffer);
let wide = { at: LINE, most: MOST_TEXT };

// A place of so many bytes, by which the memory grows.
export function placeOf(length) {
  const at = calls.memory.grow(Math.ceil(length / PAGE)) * PAGE;
  memory = new Uint8Array(calls.memory.buffer);
  view = new DataView(calls.memory.buffer);
  return at;
}

// Where a text of any length lies, for a call that is given the whole of it.
export function lend(bytes) {
  if (bytes.length > wide.most) {
    const most = Math.max(bytes.length, 2 * wide.most);
    wide = { at: placeOf(most), most };
  }
  memory.set(bytes, wide.at);
  return wide.at;
}

// (a blank line has no answer under any rules, and under no rules it is refused)
export function tested(rules) {
  const isNumber = Number.isInteger(rules) && rules >= 0 && rules < 2 ** 32;
  if (isNumber && calls.riichi_answer(rules, BigInt(LINE), 0n, BigInt(ROOM), BigInt(MOST_ANSWER)) === 0n) return;
  throw new RangeError(`rules is 1, 2 or house({..}), and not ${rules}`);
}
