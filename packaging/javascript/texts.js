// Texts in the module's memory: what a call is given, and what it tells.

import { LINE, memory, MOST_ANSWER, ROOM } from "./module.js";

export const MOST_LINE = 4200; // a line of more than 4096 bytes is refused whatever follows
export const encoder = new TextEncoder();
const decoder = new TextDecoder();

// Sizes and places are 64-bit numbers in the module's calls, though its memory has 32-bit places.
export const AT = [BigInt(LINE), BigInt(ROOM), BigInt(MOST_ANSWER)];

export function read(needed) {
  return decoder.decode(memory.subarray(ROOM, ROOM + Number(needed)));
}

export const isBytes = (given) => Object.prototype.toString.call(given) === "[object Uint8Array]";

// A line or a text as it is given; what is neither is told, with what comes before the words where it is one of many.
export function given(line, before = "") {
  if (typeof line === "string" || isBytes(line)) return line;
  throw new TypeError(`${before}a line is a string or a Uint8Array, and not ${line === null ? "null" : typeof line}`);
}

export const lineRoom = () => memory.subarray(LINE, LINE + MOST_LINE);

// How many bytes of a line lie in its room: a text or bytes, without a line feed at its end and a carriage return before that.
export function put(line) {
  if (typeof given(line) === "string") return encoder.encodeInto(line.replace(/\r?\n?$/, ""), lineRoom()).written;
  let end = line.length;
  if (line[end - 1] === 10) end--;
  if (line[end - 1] === 13) end--;
  const front = line.subarray(0, Math.min(end, MOST_LINE));
  lineRoom().set(front);
  return front.length;
}
