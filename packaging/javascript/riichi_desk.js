// The proved library for browsers and for Node: import { answer } from "riichi_desk". The modules lie beside this file.

import { calls, lend, LINE, memory, MOST_ANSWER, MOST_TEXT, ROOM, tested, view } from "./module.js";
import { AT, encoder, given, isBytes, lineRoom, MOST_LINE, put, read } from "./texts.js";

export { Game, HandRefused, OutcomeRefused, RulesRefused, table } from "./game.js";
export { ACROSS, ankan, callsOf, chi, deeper, discards, kan, LEFT, NO_HAND, NO_WAITS, NO_WIN, NO_YAKU, pon, RIGHT } from "./arrays.js";
export { shanten, shapes, waits, winRow, wins, WON } from "./arrays.js";
export { study } from "./study.js";

const TAKEN = ROOM + MOST_ANSWER;

const bytesOf = (text) => (typeof given(text) === "string" ? encoder.encode(text) : text);

// The number of the rules that a text names; 0 where it names none.
function numberOf(text) {
  const { read: taken, written } = encoder.encodeInto(text, lineRoom());
  return taken === text.length ? calls.riichi_rules(AT[0], BigInt(written), BigInt(TAKEN)) : 0;
}

// The word of a rule whose name in JavaScript this is: of `redFives` it is `red-fives`.
function wordOf(name) {
  return name.replace(/[A-Z]/g, (letter) => `-${letter.toLowerCase()}`);
}

export function house(changes = {}) {
  const strange = Object.keys(changes).find((name) => !/^[A-Za-z]+$/.test(name) || numberOf(`1+${wordOf(name)}`) === 0);
  if (strange !== undefined) throw new RangeError(`no rule has the name ${strange}`);
  const said = Object.entries(changes).filter(([, isOn]) => isOn !== undefined);
  return numberOf(`1${said.map(([name, isOn]) => `${isOn ? "+" : "-"}${wordOf(name)}`).join("")}`);
}

// The rules of a text such as `2` or `1+red-fives-ura`, as the option --rules has them; undefined where it has none.
export function rulesOf(text) {
  const rules = numberOf(text);
  if (rules === 0) return undefined;
  const profile = ["1", "2"].findIndex((word) => numberOf(word) === rules);
  return profile < 0 ? rules : profile + 1;
}

function ask(call, line, rules) {
  tested(rules);
  const needed = call(rules, AT[0], BigInt(put(line)), AT[1], AT[2]);
  return needed > 0n ? read(needed) : null;
}

export function text(line, rules = 1) {
  return ask(calls.riichi_answer, line, rules);
}

// What `call` answers to each of many lines. One text would be taken for many, one for each of its letters.
function each(call, lines, rules) {
  tested(rules);
  if (typeof lines === "string" || isBytes(lines) || typeof lines?.[Symbol.iterator] !== "function") {
    throw new TypeError('many lines are wanted, as an array: of one text pass text.split("\\n"), or pass it to answerLines');
  }
  return Array.from(lines, (line, place) => call(given(line, `item ${place}: `), rules));
}

export function texts(lines, rules = 1) {
  return each(text, lines, rules);
}

export function json(line, rules = 1) {
  return ask(calls.riichi_json, line, rules);
}

export function answer(line, rules = 1) {
  return JSON.parse(json(line, rules) ?? "null");
}

export function answers(lines, rules = 1) {
  return each(answer, lines, rules);
}

export function why(line, rules = 1) {
  return JSON.parse(ask(calls.riichi_explain_json, line, rules) ?? "null");
}

export function explain(line, rules = 1) {
  return (ask(calls.riichi_explain, line, rules) ?? "").split("\n").filter((it) => it !== "");
}

// How much of a text one call is given: whole lines; of a line that is longer than its room, so much that it is refused.
function frontOf(text) {
  if (text.length <= MOST_TEXT) return text.length;
  return text.lastIndexOf(10, MOST_TEXT - 1) + 1 || MOST_LINE;
}

function askLines(call, text, rules) {
  tested(rules);
  let rest = bytesOf(text);
  const pieces = [];
  while (rest.length > 0) {
    const front = frontOf(rest);
    memory.set(rest.subarray(0, front), LINE);
    pieces.push(read(call(rules, AT[0], BigInt(front), AT[1], AT[2], BigInt(TAKEN))));
    let taken = Number(view.getBigUint64(TAKEN, true));
    if (rest[taken - 1] !== 10) taken = rest.indexOf(10, taken) + 1 || rest.length;
    rest = rest.subarray(taken);
  }
  return pieces.join("");
}

export function answerLines(text, rules = 1) {
  return askLines(calls.riichi_answer_lines, text, rules);
}

export function jsonLines(text, rules = 1) {
  return askLines(calls.riichi_json_lines, text, rules);
}

export function explainLines(text, rules = 1) {
  return askLines(calls.riichi_explain_lines, text, rules);
}

export function explainJsonLines(text, rules = 1) {
  return askLines(calls.riichi_explain_json_lines, text, rules);
}

export function game(text, rules = 1) {
  tested(rules);
  const bytes = bytesOf(text);
  const [at, length] = [lend(bytes), bytes.length].map(BigInt);
  const pieces = [];
  for (let from = 0n; from <= length; from = view.getBigUint64(TAKEN, true)) {
    pieces.push(read(calls.riichi_game_lines(rules, at, length, from, AT[1], AT[2], BigInt(TAKEN))));
  }
  return pieces.join("");
}

export function version() {
  return read(calls.riichi_version(AT[1], AT[2]));
}
