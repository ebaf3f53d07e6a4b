// A record: what is asked of the desk, as the form holds it, and its line.

import { rulesOfText } from "./rules.js";
import { textOf, tilesIn } from "./tiles.js";

export const JOBS = ["win", "waits", "shape"];
export const MELD_WORDS = ["chi", "pon", "kan", "ankan"];
const TEXTS_OF_TILES = ["on", "dora", "ura", "seen"];
// The keys that a job's form has, in the order in which the line tells them.
const KEYS_OF = {
  win: ["open", "on", "by", "seat", "round", "riichi", "flags", "dora", "ura", "counters", "sticks"],
  waits: ["open"],
  shape: ["open", "seen"],
};
// The values that the form has of each key that is a word or a number.
const VALUES = {
  by: /^(ron|tsumo)$/,
  seat: /^[ESWN]$/,
  round: /^[ESWN]$/,
  riichi: /^[012]$/,
  flags: /^[a-z]+(,[a-z]+)*$/,
  counters: /^[0-9]{1,2}$/,
  sticks: /^[0-9]{1,2}$/,
};

// A record in which nothing is chosen but the round, which lasts for many hands.
export function emptyRecord(job, round = "E") {
  return {
    job, hand: [], melds: [], on: [], by: "", seat: "", round, riichi: "0",
    flags: [], dora: [], ura: [], counters: "0", sticks: "0", seen: [],
  };
}

// All tiles that the record's line shows.
export function tilesOf(record) {
  const keys = KEYS_OF[record.job];
  const texts = TEXTS_OF_TILES.filter((key) => keys.includes(key)).flatMap((key) => record[key]);
  return [...record.hand, ...record.melds.flatMap((meld) => meld.tiles), ...texts];
}

export function textOfMelds(melds) {
  return melds.map((meld) => `${meld.word}:${textOf(meld.tiles)}`).join(",");
}

// The text of a key's value; "" where the key is left out.
function valueOf(record, key) {
  if (key === "open") return textOfMelds(record.melds);
  if (key === "flags") return record.flags.join(",");
  if (TEXTS_OF_TILES.includes(key)) return textOf(record[key]);
  return ["riichi", "counters", "sticks"].includes(key) && Number(record[key]) === 0 ? "" : record[key];
}

export function lineOf(record) {
  const keys = KEYS_OF[record.job].map((key) => [key, valueOf(record, key)]).filter(([, value]) => value !== "");
  const words = [record.job, textOf(record.hand), ...keys.map(([key, value]) => `${key}=${value}`)];
  return words.filter((word) => word !== "").join(" ");
}

// The lines of a text, and the profile that they have: that of its first line, which then isn't among them, or else this one.
export function linesOf(desk, text, rules) {
  const lines = text.split("\n").map((line) => line.replace(/\r$/, ""));
  const profile = /^ *rules +([12]) *$/.exec(lines[0]) ?? /^# --rules (\S+)$/.exec(lines[0]);
  const set = profile ? rulesOfText(desk, profile[1]) : undefined;
  return set ? { lines: lines.slice(1), rules: set, first: 2 } : { lines, rules, first: 1 };
}

// The job, the hand and the other words of a line, each as its key and value, which is null where it has no =. A line whose hand
// isn't there yet has its keys behind the job.
export function wordsOf(line) {
  const [job = "", ...rest] = line.split(" ").filter((word) => word !== "");
  const hand = rest[0] && !rest[0].includes("=") ? rest.shift() : "";
  const keys = rest.map((word) => /^([^=]*)(?:=(.*))?$/.exec(word)).map(([, key, value = null]) => [key, value]);
  return { job, hand, keys };
}

function meldsIn(text) {
  const melds = text.split(",").map((part) => ({ word: part.split(":")[0], tiles: tilesIn(part.slice(part.indexOf(":") + 1)) }));
  return melds.every((meld) => MELD_WORDS.includes(meld.word) && meld.tiles !== null) ? melds : null;
}

// A key's value as the form holds it; null where it can't.
function heldValue(key, text) {
  if (key === "open") return meldsIn(text);
  if (TEXTS_OF_TILES.includes(key)) return tilesIn(text);
  if (!VALUES[key]?.test(text)) return null;
  return key === "flags" ? text.split(",") : text;
}

// The record of a line, as far as the form can hold it; null where its job isn't one.
export function recordOf(line) {
  const { job, hand, keys } = wordsOf(line);
  if (!JOBS.includes(job)) return null;
  const record = { ...emptyRecord(job, ""), hand: tilesIn(hand) ?? [] };
  for (const [key, text] of keys) {
    const value = text === null || !KEYS_OF[job].includes(key) ? null : heldValue(key, text);
    if (value !== null) record[key === "open" ? "melds" : key] = value;
  }
  return job === "win" ? record : { ...record, round: "E" };
}
