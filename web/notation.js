// The lines of a game, as the command `game` takes them: how an outcome is written, and how it is read. Whether it can be is asked
// of the library.

import { countsOf } from "./hands.js";
import { range } from "./tiles.js";

export const LIMITS = ["mangan", "haneman", "baiman", "sanbaiman"];
const ROUND_WORDS = ["east", "south", "west", "north"];
const PARTS = ["from", "liable", "and", "ready", "nagashi", "riichi"];
// The words that may stand behind the first one of a line.
const PARTS_OF = { ron: PARTS, tsumo: ["liable", "riichi"], draw: ["ready", "nagashi", "riichi"], abort: ["riichi"] };

class Unread extends Error {}

function demand(isSo) {
  if (!isSo) throw new Unread();
}

// The words of a line, and the note behind them.
export function wordsAndNote(line) {
  const at = line.search(/(^| )#/);
  const words = (at < 0 ? line : line.slice(0, at)).split(" ").filter((word) => word !== "");
  return { words, note: at < 0 ? "" : line.slice(line.indexOf("#", at) + 1).trim() };
}

export function withNote(line, note) {
  const words = wordsAndNote(line).words.join(" ");
  const text = note.replaceAll(/\p{Cc}+/gu, " ").trim();
  return text === "" ? words : `${words} # ${text}`;
}

// ---- Writing

function valueWords(value) {
  if ("tiles" in value) return value.tiles;
  if ("yakuman" in value) return value.yakuman === 1 ? "yakuman" : `yakuman:${value.yakuman}`;
  return value.limit ?? `${value.han}.${value.fu}`;
}

function winWords({ winner, value, liable, limits }, names, from) {
  const by = from === undefined ? [] : ["from", names[from]];
  const who = liable === undefined ? [] : ["liable", limits === undefined ? names[liable] : `${names[liable]}:${limits}`];
  return [names[winner], ...by, valueWords(value), ...who];
}

function listWords(word, players = [], names) {
  return players.length === 0 ? [] : [word, players.map((each) => names[each]).join(",")];
}

function stateLine({ round, dealer, counters, sticks, points }) {
  return [round, dealer + 1, "counters", counters, "sticks", sticks, "points", ...points];
}

const WRITTEN = {
  ron: ({ wins, discarder, riichi }, names) => [
    ...wins.flatMap((win, at) => [...(at === 0 ? [] : ["and"]), ...winWords(win, names, at === 0 ? discarder : undefined)]),
    ...listWords("riichi", riichi, names),
  ],
  tsumo: ({ wins, riichi }, names) => [...winWords(wins[0], names), ...listWords("riichi", riichi, names)],
  draw: (outcome, names) => ["ready", "nagashi", "riichi"].flatMap((word) => listWords(word, outcome[word], names)),
  abort: ({ riichi }, names) => listWords("riichi", riichi, names),
  chombo: ({ player }, names) => [names[player]],
  penalty: ({ player, points }, names) => [names[player], points],
  stands: ({ state }) => stateLine(state),
  end: () => [],
};

// The line of an outcome.
export function outcomeLine(outcome, names) {
  return [outcome.kind, ...WRITTEN[outcome.kind](outcome, names)].join(" ");
}

// ---- Reading

// The player of a name, or of a beginning that is no other's.
function playerOf(word, names) {
  const whole = names.indexOf(word);
  const begun = range(0, 3).filter((each) => names[each].startsWith(word));
  demand(word !== "" && (whole >= 0 || begun.length === 1));
  return whole >= 0 ? whole : begun[0];
}

function playersOf([list, ...rest], names) {
  demand(list !== undefined && rest.length === 0);
  return list.split(",").map((word) => playerOf(word, names));
}

function numberOf(word, pattern = /^[0-9]{1,7}$/) {
  demand(pattern.test(word ?? ""));
  return Number(word);
}

function readValue(words) {
  demand(words.length > 0);
  const [first] = words;
  const pair = /^([0-9]{1,2})\.([0-9]{1,3})$/.exec(first);
  const limits = /^yakuman(?::([0-9]))?$/.exec(first);
  if (!pair && !limits && !LIMITS.includes(first)) return { tiles: words.join(" ") };
  demand(words.length === 1);
  if (pair) return { han: Number(pair[1]), fu: Number(pair[2]) };
  return limits ? { yakuman: Number(limits[1] ?? 1) } : { limit: first };
}

// The parts of a line, each behind its word; the first word of a part is never taken for the next one.
function partsOf([first, ...words]) {
  const parts = [{ word: first, rest: [] }];
  for (const word of words) {
    const last = parts.at(-1);
    const isNext = PARTS_OF[first].includes(word) && (last.rest.length > 0 || last.word === "draw" || last.word === "abort");
    if (isNext) parts.push({ word, rest: [] });
    else last.rest.push(word);
  }
  return parts;
}

function liableOf([word, ...rest], names) {
  demand(word !== undefined && rest.length === 0);
  const [, name, limits] = /^([^:]+)(?::([0-9]))?$/.exec(word) ?? [];
  demand(name !== undefined);
  return { liable: playerOf(name, names), ...(limits === undefined ? {} : { limits: Number(limits) }) };
}

// The wins of a line, and the other parts by their words.
function winsOf(parts, names) {
  const found = { wins: [] };
  for (const { word, rest } of parts) {
    if (["ron", "tsumo", "and"].includes(word)) {
      const value = word === "ron" ? undefined : readValue(rest.slice(1));
      demand(word !== "ron" || rest.length === 1);
      found.wins.push({ winner: playerOf(rest[0] ?? "", names), value });
    } else if (word === "from") {
      Object.assign(found, { discarder: playerOf(rest[0] ?? "", names) });
      found.wins[0].value = readValue(rest.slice(1));
    } else if (word === "liable") Object.assign(found.wins.at(-1), liableOf(rest, names));
    else found[word] = playersOf(rest, names);
  }
  demand(found.wins.every(({ value }) => value !== undefined));
  return found;
}

function listsOf(parts, names) {
  demand(parts[0].rest.length === 0);
  return Object.fromEntries(parts.slice(1).map(({ word, rest }) => [word, playersOf(rest, names)]));
}

function stateOf([round, dealer, ...rest]) {
  const words = [rest[0], rest[2], rest[4]].join(" ");
  demand(ROUND_WORDS.includes(round) && words === "counters sticks points" && rest.length === 9);
  const points = rest.slice(5).map((word) => numberOf(word, /^-?[0-9]{1,9}$/));
  return { points, round, dealer: numberOf(dealer, /^[1-4]$/) - 1, counters: numberOf(rest[1]), sticks: numberOf(rest[3]) };
}

// Words, of which there are just so many.
function only(words, number) {
  demand(words.length === number);
  return words;
}

const READ = {
  ron: (words, names) => winsOf(partsOf(words), names),
  tsumo: (words, names) => winsOf(partsOf(words), names),
  draw: (words, names) => listsOf(partsOf(words), names),
  abort: (words, names) => listsOf(partsOf(words), names),
  chombo: ([, ...rest], names) => ({ player: playerOf(only(rest, 1)[0], names) }),
  penalty: ([, ...rest], names) => ({ player: playerOf(only(rest, 2)[0], names), points: numberOf(rest[1]) }),
  stands: ([, ...rest]) => ({ state: stateOf(rest) }),
  end: ([, ...rest]) => (only(rest, 0), {}),
};

// The outcome of a line; null where it is none.
export function outcomeOf(line, names) {
  const { words } = wordsAndNote(line);
  try {
    demand(words[0] in READ);
    return { kind: words[0], ...READ[words[0]](words, names) };
  } catch (failure) {
    if (failure instanceof Unread) return null;
    throw failure;
  }
}

// ---- For the ledger

// What a player wins, as the class of the ledger takes it.
function wonOf({ value, liable, limits, winner }, riichi) {
  const who = liable === undefined ? {} : { liable, ...(limits === undefined ? {} : { liableLimits: limits }) };
  return { ...("tiles" in value ? { hand: countsOf(value.tiles, riichi.includes(winner)) } : value), ...who };
}

// Who bet: those who are named, and those whose hand has a riichi.
export function betsOf({ riichi = [], wins = [] }) {
  const inHands = wins.filter(({ value }) => / riichi=[12]( |$)/.test(value.tiles ?? "")).map(({ winner }) => winner);
  return range(0, 3).filter((each) => riichi.includes(each) || inHands.includes(each));
}

// An outcome as the class of the ledger takes it.
export function forLedger(outcome) {
  const riichi = betsOf(outcome);
  const wins = (outcome.wins ?? []).map((win) => ({ winner: win.winner, value: wonOf(win, riichi) }));
  if (outcome.kind === "tsumo") return { kind: "tsumo", ...wins[0], riichi };
  return outcome.kind === "ron" ? { kind: "ron", discarder: outcome.discarder, wins, riichi } : { ...outcome, riichi };
}
