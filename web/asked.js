// What the page asks the library of hands that aren't whole yet, so that no rule of the game stands here: each function makes
// lines and looks at how they are refused.

import { state } from "./state.js";
import { KINDS, kindOf, range, textOf } from "./tiles.js";
import { textOfMelds } from "./record.js";

// A value of each key that a line may lack. Which one is said is all the same: a lack is refused before any value is looked at.
const ANY = { on: "1m", by: "ron", seat: "E", round: "E" };
const MOST_ASKED = 20;
const known = new Map();

// The key at which a line is refused; "" where it is refused at no key, or answered.
function keyOf(line) {
  return state.desk.values(line, 1)?.key ?? "";
}

// The first of so many kinds, one tile each.
function someTiles(count) {
  return textOf(KINDS.slice(0, count));
}

// What `find` finds, once for each question.
function remembered(question, find) {
  if (!known.has(question)) known.set(question, find());
  return known.get(question);
}

// A line of this job with all that it must have but its own hand and melds.
function plainLine(job, hand, melds) {
  const keys = job === "win" ? Object.entries(ANY).map(([key, value]) => `${key}=${value}`) : [];
  return [job, hand, ...keys, ...(melds === "" ? [] : [`open=${melds}`])].join(" ");
}

// How many concealed tiles the library takes in a hand of this job beside these melds, smallest first; none where no number is
// right.
export function sizesOf(job, melds) {
  const text = textOfMelds(melds);
  const isTaken = (count) => !["open", "hand"].includes(keyOf(plainLine(job, someTiles(count), text)));
  return remembered(`${job} ${text}`, () => range(1, MOST_ASKED).filter(isTaken));
}

// How many indicators the library takes.
export function mostIndicators() {
  return remembered("indicators", () => {
    const line = plainLine("win", someTiles(sizesOf("win", [])[0]), "");
    return range(1, MOST_ASKED).filter((count) => keyOf(`${line} dora=${someTiles(count)}`) !== "dora").length;
  });
}

// Whether one of seven kinds is a dora by this indicator: then a hand of a pair of each has dora.
function hasDora(kinds, indicator) {
  const hand = textOf([...kinds, ...kinds.slice(1)]);
  return state.desk.values(`win ${hand} on=${kinds[0]} by=ron seat=S round=E dora=${indicator}`, 1)?.dora > 0;
}

// The kind that is a dora by this indicator: one of the seven with which a hand has dora, and alone among others.
export function doraOf(indicator) {
  const kind = kindOf(indicator);
  return remembered(`dora ${kind}`, () => {
    const sevens = range(0, 4).map((at) => [...KINDS.filter((_, place) => place % 5 === at), KINDS[0]].slice(0, 7));
    const others = (sevens.find((kinds) => !hasDora(kinds, kind)) ?? []).slice(0, 6);
    const among = sevens.find((kinds) => hasDora(kinds, kind)) ?? [];
    return among.find((it) => !others.includes(it) && hasDora([it, ...others], kind));
  });
}

// Whether the library reads these tiles as a meld of this word.
export function isMeld(word, tiles) {
  const text = `${word}:${textOf(tiles)}`;
  return remembered(text, () => keyOf(`waits 1m open=${text}`) !== "open");
}

// The keys that a record must have and hasn't, as the library names them one after another. Of those that it has, the values are all
// the same.
export function missingKeys(record) {
  const said = Object.keys(ANY).filter((key) => record[key].length > 0);
  return remembered(`missing ${record.job} ${said}`, () => missingBeside(record.job, said));
}

function missingBeside(job, said) {
  const found = [];
  let line = [job, "1m", ...said.map((key) => `${key}=${ANY[key]}`)].join(" ");
  for (let key = missingKey(line); key && !found.includes(key); key = missingKey(line)) {
    found.push(key);
    line += ` ${key}=${ANY[key]}`;
  }
  return found;
}

// A key at fault of which no word is told is missing.
function missingKey(line) {
  const { key, at } = state.desk.values(line, 1) ?? {};
  return at === undefined && key in ANY ? key : null;
}

// How many tiles the hand of a record still lacks, and how many it has space for.
export function lackOfTiles(record) {
  const sizes = sizesOf(record.job, record.melds);
  return sizes.length === 0 ? 0 : Math.max(0, sizes[0] - record.hand.length);
}

export function spaceInHand(record) {
  const sizes = sizesOf(record.job, record.melds);
  return sizes.length === 0 ? 0 : Math.max(0, sizes.at(-1) - record.hand.length);
}
