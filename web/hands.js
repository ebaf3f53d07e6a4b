// A hand of a game: as its words, as the form holds it, and as the ledger takes it.

import { lineOf, recordOf } from "./record.js";
import { isRed, KINDS, kindOf, SUITS } from "./tiles.js";

// Where the melds of each sort begin among the bytes of the library.
const MELDS = { chi: 1, pon: 65, kan: 129, ankan: 193 };
const FLAGS = ["ippatsu", "rinshan", "chankan", "last", "first"];
// What the game knows of a hand.
const KNOWN = { by: "", seat: "", round: "", counters: "0", sticks: "0" };

const numberOfKind = (tile) => KINDS.indexOf(kindOf(tile));

// The words of a record's hand in a line of a game; a double riichi alone is told there.
export function handWords(record) {
  const riichi = record.riichi === "2" ? "2" : "0";
  return lineOf({ ...record, ...KNOWN, riichi }).replace(/^win /, "");
}

// The record of such words.
export function recordOfHand(words) {
  return recordOf(`win ${words}`);
}

// The wind of a player: seats are counted from the dealer.
export function windOf(who, { dealer }) {
  return "ESWN"[(who - dealer + 4) % 4];
}

// The record of such words with all that the game knows: `about` has who won and how, the state before the deal, and who bet.
export function knownRecord(words, { winner, isTsumo, state, riichi }) {
  const record = recordOfHand(words);
  const bet = record.riichi === "2" ? "2" : String(Number(riichi.includes(winner)));
  const [counters, sticks] = [state.counters, state.sticks].map(String);
  const by = isTsumo ? "tsumo" : "ron";
  return { ...record, by, seat: windOf(winner, state), round: state.round[0].toUpperCase(), riichi: bet, counters, sticks };
}

// A hand of such words as the ledger takes it. What isn't spelled as tiles is a hand of no tiles, which the library refuses.
export function countsOf(words, isRiichi) {
  const record = recordOfHand(words);
  const concealed = KINDS.map((kind) => record.hand.filter((tile) => kindOf(tile) === kind).length);
  const melds = record.melds.map(({ word, tiles }) => MELDS[word] + Math.min(...tiles.map(numberOfKind)));
  const all = [...record.hand, ...record.on, ...record.melds.flatMap(({ tiles }) => tiles)];
  const reds = SUITS.slice(0, 3).map((suit) => all.filter((tile) => isRed(tile) && tile[1] === suit).length);
  const [dora, ura] = [record.dora, record.ura].map((tiles) => tiles.map(numberOfKind));
  const flags = Object.fromEntries(FLAGS.map((flag) => [flag, record.flags.includes(flag)]));
  const riichi = record.riichi === "0" ? Number(isRiichi) : Number(record.riichi);
  return { concealed, melds, winning: record.on.length > 0 ? numberOfKind(record.on[0]) : 0, riichi, reds, dora, ura, ...flags };
}
