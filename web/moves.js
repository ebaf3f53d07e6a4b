// What a tap on a tile does to a record, by where tapped tiles go. The one rule that stands here is that a kind has four tiles.

import { isMeld, mostIndicators, sizesOf, spaceInHand } from "./asked.js";
import { MELD_WORDS, tilesOf } from "./record.js";
import { countOf, isFive, kindOf, parted, sorted, tileOf } from "./tiles.js";

// Who may throw the tile that is tapped: the player before, across, and after.
export const THROWERS = ["left", "across", "right"];

// The tiles of a meld that a tapped kind stands for: of a run it is the lowest. One five of it can be a red one.
export function meldTiles(word, kind, isRed) {
  const [digit, suit] = kind;
  const run = [0, 1, 2].map((step) => `${Number(digit) + step}${suit}`);
  const kinds = word === "chi" ? run : Array(word === "pon" ? 3 : 4).fill(kind);
  const five = kinds.findIndex(isFive);
  return kinds.map((it, at) => tileOf(it, isRed && at === five));
}

// Where a tapped tile goes when it isn't said: into the hand while it has space, then to the winning tile.
function placeOf(record) {
  if (spaceInHand(record) > 0) return "hand";
  return record.job === "win" && record.on.length === 0 ? "on" : null;
}

// The record with this meld, whose tiles are taken from the hand where there is no other space for it; null where neither is.
function withMeld(record, word, tiles) {
  if (!isMeld(word, tiles)) return null;
  const melds = [...record.melds, { word, tiles }];
  const room = sizesOf(record.job, melds).at(-1) ?? -1;
  if (record.hand.length <= room) return { ...record, melds };
  const { found, left } = parted(record.hand, tiles) ?? {};
  return left && left.length <= room ? { ...record, hand: left, melds: [...record.melds, { word, tiles: found }] } : null;
}

function withTile(record, target, kind, isRed) {
  if (MELD_WORDS.includes(target)) return withMeld(record, target, meldTiles(target, kind, isRed));
  if (THROWERS.includes(target)) return withTile(record, "seen", kind, isRed);
  if (["dora", "ura"].includes(target) && record[target].length >= mostIndicators()) return null;
  const place = target === "hand" ? placeOf(record) : target;
  return place && { ...record, [place]: sorted([...record[place], tileOf(kind, isRed)]) };
}

// The record after a tap on a kind; null where the tap can't be taken: there is no space, or a kind would have a fifth tile.
export function taken(record, target, kind, isRed) {
  const after = withTile(record, target, kind, isRed);
  if (after === null) return null;
  const all = tilesOf(after);
  return all.every((it) => countOf(kindOf(it), all) <= 4) ? after : null;
}

// Where the next tapped tile goes: seen tiles come many at once, all else one at a time.
export function nextTarget(target) {
  return target === "seen" ? target : "hand";
}

// The record without the tile at this place.
export function without(record, name, at) {
  return { ...record, [name]: record[name].filter((_, place) => place !== at) };
}

export function withoutMeld(record, at) {
  return { ...record, melds: record.melds.filter((_, place) => place !== at) };
}
