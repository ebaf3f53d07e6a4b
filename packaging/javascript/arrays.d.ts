import type { Hand } from "./game.js";
import type { Rules } from "./riichi_desk.js";

/** Numbers, a row behind the other. A `Uint8Array` is taken as it is; of other numbers one that is no byte stands for a count that no
 * hand has. */
export type Numbers = ArrayLike<number> | ArrayLike<bigint>;
/** Four bytes a hand, each a meld (`chi` and so on) or 0; a meld counts as three tiles. */
export interface Melds { melds?: Numbers }
/** And 34 counts a hand, of the tiles that are seen elsewhere. */
export interface Beside extends Melds { seen?: Numbers }
/** The shanten of a row that is no hand: a count above four, no meld, another number of tiles, a fifth tile of a kind. */
export const NO_HAND: -128;
/** The waits of such a row. */
export const NO_WAITS: bigint;
/** A chow as a byte, by the number of its lowest kind. */
export function chi(kind: number): number;
/** A pung. */
export function pon(kind: number): number;
/** An open kong. */
export function kan(kind: number): number;
/** A concealed kong. */
export function ankan(kind: number): number;
/** The shanten of each hand of thirteen or fourteen tiles. A hand is 34 counts, those of 1m to 9m, 1p to 9p, 1s to 9s, East, South,
 * West, North, white, green, red; so the kind of 2p is 10, and bit 10 of a set of kinds says that 2p is in it. */
export function shanten(counts: Numbers, beside?: Melds): Int8Array;
/** The kinds that each hand of thirteen tiles waits for, a bit for each; `NO_WAITS` of a row that is no such hand. */
export function waits(counts: Numbers, beside?: Melds): BigUint64Array;
/** What hands of thirteen tiles accept, a row for each. */
export interface Shapes {
  shanten: Int8Array;
  /** The kinds that bring the hand nearer and of which a tile is left, a bit for each. */
  accepts: BigUint64Array;
  /** How many tiles of each of these kinds are left, 34 a hand. */
  live: Uint8Array;
}
export function shapes(counts: Numbers, beside?: Beside): Shapes;
/** Which tile to discard from hands of fourteen tiles, a row for each. */
export interface Discards {
  shanten: Int8Array;
  /** The kinds whose discard leaves the least shanten, a bit for each. */
  kinds: BigUint64Array;
  /** At each of these kinds those that the rest then accepts, 34 a hand. */
  accepts: BigUint64Array;
  /** How many tiles of those are left in all, 34 a hand. */
  live: Uint8Array;
}
export function discards(counts: Numbers, beside?: Beside): Discards;
/** What stands beyond the next step of hands of thirteen tiles, a row for each hand. */
export interface Outlooks {
  /** NO_HAND of a row that is no hand of thirteen tiles. Where it is 0 or less, the other two are 0. */
  shanten: Int8Array;
  /** The sum over the accepted kinds of their live copies times the most live copies that a best discard then leaves. */
  second: Uint16Array;
  /** The live copies of the accepted kinds after which a best discard leaves at least five. */
  good: Uint8Array;
}
export function deeper(counts: Numbers, beside?: Beside): Outlooks;
/** Which calls of a thrown tile bring hands of thirteen tiles nearer, four a hand: for a run of which the tile is the highest, the
 * middle or the lowest, and for a triplet. */
export interface Calls {
  /** The byte of each meld, 4 a hand; 0 where there is no such call. */
  melds: Uint8Array;
  /** The kinds whose discard is best after it, a bit for each; 4 a hand. */
  kinds: BigUint64Array;
  /** For each call at each of these kinds how many copies of what is then accepted are live, 136 a hand. */
  live: Uint8Array;
}
/** Who throws a tile, seen from the hand: the player before, from whom alone a run may be called; across; the player after. */
export const LEFT: 0;
export const ACROSS: 1;
export const RIGHT: 2;
/** `thrown` has two numbers for each hand: the kind, and who throws it. */
export function callsOf(counts: Numbers, thrown: Numbers, beside?: Beside): Calls;
/** A win: a hand, and what a game would know of it. Winds are 0 East, who is the dealer, to 3 North. */
export interface WinHand extends Hand {
  /** 0 by ron, 1 by self-draw. */
  by?: 0 | 1;
  seat?: 0 | 1 | 2 | 3;
  round?: 0 | 1 | 2 | 3;
  counters?: number;
  sticks?: number;
}
/** The 64 bytes of a win. */
export function winRow(win: WinHand): Uint8Array;
/** What `told` has of a win with a yaku; of a complete hand without one; of one that isn't complete. */
export const WON: 100;
export const NO_YAKU: 101;
export const NO_WIN: 102;
/** What is told of wins, a number for each. All but `told` is 0 where that isn't `WON`. */
export interface Scores {
  /** `WON`, `NO_YAKU`, `NO_WIN`, or n where the win is refused as `refused Hn`; 4 where a number is in no table. */
  told: Uint8Array;
  /** With the dora. */
  han: Uint8Array;
  fu: Uint8Array;
  dora: Uint8Array;
  base: Uint32Array;
  gain: Uint32Array;
  /** What the discarder pays, the dealer for another's self-draw, and each other for a self-draw. */
  discarder: Uint32Array;
  dealer: Uint32Array;
  other: Uint32Array;
  /** Bit n for the yaku with number n. */
  yaku: BigUint64Array;
}
/** What each win is worth: rows of `winRow`, one behind the other. */
export function wins(rows: Numbers, rules?: Rules): Scores;
