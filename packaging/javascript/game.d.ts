import type { Rules } from "./riichi_desk.js";

/** A player, by the first seat. */
export type Player = 0 | 1 | 2 | 3;
/** Something for each player, by the first seats. */
export type ByPlayer<T> = [T, T, T, T];
/** The rules of a table, as GAME.md of the repository has them. All points are points, not thousands. */
export interface TableRules {
  /** How hands are valued. */
  rules: Rules;
  start: number;
  returns: number;
  /** The bonus of each place. */
  uma: ByPlayer<number>;
  ties: "share" | "seat";
  ron: "all" | "nearest" | "two";
  counters: "nearest" | "each";
  sticks: "nearest" | "own";
  liable: boolean;
  nagashi: boolean;
  renchan: "ready" | "win";
  length: "south" | "east";
  /** The points for which no round more is played; none is played anyway where it is null. */
  extra: number | null;
  bust: boolean;
  stop: boolean;
  left: "first" | "lost";
  /** Points off the final points, or a mangan that is paid at once. */
  chombo: number | "mangan";
}
/** The rules of a name. */
export function table(name: "club" | "league" | "online"): TableRules;
/** What the table shows between two deals. */
export interface State {
  points: ByPlayer<number>;
  round: "east" | "south" | "west" | "north";
  dealer: Player;
  counters: number;
  sticks: number;
}
/** A hand: counts of the 34 kinds without the winning tile, and what a `struct riichi_win` of riichi_desk.h has besides; the game
 * knows seat, round, counters and sticks. Indicators are kinds. */
export interface Hand {
  concealed: ArrayLike<number>;
  melds?: ArrayLike<number>;
  winning: number;
  riichi?: 0 | 1 | 2;
  ippatsu?: boolean;
  rinshan?: boolean;
  chankan?: boolean;
  last?: boolean;
  first?: boolean;
  reds?: ArrayLike<number>;
  dora?: number[];
  ura?: number[];
}
/** Who is liable for a yakuman, and for how many of its limits: one where nothing is said. */
export interface Liability { liable?: Player; liableLimits?: number }
/** What a player wins: by han and fu, a limit hand, a yakuman of so many limits, or a hand. */
export type Value =
  | { han: number; fu: number }
  | { limit: "mangan" | "haneman" | "baiman" | "sanbaiman" }
  | ({ yakuman: number } & Liability)
  | ({ hand: Hand } & Liability);
/** Wins on a discard: what each wins who said ron. */
export interface Ron { kind: "ron"; discarder: Player; wins: { winner: Player; value: Value }[]; riichi?: Player[] }
export interface Tsumo { kind: "tsumo"; winner: Player; value: Value; riichi?: Player[] }
export interface Draw { kind: "draw"; ready?: Player[]; nagashi?: Player[]; riichi?: Player[] }
export interface Abort { kind: "abort"; riichi?: Player[] }
/** A dead hand. */
export interface Chombo { kind: "chombo"; player: Player }
/** Points off the final points. */
export interface Penalty { kind: "penalty"; player: Player; points: number }
/** The state as it is written. */
export interface Stands { kind: "stands"; state: State }
export interface End { kind: "end" }
export type Outcome = Ron | Tsumo | Draw | Abort | Chombo | Penalty | Stands | End;
/** Why an outcome is refused; of several reasons the first in this order. */
export type Fault =
  | "nobody wins"
  | "discarder wins"
  | "winner liable"
  | "no such worth"
  | "liable limits"
  | "liable off"
  | "nagashi off"
  | "bet of too few"
  | "not ready"
  | "stands sum"
  | "stands round"
  | "over counters"
  | "over sticks"
  | "over points"
  | "game over";
/** An outcome that can't be; the game is as it was. */
export class OutcomeRefused extends Error { readonly fault: Fault }
/** A hand that is worth nothing: `no yaku`, `no win`, or the code of a fault, as `H8`. */
export class HandRefused extends Error { readonly answer: string }
/** Rules that no table may choose. */
export class RulesRefused extends Error {}
/** Something that is moved; who gives or gets is null for the table. A stick is 1000 points. */
export interface Move {
  giver: Player | null;
  taker: Player | null;
  points: number;
  sticks: number;
  why: "ron" | "tsumo" | "liable" | "other half" | "counters" | "ready" | "nagashi" | "chombo" | "bet" | "sticks" | "own bet";
}
/** What a player has at the end, in points; `points` with the sticks that the rules give, `total` the final points. */
export interface Final { place: 1 | 2 | 3 | 4; points: number; bonus: number; penalty: number; total: number }
/** A row of the table of payments: what each pays, with the counters, and the hands that are paid so, with four han at most. */
export interface Paid {
  base: number;
  discarder: number;
  dealer: number;
  other: number;
  hands: { han: number; fu: number }[];
  limit: null | "mangan" | "haneman" | "baiman" | "sanbaiman" | "yakuman";
}
/** The least row with which fewer others than the place have as many points or more, and with which fewer are ahead. */
export interface Need { strictly: Paid | null; withTie: Paid | null }
/** What a player needs: off each player, null for the own discard, and by self-draw. */
export interface Needs { off: ByPlayer<Need | null>; byTsumo: Need }
/** A game: its rules, and the outcomes so far. */
export class Game {
  /** What isn't said of the rules is as a club has it. Rules that no table may choose throw `RulesRefused`. */
  constructor(rules?: Partial<TableRules>);
  readonly rules: Readonly<TableRules>;
  /** Goes on by an outcome. One that can't be throws `OutcomeRefused` or `HandRefused`, and the game is as it was. */
  add(outcome: Outcome): void;
  /** Takes the last outcome back. */
  undo(): Outcome | undefined;
  readonly outcomes: Outcome[];
  readonly state: State;
  readonly isOver: boolean;
  /** The points off the final points of each player, those for dead hands with them. */
  readonly penalties: ByPlayer<number>;
  /** What the last outcome changed of the points of each player, counted from before the bets. */
  readonly changes: ByPlayer<number>;
  /** Who paid whom by the last outcome, and why. They add up to the changes; a written state moves nothing. */
  readonly moves: Move[];
  /** What each player has where the game ends here. */
  final(): ByPlayer<Final>;
  /** The least wins of the next deal that bring a player to a place or a better one, who wins alone and with nobody liable; `riichi` bet
   * in it. Of a game that is over it throws `OutcomeRefused`. */
  need(player: Player, place?: 1 | 2 | 3 | 4, riichi?: Player[]): Needs;
}
