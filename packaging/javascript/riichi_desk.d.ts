/** The rules, as RULES.md of the release has them: a profile, or what `house` makes of the rules of a house. */
export type Rules = 1 | 2 | HouseRules;
/** The number of the rules of a house. */
export type HouseRules = number & { readonly house: unique symbol };
/** Each rule that a table may choose. */
export type Rule =
  | "redFives"
  | "raise"
  | "addYakuman"
  | "doubleYakuman"
  | "countedYakuman"
  | "doubleWindPair"
  | "kongDrawFu"
  | "openSimples"
  | "openPinfuFu"
  | "ippatsu"
  | "ura"
  | "blessingOfMan";
/** The first profile with these rules on or off: `house({ redFives: true, ura: false })`. */
export function house(changes?: Partial<Record<Rule, boolean>>): HouseRules;
/** The rules of a text such as `2` or `1+red-fives-ura`; undefined where it has none. */
export function rulesOf(text: string): Rules | undefined;
/** A line as a text, or its bytes. A line feed at its end is no part of it, nor a carriage return before that. */
export type Line = string | Uint8Array;
/** Lines, one an item; not one text, which is a `TypeError`, as is an item that is no line. */
export type Lines = Iterable<Line> & { readonly charAt?: never };
/** A kind of tile, as its digit and its letter: "5m", "7z". */
export type Kind = `${1 | 2 | 3 | 4 | 5 | 6 | 7 | 8 | 9}${"m" | "p" | "s"}` | `${1 | 2 | 3 | 4 | 5 | 6 | 7}z`;
export interface Yaku { number: number; word: string; japanese: string }
/** What each payer pays, in points. */
export type Payment = { discarder: number } | { dealer: number; each_other: number } | { each: number };
/** The words of the rules of a house, as "1+red-fives", which the answers to wins have; under a profile there are none. */
export type RuleWords = string;
/** What a win is worth. Of a yakuman `han`, `fu` and `dora` are 0. */
export interface Won {
  answer: "won";
  yakuman: boolean;
  han: number;
  fu: number;
  dora: number;
  base: number;
  limit: null | "mangan" | "haneman" | "baiman" | "sanbaiman" | "yakuman";
  payment: Payment;
  gain: number;
  yaku: Yaku[];
  rules?: RuleWords;
}
/** The kinds that bring a hand nearer, each with its live copies, and how many these are in all. */
export interface Accepted { accepts: { kind: Kind; live: number }[]; live: number }
/** A key of a line, or its hand. */
export type Key = "hand" | "on" | "by" | "seat" | "round" | "open" | "riichi" | "flags" | "dora" | "ura" | "counters" | "sticks" | "seen";
/** Why a line is refused: `text` and `place` where one of its texts of tiles is; the key at fault, where it is one; `at` and `length`
 * in bytes where one word of the line is at fault; and what may stand there. */
export interface Refused { answer: "refused"; code: string; text?: Key; place?: number; key?: Key; at?: number; length?: number; words: string }
export type Answer =
  | Won
  | { answer: "no yaku"; rules?: RuleWords }
  | { answer: "no win"; rules?: RuleWords }
  | { answer: "waits"; kinds: Kind[] }
  | ({ answer: "shape"; shanten: number } & Accepted)
  | { answer: "shape"; shanten: number; discards: ({ discard: Kind } & Accepted)[] }
  | Refused;
/** The answer to one line, such as `waits 1112345678999m`; null where it is a comment or blank. */
export function answer(line: Line, rules?: Rules): Answer | null;
/** The answer to each of many lines. */
export function answers(lines: Lines, rules?: Rules): (Answer | null)[];
/** The answer in the words of the command `line`. */
export function text(line: Line, rules?: Rules): string | null;
/** The same of many lines. */
export function texts(lines: Lines, rules?: Rules): (string | null)[];
/** The answer as one line of JSON. */
export function json(line: Line, rules?: Rules): string | null;
export type Reading =
  | { form: "standard"; sets: string[]; pair: string; completed: string }
  | { form: "seven pairs" }
  | { form: "thirteen orphans" };
export type Earned = { part: string; japanese?: string };
export type Other = { reading: Reading; han?: number; fu?: number; gain?: number };
export type Why =
  | {
      reading: Reading;
      han: (Earned & { han?: number })[];
      dora: (Earned & { han: number })[];
      fu: (Earned & { kind?: Kind; fu: number })[];
      payments: { payer: string; points: number; counters: number }[];
      others: Other[];
    }
  | { others: Other[] }
  | { waits: Kind[]; shanten: { standard: number; seven_pairs?: number; thirteen_orphans?: number } };
/** The answer to one line, of a win with why it is so. */
export function why(line: Line, rules?: Rules): (Answer & { why?: Why }) | null;
/** The lines that say why a line is answered as it is. */
export function explain(line: Line, rules?: Rules): string[];
/** The answer to a question of a player (NOTATION.md), as study.schema.json describes it: what stands beyond a hand's next step, which
 * calls bring it nearer, what is safe, or how likely it is to be ready, and to win. Chances of a far hand take some megabytes of memory,
 * which the module keeps. */
export function study(line: Line): Record<string, unknown> | null;
/** The answers to a whole text of lines, as the command `line` writes them: each with a line feed, and nothing for a comment or a
 * blank line. A line `rules 2` is a line like any other here, and refused. By few calls: the quickest way to many answers. */
export function answerLines(text: Line, rules?: Rules): string;
/** The same, each answer as one line of JSON. */
export function jsonLines(text: Line, rules?: Rules): string;
/** The same as `answerLines`, and behind each answer the lines that explain it. */
export function explainLines(text: Line, rules?: Rules): string;
/** The same as `jsonLines`, and in the object of each win why it is so, as `why` has it. */
export function explainJsonLines(text: Line, rules?: Rules): string;
/** The answers to a whole text of games, as the command `game` writes them: a line for each deal, and behind the last line of each
 * game its places and final points, or how it stands. The rules are those for the hands of a game that names none. */
export function game(text: Line, rules?: Rules): string;
/** The name and version of the library. */
export function version(): string;
export * from "./arrays.js";
export * from "./game.js";
