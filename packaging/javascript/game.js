// The ledger of a game of four: import { Game } from "riichi_desk".

import { calls, LINE, memory, ROOM, tested, view } from "./module.js";

// Where the rows of a game lie that a call is given.
const TABLE = LINE;
const PROGRESS = LINE + 64;
const ASKED = LINE + 128;
const [GIVEN_TABLE, GIVEN_PROGRESS, GIVEN_ASKED, TOLD] = [TABLE, PROGRESS, ASKED, ROOM].map(BigInt);
const PROGRESS_LENGTH = 40;
const MOST_MOVES = 40;
const MOVES = ROOM + 64;

const NOTHING = 0xffffffff;
const NO_BASE = 0xffff; // base points that no hand has: so such a win is refused in its turn
const NAMES = ["club", "league", "online"];
const ROUNDS = ["east", "south", "west", "north"];
const LIMITS = { mangan: 2000, haneman: 3000, baiman: 4000, sanbaiman: 6000 };
const FU = [20, 25, 30, 40, 50, 60, 70, 80, 90, 100, 110, 120, 130, 140];
const RON = 0;
const TSUMO = 1;

// The bytes of a table's row from its 36th on: a list of words, or nothing for a flag.
const CHOICES = [
  ["ties", ["share", "seat"]],
  ["ron", ["all", "nearest", "two"]],
  ["counters", ["nearest", "each"]],
  ["sticks", ["nearest", "own"]],
  ["liable"],
  ["nagashi"],
  ["renchan", ["ready", "win"]],
  ["length", ["south", "east"]],
  ["bust"],
  ["stop"],
  ["left", ["first", "lost"]],
];
const RULES_FAULTS = [
  "points are whole hundreds up to 1000000",
  "a start is 100 points at least",
  "the return is not fewer than the start",
  "a bonus is whole thousands, up to 1000000 either way",
  "no bonus is greater than the one before it",
  "the bonuses add up to 0",
];
const FAULTS = [
  ...["nobody wins", "discarder wins", "winner liable", "no such worth", "liable limits", "liable off", "nagashi off", "bet of too few"],
  ...["not ready", "stands sum", "stands round", "over counters", "over sticks", "over points", "game over"],
];
const WHY = ["ron", "tsumo", "liable", "other half", "counters", "ready", "nagashi", "chombo", "bet", "sticks", "own bet"];

export class OutcomeRefused extends Error {
  constructor(fault) {
    super(`refused: ${fault}`);
    this.fault = fault;
  }
}

export class HandRefused extends Error {
  constructor(answer) {
    super(`the hand: ${answer}`);
    this.answer = answer;
  }
}

export class RulesRefused extends Error {}

function within(number, most, what) {
  if (!Number.isInteger(number) || number < 0 || number > most) throw new RangeError(`${what} is 0 to ${most}, and not ${number}`);
  return number;
}

// A number of points up or down, as a row has it.
function word(points) {
  if (points !== (points | 0)) throw new RangeError(`points are whole, and below 2 ^ 31 up or down, and not ${points}`);
  return points;
}

const player = (number) => within(number, 3, "a player");

function clear(at, length) {
  memory.fill(0, at, at + length);
}

function putFlags(at, players = []) {
  for (const each of players) memory[at + player(each)] = 1;
}

function four(read) {
  return [0, 1, 2, 3].map(read);
}

export function table(name) {
  const told = calls.riichi_game_table(NAMES.indexOf(name) + 1, GIVEN_TABLE);
  if (told) throw new RulesRefused(`a table is club, league or online, and not ${name}`);
  const [rules, start, returns, extra, chombo] = [0, 4, 8, 12, 16].map((at) => view.getUint32(TABLE + at, true));
  const uma = four((place) => view.getInt32(TABLE + 20 + 4 * place, true));
  const choices = CHOICES.map(([word, values], place) => {
    const number = memory[TABLE + 36 + place];
    return [word, values ? values[number] : number !== 0];
  });
  return {
    ...{ rules, start, returns, uma, extra: extra === NOTHING ? null : extra, chombo: chombo === NOTHING ? "mangan" : chombo },
    ...Object.fromEntries(choices),
  };
}

function putPoints(at, points, none, what) {
  view.setUint32(TABLE + at, points === none ? NOTHING : within(points, NOTHING - 1, what), true);
}

// The row of the rules of a table.
function tableRow(rules) {
  tested(rules.rules);
  clear(TABLE, 48);
  view.setUint32(TABLE, rules.rules, true);
  putPoints(4, rules.start, undefined, "start");
  putPoints(8, rules.returns, undefined, "returns");
  putPoints(12, rules.extra, null, "extra");
  putPoints(16, rules.chombo, "mangan", "chombo");
  four((place) => view.setInt32(TABLE + 20 + 4 * place, word(rules.uma[place]), true));
  CHOICES.forEach(([word, values], place) => {
    const number = values ? values.indexOf(rules[word]) : Number(Boolean(rules[word]));
    if (number < 0) throw new RulesRefused(`${word} is one of ${values.join(", ")}, and not ${rules[word]}`);
    memory[TABLE + 36 + place] = number;
  });
  const fault = calls.riichi_game_table_fault(GIVEN_TABLE);
  if (fault) throw new RulesRefused(RULES_FAULTS[fault - 1]);
  return memory.slice(TABLE, TABLE + 48);
}

function putState(at, state) {
  state.points.forEach((points, each) => view.setInt32(at + 4 * each, word(points), true));
  memory[at + 16] = within(ROUNDS.indexOf(state.round), 3, "a round");
  memory[at + 17] = player(state.dealer);
  memory[at + 18] = within(state.counters, 255, "a number of counters");
  memory[at + 19] = within(state.sticks, 255, "a number of sticks");
}

// A row that was kept, as numbers.
const numbers = (row) => new DataView(row.buffer, row.byteOffset, row.length);

export class Game {
  #table;
  #first;
  #steps = [];

  constructor(rules = {}) {
    this.rules = Object.freeze({ ...table("club"), ...rules });
    this.#table = tableRow(this.rules);
    calls.riichi_game_first(GIVEN_TABLE, GIVEN_PROGRESS);
    this.#first = memory.slice(PROGRESS, PROGRESS + PROGRESS_LENGTH);
  }

  get #last() {
    return this.#steps.at(-1)?.after ?? this.#first;
  }

  get #beforeLast() {
    return this.#steps.at(-2)?.after ?? this.#first;
  }

  // Lends the game as it stands, or stood.
  #lend(progress = this.#last) {
    memory.set(this.#table, TABLE);
    memory.set(progress, PROGRESS);
  }

  add(outcome) {
    this.#lend();
    const row = this.#row(outcome);
    memory.set(row, ASKED);
    calls.riichi_game_after(GIVEN_TABLE, GIVEN_PROGRESS, GIVEN_ASKED, 1n, TOLD);
    const fault = view.getUint32(ROOM, true);
    if (fault) throw new OutcomeRefused(FAULTS[fault - 1]);
    this.#steps.push({ outcome, row, after: memory.slice(PROGRESS, PROGRESS + PROGRESS_LENGTH) });
  }

  undo() {
    return this.#steps.pop()?.outcome;
  }

  get outcomes() {
    return this.#steps.map((step) => step.outcome);
  }

  get state() {
    const row = numbers(this.#last);
    const [round, dealer, counters, sticks] = this.#last.subarray(16, 20);
    return { points: four((each) => row.getInt32(4 * each, true)), round: ROUNDS[round], dealer, counters, sticks };
  }

  get isOver() {
    return numbers(this.#last).getUint32(36, true) !== 0;
  }

  get penalties() {
    const row = numbers(this.#last);
    return four((each) => row.getUint32(20 + 4 * each, true));
  }

  get changes() {
    const [before, after] = [this.#beforeLast, this.#last].map(numbers);
    return four((each) => after.getInt32(4 * each, true) - before.getInt32(4 * each, true));
  }

  get moves() {
    const step = this.#steps.at(-1);
    if (step === undefined) return [];
    this.#lend(this.#beforeLast);
    memory.set(step.row, ASKED);
    calls.riichi_game_moves(GIVEN_TABLE, GIVEN_PROGRESS, GIVEN_ASKED, BigInt(MOVES), BigInt(MOST_MOVES), TOLD);
    const named = (number) => (number < 4 ? number : null);
    return Array.from({ length: view.getUint32(ROOM + 36, true) }, (_, place) => {
      const at = MOVES + 12 * place;
      const [points, sticks] = [view.getUint32(at, true), view.getUint32(at + 4, true)];
      return { giver: named(memory[at + 8]), taker: named(memory[at + 9]), points, sticks, why: WHY[view.getUint16(at + 10, true)] };
    });
  }

  final() {
    this.#lend();
    calls.riichi_game_finals(GIVEN_TABLE, GIVEN_PROGRESS, TOLD);
    return four((each) => {
      const at = ROOM + 32 * each;
      const [points, bonus, total] = [0, 8, 16].map((more) => Number(view.getBigInt64(at + more, true)));
      return { place: view.getUint32(at + 28, true), points, bonus, penalty: view.getUint32(at + 24, true), total };
    });
  }

  need(who, place = 1, riichi = []) {
    if (!(place >= 1 && place <= 4)) throw new RangeError(`a place is 1 to 4, and not ${place}`);
    this.#lend();
    clear(ASKED, 6);
    memory[ASKED] = player(who);
    memory[ASKED + 1] = place;
    putFlags(ASKED + 2, riichi);
    const fault = calls.riichi_game_needs(GIVEN_TABLE, GIVEN_PROGRESS, GIVEN_ASKED, TOLD);
    if (fault) throw new OutcomeRefused(FAULTS[fault - 1]);
    const needs = memory.slice(ROOM, ROOM + 160);
    const need = (at, by) => ({ strictly: this.#paid(needs, at, by), withTie: this.#paid(needs, at + 16, by) });
    return { off: four((other) => (other === who ? null : need(32 * other, RON))), byTsumo: need(128, TSUMO) };
  }

  #paid(needs, at, by) {
    const [base, discarder, dealer, other] = [0, 4, 8, 12].map((more) => numbers(needs).getUint32(at + more, true));
    if (base === 0) return null;
    const hands = [1, 2, 3, 4].flatMap((han) => FU.filter((fu) => this.#base(by, han, fu) === base).map((fu) => ({ han, fu })));
    const limit = Object.keys(LIMITS).find((name) => LIMITS[name] === base) ?? (base === 8000 ? "yakuman" : null);
    return { base, discarder, dealer, other, hands, limit };
  }

  #base(by, han, fu) {
    return calls.riichi_game_base(this.rules.rules, by, han, fu);
  }

  // The row of an outcome in the game as it stands, which is lent.
  #row(outcome) {
    const row = new Uint8Array(64);
    const into = numbers(row);
    const flags = (at, players = []) => players.forEach((each) => (row[at + player(each)] = 1));
    const kind = ["ron", "tsumo", "draw", "abort", "chombo", "penalty", "stands", "end"].indexOf(outcome.kind);
    if (kind < 0) throw new RangeError(`no outcome is ${outcome.kind}`);
    into.setUint16(0, kind, true);
    into.setUint16(2, player(outcome.discarder ?? outcome.winner ?? outcome.player ?? 0), true);
    flags(4, outcome.riichi);
    flags(8, outcome.ready);
    flags(12, outcome.nagashi);
    const wins = outcome.kind === "tsumo" ? [outcome] : (outcome.wins ?? []);
    for (const { winner, value } of wins) {
      const at = 16 + 6 * player(winner);
      if (row[at + 3] !== 0) throw new RangeError(`${winner} wins twice`);
      row.set(this.#worth(winner, outcome.kind === "tsumo" ? TSUMO : RON, value), at);
    }
    into.setUint32(40, within(outcome.points ?? 0, NOTHING, "a penalty"), true);
    if (outcome.kind === "stands") {
      putState(ROOM, outcome.state);
      row.set(memory.subarray(ROOM, ROOM + 20), 44);
    }
    return row;
  }

  // What a player wins, as a row.
  #worth(winner, by, value) {
    const row = "hand" in value ? this.#handWorth(winner, by, value.hand) : this.#plainWorth(by, value);
    if (value.liable !== undefined) {
      row[4] = 1 + player(value.liable);
      row[5] = within(value.liableLimits ?? 1, 255, "a number of limits");
    }
    return row;
  }

  #plainWorth(by, value) {
    const row = new Uint8Array(6);
    if ("yakuman" in value) {
      row[2] = within(value.yakuman, 255, "a number of limits");
      row[3] = 2;
      return row;
    }
    const base = "limit" in value ? LIMITS[value.limit] : this.#base(by, within(value.han, 255, "han"), within(value.fu, 255, "fu"));
    if (base === undefined) throw new RangeError(`no limit hand is ${value.limit}`);
    numbers(row).setUint16(0, base || NO_BASE, true);
    row[3] = 1;
    return row;
  }

  #handWorth(winner, by, hand) {
    clear(ASKED, 64);
    memory.set(hand.concealed, ASKED);
    memory.set(hand.melds ?? [], ASKED + 34);
    memory[ASKED + 38] = within(hand.winning, 255, "a kind");
    const flags = ["ippatsu", "rinshan", "chankan", "last", "first"].map((name) => Number(hand[name] ?? false));
    memory.set([within(hand.riichi ?? 0, 255, "riichi"), ...flags], ASKED + 42);
    memory.set(hand.reds ?? [], ASKED + 50);
    memory.set((hand.dora ?? []).map((kind) => 1 + kind), ASKED + 53);
    memory.set((hand.ura ?? []).map((kind) => 1 + kind), ASKED + 58);
    const told = calls.riichi_game_worth(GIVEN_TABLE, GIVEN_PROGRESS, winner, by, GIVEN_ASKED, TOLD);
    if (told !== 100) throw new HandRefused({ 101: "no yaku", 102: "no win" }[told] ?? `H${told}`);
    return memory.slice(ROOM, ROOM + 6);
  }
}
