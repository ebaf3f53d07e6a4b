// game_answers.mjs: keeps games by the package for JavaScript, and compares what is told with the worked rows of docs/GAME.md.
// It lies beside the package that is installed. Ends with `all right`.
import assert from "node:assert/strict";
import { Game, game as gameText, HandRefused, house, OutcomeRefused, RulesRefused, table, text } from "riichi_desk";

const yaku = (han, fu) => ({ han, fu });
const stands = (round, dealer, counters, sticks, ...points) => ({ kind: "stands", state: { points, round, dealer: dealer - 1, counters, sticks } });
// A game that stands so.
function standing(rules, ...words) {
  const game = new Game(rules);
  game.add(stands(...words));
  return game;
}
// The moves are the changes; and taken back and made again, the outcome leaves the same.
function addsUp(game) {
  const given = [0, 0, 0, 0];
  for (const { giver, taker, points } of game.moves) {
    if (giver !== null) given[giver] -= points;
    if (taker !== null) given[taker] += points;
  }
  assert.deepEqual(given, game.changes);
  const after = [game.state, game.isOver, game.penalties, game.changes, game.moves];
  game.add(game.undo());
  assert.deepEqual([game.state, game.isOver, game.penalties, game.changes, game.moves], after);
}
function changed(game, outcome, ...wanted) {
  game.add(outcome);
  addsUp(game);
  assert.deepEqual(game.changes, wanted);
}
function refuses(game, outcome, fault) {
  const before = [game.state, game.outcomes.length];
  assert.throws(() => game.add(outcome), (error) => error instanceof OutcomeRefused && error.fault === fault);
  assert.deepEqual([game.state, game.outcomes.length], before);
}

// three deals
const game = new Game();
changed(game, { kind: "ron", discarder: 2, wins: [{ winner: 1, value: yaku(1, 30) }] }, 0, 1000, -1000, 0);
changed(game, { kind: "draw", ready: [0, 1], riichi: [0] }, 500, 1500, -1500, -1500);
changed(game, { kind: "tsumo", winner: 3, value: yaku(2, 30) }, -600, -1100, -600, 3300);
assert.deepEqual(game.state, { points: [29900, 31400, 26900, 31800], round: "east", dealer: 2, counters: 0, sticks: 0 });
assert.equal(game.undo().kind, "tsumo");
assert.deepEqual(game.state, { points: [30500, 32500, 27500, 28500], round: "east", dealer: 1, counters: 1, sticks: 1 });
refuses(game, { kind: "draw", riichi: [2] }, "not ready");
refuses(game, { kind: "ron", discarder: 2, wins: [{ winner: 1, value: yaku(1, 25) }] }, "no such worth");
refuses(game, { kind: "ron", discarder: 2, wins: [] }, "nobody wins");
assert.throws(() => game.add({ kind: "chombo", player: 4 }), RangeError);
// two winners, liability, a mangan paid backwards
const two = { kind: "ron", discarder: 2, wins: [{ winner: 0, value: yaku(1, 40) }, { winner: 1, value: yaku(1, 30) }], riichi: [0] };
changed(standing({}, "east", 1, 2, 1, 29000, 30000, 30000, 30000), two, 3600, 1000, -3600, 0);
changed(standing({ counters: "each" }, "east", 1, 2, 1, 29000, 30000, 30000, 30000), two, 3600, 1600, -4200, 0);
changed(standing({ ron: "nearest" }, "east", 1, 2, 1, 29000, 30000, 30000, 30000), two, 3600, 0, -2600, 0);
const dragons = { yakuman: 1, liable: 3 };
changed(standing({}, "east", 1, 1, 0, 30000, 30000, 30000, 30000), { kind: "tsumo", winner: 1, value: dragons }, 0, 32300, 0, -32300);
const four = { kind: "tsumo", winner: 1, value: { yakuman: 2, liable: 3 } };
changed(new Game({ rules: house({ addYakuman: true }) }), four, -16000, 64000, -8000, -40000);
changed(new Game({ chombo: "mangan" }), { kind: "chombo", player: 2 }, 4000, 2000, -8000, 2000);
// a hand, read with what the game knows
const concealed = new Array(34).fill(0);
for (const kind of [1, 2, 3, 4, 5, 6, 11, 12, 13, 23, 24]) concealed[kind]++;
concealed[26] = 2;
const hand = { concealed, winning: 22, riichi: 1, dora: [0] };
changed(new Game(), { kind: "ron", discarder: 2, wins: [{ winner: 0, value: { hand } }, { winner: 1, value: { limit: "mangan" } }], riichi: [0] }, 5800, 8000, -13800, 0);
assert.throws(() => new Game().add({ kind: "tsumo", winner: 0, value: { hand: { ...hand, winning: 33 } } }), (error) => error instanceof HandRefused && error.answer === "no win");
// the end
const ended = standing({}, "south", 4, 0, 0, 41300, 32700, 32700, 13300);
ended.add({ kind: "penalty", player: 1, points: 8000 });
ended.add({ kind: "end" });
assert.ok(ended.isOver && ended.penalties[1] === 8000);
assert.deepEqual(ended.final().map((it) => [it.place, it.total]), [[1, 26300], [2, -5300], [2, 2700], [4, -31700]]);
refuses(ended, { kind: "draw" }, "game over");
assert.throws(() => ended.need(0), OutcomeRefused);
// what is needed
const needs = standing({}, "east", 1, 1, 1, 28000, 38000, 30000, 23000).need(2);
assert.deepEqual([needs.off[1].strictly.discarder, needs.off[1].withTie.discarder, needs.off[0].strictly.discarder], [3900, 3500, 7400]);
assert.deepEqual([needs.off[2], needs.byTsumo.strictly.other, needs.byTsumo.strictly.dealer], [null, 1600, 3000]);
assert.deepEqual(needs.off[1].strictly.hands, [yaku(1, 110)]);
// rules
assert.deepEqual(table("online").uma, [20000, 10000, -10000, -20000]);
assert.equal(new Game(table("league")).state.points[0], 25000);
for (const wrong of [{ start: 50 }, { uma: [1000, 0, 0, 0] }, { ties: "both" }]) assert.throws(() => new Game(wrong), RulesRefused);
// texts of games: one that is longer than any before has the memory made longer, and a line is answered behind it
const stood = "stands east 2 counters 1 sticks 0 points 30000 30000 30000 30000";
assert.equal(gameText("game A B C D\ndraw\n").split("\n")[2], stood);
assert.equal(gameText(new TextEncoder().encode("game 東 南 西 北")).split("\n")[0], "game 東 南 西 北 start 30000");
assert.equal(gameText("game\ndraw\n".repeat(20000)).split("\n").filter((it) => it === stood).length, 20000);
assert.equal(text("waits 1112345678999m"), "waits 123456789m");
assert.deepEqual([gameText(""), gameText("# a note\n", 2), gameText("draw", house())], ["", "", "refused G2\n"]);
assert.throws(() => gameText("game", 3), RangeError);
console.log("all right");
