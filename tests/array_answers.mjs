// array_answers.mjs FILE: asks the package for JavaScript for hands and wins as typed arrays, and compares each row with the answer to
// the line that says the same; the lines of wins are those of FILE. It lies beside the package that is installed, and takes it by
// `import` and by `require`. Ends with `all right`.
import assert from "node:assert/strict";
import { readFileSync } from "node:fs";
import { createRequire } from "node:module";
import * as desk from "riichi_desk";

const required = createRequire(import.meta.url)("riichi_desk");
const { answer, answers, discards, shanten, shapes, texts, waits, wins, winRow } = desk;

const KINDS = [..."mpsz"].flatMap((suit) => Array.from({ length: suit === "z" ? 7 : 9 }, (_, rank) => `${rank + 1}${suit}`));
const SORTS = { chi: desk.chi, pon: desk.pon, kan: desk.kan, ankan: desk.ankan };

// numbers that look random, the same each time
let seed = 7;
const below = (most) => {
  seed = (seed * 48271) % 2147483647;
  return seed % most;
};

function drawn(size) {
  const wall = KINDS.flatMap((_, kind) => [kind, kind, kind, kind]);
  return Array.from({ length: size }, () => wall.splice(below(wall.length), 1)[0]);
}
const countsOf = (tiles) => KINDS.map((_, kind) => tiles.filter((it) => it === kind).length);
const textOf = (tiles) => tiles.map((kind) => KINDS[kind]).join("");
const kindsIn = (set) => KINDS.filter((_, kind) => (set >> BigInt(kind)) & 1n);

function tryHands(size, hands) {
  const rows = Array.from({ length: hands }, () => {
    const meld = below(3) === 0 ? below(34) : undefined;
    const wall = drawn(60).filter((kind) => kind !== meld);
    return { tiles: wall.slice(0, meld === undefined ? size : size - 3), meld, seen: wall.slice(20, 20 + 10 * below(3)) };
  });
  const counts = Uint8Array.from(rows.flatMap(({ tiles }) => countsOf(tiles)));
  const melds = Uint8Array.from(rows.flatMap(({ meld }) => [meld === undefined ? 0 : desk.pon(meld), 0, 0, 0]));
  const seen = rows.flatMap((row) => countsOf(row.seen));
  const told = { shapes: shapes(counts, { melds, seen }), discards: discards(counts, { melds, seen }), waits: waits(counts, { melds }) };
  assert.deepEqual([...shanten(counts, { melds })], [...shanten(Array.from(counts), { melds: Array.from(melds) })]);
  rows.forEach(({ tiles, meld, seen }, row) => {
    const open = meld === undefined ? "" : ` open=pon:${KINDS[meld].repeat(3)}`;
    const wanted = answer(`shape ${textOf(tiles)}${open}${seen.length > 0 ? ` seen=${textOf(seen)}` : ""}`);
    assert.equal(told[size === 13 ? "shapes" : "discards"].shanten[row], wanted.shanten);
    if (size === 13) {
      assert.deepEqual(kindsIn(told.shapes.accepts[row]), wanted.accepts.map(({ kind }) => kind));
      const live = KINDS.flatMap((kind, at) => (told.shapes.live[34 * row + at] ? [{ kind, live: told.shapes.live[34 * row + at] }] : []));
      assert.deepEqual(live, wanted.accepts);
      assert.deepEqual(kindsIn(told.waits[row]), answer(`waits ${textOf(tiles)}${open}`).kinds);
      assert.equal(told.discards.shanten[row], desk.NO_HAND);
      return;
    }
    assert.deepEqual(kindsIn(told.discards.kinds[row]).sort(), wanted.discards.map(({ discard }) => discard).sort());
    for (const { discard, accepts, live } of wanted.discards) {
      const at = 34 * row + KINDS.indexOf(discard);
      assert.deepEqual(kindsIn(told.discards.accepts[at]), accepts.map(({ kind }) => kind));
      assert.equal(told.discards.live[at], live);
    }
    assert.equal(told.waits[row], desk.NO_WAITS);
  });
}

// ---- wins

const tilesOf = (text) => [...text.matchAll(/(\d+)([mpsz])/g)].flatMap(([, digits, suit]) => [...digits].map((digit) => digit + suit));
const kindsOf = (text) => tilesOf(text).map((tile) => KINDS.indexOf(tile.replace("0", "5")));

// The row of a line whose words can all be read.
function rowOf(line) {
  const [, hand, ...pairs] = line.split(" ").filter((word) => word !== "");
  const said = Object.fromEntries(pairs.map((pair) => pair.split("=")));
  const melds = (said.open?.split(",") ?? []).map((meld) => meld.split(":"));
  const all = [hand, said.on, ...melds.map(([, text]) => text)].flatMap(tilesOf);
  return winRow({
    concealed: countsOf(kindsOf(hand)),
    melds: melds.map(([sort, text]) => SORTS[sort](Math.min(...kindsOf(text)))),
    winning: kindsOf(said.on)[0],
    by: ["ron", "tsumo"].indexOf(said.by),
    ...{ seat: "ESWN".indexOf(said.seat), round: "ESWN".indexOf(said.round) },
    ...Object.fromEntries(["riichi", "counters", "sticks"].map((key) => [key, Number(said[key] ?? 0)])),
    ...Object.fromEntries((said.flags?.split(",") ?? []).map((flag) => [flag, true])),
    reds: ["0m", "0p", "0s"].map((red) => all.filter((tile) => tile === red).length),
    ...{ dora: kindsOf(said.dora ?? ""), ura: kindsOf(said.ura ?? "") },
  });
}

function tryWins(lines, rules) {
  const wanted = lines.filter((line) => line.startsWith("win ")).map((line) => [line, answer(line, rules)]);
  const told = wanted.filter(([, { code }]) => code === undefined || Number(/^H(\d+)$/.exec(code)?.[1] ?? 0) > 8);
  assert(told.length > 50);
  const rows = told.map(([line]) => rowOf(line));
  const scores = wins(Uint8Array.from(rows.flatMap((row) => [...row])), rules);
  told.forEach(([line, it], row) => {
    const sort = { won: desk.WON, "no yaku": desk.NO_YAKU, "no win": desk.NO_WIN }[it.answer] ?? Number(it.code.slice(1));
    assert.equal(scores.told[row], sort, line);
    const paid = it.payment ?? {};
    const numbers = [it.han, it.fu, it.dora, it.base, it.gain, paid.discarder, paid.dealer, paid.each_other ?? paid.each].map((each) => each ?? 0);
    assert.deepEqual(["han", "fu", "dora", "base", "gain", "discarder", "dealer", "other"].map((name) => scores[name][row]), numbers, line);
    assert.equal(scores.yaku[row], (it.yaku ?? []).reduce((set, { number }) => set | (1n << BigInt(number)), 0n), line);
  });
}

// ---- what is no row, no line, and the other build

function refuses(call, sort, words) {
  assert.throws(call, (error) => error instanceof sort && error.message.includes(words));
}

const lines = readFileSync(process.argv[2], "utf8").split("\n");
for (const size of [13, 14]) for (const hands of [1, 300]) tryHands(size, hands);
const many = Array.from({ length: 5000 }, () => drawn(13 + below(2)));
assert.deepEqual([...shanten(Uint8Array.from(many.flatMap(countsOf)))], answers(many.map((tiles) => `shape ${textOf(tiles)}`)).map((it) => it.shanten));
for (const rules of [1, 2]) tryWins(lines, rules);
assert.deepEqual([shanten([]).length, wins([]).told.length, shanten([...Array(33).fill(0), 300])[0]], [0, 0, desk.NO_HAND]);
assert.equal(shanten([1.5, ...Array(33).fill(0), ...Array(34).fill(0)])[0], desk.NO_HAND);
assert.deepEqual([shanten(new BigInt64Array(34))[0], waits(new Int32Array(34).fill(-1))[0]], [desk.NO_HAND, desk.NO_WAITS]);
refuses(() => shanten(new Uint8Array(33)), RangeError, "rows of 34");
for (const none of [undefined, 5, new ArrayBuffer(34)]) refuses(() => shanten(none), TypeError, "typed array");
refuses(() => shapes(new Uint8Array(68), { melds: new Uint8Array(4) }), RangeError, "1 rows beside 2 hands");
refuses(() => wins(new Uint8Array(64), 3), RangeError, "rules");
for (const call of [answers, texts]) {
  for (const one of ["waits 1m", new Uint8Array(3), undefined, 5]) refuses(() => call(one), TypeError, "many lines are wanted");
  refuses(() => call(["waits 1m", 5]), TypeError, "item 1: a line is a string or a Uint8Array, and not number");
}
refuses(() => answer(null), TypeError, "not null");
refuses(() => desk.answerLines(["waits 1m"]), TypeError, "not object");
refuses(() => desk.game(5), TypeError, "not number");
assert.deepEqual(answers(new Set(["waits 1112345678999m", Buffer.from("# a comment")])), [answer("waits 1112345678999m"), null]);
assert.deepEqual(Object.keys(required).sort(), Object.keys(desk).sort());
assert.deepEqual(required.answers(lines), answers(lines));
assert.deepEqual(required.discards(new Uint8Array(34)), discards(new Uint8Array(34)));
assert.deepEqual(new required.Game().state, new desk.Game().state);
console.log("all right");
