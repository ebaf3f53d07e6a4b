// Many hands or wins a call, as typed arrays: import { shanten } from "riichi_desk".

import { calls, memory, placeOf, tested } from "./module.js";

export const NO_HAND = -128;
export const NO_WAITS = 2n ** 64n - 1n;
export const WON = 100;
export const NO_YAKU = 101;
export const NO_WIN = 102;

const KINDS = 34;
const MELDS = 4;
const WIN = 64;
const SCORE = 32;
const MOST_ROWS = 2048; // that one call is given
const NO_BYTE = 255; // stands for a number that is no byte: no row may have it

const SHANTEN = { Column: Int8Array, width: 1 };
const SET = { Column: BigUint64Array, width: 1 };
const SETS = { Column: BigUint64Array, width: KINDS };
const COPIES = { Column: Uint8Array, width: KINDS };
const STEPS = { Column: Uint16Array, width: 1 };
const LIVE = { Column: Uint8Array, width: 1 };
const CALLED = { Column: Uint8Array, width: MELDS };
const CALL_SETS = { Column: BigUint64Array, width: MELDS };
const CALL_COPIES = { Column: Uint8Array, width: MELDS * KINDS };
const SCORES = { Column: Uint8Array, width: SCORE };

export const chi = (kind) => 1 + kind;
export const pon = (kind) => 65 + kind;
export const kan = (kind) => 129 + kind;
export const ankan = (kind) => 193 + kind;

function byteOf(number) {
  const told = Number(number);
  return Number.isInteger(told) && told >= 0 && told < NO_BYTE ? told : NO_BYTE;
}

// Numbers as bytes, so many a row.
function rowsOf(numbers, width, hands) {
  if (!(numbers?.length >= 0)) throw new TypeError("rows are numbers of an array or a typed array");
  const bytes = numbers instanceof Uint8Array ? numbers : Uint8Array.from(numbers, byteOf);
  if (bytes.length % width !== 0) throw new RangeError(`${bytes.length} numbers are no rows of ${width}`);
  const count = bytes.length / width;
  if (hands !== undefined && count !== hands) throw new RangeError(`${count} rows beside ${hands} hands`);
  return { bytes, width, count };
}

// The rows of hands, and those of melds and of seen tiles beside them, where there are any.
function handRows(counts, ...beside) {
  const hands = rowsOf(counts, KINDS);
  return [hands, ...beside.map(([numbers, width]) => (numbers ? rowsOf(numbers, width, hands.count) : rowsOf([], width)))];
}

// Where each array of a call lies that has so many bytes a row. With all columns of `discards` these are 387.
let place;
const MOST_WIDTH = 400;
function placesOf(widths) {
  place ??= placeOf(MOST_ROWS * MOST_WIDTH);
  const sums = widths.map((_, at) => widths.slice(0, at).reduce((sum, width) => sum + width, 0));
  return sums.map((sum) => place + MOST_ROWS * sum);
}

// The columns that a call fills for rows, a piece after the other; `first` is what it is given before them.
function columnsOf(call, first, rows, columns) {
  const { count } = rows[0];
  const places = placesOf([...rows.map(({ width }) => width), ...columns.map(({ Column, width }) => width * Column.BYTES_PER_ELEMENT)]);
  const told = columns.map(({ Column, width }) => new Column(count * width));
  for (let start = 0; start < count; start += MOST_ROWS) {
    const some = Math.min(count - start, MOST_ROWS);
    const pieces = rows.map(({ bytes, width }) => bytes.subarray(start * width, (start + some) * width));
    pieces.forEach((piece, which) => memory.set(piece, places[which]));
    const lengths = [...pieces.map((piece, which) => piece.length / rows[which].width), ...columns.map(() => some)];
    call(...first, ...places.flatMap((at, which) => [BigInt(at), BigInt(lengths[which])]));
    columns.forEach(({ Column, width }, which) => {
      told[which].set(new Column(memory.buffer, places[rows.length + which], some * width), start * width);
    });
  }
  return told;
}

export function shanten(counts, { melds } = {}) {
  return columnsOf(calls.riichi_shantens, [], handRows(counts, [melds, MELDS]), [SHANTEN])[0];
}

export function waits(counts, { melds } = {}) {
  return columnsOf(calls.riichi_waits_of, [], handRows(counts, [melds, MELDS]), [SET])[0];
}

export function shapes(counts, { melds, seen } = {}) {
  const rows = handRows(counts, [melds, MELDS], [seen, KINDS]);
  const [least, accepts, live] = columnsOf(calls.riichi_shapes, [], rows, [SHANTEN, SET, COPIES]);
  return { shanten: least, accepts, live };
}

export function discards(counts, { melds, seen } = {}) {
  const rows = handRows(counts, [melds, MELDS], [seen, KINDS]);
  const [least, kinds, accepts, live] = columnsOf(calls.riichi_discards, [], rows, [SHANTEN, SET, SETS, COPIES]);
  return { shanten: least, kinds, accepts, live };
}

// Who throws a tile, seen from the hand: the player before, from whom alone a run may be called; across; the player after.
export const LEFT = 0;
export const ACROSS = 1;
export const RIGHT = 2;

export function deeper(counts, { melds, seen } = {}) {
  const rows = handRows(counts, [melds, MELDS], [seen, KINDS]);
  const [least, second, good] = columnsOf(calls.riichi_deeper, [], rows, [SHANTEN, STEPS, LIVE]);
  return { shanten: least, second, good };
}

// Of each hand and its thrown tile (two numbers: the kind, and who throws it) four calls: for a run of which the tile is the highest, the
// middle or the lowest, and for a triplet.
export function callsOf(counts, thrown, { melds, seen } = {}) {
  const rows = handRows(counts, [melds, MELDS], [seen, KINDS], [thrown, 2]);
  const [called, kinds, live] = columnsOf(calls.riichi_calls, [], rows, [CALLED, CALL_SETS, CALL_COPIES]);
  return { melds: called, kinds, live };
}

// The row of a win, as `wins` takes many of them, one behind the other.
export function winRow(win) {
  const row = new Uint8Array(WIN);
  row.set(win.concealed);
  row.set(win.melds ?? [], KINDS);
  const flags = ["ippatsu", "rinshan", "chankan", "last", "first"].map((name) => Number(win[name] ?? false));
  row.set([win.winning, win.by ?? 0, win.seat ?? 0, win.round ?? 0, win.riichi ?? 0, ...flags, win.counters ?? 0, win.sticks ?? 0], 38);
  row.set(win.reds ?? [], 50);
  row.set((win.dora ?? []).map((kind) => 1 + kind), 53);
  row.set((win.ura ?? []).map((kind) => 1 + kind), 58);
  return row;
}

export function wins(rows, rules = 1) {
  tested(rules);
  const [scores] = columnsOf(calls.riichi_wins, [rules], [rowsOf(rows, WIN)], [SCORES]);
  const numbers = new DataView(scores.buffer);
  const column = (Column, read, from) => Column.from({ length: scores.length / SCORE }, (_, row) => read(SCORE * row + from));
  const bytes = (from) => column(Uint8Array, (at) => scores[at], from);
  const words = (from) => column(Uint32Array, (at) => numbers.getUint32(at, true), from);
  return {
    ...{ told: bytes(28), han: bytes(29), fu: bytes(30), dora: bytes(31) },
    ...{ base: words(8), gain: words(12), discarder: words(16), dealer: words(20), other: words(24) },
    yaku: column(BigUint64Array, (at) => numbers.getBigUint64(at, true), 0),
  };
}
