// The proved library: its module, and its calls. Sizes and places are 64-bit numbers there, though its memory has 32-bit places.

import { ledgerOf } from "./ledger.js";
import { KINDS, range } from "./tiles.js";

const PAGE = 65536;
const MOST_LINE = 4098;
// What a call is given has so many pages of the memory, and what it tells two more.
const GIVEN_PAGES = 4;
// So many bytes of what it tells are of one column.
const COLUMN_ROOM = 4096;
const KIND_COUNT = 34;
const CALL_COUNT = 4;
// A text of games is no longer.
const MOST_GAME = GIVEN_PAGES * PAGE;

// What this browser lacks of what the module needs, in words; "" where nothing is known to be lacking.
export function lackOfBrowser() {
  if (typeof WebAssembly !== "object") {
    return "WebAssembly is missing. On an iPhone or iPad Lockdown Mode turns it off; elsewhere a newer browser has it.";
  }
  const newer = "a newer version runs the desk.";
  if (typeof BigInt64Array !== "function") return `64-bit numbers (BigInt) are missing. Browsers have them since 2020: ${newer}`;
  if (typeof HTMLDialogElement !== "function") return `Dialogs are missing. Browsers have them since 2022: ${newer}`;
  return "";
}

// The module, inside this page or beside it, compiled once, and while it comes where the host says what it is.
async function compiledModule() {
  const inside = document.getElementById("module");
  if (inside) return WebAssembly.compile(Uint8Array.from(atob(inside.textContent.trim()), (letter) => letter.charCodeAt(0)));
  const told = await fetch("riichi_desk.wasm");
  if (!told.ok) throw new Error(`the file riichi_desk.wasm isn't there (${told.status})`);
  const isStreamed = told.headers.get("content-type") === "application/wasm" && WebAssembly.compileStreaming !== undefined;
  return isStreamed ? WebAssembly.compileStreaming(told) : WebAssembly.compile(await told.arrayBuffer());
}

// The desk over the exports of the module: each call puts a line into the module's memory and reads what was answered.
export class Desk {
  #exports;
  #line;
  #room;

  constructor(module, exports) {
    this.module = module;
    this.#exports = exports;
    this.#line = exports.memory.grow(GIVEN_PAGES + 2) * PAGE;
    this.#room = this.#line + MOST_GAME;
    this.ledger = ledgerOf(this.#places());
  }

  // What the class of games is made over. The module's memory stays as it is from now on.
  #places() {
    const { buffer } = this.#exports.memory;
    const tested = (rules) => {
      if (this.#ask("answer", "", rules) !== "") throw new RangeError(`no rules are ${rules}`);
    };
    const places = { calls: this.#exports, LINE: this.#line, ROOM: this.#room, tested };
    return { ...places, memory: new Uint8Array(buffer), view: new DataView(buffer) };
  }

  static async start() {
    try {
      const module = await compiledModule();
      return new Desk(module, (await WebAssembly.instantiate(module, {})).exports);
    } catch (failure) {
      if (!(failure instanceof WebAssembly.CompileError)) throw failure;
      throw new Error("its WebAssembly is too old: browsers since 2021 have what is needed");
    }
  }

  #read(needed) {
    return new TextDecoder().decode(new Uint8Array(this.#exports.memory.buffer, this.#room, Number(needed)));
  }

  // What a call says of a line under the profile of this number; "" where the line is no record.
  #ask(call, line, rules) {
    // A line of more than 4096 bytes is refused whatever follows.
    const bytes = new TextEncoder().encode(line.replace(/\r$/, "")).subarray(0, MOST_LINE);
    new Uint8Array(this.#exports.memory.buffer).set(bytes, this.#line);
    const room = [BigInt(this.#room), BigInt(PAGE)];
    return this.#read(this.#exports[`riichi_${call}`](rules, BigInt(this.#line), BigInt(bytes.length), ...room));
  }

  // The answer as a text; "" for a comment.
  answer(line, rules) {
    return this.#ask("answer", line, rules);
  }

  // The answer's values; null for a comment.
  values(line, rules) {
    return JSON.parse(this.#ask("json", line, rules) || "null");
  }

  // The answer's values, those of a win with its reasons.
  reasons(line, rules) {
    return JSON.parse(this.#ask("explain_json", line, rules) || "null");
  }

  // The lines that say why the answer is what it is.
  explain(line, rules) {
    return this.#ask("explain", line, rules).split("\n").filter((it) => it !== "");
  }

  // Puts rows of hands (counts, melds as bytes, tiles that are seen) and of what `more` has into the memory, a page for each array, and
  // has a call fill columns; gives the places of the columns.
  #fill(call, hands, more, columns) {
    const memory = new Uint8Array(this.#exports.memory.buffer);
    const given = ["counts", "melds", "seen", ...more].map((name, page) => {
      const place = this.#line + page * PAGE;
      const width = name === "melds" ? 4 : hands[0][name].length;
      memory.fill(0, place, place + width * hands.length);
      hands.forEach((hand, row) => memory.set(hand[name], place + width * row));
      return place;
    });
    const told = range(0, columns - 1).map((column) => this.#room + column * COLUMN_ROOM);
    this.#exports[`riichi_${call}`](...[...given, ...told].flatMap((place) => [BigInt(place), BigInt(hands.length)]));
    return told;
  }

  // Of each hand of thirteen tiles good and second; 0 of one that is ready.
  outlooks(hands) {
    const [, second, good] = this.#fill("deeper", hands, [], 3);
    const view = new DataView(this.#exports.memory.buffer);
    return hands.map((_, row) => ({ good: view.getUint8(good + row), second: view.getUint16(second + 2 * row, true) }));
  }

  // Of a hand of thirteen tiles and a thrown tile (its kind, and who throws it) four calls: for a run of which the tile is the highest, the
  // middle or the lowest, and for a triplet. Each has its best discards: none where it brings the hand no nearer.
  calls(hand, thrown) {
    const [, kinds, live] = this.#fill("calls", [{ ...hand, thrown }], ["thrown"], 3);
    const view = new DataView(this.#exports.memory.buffer);
    const isBest = (call, kind) => (view.getBigUint64(kinds + 8 * call, true) >> BigInt(kind)) & 1n;
    const liveOf = (call, kind) => view.getUint8(live + KIND_COUNT * call + kind);
    const discardsOf = (call) => range(0, KIND_COUNT - 1).filter((kind) => isBest(call, kind)).map((kind) => ({ kind: KINDS[kind], live: liveOf(call, kind) }));
    return range(0, CALL_COUNT - 1).map((call) => ({ discards: discardsOf(call) }));
  }

  // What the command `game` answers to a text of games; null where it is too long for a phone.
  game(text) {
    const bytes = new TextEncoder().encode(text);
    if (bytes.length > MOST_GAME) return null;
    const { memory } = this.#exports;
    const [line, length, room] = [this.#line, bytes.length, this.#room].map(BigInt);
    const taken = this.#room + PAGE;
    const pieces = [];
    for (let from = 0n; from <= length; from = new DataView(memory.buffer).getBigUint64(taken, true)) {
      new Uint8Array(memory.buffer).set(bytes, this.#line);
      pieces.push(this.#read(this.#exports.riichi_game_lines(1, line, length, from, room, BigInt(PAGE), BigInt(taken))));
    }
    return pieces.join("");
  }

  // The base points of a hand of so many han and fu, won by ron (0) or self-draw (1); 0 where no hand has so many.
  baseOf(rules, by, han, fu) {
    return this.#exports.riichi_game_base(rules, by, han, fu);
  }

  // The number of the rules that a text such as `2` or `1+red-fives-ura` names; undefined where it names none.
  rulesOf(text) {
    const bytes = new TextEncoder().encode(text).subarray(0, MOST_LINE);
    new Uint8Array(this.#exports.memory.buffer).set(bytes, this.#line);
    const rules = this.#exports.riichi_rules(BigInt(this.#line), BigInt(bytes.length), BigInt(this.#room));
    return rules === 0 ? undefined : rules;
  }

  version() {
    return this.#read(this.#exports.riichi_version(BigInt(this.#room), BigInt(PAGE)));
  }
}
