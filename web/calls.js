// The calls of a tile that another player throws which bring a hand of thirteen tiles nearer, each with its best discards.

import { lackOfTiles, spaceInHand } from "./asked.js";
import { byId, make, tileImage, tilesDrawn } from "./elements.js";
import { shapeRow } from "./further.js";
import { THROWERS } from "./moves.js";
import { named } from "./names.js";
import { recordOf } from "./record.js";
import { state } from "./state.js";
import { KINDS } from "./tiles.js";
import { colon, phrase } from "./words.js";

// The kinds of the four calls that the library tells of a thrown kind, in its order.
const CALLS = [["chi", -2], ["chi", -1], ["chi", 0], ["pon", 0]];

// The tile that is thrown belongs to the hand at hand, so another line has none.
export function throwTile(kind) {
  Object.assign(state, { thrown: { line: state.line, from: state.target, kind }, target: "hand" });
}

// Who throws a tile is asked beside a hand of thirteen tiles alone: one that is whole, and has space for one more.
export function showThrowers() {
  const { record } = state;
  byId("throwers").hidden = record.job !== "shape" || lackOfTiles(record) > 0 || spaceInHand(record) === 0;
}

function tilesOfCall(word, lowest) {
  return word === "pon" ? Array(3).fill(KINDS[lowest]) : [0, 1, 2].map((step) => KINDS[lowest + step]);
}

// The discards after a call, the best ones, each with the live tiles that the hand then accepts.
function discardsShown(discards) {
  const items = discards.map(({ kind, live }) => make("li", {}, tileImage(kind), make("span", {}, phrase("live", { number: live }))));
  return make("ul", { class: "accepted", "aria-label": phrase("call discards") }, ...items);
}

function callItem({ word, tiles, discards }) {
  return make("li", {}, make("p", { class: "bound" }, `${named(word)} `, tilesDrawn(tiles)), discardsShown(discards));
}

// The calls of a thrown kind that bring this hand nearer.
function callsOfLine(line, { from, kind }) {
  const place = KINDS.indexOf(kind);
  const told = state.desk.calls(shapeRow(recordOf(line)), [place, THROWERS.indexOf(from)]);
  const one = (call, at) => ({ word: CALLS[at][0], tiles: tilesOfCall(CALLS[at][0], place + CALLS[at][1]), ...call });
  return told.map(one).filter(({ discards }) => discards.length > 0);
}

// What is said of the tile that is thrown; nothing where none is.
export function callsParts(answer, { line }) {
  const { thrown } = state;
  if (answer.answer !== "shape" || thrown === null || thrown.line !== line) return [];
  const found = callsOfLine(line, thrown);
  const head = make("p", { class: "bound" }, make("strong", {}, colon(named(thrown.from), "")), tileImage(thrown.kind));
  const none = make("p", {}, phrase("no call"));
  const some = [make("ol", { class: "calls" }, ...found.map(callItem)), make("p", { class: "quiet" }, phrase("calls help"))];
  return [make("section", { class: "thrown", "aria-label": phrase("thrown") }, head, ...(found.length === 0 ? [none] : some))];
}
