// What stands beyond the next step of a hand that isn't ready: good and second, of thirteen tiles or after each of the best discards.

import { make, tileImage } from "./elements.js";
import { recordOf } from "./record.js";
import { state } from "./state.js";
import { KINDS, kindOf } from "./tiles.js";
import { phrase } from "./words.js";

// How a meld begins as a byte: the sort of it, above its lowest kind.
const MELD_BYTES = { chi: 1, pon: 65, kan: 129, ankan: 193 };

function placesOfKinds(tiles) {
  return tiles.map((tile) => KINDS.indexOf(kindOf(tile)));
}

function tileCounts(tiles) {
  const counts = new Uint8Array(KINDS.length);
  for (const kind of placesOfKinds(tiles)) counts[kind] += 1;
  return counts;
}

// A hand as the library's calls for many hands have it; after a discard, which is then seen.
export function shapeRow({ hand, melds, seen }, discard) {
  const row = { counts: tileCounts(hand), melds: melds.map((meld) => MELD_BYTES[meld.word] + Math.min(...placesOfKinds(meld.tiles))), seen: tileCounts(seen) };
  if (discard !== undefined) {
    const [kind] = placesOfKinds([discard]);
    row.counts[kind] -= 1;
    row.seen[kind] += 1;
  }
  return row;
}

function markedCell(number, most) {
  return make("td", number === most ? { class: "most" } : {}, String(number));
}

// A row for each discard, with the most of each column marked; of thirteen tiles one row without a tile.
function shownTable({ discards, live }, line) {
  const record = recordOf(line);
  const tiles = discards?.map(({ discard }) => discard) ?? [undefined];
  const outlooks = state.desk.outlooks(tiles.map((tile) => shapeRow(record, tile)));
  const columns = [discards?.map((it) => it.live) ?? [live], outlooks.map(({ good }) => good), outlooks.map(({ second }) => second)];
  const names = ["live tiles", "good", "second"].map((word) => make("th", { scope: "col" }, phrase(word)));
  const first = (tile) => (tile === undefined ? [] : [make("th", { scope: "row" }, tileImage(tile))]);
  const rows = tiles.map((tile, at) => {
    const cells = columns.map((column) => markedCell(column[at], tiles.length > 1 ? Math.max(...column) : NaN));
    return make("tr", {}, ...first(tile), ...cells);
  });
  const head = make("tr", {}, ...(discards ? [make("td", {})] : []), ...names);
  return make("table", { class: "further" }, make("thead", {}, head), make("tbody", {}, ...rows));
}

// The part of a shape's answer that is opened; it stays open for the next hands.
export function furtherParts(answer, { line }) {
  if (answer.answer !== "shape" || answer.shanten < 1) return [];
  const part = make("details", {}, make("summary", {}, phrase("further")));
  const fill = () => {
    state.isFurther = part.open;
    if (part.open && part.childElementCount === 1) {
      part.append(shownTable(answer, line), make("p", { class: "further-help" }, phrase("further help")));
    }
  };
  part.addEventListener("toggle", fill);
  part.open = state.isFurther;
  return [part];
}
