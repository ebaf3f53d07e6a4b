// A tile that is tapped moves to its place, unless the device asks for less motion.

import { byId } from "./elements.js";

const LASTS = 160; // milliseconds
const wantsLess = matchMedia("(prefers-reduced-motion: reduce)");

// Where a tile of the picker is seen now.
export function placeOfKind(kind) {
  return document.querySelector(`#picker [data-kind="${kind}"] .tile`).getBoundingClientRect();
}

// The tile of the tray that was put in last: the winning one, a meld, or the last like it.
function newTile(before, after, tile) {
  const items = [...byId("tray").children];
  if (after.on.length > before.on.length) return items.find((it) => it.classList.contains("winning"));
  if (after.melds.length > before.melds.length) return items.at(-1);
  return after.hand.length > before.hand.length ? items[after.hand.lastIndexOf(tile)] : undefined;
}

// Shows how a tile comes from there into the tray.
export function moveTile(from, before, after, tile) {
  const to = newTile(before, after, tile)?.querySelector(".tile");
  if (wantsLess.matches || !to || from.width === 0) return;
  const end = to.getBoundingClientRect();
  const [right, down] = [from.x - end.x, from.y - end.y];
  to.animate([{ transform: `translate(${right}px, ${down}px)` }, { transform: "none" }], { duration: LASTS, easing: "ease-out" });
}
