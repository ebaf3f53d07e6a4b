// The hand on the table: its tiles, the winning one, the melds, and the indicators. What lies there already stays as it is.

import { doraOf, lackOfTiles } from "./asked.js";
import { byId, drawing, label, make, tileButton } from "./elements.js";
import { without, withoutMeld } from "./moves.js";
import { named, tileName } from "./names.js";
import { state } from "./state.js";
import { isRed, sorted } from "./tiles.js";
import { language, listed, phrase } from "./words.js";

// What a tap on a tile does; the form says it, since it shows all anew.
let tellTray = () => {};

// An item of a list: what it shows, by which it is known again, and how it is made.
function trayItem(words, make) {
  return { shows: [...words, state.names, language()].join("|"), make };
}

// The place of what was tapped among the items of its sort.
function placeTapped({ currentTarget }, sort) {
  const tapped = currentTarget.closest("li");
  return [...tapped.parentElement.querySelectorAll(`:scope > ${sort}`)].indexOf(tapped);
}

// Puts these items into a list, in their order. Those that are there already aren't made again, nor moved.
function showItems(list, items) {
  const shown = [...byId(list).children];
  const known = ({ shows }) => {
    const at = shown.findIndex((it) => it.dataset.shows === shows);
    return at < 0 ? undefined : shown.splice(at, 1)[0];
  };
  let place = byId(list).firstElementChild;
  for (const it of items) {
    const element = known(it) ?? it.make();
    element.dataset.shows = it.shows;
    if (element === place) place = place.nextElementSibling;
    else byId(list).insertBefore(element, place);
  }
  for (const element of shown) element.remove();
}

// A tile that a tap takes out of this part of the record.
function tileItem(list, name, tile, words = phrase("take out tile", { tile: tileName(tile) })) {
  const out = (event) => tellTray(list, without(state.record, name, placeTapped(event, name === "on" ? ".winning" : "li")));
  return trayItem([name, tile, words], () => make("li", {}, tileButton(tile, words, out)));
}

// An indicator, with the dora that it makes.
function indicatorItem(name, tile) {
  const dora = doraOf(tile);
  if (dora === undefined) return tileItem(name, name, tile);
  const words = phrase("makes dora", { tile: tileName(tile), dora: tileName(dora) });
  const plain = tileItem(name, name, tile, words);
  const made = () => {
    const element = plain.make();
    element.firstChild.append(make("span", { class: "tile makes" }, drawing(dora)));
    return element;
  };
  return { ...plain, make: made };
}

// A tile of a hand. In a whole hand a tap makes it the winning one, which the next tap takes out.
function tileOfHand(tile) {
  const { record } = state;
  if (record.job !== "win" || record.on.length === 0) return tileItem("tray", "hand", tile);
  const words = phrase("make winning", { tile: tileName(tile) });
  const choose = (event) => {
    const { record: now } = state;
    const at = placeTapped(event, "li");
    const hand = sorted([...now.hand.filter((_, place) => place !== at), now.on[0]]);
    tellTray("tray", { ...now, hand, on: [tile] });
  };
  return trayItem(["choose", tile, words], () => make("li", {}, tileButton(tile, words, choose)));
}

function emptySlot(word = "", sort = "slot") {
  return trayItem([sort, word], () => make("li", { class: sort, "aria-hidden": "true" }, make("span", {}, word)));
}

function winningItem(tile) {
  const words = phrase("is winning", { words: phrase("take out tile", { tile: tileName(tile) }) });
  const plain = tileItem("tray", "on", tile, words);
  const made = () => {
    const element = plain.make();
    element.classList.add("winning");
    element.dataset.field = "on";
    return element;
  };
  return { ...plain, make: made };
}

// A meld. Of a closed kong the outer tiles lie face down, as on a table; which of four is a red five is seen all the same.
function meldItem({ word, tiles }) {
  const words = phrase("take out tile", { tile: `${named(word)} ${listed(tiles.map(tileName))}` });
  const isDown = (tile, at) => word === "ankan" && (at === 0 || at === 3) && !isRed(tile);
  const faces = () => tiles.map((tile, at) => make("span", { class: isDown(tile, at) ? "tile is-down" : "tile" }, drawing(tile)));
  const press = (event) => tellTray("tray", withoutMeld(state.record, placeTapped(event, ".meld")));
  const made = () => make("li", { class: "meld" }, label(make("button", { type: "button", click: press }, ...faces()), words));
  return trayItem([word, ...tiles, words], made);
}

// Shows the hand, the tiles that it still lacks as empty places, the winning tile and the melds; `out` takes a tap.
export function showTray(out) {
  tellTray = out;
  const { record } = state;
  const lacking = Array.from({ length: lackOfTiles(record) }, () => emptySlot());
  const winning = record.on.length > 0 ? record.on.map(winningItem) : [emptySlot(phrase("slot win"), "slot winning")];
  const melds = record.melds.map(meldItem);
  showItems("tray", [...record.hand.map(tileOfHand), ...lacking, ...(record.job === "win" ? winning : []), ...melds]);
  for (const name of ["dora", "ura"]) showItems(name, record[name].map((tile) => indicatorItem(name, tile)));
  showItems("seen", record.seen.map((tile) => tileItem("seen", "seen", tile)));
}
