// The picker: a button for each kind of tile. One of them is in the order of the Tab key, and the arrow keys move among them.

import { byId, isWide, label, make, tileButton } from "./elements.js";
import { meldTiles, taken } from "./moves.js";
import { digitName, named, tileName } from "./names.js";
import { MELD_WORDS } from "./record.js";
import { state } from "./state.js";
import { KINDS, SUITS, tileOf } from "./tiles.js";
import { phrase } from "./words.js";

// What each button shows.
const shownOn = new Map();

export function makePicker(take, back) {
  const rows = SUITS.map((suit) => KINDS.filter((kind) => kind[1] === suit).map((kind) => pickerButton(kind, take)));
  byId("picker").prepend(...rows.map((buttons) => make("div", { class: "suit" }, ...buttons)));
  // The seven honours leave space for two buttons.
  document.querySelector("#picker .suit:last-of-type").append(byId("red"), byId("back"));
  byId("picker").addEventListener("keydown", (event) => movePicker(event, back));
  makeReachable(pickerButtons()[0]);
}

function pickerButtons() {
  return [...document.querySelectorAll("#picker .on-tile")];
}

function pickerButton(kind, press) {
  const button = tileButton(kind, tileName(kind), () => press(kind));
  button.dataset.kind = kind;
  button.addEventListener("focus", () => makeReachable(button));
  return button;
}

function makeReachable(button) {
  for (const other of pickerButtons()) other.tabIndex = other === button ? 0 : -1;
}

// The button that an arrow key, Home or End leads to.
function buttonFrom(button, key) {
  const rows = [...document.querySelectorAll("#picker .suit")].map((row) => [...row.querySelectorAll(".on-tile")]);
  const row = rows.findIndex((it) => it.includes(button));
  const at = rows[row].indexOf(button);
  // On a narrow screen the suits are columns, and the arrow keys go otherwise.
  const keys = [["ArrowLeft", "ArrowRight"], ["ArrowUp", "ArrowDown"]];
  const [along, across] = isWide.matches ? keys : keys.reverse();
  if (key === "Home") return rows[row][0];
  if (key === "End") return rows[row].at(-1);
  if (along.includes(key)) return rows[row][at + (key === along[0] ? -1 : 1)];
  if (!across.includes(key)) return undefined;
  const beside = rows[row + (key === across[0] ? -1 : 1)];
  return beside?.[Math.min(at, beside.length - 1)];
}

function movePicker(event, back) {
  const button = event.target.closest(".on-tile");
  if (!button) return;
  if (event.key === "Backspace") {
    event.preventDefault();
    back();
    return;
  }
  const next = buttonFrom(button, event.key);
  if (!next) return;
  event.preventDefault();
  next.focus();
}

// What a tap on this kind would take, as it is read aloud.
function wordsOfTap(kind, { target, isRed }) {
  const name = tileName(tileOf(kind, isRed));
  if (!MELD_WORDS.includes(target)) return name;
  const digits = meldTiles(target, kind, isRed).map(digitName).join(" ");
  return target === "chi" ? phrase("run from", { word: named(target), digits, tile: name }) : `${named(target)}: ${name}`;
}

// Shows what each button would take now, and marks those that can't be taken. What is shown already is left as it is.
export function showPicker() {
  const { record, target, isRed } = state;
  const hasMelds = MELD_WORDS.includes(target);
  for (const button of pickerButtons()) {
    const { kind } = button.dataset;
    const isFree = taken(record, target, kind, isRed) !== null;
    const meld = hasMelds && isFree ? meldTiles(target, kind, isRed).map((it) => it[0]).join("") : "";
    const [name, tile] = [wordsOfTap(kind, state), tileOf(kind, isRed)];
    const shown = [isFree, meld, name, tile].join("|");
    if (shown === shownOn.get(button)) continue;
    shownOn.set(button, shown);
    button.setAttribute("aria-disabled", String(!isFree));
    label(button, name);
    button.dataset.meld = meld;
    button.querySelector(".face").dataset.face = tile;
  }
}
