// A refusal: its cause in the words of the page, what may stand there, and a line to try.

import { sizesOf } from "./asked.js";
import { make, tilesDrawn } from "./elements.js";
import { named, tileName } from "./names.js";
import { recordOf, tilesOf } from "./record.js";
import { countOf, KINDS } from "./tiles.js";
import { colon, listed, phrase, within } from "./words.js";

// What each field is called.
const FIELDS = {
  hand: "@hand", on: "the winning tile", open: "the melds", by: "ron or self-draw", seat: "the seat", round: "the round", riichi: "@riichi",
  flags: "@flags", dora: "dora indicators", ura: "ura indicators", counters: "@counters", sticks: "@sticks", seen: "tiles seen",
};
const TRY = /^ *try: /;

// How many tiles there are, and how many are wanted.
function tilesCause(record) {
  const wanted = sizesOf(record.job, record.melds);
  const melds = record.melds.length > 0 ? [phrase("so many melds", { number: record.melds.length })] : [];
  const what = listed([phrase("so many tiles", { number: record.hand.length }), ...melds]);
  return phrase("tiles wanted", { what, wanted: wanted.join(" / ") });
}

function copiesCause(record) {
  const all = tilesOf(record);
  return listed(KINDS.filter((kind) => countOf(kind, all) > 4).map((kind) => `${tileName(kind)} ×${countOf(kind, all)}`));
}

// The cause of a refusal, where the page has words for it.
function causeOf({ code, key }, { line }) {
  const record = recordOf(line);
  if (code === "H8" && key === "hand" && record !== null) return tilesCause(record);
  if (code === "H9" && record !== null) return `${phrase("hand H9")} ${copiesCause(record)}`;
  return /^H1[0-5]$/.test(code) ? phrase(`hand ${code}`) : phrase("refused");
}

// The text of tiles in which a fault stands, with its place marked.
function placeShown({ place, at, length }, line) {
  const word = line.slice(at, at + length);
  const text = word.slice(word.indexOf("=") + 1);
  const mark = make("span", { class: "place" }, text.slice(place, place + 1) || phrase("its end"));
  return make("p", { class: "raw" }, text.slice(0, place), mark, text.slice(place + 1));
}

// What a refusal says: what may stand there, behind the word at fault where its place isn't shown, and what else is known of the line.
function saidOf({ at = 0, length = 0, place, words }, { line, reasons }) {
  const word = place === undefined ? line.slice(at, at + length).trim() : "";
  const known = reasons.slice(reasons.findIndex((row) => row.endsWith(words)) + 1).filter((row) => !TRY.test(row));
  return [word === "" ? words : `${word}: ${words}`, ...known.map((row) => row.trim())];
}

// A value of a record as it is shown.
function valueShown(key, value) {
  if (key === "riichi") return [named(`riichi${value}`)];
  if (key === "flags") return [listed(value.map(named))];
  if (key === "melds") return value.flatMap(({ word, tiles }) => [`${named(word)} `, tilesDrawn(tiles)]);
  return Array.isArray(value) ? [tilesDrawn(value)] : [["counters", "sticks"].includes(key) ? value : named(value)];
}

// What of the hand a line to try makes otherwise: the new value, or what is left out. Null where the page doesn't know the whole.
function changesShown(line, other) {
  const [now, then] = [line, other].map(recordOf);
  if (now === null || then === null || now.job !== then.job) return null;
  const changed = Object.keys(then).filter((key) => JSON.stringify(now[key]) !== JSON.stringify(then[key]));
  const row = (key) => {
    const name = colon(phrase(FIELDS[key === "melds" ? "open" : key]), "");
    const isOut = then[key].length === 0;
    return make("span", {}, name, make(isOut ? "s" : "span", {}, ...valueShown(key, isOut ? now[key] : then[key])));
  };
  return changed.length === 0 ? null : changed.map(row);
}

// A button that fills in the line to try; the page listens to what it tells.
function tryButton(row, { line: now }) {
  const line = row.replace(TRY, "");
  const press = ({ currentTarget }) => currentTarget.dispatchEvent(new CustomEvent("tryline", { bubbles: true, detail: line }));
  return make("button", { type: "button", class: "try", title: line, click: press }, colon(phrase("try"), ""), ...(changesShown(now, line) ?? [line]));
}

export function shownRefusal(answer, about) {
  const cause = causeOf(answer, about);
  const mark = cause === phrase("refused") ? [] : [make("p", { class: "quiet" }, phrase("refused"))];
  const box = make("div", { class: "refused" }, make("p", { class: "headline" }, cause), ...mark);
  box.append(...about.reasons.filter((row) => TRY.test(row)).map((row) => tryButton(row, about)));
  // What the library says, in English and in the words of a line, stands where the page has no words of its own.
  if (mark.length === 0) box.append(...saidOf(answer, about).map((row) => make("p", { class: "reason", lang: "en" }, row)));
  const field = FIELDS[answer.key];
  if (field !== undefined) box.append(make("p", {}, phrase("look at", { what: within(phrase(field)) })));
  if (answer.place !== undefined) box.append(placeShown(answer, about.line));
  return [box];
}
