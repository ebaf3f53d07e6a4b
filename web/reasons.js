// Why an answer is what it is: in English by the library's own text, in another language from the library's values.

import { make, textWithTiles, tilesDrawn } from "./elements.js";
import { named, yakuName } from "./names.js";
import { points } from "./numbers.js";
import { tilesIn } from "./tiles.js";
import { isPhrase, isPlainEnglish, listed, phrase } from "./words.js";

function drawnTiles(text) {
  return tilesDrawn(tilesIn(text));
}

function readingParts({ form, sets = [], pair, completed }) {
  if (form !== "standard") return [phrase(`form ${form}`)];
  const last = completed === undefined ? [] : [` ${phrase("completed")} `, drawnTiles(completed)];
  return [...sets.map(drawnTiles), ...(pair === undefined ? [] : [drawnTiles(pair)]), ...last];
}

// The rows of fu, and the fu that they come to.
function fuParts(rows, fu) {
  const row = ({ part, kind, fu: earned }) => {
    const tiles = kind === undefined ? [] : [drawnTiles(kind)];
    return [`${phrase(`fu ${part}`)} `, ...tiles, phrase("fu", { number: earned })];
  };
  const parted = rows.map(row).flatMap((parts, at) => (at === 0 ? parts : [listed(["", ""]), ...parts]));
  return [make("strong", {}, phrase("fu", { number: fu })), " ", ...parted];
}

function hanParts(rows, han, by) {
  const part = ({ part: word, han: earned }) => {
    const name = word === "dora" ? named("dora") : yakuName(word, by);
    return earned === undefined ? name : `${name} ${phrase("han", { number: earned })}`;
  };
  return [...(han === undefined ? [] : [make("strong", {}, phrase("han", { number: han })), " "]), listed(rows.map(part))];
}

function doraParts(rows) {
  return [listed(rows.map(({ part, han }) => `${phrase(`dora ${part}`)} ${han}`))];
}

function paymentParts(rows) {
  const more = (counters) => (counters > 0 ? ` + ${points(counters)}` : "");
  const row = ({ payer, points: paid, counters }) => `${phrase(`payer ${payer}`)} ${points(paid)}${more(counters)}`;
  return [listed(rows.map(row))];
}

function otherParts({ reading, han, fu, gain }) {
  if (gain === undefined) return [...readingParts(reading), ` ${phrase("no yaku")}`];
  const size = han === undefined ? [] : [phrase("han and fu", { han, fu })];
  return [...readingParts(reading), ` ${[...size, phrase("headline points", { points: points(gain) })].join(" ")}`];
}

function wonRows({ fu, han, base, yakuman, why }, by) {
  return [
    ...(why.fu.length > 0 ? [["row fu", fuParts(why.fu, fu)]] : []),
    [yakuman ? "row yakuman" : "row han", hanParts(why.han, yakuman ? undefined : han, by)],
    ...(why.dora.length > 0 ? [["row dora", doraParts(why.dora)]] : []),
    ["row base", [points(base)]],
    ["row pays", paymentParts(why.payments)],
    ["row reading", readingParts(why.reading)],
    ...why.others.map((other) => ["row other", otherParts(other)]),
  ];
}

function noWinRows({ why }) {
  const far = Object.entries(why.shanten).map(([form, number]) => `${phrase(`form ${form.replaceAll("_", " ")}`)} ${number}`);
  return [["row waits", why.waits.length > 0 ? why.waits.map(drawnTiles) : [phrase("no waits")]], ["row shanten", [listed(far)]]];
}

const ROWS = {
  won: wonRows,
  "no yaku": ({ why }) => why.others.map((other) => ["row other", otherParts(other)]),
  "no win": noWinRows,
};

function shownRow(word, parts, about = {}) {
  return [make("dt", about, ...word), make("dd", about, ...parts)];
}

// ---- Waits and shapes, whose reasons the library tells as text alone

// A row as the library writes it: its first word, and the others. Points are written as everywhere on the page.
function plainRow(row) {
  const [, word, text] = /^ *(\S+) *(.*)$/.exec(row) ?? [null, row, ""];
  const written = text.replace(/\b[0-9]{4,}\b/g, (number) => points(Number(number)));
  return shownRow(textWithTiles(word), textWithTiles(written), { lang: "en" });
}

// A kind that a hand waits for: how many of it are left, and how they complete the hand.
function waitRow(row) {
  const [, kind, number, sorts = ""] = /^ *([1-9][mpsz]) ([0-9]+) left, (.*)$/.exec(row) ?? [];
  const words = sorts.split(", ").map((sort) => `wait ${sort.replace(/ \(.*\)$/, "")}`);
  if (kind === undefined || !words.every(isPhrase)) return null;
  return shownRow([drawnTiles(kind)], [listed([phrase("left of kind", { number }), ...words.map((word) => phrase(word))])]);
}

// How far a shape is from each form.
function shantenRow(row) {
  const [, list] = /^ *shanten (.*)$/.exec(row) ?? [];
  const forms = (list ?? "").split(", ").map((it) => /^(.*) (-?[0-9]+)$/.exec(it.replace("sets and a pair", "standard")) ?? []);
  if (!forms.every(([, form]) => isPhrase(`form ${form}`))) return null;
  return shownRow([phrase("row shanten")], [listed(forms.map(([, form, number]) => `${phrase(`form ${form}`)} ${number}`))]);
}

function noneLeftRow(row) {
  return row.trim() === "no tile that is left completes the hand" ? shownRow([phrase("row waits")], [phrase("none left")]) : null;
}

// Rows of the library's text; those whose words the page knows are said in its language, if that is another.
function rowsOfText(reasons, first) {
  const isFirst = (row) => first.some((word) => row.trim().startsWith(`${word} `));
  const rows = [...reasons.filter(isFirst), ...reasons.filter((row) => !isFirst(row))];
  const parts = rows.flatMap((it) => (/^ *waits /.test(it) ? it : it.split("; ")));
  const known = (row) => (isPlainEnglish() ? null : (waitRow(row) ?? shantenRow(row) ?? noneLeftRow(row)));
  return parts.flatMap((row) => known(row) ?? plainRow(row));
}

// The rows of an answer: a word, and what it tells. Each kind that a hand waits for has a row; where it is no win, they stand in
// one. Rows of text whose words stand in `first` come before the others.
export function rowsOfReasons({ values, reasons, by }, first) {
  if (values.why === undefined) return rowsOfText(reasons, first);
  return ROWS[values.answer](values, by).flatMap(([word, parts]) => shownRow([phrase(word)], parts));
}
