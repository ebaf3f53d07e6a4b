// The answer to one line, as it is shown.

import { callsParts } from "./calls.js";
import { make, tileImage } from "./elements.js";
import { furtherParts } from "./further.js";
import { named, shantenWords, yakuName } from "./names.js";
import { points, signed } from "./numbers.js";
import { wordsOf } from "./record.js";
import { rowsOfReasons } from "./reasons.js";
import { shownRefusal } from "./refusal.js";
import { colon, phrase } from "./words.js";

function payWords({ discarder, dealer, each_other: other, each }) {
  if (discarder !== undefined) return phrase("from the discarder", { points: points(discarder) });
  if (each !== undefined) return phrase("from each", { points: points(each) });
  return phrase("from dealer", { dealer: points(dealer), others: points(other) });
}

// The number of han and fu, and the limit that they reach.
function sizeWords({ yakuman, han, fu, limit }) {
  if (yakuman) return named("yakuman");
  const size = phrase("han and fu", { han, fu });
  return limit ? colon(named(limit === "yakuman" ? "kazoe" : limit), size) : size;
}

// What of a self-draw's gain nobody pays, since it lies on the table.
function fromSticks(gain, { dealer, each_other: other, each }) {
  const paid = each === undefined ? dealer + 2 * other : 3 * each;
  return gain > paid ? [make("small", {}, `${named("sticks")} ${signed(gain - paid)}`)] : [];
}

// Who pays a self-draw, seat by seat as the four sit, the winner at the lower edge: next in turn to the right, then across, then to
// the left.
function shownSeats({ payment, gain }, { line }) {
  const seat = "ESWN".indexOf(wordsOf(line).keys.find(([key]) => key === "seat")?.[1]);
  if (payment.discarder !== undefined || seat < 0) return [];
  const paid = (wind) => payment.each ?? (wind === "E" ? payment.dealer : payment.each_other);
  const others = [["right", "←"], ["across", "↓"], ["left", "→"]].map(([place, arrow], at) => {
    const wind = "ESWN"[(seat + at + 1) % 4];
    return make("span", { class: place }, `${named(wind)} `, make("span", { class: "amount" }, `${points(-paid(wind))} ${arrow}`));
  });
  const winner = make("span", { class: "winner" }, `${named("ESWN"[seat])} ${signed(gain)}`, ...fromSticks(gain, payment));
  return [make("div", { class: "seats-drawn", "aria-hidden": "true" }, ...others, winner)];
}

function shownWin(answer, about) {
  const { by } = about;
  const yaku = answer.yaku.map(({ word }) => make("li", {}, yakuName(word, by)));
  if (answer.dora > 0) yaku.push(make("li", {}, `${named("dora")} ${answer.dora}`));
  return [
    make("p", { class: "headline" }, phrase("headline points", { points: points(answer.gain) })),
    make("p", {}, `${sizeWords(answer)} \u2022 ${payWords(answer.payment)}`),
    make("ul", { class: "yaku", "aria-label": phrase("yaku") }, ...yaku),
    ...shownSeats(answer, about),
  ];
}

function waitsWords({ length }) {
  return length === 0 ? phrase("no waits") : phrase(length === 1 ? "waits for one" : "waits for", { number: length });
}

function shownWaits({ kinds }) {
  const head = make("p", { class: "headline" }, waitsWords(kinds));
  if (kinds.length === 0) return [head];
  return [
    head,
    make("ul", { class: "accepted", "aria-label": phrase("waits") }, ...kinds.map((kind) => make("li", {}, tileImage(kind)))),
  ];
}

// Accepted kinds, each with the number of its live copies.
function acceptedList(accepts) {
  if (accepts.length === 0) return make("p", {}, phrase("accepts nothing"));
  const items = accepts.map(({ kind, live }) => make("li", {}, tileImage(kind), make("span", {}, `×${live}`)));
  return make("ul", { class: "accepted", "aria-label": phrase("accepted") }, ...items);
}

function discardItem({ discard, accepts, live }) {
  return make("li", {}, tileImage(discard), make("span", {}, phrase("live", { number: live })), acceptedList(accepts));
}

function shownShape({ shanten, discards, accepts, live }) {
  const head = make("p", { class: "headline" }, shantenWords(shanten));
  if (!discards) return [head, make("p", {}, phrase("accepts", { number: accepts.length, live })), acceptedList(accepts)];
  if (discards.length === 0) return [head];
  const list = make("ol", { class: "discards" }, ...discards.map(discardItem));
  return [head, make("p", {}, phrase("discard")), list];
}

// An answer in a few words, the first of which say most.
export function briefWords(values) {
  if (values === null) return [""];
  const { answer, kinds, shanten, live } = values;
  if (answer === "won") return [phrase("headline points", { points: points(values.gain) }), sizeWords(values)];
  if (answer === "waits") return [waitsWords(kinds)];
  if (answer === "shape") return [shantenWords(shanten), ...(live === undefined ? [] : [phrase("live", { number: live })])];
  return [["no yaku", "no win", "refused"].includes(answer) ? phrase(answer) : answer];
}

const SHOWN = {
  won: shownWin,
  waits: shownWaits,
  shape: shownShape,
  refused: shownRefusal,
  "no yaku": () => [make("p", { class: "headline" }, phrase("no yaku"))],
  "no win": () => [make("p", { class: "headline" }, phrase("no win"))],
};

// The parts of the page that show what a line was answered, without the reasons: `about` has the line, its profile, the reasons
// and how the hand was won.
export function shownAnswer(answer, about) {
  return (SHOWN[answer.answer] ?? (() => [make("p", { class: "headline" }, answer.answer)]))(answer, about);
}

// The same with its reasons, and the answer as a text; above these stand the parts of `more`.
export function shownWhole(answer, about, first = [], more = []) {
  const hasRows = about.reasons.length > 0 && answer.answer !== "refused";
  const reasons = hasRows ? [make("dl", { class: "why", "aria-label": phrase("reasons") }, ...rowsOfReasons(about, first))] : [];
  return [...shownAnswer(answer, about), ...callsParts(answer, about), ...furtherParts(answer, about), ...more, ...reasons, make("p", { class: "raw", lang: "en" }, about.text)];
}
