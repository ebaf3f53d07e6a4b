// Before an outcome counts: what it changes and why; and that it counts.

import { byId, make } from "./elements.js";
import { changeLines, evening, standingGame, wholeGame } from "./evening.js";
import { outcomeOfDraft } from "./draft.js";
import { dealWords, faultWords, fourChanges, key, nameOf, reasonsOf, tapped } from "./gameparts.js";
import { outcomeLine, withNote, wordsAndNote } from "./notation.js";
import { points } from "./numbers.js";
import { differing, tried } from "./reckoned.js";
import { state } from "./state.js";
import { listed, phrase } from "./words.js";

// The game as it stands before the outcome under way.
export function baseGame() {
  const { at } = evening.draft;
  return at === null ? standingGame() : standingGame(at);
}

// The lines of the game with this outcome in its place.
function linesWith(outcome) {
  const { at } = evening.draft;
  const line = outcomeLine(outcome, baseGame().names);
  if (at === null) return [...evening.lines, line];
  const { note } = wordsAndNote(evening.lines[at + 1]);
  return evening.lines.map((other, place) => (place === at + 1 ? withNote(line, note) : other));
}

// Whether the line of this outcome is refused behind the lines before it: hands that are won on different tiles are.
function isRefusedLine(outcome) {
  const { at } = evening.draft;
  const before = evening.lines.slice(0, at === null ? undefined : at + 1);
  return /^refused/m.test(state.desk.game([...before, outcomeLine(outcome, baseGame().names), ""].join("\n")) ?? "refused");
}

// What the outcome under way would change; null while something of it isn't said.
function toldOfDraft() {
  const outcome = outcomeOfDraft(evening.draft);
  if (outcome === null) return null;
  const told = tried(state.desk, baseGame(), outcome);
  return told.fault === undefined && isRefusedLine(outcome) ? { ...told, fault: "other tile" } : told;
}

// What else changes where a former deal is put right: the deals that are reckoned otherwise, and the points that then stand.
function differenceRows(outcome) {
  const { at } = evening.draft;
  if (at === null) return [];
  const [before, after] = [wholeGame(), wholeGame(linesWith(outcome))];
  const row = (words) => make("li", { class: "differs" }, words);
  const changed = differing(after.steps, before.steps).filter((place) => place > at);
  const deals = listed(changed.map((place) => dealWords(before.steps[place].before.state)));
  const refused = after.steps.find(({ fault }) => fault !== undefined);
  const end = listed(after.names.map((_, who) => `${nameOf(who, after)} ${points(after.state.points[who])}`));
  return [
    ...(changed.length > 0 ? [row(phrase("differs", { deals }))] : []),
    ...(refused ? [row(phrase("then refused", { deal: dealWords(refused.before.state), why: faultWords(refused) }))] : []),
    row(phrase("then stands", { points: end })),
  ];
}

// The changes of the outcome under way and why, or what it still lacks; `more` are rows of what is known of the hand.
export function preview(lacking, ...more) {
  const told = toldOfDraft();
  const rows = more.length === 0 ? [] : [make("ul", { class: "reasons" }, ...more)];
  if (told === null) return [make("p", { class: "lacking" }, lacking), ...rows];
  if (told.fault !== undefined) return [make("p", { class: "fault" }, faultWords(told)), ...rows];
  return [fourChanges(told, baseGame()), reasonsOf(told, baseGame(), ...more, ...differenceRows(told.outcome))];
}

export function canCount() {
  const told = toldOfDraft();
  return told !== null && told.fault === undefined;
}

// The outcome under way counts.
export function count() {
  const { at } = evening.draft;
  const outcome = outcomeOfDraft(evening.draft);
  if (!canCount()) return;
  changeLines(linesWith(outcome), at === null ? null : evening.lines);
  Object.assign(evening, { screen: at === null ? "table" : "deals", focus: at === null ? "" : String(at) });
}

export function countWords() {
  return phrase(evening.draft.at === null ? "count" : "put it right");
}

// The bar at the lower edge of a screen.
export function countBar(lacking, ...more) {
  const button = key("count", countWords(), tapped(count), { class: "main" });
  button.disabled = !canCount();
  const [first, ...rest] = preview(lacking, ...more);
  const told = make("div", { class: "told", tabindex: "0", role: "region", "aria-label": phrase("reasons") }, ...rest);
  // What is said stands in one place that stays, since a reader hears changes there alone.
  const words = [...first.querySelectorAll("li")].map((it) => [...it.children].map((part) => part.textContent).slice(0, 2).join(" "));
  byId("game-said").textContent = words.length > 0 ? listed(words) : first.textContent;
  return make("div", { class: "count-bar" }, first, ...(rest.length > 0 ? [told] : []), button);
}
