// The deals so far: what each changed and why. One can be put right, have a note, or be taken out; what comes after is reckoned
// again, and shown where it differs.

import { draftOf } from "./draft.js";
import { handDrawn, make, tilesDrawn } from "./elements.js";
import { changeLines, evening, keepEvening, wholeGame } from "./evening.js";
import {
  actions, changeClass, dealWords, faultWords, field, FOUR, goTo, head, key, nameOf, quiet, reasonsOf, sizeText, stateWords, tapped,
} from "./gameparts.js";
import { knownRecord, recordOfHand } from "./hands.js";
import { betsOf, withNote } from "./notation.js";
import { named } from "./names.js";
import { points, signed } from "./numbers.js";
import { differing } from "./reckoned.js";
import { lineOf } from "./record.js";
import { state } from "./state.js";
import { colon, listed, phrase } from "./words.js";

// On which screen an outcome is entered, where its own name isn't that of the screen.
const SCREEN_OF = { abort: "plain", end: "plain" };

// What was won: of a hand by its tiles what the library says of it.
function wonText({ winner, value }, { outcome, before }, game) {
  if ("han" in value) return phrase("han and fu", value);
  if ("limit" in value) return named(value.limit);
  if ("yakuman" in value) return `${named("yakuman")}${value.yakuman > 1 ? ` ×${value.yakuman}` : ""}`;
  const about = { winner, isTsumo: outcome.kind === "tsumo", state: before.state, riichi: betsOf(outcome) };
  const values = state.desk.values(lineOf(knownRecord(value.tiles, about)), game.rules.rules);
  return values.answer === "won" ? sizeText(values) : phrase("way tiles");
}

// The outcome of a step in words.
export function outcomeText(step, game) {
  const { outcome } = step;
  if (outcome === null) return phrase("no line");
  const { kind, wins = [], discarder, ready = [], nagashi = [], player } = outcome;
  const names = (players) => listed(players.map((who) => nameOf(who, game)));
  const won = wins.map((win) => `${nameOf(win.winner, game)} ${wonText(win, step, game)}`);
  if (kind === "ron") return phrase("text ron", { wins: listed(won), from: nameOf(discarder, game) });
  if (kind === "tsumo") return phrase("text tsumo", { wins: won[0] });
  if (kind === "draw") {
    const paid = nagashi.length > 0 ? [phrase("text nagashi", { names: names(nagashi) })] : [];
    return [ready.length > 0 ? phrase("text ready", { names: names(ready) }) : phrase("text noten"), ...paid].join(" · ");
  }
  return player === undefined ? phrase(kind) : colon(phrase(kind), nameOf(player, game));
}

function betText(outcome, game) {
  const bets = outcome === null ? [] : betsOf(outcome);
  return bets.length === 0 ? [] : [colon(named("riichi"), listed(bets.map((who) => nameOf(who, game))))];
}

function changesRow(step) {
  if (step.changes === undefined) return [];
  const cell = (who) => make("span", { class: `change ${changeClass(step.changes[who])}` }, signed(step.changes[who]));
  return [make("div", { class: "row-changes" }, ...FOUR.map(cell))];
}

// What a deal was before a former one was put right, where that differs.
function wasRow(step, before, differs) {
  if (!differs || before === undefined) return [];
  const was = before.changes === undefined ? faultWords(before) : before.changes.map(signed).join(" / ");
  return [make("p", { class: "differs" }, phrase("was", { deal: dealWords(before.before.state), changes: was }))];
}

function dealItem(game, step, at, before, differs) {
  const title = colon(dealWords(step.before.state), outcomeText(step, game));
  const fault = step.fault === undefined ? [] : [make("p", { class: "fault" }, faultWords(step))];
  const detail = (words) => make("span", { class: "quiet" }, words);
  const details = [...betText(step.outcome, game), ...(step.note === "" ? [] : [step.note])];
  return make(
    "li",
    { class: differs ? "deal is-changed" : "deal" },
    key(`deal-${at}`, [make("span", { class: "deal-title" }, title), ...details.map(detail)], goTo("deal", String(at)), { class: "deal-button" }),
    ...changesRow(step),
    ...fault,
    ...wasRow(step, before, differs),
  );
}

// The deals so far, the newest first, to stand beside something else.
export function dealsBeside(game) {
  const items = game.steps.map((step, at) => dealItem(game, step, at)).reverse();
  return items.length === 0 ? [] : [make("section", { class: "beside", "aria-label": phrase("deals") }, namesRow(game), make("ol", { class: "deals" }, ...items))];
}

function namesRow(game) {
  return make("div", { class: "row-changes row-names" }, ...FOUR.map((who) => make("span", {}, nameOf(who, game))));
}

export function dealsScreen() {
  const game = wholeGame();
  const before = evening.was === null ? null : wholeGame(evening.was);
  const changed = before === null ? [] : differing(game.steps, before.steps);
  const items = game.steps.map((step, at) => dealItem(game, step, at, before?.steps[at], changed.includes(at)));
  const sum = make("div", { class: "row-changes row-sum" }, ...FOUR.map((who) => make("span", {}, points(game.state.points[who]))));
  const note = changed.length > 0 ? [make("p", { class: "differs" }, phrase("changed help"))] : [];
  const none = items.length === 0 ? [quiet(phrase("no deals"))] : [];
  return [head(phrase("deals"), goTo("table")), ...note, ...none, namesRow(game), make("ol", { class: "deals" }, ...items), sum];
}

// ---- One deal

// The hands that were won, tile by tile, with the indicators.
function handsDrawn({ outcome }, game) {
  const wins = (outcome?.wins ?? []).filter(({ value }) => "tiles" in value);
  return wins.map(({ winner, value }) => {
    const record = recordOfHand(value.tiles);
    const indicators = ["dora", "ura"].filter((word) => record[word].length > 0);
    const shown = indicators.map((word) => make("span", { class: "bound" }, `${named(word)} `, tilesDrawn(record[word])));
    return make("div", {}, make("p", {}, nameOf(winner, game)), handDrawn(record), ...shown);
  });
}

function putRight(step, at) {
  return tapped(() => {
    evening.draft = draftOf(step.outcome, at, betsOf(step.outcome));
    evening.screen = SCREEN_OF[evening.draft.kind] ?? evening.draft.kind;
  });
}

// What is put right may have been something else altogether.
function entersAnew(at) {
  return tapped(() => {
    evening.draft = { ...evening.draft, at };
    evening.screen = "kinds";
  });
}

function takeDealOut(at) {
  return tapped(() => {
    const before = evening.lines;
    changeLines(before.filter((_, place) => place !== at + 1), null);
    Object.assign(evening, { screen: "deals", focus: "" });
  });
}

function noteField(step, at) {
  const input = make("input", { type: "text", "data-key": "note", maxlength: "200", value: step.note, autocomplete: "off" });
  input.addEventListener("input", () => {
    evening.lines = evening.lines.map((line, place) => (place === at + 1 ? withNote(line, input.value) : line));
    keepEvening();
  });
  return field(phrase("note"), input);
}

export function dealScreen() {
  const game = wholeGame();
  const at = Number(evening.focus);
  const step = game.steps[at];
  if (step === undefined) return dealsScreen();
  const isReckoned = step.changes !== undefined;
  const told = isReckoned ? [...changesRow(step), reasonsOf(step, game)] : [make("p", { class: "fault" }, faultWords(step))];
  const right = step.outcome === null ? [] : [key("right", phrase("put right button"), putRight(step, at), { class: "main" })];
  return [
    head(stateWords(step.before.state), goTo("deals")),
    make("p", { class: "deal-title" }, outcomeText(step, game)),
    ...betText(step.outcome, game).map(quiet),
    namesRow(game),
    ...told,
    ...handsDrawn(step, game),
    noteField(step, at),
    actions(...right, key("anew", phrase("anew"), entersAnew(at)), key("out", phrase("take out"), takeDealOut(at))),
  ];
}
