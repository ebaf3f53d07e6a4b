// The table: how the game stands, and the first tap of each outcome.

import { emptyDraft, turned } from "./draft.js";
import { drawing, isWide, make } from "./elements.js";
import { evening, standingGame, takeBackLines } from "./evening.js";
import { dealsBeside } from "./gamedeals.js";
import { actions, changeClass, FOUR, goTo, head, headOfState, key, nameOf, stateWords, tapped, toggle } from "./gameparts.js";
import { finalSheet, sheetButtons } from "./gamesheet.js";
import { beginWin } from "./gamewin.js";
import { windOf } from "./hands.js";
import { named } from "./names.js";
import { points, signed } from "./numbers.js";
import { phrase } from "./words.js";

// An outcome of this kind begins.
export function begin(kind, screen, more = {}) {
  return tapped(() => {
    const { at, riichi } = evening.draft;
    evening.draft = { ...emptyDraft(), at, riichi, kind, ...more };
    evening.screen = screen;
  });
}

function drawDraft() {
  // Who declared riichi is ready, or says so.
  return { ready: evening.draft.riichi };
}

// All four declared riichi, which is itself why the deal is broken off. On the way back the bets are as they were.
function fourRiichi() {
  return key("four-riichi", phrase("four riichi"), begin("abort", "plain", { riichi: [...FOUR], betsBefore: evening.draft.riichi }));
}

// The change of the last deal, where there was one.
function lastChange({ steps }, who) {
  const change = steps.at(-1)?.changes?.[who] ?? 0;
  return change === 0 ? [] : [make("span", { class: `change ${changeClass(change)}` }, signed(change))];
}

// The wind of a seat: its tile, and its word.
function windShown(wind) {
  const kind = `${"ESWN".indexOf(wind) + 1}z`;
  return make("span", { class: "wind" }, make("span", { class: "tile", "aria-hidden": "true" }, drawing(kind)), make("span", {}, named(wind)));
}

// What lies in the middle of the table, as the head of the screen says it too.
function middle({ state }) {
  const sticks = Array.from({ length: Math.min(state.sticks, 4) }, () => make("span", { class: "stick" }));
  return make("li", { class: "middle", "aria-hidden": "true" }, make("p", {}, ...headOfState(state)), make("p", {}, ...sticks));
}

function seat(game, who) {
  const { draft } = evening;
  const wind = windOf(who, game.state);
  const name = nameOf(who, game);
  const bet = tapped(() => (draft.riichi = turned(draft.riichi, who)));
  const win = (way) => tapped(() => beginWin(who, way));
  return make(
    "li",
    { class: "seat", "data-wind": wind, "data-who": String(who) },
    make("p", { class: "seat-name" }, windShown(wind), make("span", { class: "player" }, name)),
    make("p", { class: "seat-points" }, ...lastChange(game, who), " ", make("strong", {}, points(game.state.points[who]))),
    make(
      "div",
      { class: "seat-buttons" },
      toggle(`bet-${who}`, named("riichi"), draft.riichi.includes(who), bet, { "aria-label": `${named("riichi")}: ${name}` }),
      key(`win-${who}`, phrase("win pad"), win("pad"), { "aria-label": `${phrase("win pad")}: ${name}` }),
      key(`tiles-${who}`, phrase("win tiles"), win("tiles"), { "aria-label": `${phrase("win tiles")}: ${name}` }),
    ),
  );
}

function undoButton() {
  const undo = key("undo", phrase("take back"), tapped(takeBackLines), { "data-undo": "" });
  undo.disabled = evening.past.length === 0;
  return undo;
}

// In the last round, and in the one behind it: what it takes to come to a place.
function needButton({ state, rules, isOver }) {
  const rounds = ["east", "south", "west", "north"];
  const isLast = !isOver && rounds.indexOf(state.round) >= rounds.indexOf(rules.length);
  return isLast ? [key("need", phrase("need"), goTo("need"))] : [];
}

export function tableScreen() {
  const game = standingGame();
  if (game.isOver) return overScreen(game);
  const draw = key("draw", phrase("draw"), begin("draw", "draw", drawDraft()), { class: "main" });
  return [
    head(headOfState(game.state), goTo("games"), ...needButton(game), key("more", phrase("more"), goTo("more"))),
    make("ol", { class: "seats", "aria-label": phrase("seats") }, ...FOUR.map((who) => seat(game, who)), middle(game)),
    make("div", { class: "table-bar" }, draw, key("deals", phrase("deals"), goTo("deals")), undoButton()),
    ...(isWide.matches ? dealsBeside(game) : []),
  ];
}

function overScreen(game) {
  return [
    head(phrase("over"), goTo("games"), key("more", phrase("more"), goTo("more"))),
    ...finalSheet(game),
    actions(...sheetButtons(), key("deals", phrase("deals"), goTo("deals")), undoButton()),
  ];
}

// All that a game can come to beside a win and a draw, and what else there is to do.
export function moreScreen() {
  const game = standingGame();
  const stands = () => tapped(() => {
    evening.draft = { ...emptyDraft(), kind: "stands", state: { ...game.state } };
    evening.screen = "stands";
  });
  const outcomes = [
    key("abort", phrase("abort"), begin("abort", "plain")),
    fourRiichi(),
    key("chombo", phrase("chombo"), begin("chombo", "chombo")),
    key("penalty", phrase("penalty"), begin("penalty", "penalty")),
    key("stands", phrase("stands"), stands()),
    key("end", phrase("end"), begin("end", "plain")),
  ];
  const others = [
    key("need", phrase("need"), goTo("need")),
    key("deals", phrase("deals"), goTo("deals")),
    key("sheet", phrase("sheet"), goTo("sheet")),
    key("text", phrase("text"), goTo("text")),
    key("rules", phrase("table rules"), goTo("rules")),
  ];
  const named = (words, buttons) => make("div", { class: "list-buttons", role: "group", "aria-label": words }, ...buttons);
  const allowed = game.isOver ? outcomes.filter(({ dataset }) => dataset.key === "penalty") : outcomes;
  return [head(phrase("more"), goTo("table")), named(phrase("more outcomes"), allowed), named(phrase("more"), others)];
}

// What a deal that is put right was after all.
export function kindsScreen() {
  const { at } = evening.draft;
  const game = standingGame(at);
  const way = (word, who) => {
    const about = { "aria-label": `${phrase(`win ${word}`)}: ${nameOf(who, game)}` };
    return key(`${word}-${who}`, phrase(`win ${word}`), tapped(() => beginWin(who, word)), about);
  };
  const win = (who) => {
    const ways = make("div", { class: "seat-buttons" }, way("pad", who), way("tiles", who));
    return make("li", { class: "seat" }, make("p", { class: "seat-name" }, nameOf(who, game)), ways);
  };
  const stands = { state: { ...game.state } };
  const dealt = [["draw", "draw"], ["abort", "plain"], ["chombo", "chombo"]];
  const others = [...dealt, ["penalty", "penalty"], ["stands", "stands", stands], ["end", "plain"]];
  return [
    head(stateWords(game.state), goTo("deal", String(at))),
    make("ol", { class: "seats" }, ...FOUR.map(win)),
    actions(...others.map(([kind, screen, more]) => key(kind, phrase(kind), begin(kind, screen, more))), fourRiichi()),
  ];
}
