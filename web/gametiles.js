// The value of a win by the hand's tiles: the picker and the form stand as for any hand, and the game fills in what it knows.

import { lackOfTiles } from "./asked.js";
import { winNow } from "./draft.js";
import { byId, label, make } from "./elements.js";
import { evening, keepEvening } from "./evening.js";
import { answerInGame, showForm } from "./form.js";
import { baseGame, canCount, countWords, preview } from "./gamecount.js";
import { key, nameOf, sizeText, tapped } from "./gameparts.js";
import { fromButtons, leaveOutcome, liableButtons, setWin, wayButtons, winnerButtons, winTitle } from "./gamewin.js";
import { handWords, knownRecord } from "./hands.js";
import { named, yakuName } from "./names.js";
import { lineOf } from "./record.js";
import { layAside, state } from "./state.js";
import { listed, phrase } from "./words.js";

let showHead = () => {};

// The record of the hand under way, with all that the game knows of it.
function recordNow() {
  const { from, riichi } = evening.draft;
  const { winner, hand } = winNow(evening.draft);
  const record = knownRecord(hand, { winner, isTsumo: from === "tsumo", state: baseGame().state, riichi });
  return from === null ? { ...record, by: "" } : record;
}

// Takes what was tapped in the form.
function takeHand() {
  const { draft } = evening;
  const { winner, hand } = winNow(draft);
  const words = handWords(state.record);
  const riichi = draft.riichi.filter((who) => who !== winner);
  draft.riichi = state.record.riichi === "0" ? riichi : [...riichi, winner].sort();
  if (words !== hand) setWin({ hand: words });
  keepEvening();
}

// What the hand is worth, and by what.
function handRow() {
  const values = state.desk.values(lineOf(recordNow()), state.rules);
  if (values?.answer !== "won") return [];
  const dora = values.dora > 0 ? [`${named("dora")} ${values.dora}`] : [];
  const yaku = listed([...values.yaku.map(({ word }) => yakuName(word, state.record.by)), ...dora]);
  return [make("li", { class: "worth" }, make("strong", {}, sizeText(values)), ` ${yaku}`)];
}

function isYakuman() {
  return Boolean(state.desk.values(lineOf(recordNow()), state.rules)?.yakuman);
}

function lackingOfHand() {
  const { from } = evening.draft;
  const number = lackOfTiles(state.record);
  const lacks = [
    from === null && phrase("lack from"),
    number > 0 && phrase("lack tiles", { number }),
    state.record.on.length === 0 && phrase("lack on"),
  ];
  return phrase("lacking", { what: listed(lacks.filter(Boolean)) });
}

function tellHand() {
  takeHand();
  byId("answer").replaceChildren(...preview(lackingOfHand(), ...handRow()));
  byId("count").textContent = countWords();
  byId("count").disabled = !canCount();
  showHead();
}

// The row above the tiles, in which the way back has the name of the winner.
export function tilesHead() {
  const back = key("back", `‹ ${nameOf(winNow(evening.draft).winner)}`, tapped(leaveOutcome), { class: "way-back" });
  label(back, `${phrase("back")}: ${back.textContent}`);
  return [make("h2", { class: "heard", tabindex: "-1" }, winTitle()), make("div", { class: "tiles-head" }, back, fromButtons())];
}

// What stands beside the tiles, below the form's own choices.
export function tilesFields() {
  return [...winnerButtons(), ...liableButtons(isYakuman()), wayButtons()];
}

// Puts the hand under way into the form, which is shown; `showTop` shows what stands above it.
export function showTiles(showTop) {
  showHead = showTop;
  const record = recordNow();
  if (state.aside === null) layAside(lineOf(record), baseGame().rules.rules);
  Object.assign(state, { record, line: lineOf(record), rules: baseGame().rules.rules });
  showForm();
}

export function listenToTiles() {
  answerInGame(tellHand);
}
