// The start of the page.

import { byId } from "./elements.js";
import { styleFaces } from "./faces.js";
import { aim, changeLine, choose, clearAll, onChange, openHand, showForm, step, takeBack, takeTile, turnRed } from "./form.js";
import { leaveGame, listenToGame, showGame } from "./game.js";
import { gamePaper } from "./gamesheet.js";
import { bringBackLost } from "./journal.js";
import { listenToHands, listParts, showHands } from "./kept.js";
import { Desk, lackOfBrowser } from "./library.js";
import { listenToMany, manyParts, showMany } from "./many.js";
import { makePicker } from "./picker.js";
import { JOBS } from "./record.js";
import { areRules, rulesShort } from "./rules.js";
import { listenToSettings, showSettings } from "./settings.js";
import { handOfHash } from "./share.js";
import { handParts, listenToSheet, openSheet } from "./sheet.js";
import { setEmpty, setRecord, state } from "./state.js";
import { readChoices, writeChoices } from "./store.js";
import { choiceOfDevice } from "./words.js";

// Says why the page can't answer, and shows nothing that wouldn't work.
function refuseToRun(words) {
  byId("unable").textContent = `This browser can't run the desk. ${words}`;
  byId("unable").setAttribute("role", "alert");
}

// Shows a tab: a job, the many lines or the list of hands. All choices are kept.
function showMode(chosen) {
  if (chosen !== "game") leaveGame();
  const { names, scheme } = state;
  const { line, rules, handId } = state.aside ?? state;
  state.mode = chosen;
  writeChoices({ line, mode: chosen, rules, names, scheme, handId });
  byId("rules-now").textContent = rulesShort(rules);
  for (const input of document.querySelectorAll("#modes input")) input.checked = input.value === chosen;
  byId("one").hidden = !JOBS.includes(chosen) && state.aside === null;
  byId("game").hidden = chosen !== "game";
  byId("many").hidden = chosen !== "many";
  byId("hands").hidden = chosen !== "hands";
  if (chosen === "game" && state.aside === null) showGame();
  if (chosen === "many") showMany();
  if (chosen === "hands") showHands();
}

// After a change of the form or of a setting: the tab is that of the form's job, and what another tab shows is answered anew. While a
// hand of a game is tapped, the game keeps it.
function afterChange() {
  if (state.aside !== null) return;
  showMode(JOBS.includes(state.mode) ? state.record.job : state.mode);
}

function chooseMode({ target: { value } }) {
  if (value !== "game") leaveGame();
  if (JOBS.includes(value) && value !== state.record.job) {
    setRecord({ ...state.record, job: value });
    state.handId = 0;
  }
  state.mode = value;
  showForm();
}

// Shows a hand from elsewhere in the form.
function showHand(hand) {
  state.mode = "win";
  leaveGame();
  openHand(hand);
  showSettings();
  byId("line").focus({ preventScroll: true });
}

// Opens the hand of the link by which the page was opened, and takes it from the link, so that a reload keeps what was done since.
function openLink() {
  const hand = handOfHash(location.hash);
  if (!hand) return;
  showHand(hand);
  try {
    history.replaceState(null, "", location.href.split("#")[0]);
  } catch {
    // A page from a file may keep its link.
  }
}

// Lines that are pasted into the line go to the many lines.
function pasteLine(event) {
  const text = event.clipboardData.getData("text").trim();
  if (!text.includes("\n")) return;
  event.preventDefault();
  byId("lines").value = text;
  showMode("many");
  byId("lines").focus();
}

// Puts on paper what is shown, where the browser's own menu prints the page.
function fillPaper() {
  if (byId("paper").childElementCount > 0) return;
  const parts = { many: manyParts, hands: listParts, game: gamePaper }[state.mode] ?? (() => handParts(state.line, state.rules));
  byId("paper").replaceChildren(...parts());
}

function listen() {
  const on = (id, sort, act) => byId(id).addEventListener(sort, act);
  on("fields", "change", choose);
  on("modes", "change", chooseMode);
  on("back", "click", takeBack);
  on("undo", "click", takeBack);
  on("red", "click", turnRed);
  on("new", "click", clearAll);
  on("why", "click", () => openSheet(state.line, state.rules, state.handId));
  on("line", "keydown", (event) => event.key === "Enter" && event.preventDefault());
  on("line", "input", ({ target }) => changeLine(target.value.replaceAll("\n", " ")));
  on("line", "paste", pasteLine);
  for (const button of document.querySelectorAll("[data-target]")) button.addEventListener("click", aim);
  for (const button of document.querySelectorAll("[data-number]")) button.addEventListener("click", step);
  for (const dialog of document.querySelectorAll("dialog")) {
    dialog.querySelector(".close").addEventListener("click", () => dialog.close());
  }
  addEventListener("tryline", ({ detail }) => {
    byId("sheet").close();
    changeLine(detail);
  });
  addEventListener("hashchange", openLink);
  addEventListener("beforeprint", fillPaper);
  addEventListener("afterprint", () => byId("paper").replaceChildren());
}

// What the last visit left.
function takeUp() {
  const { line, mode, rules, names, scheme, handId } = readChoices();
  if (areRules(rules)) state.rules = rules;
  Object.assign(state, { names: names ?? choiceOfDevice(), scheme: scheme ?? state.scheme });
  if (typeof line === "string") openHand({ line, rules: state.rules, id: Number(handId) || 0 });
  else setEmpty("win");
  state.past = [];
  showMode([...JOBS, "game", "many", "hands"].includes(mode) ? mode : "win");
}

async function start() {
  if (lackOfBrowser() !== "") return refuseToRun(lackOfBrowser());
  try {
    [state.desk] = await Promise.all([Desk.start(), bringBackLost()]);
  } catch (failure) {
    return refuseToRun(`The library doesn't start: ${failure.message}.`);
  }
  styleFaces();
  makePicker(takeTile, takeBack);
  listen();
  listenToSettings();
  listenToSheet();
  listenToMany(showHand);
  listenToHands(showHand);
  takeUp();
  listenToGame();
  showSettings();
  onChange(afterChange);
  showForm();
  openLink();
  byId("unable").hidden = true;
  byId("desk").hidden = false;
  if (document.documentElement.dataset.site !== undefined) navigator.serviceWorker?.register("worker.js");
}

start();
