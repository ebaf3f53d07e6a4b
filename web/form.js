// The form: the hand that is made, and what the person does to it.

import { answerTo, lacks } from "./answers.js";
import { lackOfTiles } from "./asked.js";
import { endUnseen } from "./asking.js";
import { showThrowers, throwTile } from "./calls.js";
import { chancesParts } from "./chances.js";
import { byId, label, make } from "./elements.js";
import { moveTile, placeOfKind } from "./motion.js";
import { nextTarget, taken, THROWERS } from "./moves.js";
import { named } from "./names.js";
import { showPicker } from "./picker.js";
import { MELD_WORDS } from "./record.js";
import { hasReds } from "./rules.js";
import { shownWhole } from "./shown.js";
import { setBack, setEmpty, setLine, setRecord, state } from "./state.js";
import { keepHand } from "./store.js";
import { tileOf } from "./tiles.js";
import { showTray } from "./tray.js";
import { listed, phrase, within } from "./words.js";

// Called after each change; `desk.js` keeps the choices by it.
let changed = () => {};
// What tells the answer in place of the form, while a hand of a game is tapped.
let tellInGame = null;

export function answerInGame(tell) {
  tellInGame = tell;
}

export function onChange(act) {
  changed = act;
}

export function takeTile(kind) {
  const { record: before, target, isRed } = state;
  const record = taken(before, target, kind, isRed);
  if (record === null) return;
  if (THROWERS.includes(target)) {
    throwTile(kind);
    return showForm();
  }
  const from = placeOfKind(kind);
  setRecord(record, nextTarget(target));
  showForm();
  moveTile(from, before, record, tileOf(kind, isRed));
}

export function takeBack() {
  setBack();
  showForm();
}

export function clearAll() {
  setEmpty();
  showForm();
}

export function changeLine(line) {
  setLine(line);
  showForm();
}

// Shows a hand of the list, of a link or of the many lines.
export function openHand({ line, rules, id = 0 }) {
  setLine(line);
  Object.assign(state, { rules, handId: id });
  showForm();
}

// A change by a button that takes a tile out; the focus stays where it was.
function takeOut(list, record) {
  const at = [...byId(list).querySelectorAll("button")].indexOf(document.activeElement);
  setRecord(record, state.target === "seen" ? "seen" : "hand");
  showForm();
  const left = byId(list).querySelectorAll("button");
  const next = left[Math.min(at, left.length - 1)] ?? document.querySelector("#picker [tabindex='0']");
  if (at >= 0) next.focus({ preventScroll: true });
}

// Whether no tile is wanted any more.
function isFull() {
  const { record, target } = state;
  return record.job === "win" && target === "hand" && record.on.length > 0 && lackOfTiles(record) === 0;
}

// Where the tiles make place for the answer, the focus goes to it.
function showFull() {
  const hadFocus = byId("picker").contains(document.activeElement);
  byId("one").dataset.full = isFull() ? "yes" : "no";
  if (hadFocus && !document.activeElement.checkVisibility()) byId("answer").focus({ preventScroll: true });
}

// Sets each choice to what the record says, and hides what its job doesn't ask for.
function showChoices() {
  const { record, target } = state;
  byId("one").dataset.job = record.job;
  for (const input of document.querySelectorAll("#fields input[type=radio]")) input.checked = record[input.name] === input.value;
  for (const input of document.querySelectorAll("input[name=flags]")) input.checked = record.flags.includes(input.value);
  for (const name of ["counters", "sticks"]) if (Number(byId(name).value) !== Number(record[name])) byId(name).value = record[name];
  for (const button of document.querySelectorAll("[data-target]")) {
    button.setAttribute("aria-pressed", String(button.dataset.target === target));
  }
  byId("red").hidden = !hasReds(state.rules);
  byId("red").setAttribute("aria-pressed", String(state.isRed));
  byId("back").setAttribute("aria-disabled", String(state.past.length === 0));
  for (const part of document.querySelectorAll("[data-jobs]")) part.hidden = !part.dataset.jobs.split(" ").includes(record.job);
  showThrowers();
}

function showFault(field) {
  for (const part of document.querySelectorAll("[data-field]")) {
    const isFaulty = part.dataset.field === field;
    part.classList.toggle("faulty", isFaulty);
    const controls = part.matches("[role=radiogroup]") ? [part] : part.querySelectorAll("input:not([type=radio]), textarea");
    for (const control of controls) control.setAttribute("aria-invalid", String(isFaulty));
  }
}

// What is said while a tap goes elsewhere than into the hand.
function targetHelp() {
  const word = named(state.target);
  if (state.target === "chi") return phrase("chi help", { word });
  if (MELD_WORDS.includes(state.target)) return phrase("meld help", { word });
  if (["dora", "ura"].includes(state.target)) return phrase("indicator help", { word });
  if (THROWERS.includes(state.target)) return phrase("thrown help", { word });
  return state.target === "hand" ? "" : phrase("tiles help", { word });
}

function showAnswer() {
  if (state.aside !== null) return tellInGame();
  const { line, rules, record } = state;
  const lacking = lacks();
  const said = targetHelp();
  const help = said === "" ? [] : [make("p", { class: "lacking" }, said)];
  showFault("");
  byId("why").disabled = true;
  if (lacking.length > 0) {
    const wanted = phrase(record.hand.length === 0 ? "tap the hand" : "lacking", { what: listed(lacking) });
    byId("answer").replaceChildren(...(said === "" ? [make("p", { class: "lacking" }, wanted)] : help));
    return;
  }
  const about = answerTo(line, rules);
  if (about.values === null) {
    byId("answer").replaceChildren(make("p", {}, phrase("tap or type")));
    return;
  }
  byId("why").disabled = false;
  byId("answer").replaceChildren(...help, ...shownWhole(about.values, about, [], chancesParts(about.values, about)));
  if (about.values.answer !== "refused") state.handId = keepHand(state.handId, line, rules);
  else showFault(document.querySelector(`[data-field="${about.values.key}"]`) ? about.values.key : "line");
}

export function showForm() {
  if (byId("line").value !== state.line) byId("line").value = state.line;
  showChoices();
  showTray(takeOut);
  showPicker();
  showAnswer();
  endUnseen();
  showFull();
  changed();
}

// A choice of the form has changed: a radio button, a flag or a number.
export function choose({ target: input }) {
  if (input.name === "flags") {
    const flags = [...document.querySelectorAll("input[name=flags]:checked")].map((it) => it.value);
    setRecord({ ...state.record, flags });
  } else if (input.name) {
    setRecord({ ...state.record, [input.name]: input.value });
  }
  showForm();
}

// A button that sends the next tile elsewhere, or back into the hand.
export function aim({ currentTarget }) {
  const { target } = currentTarget.dataset;
  state.target = state.target === target ? "hand" : target;
  showForm();
}

export function turnRed() {
  state.isRed = !state.isRed;
  showForm();
}

// A button beside a number that makes it one more or one less.
export function step({ currentTarget }) {
  const { number, by } = currentTarget.dataset;
  const input = byId(number);
  const value = Math.min(Number(input.max), Math.max(Number(input.min), Number(input.value) + Number(by)));
  setRecord({ ...state.record, [number]: String(value) });
  showForm();
}

// The words of the page in the chosen names.
export function showNames() {
  for (const it of document.querySelectorAll("[data-name]")) it.textContent = named(it.dataset.name);
  for (const it of document.querySelectorAll("[data-phrase]")) it.textContent = phrase(it.dataset.phrase);
  for (const it of document.querySelectorAll("[data-says]")) it.setAttribute("aria-label", phrase(it.dataset.says));
  for (const it of document.querySelectorAll("[data-target], #red")) it.title = it.textContent;
  label(byId("dealer"), `${named("E short")}, ${named("dealer")}`);
  // What the styles say of a refused field.
  document.documentElement.style.setProperty("--refused", JSON.stringify(within(phrase("refused"))));
}
