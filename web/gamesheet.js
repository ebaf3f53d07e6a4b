// The sheet of a game: places and final points, to be shown, printed, shared and kept; and the game as a text, and back.

import { byId, make, say } from "./elements.js";
import { beginGame, evening, openGame, wholeGame } from "./evening.js";
import { actions, dealWords, FOUR, goTo, head, key, nameOf, quiet, tapped } from "./gameparts.js";
import { gamesOfText } from "./gametext.js";
import { outcomeText } from "./gamedeals.js";
import { points, signed, thousands } from "./numbers.js";
import { copyText, printOnly, saveFile, share } from "./share.js";
import { state } from "./state.js";
import { phrase } from "./words.js";

function hasPenalties({ finals }) {
  return finals.some(({ penalty }) => penalty > 0);
}

function finalRow(game, who) {
  const { place, points: had, bonus, penalty, total } = game.finals[who];
  const cells = [points(had), thousands(bonus), ...(hasPenalties(game) ? [points(penalty)] : [])];
  return make(
    "tr",
    {},
    make("td", { class: "place-of" }, String(place)),
    make("th", { scope: "row" }, nameOf(who, game)),
    make("td", { class: "total" }, thousands(total)),
    ...cells.map((text) => make("td", {}, text)),
  );
}

function tableOf(heads, rows) {
  return make("table", { class: "final" }, make("thead", {}, make("tr", {}, ...heads)), make("tbody", {}, ...rows));
}

// Places and final points, where the game ends here.
export function finalSheet(game) {
  const order = [...FOUR].sort((one, other) => game.finals[one].place - game.finals[other].place || one - other);
  const columns = ["place", "name", "total", "points", "bonus", ...(hasPenalties(game) ? ["off"] : [])];
  const heads = columns.map((word) => make("th", { scope: "col" }, phrase(`sheet ${word}`)));
  const table = tableOf(heads, order.map((who) => finalRow(game, who)));
  const left = game.isOver && game.state.sticks > 0 ? [quiet(phrase("left", { number: game.state.sticks }))] : [];
  return [...(game.isOver ? [] : [quiet(phrase("if over"))]), table, ...left];
}

// The whole sheet as paper has it: names, places, every deal.
function paperParts(game) {
  const row = (step) => {
    const changes = step.changes?.map(signed) ?? ["", "", "", ""];
    const cells = [dealWords(step.before.state), outcomeText(step, game), ...changes, step.note];
    return make("tr", {}, ...cells.map((text) => make("td", {}, text)));
  };
  const heads = ["sheet deal", "sheet outcome"].map(phrase).concat(FOUR.map((who) => nameOf(who, game)), phrase("note"));
  const deals = tableOf(heads.map((words) => make("th", { scope: "col" }, words)), game.steps.map(row));
  const signs = FOUR.map((who) => make("p", { class: "sign" }, `${nameOf(who, game)}: ________________`));
  return [make("h2", {}, phrase("sheet")), make("p", {}, dateOf(evening.id)), ...finalSheet(game), deals, ...signs];
}

export function dateOf(id) {
  return new Date(id).toISOString().slice(0, 10);
}

export function gamePaper() {
  return evening.id === 0 ? [] : paperParts(wholeGame());
}

function textOfGame(lines = evening.lines) {
  return `${lines.join("\n")}\n`;
}

function sharedText() {
  return `${textOfGame()}\n${state.desk.game(textOfGame())}`;
}

function saveButton() {
  return key("save", phrase("save"), () => saveFile(`riichi-${dateOf(evening.id)}.game`, textOfGame()));
}

// What a sheet's buttons do.
export function sheetButtons() {
  return [
    key("share", phrase("share"), () => share(phrase("sheet"), sharedText(), "")),
    key("print", phrase("print"), () => printOnly(...gamePaper())),
    saveButton(),
    key("text", phrase("text"), goTo("text")),
  ];
}

export function sheetScreen() {
  const game = wholeGame();
  return [head(phrase("sheet"), goTo("table")), ...finalSheet(game), actions(...sheetButtons())];
}

// ---- The game as a text

function openText() {
  const { games, fault } = gamesOfText(state.desk, byId("game-text").value);
  if (fault !== "") {
    say(fault);
    return;
  }
  tapped(() => {
    const ids = games.map((lines) => beginGame(lines));
    openGame(ids[0]);
    if (ids.length > 1) evening.screen = "games";
  })();
}

async function openTextFile({ target }) {
  const [file] = target.files;
  if (!file) return;
  byId("game-text").value = await file.text();
  target.value = "";
}

export function textScreen() {
  const text = evening.id === 0 ? "" : textOfGame();
  const plain = { spellcheck: "false", autocapitalize: "off", autocomplete: "off" };
  const field = make("textarea", { id: "game-text", "data-key": "game-text", rows: "12", "aria-label": phrase("text"), ...plain });
  field.value = text;
  const file = make("input", { class: "unseen", type: "file", accept: ".game,.txt,text/plain" });
  file.addEventListener("change", openTextFile);
  const copy = key("copy", phrase("copy"), () => copyText(field.value, phrase("copied")));
  const leave = evening.id === 0 ? [] : [copy, saveButton()];
  return [
    head(phrase("text"), goTo(evening.id === 0 ? "games" : "table")),
    quiet(phrase("text help")),
    field,
    actions(...leave, make("label", { class: "button" }, phrase("open file"), file), key("open-text", phrase("open text"), openText)),
  ];
}
