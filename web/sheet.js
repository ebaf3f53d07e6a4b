// The sheet of one hand: its tiles, the answer and why, large enough to show to others, to be shared and to be printed.

import { answerTo, rulesLines, rulesWords } from "./answers.js";
import { byId, make, tilesDrawn } from "./elements.js";
import { named } from "./names.js";
import { recordOf } from "./record.js";
import { copyText, linkOf, printOnly, share } from "./share.js";
import { shownWhole } from "./shown.js";
import { nameHand, readHands } from "./store.js";
import { phrase } from "./words.js";

let shown = { line: "", rules: 1, id: 0 };

function part(word, ...children) {
  return [make("dt", {}, word), make("dd", {}, ...children)];
}

// What was known of the hand, in words and pictures.
function handShown(line) {
  const record = recordOf(line);
  if (record === null) return make("p", { class: "raw" }, line);
  const list = make("dl", { class: "why", "aria-label": named("hand") }, ...part(named("hand"), tilesDrawn(record.hand)));
  for (const { word, tiles } of record.melds) list.append(...part(named(word), tilesDrawn(tiles)));
  for (const key of ["on", "dora", "ura", "seen"].filter((it) => record[it].length > 0)) {
    list.append(...part(named(key), tilesDrawn(record[key])));
  }
  if (record.job === "win") list.append(...circumstancesOf(record).flatMap(([word, text]) => part(word, text)));
  return list;
}

function circumstancesOf(record) {
  const rows = [
    [phrase("way to win"), record.by && named(record.by)],
    [named("seat"), record.seat && named(record.seat)],
    [named("round"), record.round && named(record.round)],
    [named("riichi"), record.riichi !== "0" && named(`riichi${record.riichi}`)],
    [named("flags"), record.flags.map(named).join(", ")],
    [named("counters"), Number(record.counters) > 0 && record.counters],
    [named("sticks"), Number(record.sticks) > 0 && record.sticks],
  ];
  return rows.filter(([, text]) => text);
}

function keptName(id) {
  return readHands().find((hand) => hand.id === id)?.name ?? "";
}

// All of a hand, as the sheet and paper show it.
export function handParts(line, rules, name = "") {
  const about = answerTo(line, rules);
  const head = name === "" ? [] : [make("h3", {}, name)];
  const answer = about.values === null ? [] : shownWhole(about.values, about, ["fu", "han", "yakuman"]);
  const profile = make("p", { class: "quiet" }, `${rulesWords(rules)}${rules === 2 ? phrase("with reds") : ""}`);
  return [...head, make("div", { class: "answer" }, ...answer), handShown(line), make("p", { class: "raw" }, line), profile];
}

export function openSheet(line, rules, id) {
  shown = { line, rules, id };
  byId("sheet-hand").replaceChildren(...handParts(line, rules));
  byId("sheet-name").value = keptName(id);
  byId("sheet-name").parentElement.hidden = id === 0;
  byId("sheet").showModal();
}

// The hand as a text that others can read and check.
function textToShare({ line, rules, id }) {
  const { text, reasons } = answerTo(line, rules);
  const name = keptName(id);
  return [...(name === "" ? [] : [name]), ...rulesLines(rules), line, text, ...reasons].join("\n");
}

export function listenToSheet() {
  const on = (id, sort, act) => byId(id).addEventListener(sort, act);
  on("sheet-name", "input", ({ target }) => nameHand(shown.id, target.value));
  on("sheet-share", "click", () => share(phrase("sheet title"), textToShare(shown), linkOf(shown.line, shown.rules)));
  on("sheet-copy", "click", () => copyText(shown.line, phrase("copied")));
  on("sheet-link", "click", () => copyText(linkOf(shown.line, shown.rules), phrase("copied")));
  on("sheet-print", "click", () => printOnly(...handParts(shown.line, shown.rules, keptName(shown.id))));
  byId("sheet-link").hidden = linkOf("", 1) === "";
}
