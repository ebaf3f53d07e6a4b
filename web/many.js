// Many lines: each with its answer, as the command `line` gives them.

import { rulesText } from "./answers.js";
import { byId, handDrawn, make } from "./elements.js";
import { linesOf, recordOf } from "./record.js";
import { copyText } from "./share.js";
import { state } from "./state.js";
import { phrase } from "./words.js";

const MOST_SHOWN = 5000;
// Of more lines the hands aren't drawn, and the list is a long one.
const MOST_DRAWN = 100;
let openLine = () => {};

// The lines of the text that have an answer, with their numbers and answers.
function answers() {
  const { lines, rules, first } = linesOf(state.desk, byId("lines").value, state.rules);
  const found = lines.map((line, at) => ({ number: first + at, line, rules, told: state.desk.answer(line, rules) }));
  return found.filter(({ told }) => told !== "");
}

function answerItem({ number, line, told, rules }, _, { length }) {
  const record = length > MOST_DRAWN ? null : recordOf(line);
  const drawn = record === null || record.hand.length === 0 ? [] : [handDrawn(record)];
  const open = () => openLine({ line, rules, id: 0 });
  return make(
    "li",
    told.startsWith("refused") ? { class: "is-refused" } : {},
    make("span", { class: "number" }, String(number)),
    make("div", { class: "raw" }, line),
    make("button", { type: "button", "aria-label": `${phrase("open")}: ${phrase("line number", { number })}`, click: open }, phrase("open")),
    ...drawn,
    make("div", { class: "told", lang: "en" }, told),
  );
}

export function showMany() {
  const found = answers();
  const refused = found.filter(({ told }) => told.startsWith("refused")).length;
  const more = found.length > MOST_SHOWN ? phrase("first shown", { number: MOST_SHOWN }) : "";
  byId("many-count").textContent = found.length === 0 ? phrase("no lines") : phrase("answers", { number: found.length, more, refused });
  byId("answers").classList.toggle("is-long", found.length > MOST_DRAWN);
  byId("answers").replaceChildren(...found.slice(0, MOST_SHOWN).map(answerItem));
}

// The lines and their answers, as paper shows them.
export function manyParts() {
  const items = answers().map(({ line, told }) => make("li", {}, make("p", { class: "raw" }, line), make("p", {}, told)));
  return [make("h2", {}, phrase("lines under", { rules: rulesText(state.rules) })), make("ol", {}, ...items)];
}

async function openFile({ target }) {
  const [file] = target.files;
  if (!file) return;
  byId("lines").value = await file.text();
  target.value = "";
  showMany();
}

export function listenToMany(openHand) {
  openLine = openHand;
  byId("lines").addEventListener("input", showMany);
  byId("file").addEventListener("change", openFile);
  byId("copy-answers").addEventListener("click", () => copyText(answers().map(({ told }) => `${told}\n`).join("")));
}
