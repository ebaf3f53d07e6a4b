// The list of the last hands, with their answers and names.

import { answerTo, rulesWords } from "./answers.js";
import { byId, handDrawn, label, make, say, textWithTiles } from "./elements.js";
import { clearAll } from "./form.js";
import { recordOf } from "./record.js";
import { copyText, handsOfText, printOnly, saveFile, textOfHands } from "./share.js";
import { openSheet } from "./sheet.js";
import { briefWords, shownAnswer } from "./shown.js";
import { state } from "./state.js";
import { addHands, MOST_HANDS, putHandBack, readHands, removeHand } from "./store.js";
import { phrase } from "./words.js";

let openKept = () => {};
// Hands that were taken away, the last one at the end.
const gone = [];

function handTitle({ name }, at) {
  return name === "" ? phrase("hand number", { number: at + 1 }) : name;
}

function takeAway(hand) {
  removeHand(hand.id);
  gone.push(hand);
  if (state.handId === hand.id) clearAll();
  showHands();
  say(phrase("hand gone"));
  byId("hands-undo").focus();
}

// What paper says of a hand: its answer, without the reasons.
function shortAnswer({ line, rules }) {
  const about = answerTo(line, rules);
  const profile = rules === 1 ? [] : [make("p", { class: "quiet" }, rulesWords(rules))];
  return [...profile, make("div", { class: "answer short" }, ...(about.values === null ? [] : shownAnswer(about.values, about)))];
}

// A hand in the list: its name, what it was answered in a few words, and its tiles. A tap on it opens it.
function handItem(hand, at) {
  const { line, rules, name } = hand;
  const named = (words) => `${words}: ${handTitle(hand, at)}`;
  const [answer, ...more] = briefWords(state.desk.values(line, rules));
  const words = [make("strong", {}, answer), ...more, ...(rules === state.rules ? [] : [rulesWords(rules)])];
  const record = recordOf(line);
  const drawn = record === null || record.hand.length === 0 ? [] : [handDrawn(record)];
  const open = make("button", { type: "button", class: "open-hand", click: () => openKept(hand) });
  open.append(make("span", { class: "hand-name" }, name), make("span", {}, ...words.flatMap((it) => [it, " "])));
  return make(
    "li",
    { "data-id": String(hand.id) },
    open,
    make("button", { type: "button", "aria-label": named(phrase("why")), click: () => openSheet(line, rules, hand.id) }, phrase("why")),
    label(make("button", { type: "button", class: "take-away", click: () => takeAway(hand) }, "×"), named(phrase("take away"))),
    ...drawn,
    make("p", { class: drawn.length > 0 ? "raw heard" : "raw" }, line),
  );
}

// The names of the list, which may have changed in the sheet of a hand.
function showHandNames() {
  for (const { id, name } of readHands()) {
    const item = byId("hand-list").querySelector(`[data-id="${id}"] .hand-name`);
    if (item) item.textContent = name;
  }
}

export function showHands() {
  const hands = readHands();
  const none = phrase("no hands", { most: MOST_HANDS });
  const some = phrase("some hands", { number: hands.length, most: MOST_HANDS });
  byId("hands-count").textContent = hands.length === 0 ? none : some;
  byId("hand-list").replaceChildren(...hands.map(handItem));
  for (const id of ["hands-copy", "hands-save", "hands-print"]) byId(id).disabled = hands.length === 0;
  byId("hands-undo").hidden = gone.length === 0;
}

// The text of the hands of the chosen profile, oldest first, and what is said of those of the other.
function textAndRest() {
  const hands = readHands().reverse();
  const chosen = hands.filter(({ rules }) => rules === state.rules);
  const rest = hands.length - chosen.length;
  const others = rest === 0 ? "" : phrase("hands of others", { number: rest });
  return { text: textOfHands(chosen, state.rules), words: phrase("so many lines", { number: chosen.length, others }) };
}

async function openHands({ target }) {
  const [file] = target.files;
  if (!file) return;
  const hands = handsOfText(await file.text());
  target.value = "";
  addHands(hands.reverse());
  showHands();
  say(phrase("hands opened", { number: hands.length }));
}

// The list, as paper shows it.
export function listParts() {
  const items = readHands().map((hand) => {
    const name = hand.name === "" ? [] : [make("h3", {}, hand.name)];
    return make("li", {}, ...name, make("p", {}, ...textWithTiles(hand.line)), ...shortAnswer(hand));
  });
  return [make("h2", {}, phrase("tab hands")), make("ol", {}, ...items)];
}

// `openHand` shows a hand in the form.
export function listenToHands(openHand) {
  openKept = openHand;
  const on = (id, sort, act) => byId(id).addEventListener(sort, act);
  on("hands-copy", "click", () => {
    const { text, words } = textAndRest();
    copyText(text, `${phrase("copied")} ${words}`);
  });
  on("hands-save", "click", () => {
    const { text, words } = textAndRest();
    saveFile("riichi-hands.lines", text);
    say(`${phrase("saved")} ${words}`);
  });
  on("hands-file", "change", openHands);
  on("sheet", "close", showHandNames);
  on("hands-print", "click", () => printOnly(...listParts()));
  on("hands-undo", "click", () => {
    putHandBack(gone.pop());
    showHands();
    say(phrase("hand back"));
  });
}
