// The game that is kept: its lines, what stood before each change, and the outcome under way. All of it lies in this browser, so
// that nothing is lost whenever the page ends.

import { emptyDraft } from "./draft.js";
import { reckon } from "./reckoned.js";
import { state } from "./state.js";
import { dropKept, readKept, writeKept } from "./store.js";

const OPEN = "riichi_desk.evening";
const LIST = "riichi_desk.games";
const MOST_CHANGES = 50;
const keptAs = (id) => `riichi_desk.game.${id}`;

export const evening = {
  id: 0, // the number of the game that is open; 0 while none is
  lines: [],
  past: [], // what stood before each change, the last one at the end
  was: null, // the lines before a former deal was put right
  draft: emptyDraft(),
  setup: null, // a game that is about to begin
  screen: "games",
  focus: "", // what is looked at: a deal, or a question
};
let reckonedLines = [];
let reckonedGame = null;
// The lines that were kept last: what stood before them is long, and is written with them alone.
let keptLines = null;

// The game of the lines before this place, or of all.
export function standingGame(at = evening.lines.length - 1) {
  const lines = evening.lines.slice(0, at + 1);
  if (lines.join("\n") !== reckonedLines.join("\n") || reckonedGame === null) {
    reckonedLines = lines;
    reckonedGame = reckon(state.desk, lines);
  }
  return reckonedGame;
}

export function wholeGame(lines = evening.lines) {
  return reckon(state.desk, lines);
}

export function keepEvening() {
  const { id, lines, past, was, draft, setup, screen, focus } = evening;
  writeKept(OPEN, { id, draft, setup, screen, focus });
  if (id === 0 || lines === keptLines) return;
  writeKept(keptAs(id), { lines, past, was });
  keptLines = lines;
}

function gameOfId(id) {
  const kept = readKept(keptAs(id), null);
  return Array.isArray(kept?.lines) && kept.lines.length > 0 ? kept : null;
}

// The numbers of the games, the newest first.
export function gameIds() {
  const ids = readKept(LIST, []);
  return Array.isArray(ids) ? ids.filter((id) => Number.isInteger(id) && gameOfId(id) !== null) : [];
}

export function linesOfGame(id) {
  return gameOfId(id).lines;
}

// Another game, of these lines.
export function beginGame(lines) {
  const ids = gameIds();
  const id = Math.max(Date.now(), ...ids.map((it) => it + 1));
  writeKept(keptAs(id), { lines, past: [], was: null });
  writeKept(LIST, [id, ...ids]);
  return id;
}

export function openGame(id) {
  const { lines, past, was } = gameOfId(id);
  const kept = { id, lines, past: past ?? [], was: was ?? null };
  Object.assign(evening, { ...kept, draft: emptyDraft(), setup: null, screen: "table", focus: "" });
}

export function dropGame(id) {
  writeKept(LIST, gameIds().filter((it) => it !== id));
  dropKept(keptAs(id));
  if (evening.id === id) Object.assign(evening, { id: 0, lines: [], past: [], was: null, draft: emptyDraft() });
}

// The lines become these; what stood before can be taken back.
export function changeLines(lines, was = null) {
  evening.past.push({ lines: evening.lines, was: evening.was, draft: evening.draft });
  if (evening.past.length > MOST_CHANGES) evening.past.shift();
  Object.assign(evening, { lines, was, draft: emptyDraft() });
}

export function takeBackLines() {
  const before = evening.past.pop();
  if (before === undefined) return;
  const { lines, was, draft } = before;
  const riichi = draft.at === null ? (draft.betsBefore ?? draft.riichi) : [];
  Object.assign(evening, { lines, was, draft: { ...emptyDraft(), riichi } });
}

// What the last visit left.
export function takeUpEvening() {
  const { id, draft, setup, screen, focus } = readKept(OPEN, {});
  if (id && gameOfId(id) !== null) openGame(id);
  if (typeof screen !== "string" || (evening.id === 0 && !["games", "setup", "text"].includes(screen))) return;
  Object.assign(evening, { setup: setup ?? null, screen, focus: focus ?? "" });
  if (draft && evening.id !== 0) evening.draft = { ...emptyDraft(), ...draft };
}
