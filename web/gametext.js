// Games of a text: what is taken back is left out, and what the library refuses isn't opened.

import { outcomeLine, outcomeOf, wordsAndNote } from "./notation.js";
import { reckon } from "./reckoned.js";
import { phrase } from "./words.js";

const LIMITS_TRIED = [1, 2];

// The parts of a text that begin with a line `game`; a line without words that stands in a game is left out.
function partsOfText(text) {
  const games = [];
  for (const line of text.split("\n").map((it) => it.replace(/\r$/, "").trim())) {
    const [first] = wordsAndNote(line).words;
    if (first === "game") games.push([line]);
    else if (first !== undefined && games.length > 0) games.at(-1).push(line);
    else if (first !== undefined) return null;
  }
  return games;
}

// The lines of a game without those that an `undo` takes back: the refused ones, or the last one that was accepted.
function withoutUndone(desk, lines) {
  const left = [lines[0]];
  for (const line of lines.slice(1)) {
    if (wordsAndNote(line).words.join(" ") !== "undo") {
      left.push(line);
      continue;
    }
    const firstRefused = reckon(desk, left)?.steps.findIndex(({ fault }) => fault !== undefined) ?? -1;
    left.splice(firstRefused < 0 ? Math.max(1, left.length - 1) : firstRefused + 1);
  }
  return left;
}

// A line in which somebody is liable for limits that the hand names says how many: as many as leave the answer the same.
function withLimits(desk, lines, at) {
  const names = reckon(desk, lines.slice(0, 1))?.names;
  const outcome = names && outcomeOf(lines[at], names);
  const isUnsaid = ({ value, liable, limits }) => "tiles" in value && liable !== undefined && limits === undefined;
  if (!outcome?.wins?.some(isUnsaid)) return lines[at];
  const before = lines.slice(0, at);
  const answer = (line) => desk.game([...before, line, ""].join("\n"));
  const winsOf = (limits) => outcome.wins.map((win) => (isUnsaid(win) ? { ...win, limits } : win));
  const told = (limits) => outcomeLine({ ...outcome, wins: winsOf(limits) }, names);
  return LIMITS_TRIED.map(told).find((line) => answer(line) === answer(lines[at])) ?? lines[at];
}

// The lines of a game that are refused, by the page or by the command.
function refusedLines(desk, lines) {
  const game = reckon(desk, lines);
  if (game === null) return [lines[0]];
  const refused = game.steps.filter(({ fault }) => fault !== undefined).map(({ line }) => line);
  return refused.length === 0 && /^refused/m.test(desk.game(`${lines.join("\n")}\n`)) ? [lines.at(-1)] : refused;
}

// The lines of each game of a text, or the fault for which it isn't opened.
export function gamesOfText(desk, text) {
  const parts = partsOfText(text);
  if (parts === null || parts.length === 0) return { games: [], fault: phrase("no game") };
  if (desk.game(text) === null) return { games: [], fault: phrase("too long") };
  const games = parts.map((lines) => withoutUndone(desk, lines)).map((lines) => lines.map((_, at) => withLimits(desk, lines, at)));
  const [line] = games.flatMap((lines) => refusedLines(desk, lines));
  return line === undefined ? { games, fault: "" } : { games: [], fault: phrase("refused line", { line }) };
}
