// Chances by turn, below the answer to a shape: how often it reaches ready, and a win, or how many points it brings, by so many draws, as a
// curve and as a table.

import { rulesText } from "./answers.js";
import { askFor, endUnseen } from "./asking.js";
import { curvePicture } from "./curve.js";
import { make, textWithTiles, tileImage } from "./elements.js";
import { named } from "./names.js";
import { percent, points } from "./numbers.js";
import { state } from "./state.js";
import { range, textOf } from "./tiles.js";
import { colon, listed, phrase, within } from "./words.js";

// The library counts to three-shanten.
const MOST_SHANTEN = 3;
// Nobody draws oftener in a deal without calls.
const MOST_DRAWS = 18;
const WIND_LETTERS = ["E", "S", "W", "N"];
// A screen on which the answer stands below the tiles while chances are shown; chances.css has the same.
const isBelow = matchMedia("(max-width: 47.99rem), (max-height: 30rem)");

// What is told of each hand or discard: as a number of its curve, as a text of the table, and what the scale of the picture says.
const SHARE = { valueOf: ({ part, whole, chance }) => 100 * (part === undefined ? chance : Number(part) / Number(whole)), textOf: percent, onScale: (value) => `${value}\u00a0%` };
const POINTS = { valueOf: ({ worth }) => Number(worth), textOf: ({ worth }) => points(Math.round(Number(worth))), onScale: points };
// The greatest value of a scale is the least of these that is enough.
const SCALES = {
  worth: [2, 4, 10, 20, 40, 100, 200, 400, 1000, 2000, 4000, 10000, 20000, 40000, 100000, 200000, 400000, 1000000],
  chance: [2, 4, 6, 10, 20, 30, 40, 50, 60, 80, 100],
};

// The goals that are shown one at a time: of thirteen tiles both chances stand side by side.
function goalsOf({ discards, shanten }) {
  return discards && shanten > 0 ? ["ready", "win", "worth"] : ["win", "worth"];
}

const shownOf = (goals) => (goals.includes(state.goal) ? state.goal : "win");

function goalWords(goal) {
  return goal === "ready" ? named("ready") : phrase(`goal ${goal}`);
}

// On the button of a goal.
function choiceWords(goal, { discards, shanten }) {
  return goal === "win" && !discards && shanten > 0 ? listed([goalWords("ready"), goalWords("win")]) : goalWords(goal);
}

// The questions. One of chances tells all draws up to the last; of points each number of draws is asked, the last first, since it says how
// far the curves rise.
function questionLines(line, last, goal) {
  const hand = line.trim().replace(/^shape/, goal === "worth" ? "worth" : "chances");
  if (goal !== "worth") return [`${hand} turns=${last}`];
  const { seat, round } = state.stakes;
  const stakes = `seat=${seat} round=${round} rules=${rulesText(state.rules)}`;
  return [last, ...range(1, last - 1)].map((turns) => `${hand} turns=${turns} ${stakes}`);
}

// What an answer tells of each number of draws: of the last all, of those before it how often a goal is reached.
function byDraws(answer) {
  if (answer.answer !== "chances") return [answer];
  const reachedBy = (turns, { by_turn: rows }) => ({ ready: { chance: rows[turns - 1].ready }, win: { chance: rows[turns - 1].win } });
  const toldBy = (turns) => {
    const { discards } = answer;
    const parts = discards ? { discards: discards.map((one) => ({ ...one, ...reachedBy(turns, one) })) } : reachedBy(turns, answer);
    return { ...answer, turns, ...parts };
  };
  return [...range(1, answer.turns - 1).map(toldBy), answer];
}

// Of thirteen tiles a column for each goal that isn't reached yet, or one for the points.
function goalColumns(shanten, goal) {
  if (goal === "worth") return [{ ...POINTS, words: goalWords(goal), tiles: [], of: (answer) => answer }];
  const goals = shanten > 0 ? ["ready", "win"] : ["win"];
  const columnOf = (it) => ({ ...SHARE, words: goalWords(it), tiles: [], of: (answer) => answer[it], most: (answer) => answer[`${it}_at_most`] });
  return goals.map(columnOf);
}

// Of fourteen a column for each best discard; those of which the same is told for each turn share one. The one that reaches or brings most by
// the last draw stands first.
function discardColumns(told, goal) {
  const alike = new Map();
  const last = told.at(-1);
  const toldOf = (one) => (goal === "worth" ? [one.points, one.part, one.whole] : [one[goal], one[`${goal}_at_most`]]);
  for (const [at, { discard }] of last.discards.entries()) {
    const all = JSON.stringify(told.map(({ discards }) => toldOf(discards[at])));
    alike.set(all, { at, tiles: [...(alike.get(all)?.tiles ?? []), discard] });
  }
  const worthAt = (at) => ({ ...POINTS, of: ({ discards }) => discards[at] });
  const chanceAt = (at) => ({
    ...SHARE,
    of: ({ discards }) => discards[at][goal],
    most: ({ discards }) => discards[at][`${goal}_at_most`],
    over: ({ discards }) => discards[at].surely_over,
  });
  const columns = [...alike.values()].map(({ at, tiles }) => ({ tiles, ...(goal === "worth" ? worthAt(at) : chanceAt(at)) }));
  return columns.sort((one, other) => valueIn(other, last) - valueIn(one, last));
}

const valueIn = ({ of, valueOf }, answer) => valueOf(of(answer));
const textIn = ({ of, textOf: write }, answer) => write(of(answer));
const signOf = ({ words, tiles }) => (words === undefined ? tiles.map(tileImage) : [words]);

// The cells of a turn, of which the most is marked where discards stand beside one another.
function chanceCells(columns, answer) {
  if (answer === undefined) return columns.map(() => make("td", {}));
  const values = columns.map((column) => valueIn(column, answer));
  const most = columns.length > 1 && columns[0].words === undefined ? Math.max(...values) : 0;
  return columns.map((column, at) => make("td", most > 0 && values[at] === most ? { class: "most" } : {}, textIn(column, answer)));
}

function turnsTable(columns, told, last, caption) {
  const rowOf = (head, cells) => make("tr", {}, make("th", { scope: "row" }, head), ...cells);
  const heads = columns.map((column) => make("th", { scope: "col" }, make("span", { class: "signs" }, ...signOf(column))));
  const rows = range(1, last).map((turn) => rowOf(String(turn), chanceCells(columns, told.find(({ turns }) => turns === turn))));
  const most = columns.filter((column) => column.most).map((column) => make("td", {}, percent(column.most(told.at(-1)))));
  return make(
    "table",
    { class: "by-turn" },
    make("caption", {}, make("span", {}, caption)),
    make("thead", {}, make("tr", {}, make("th", { scope: "col" }, phrase("draws")), ...heads)),
    make("tbody", {}, ...rows),
    ...(most.length > 0 ? [make("tfoot", {}, rowOf(phrase("at most"), most))] : []),
  );
}

// A curve for each column, as far as all turns before are told.
function chancesPicture(columns, told, last) {
  const known = told.filter(({ turns }, at) => turns === at + 1);
  const curves = columns.map((column) => ({
    values: known.map((answer) => valueIn(column, answer)),
    last: valueIn(column, told.at(-1)),
    sign: signOf(column),
  }));
  const [{ most, onScale }] = columns;
  const scale = { tops: most ? SCALES.chance : SCALES.worth, words: onScale };
  return curvePicture(curves.sort((one, other) => other.last - one.last), last, phrase("curve by turn"), scale);
}

// What is reached, or brought, by the last draw, in words.
function lastWords(columns, goal, answer) {
  const [first] = columns;
  const number = answer.turns;
  const told = textIn(first, answer);
  if (first.words !== undefined && goal === "worth") return [phrase("worth by draws", { number, points: told })];
  if (first.words !== undefined) {
    const what = listed(columns.map((column) => `${within(column.words)} ${textIn(column, answer)}\u00a0%`));
    return [phrase("by draws", { number, what })];
  }
  const alike = columns.filter((column) => valueIn(column, answer) === valueIn(first, answer));
  const tiles = textOf(alike.flatMap((column) => column.tiles));
  const best = goal === "worth" ? phrase("best worth by draws", { number, tiles, points: told }) : phrase("best by draws", { number, tiles, chance: told });
  const others = goal === "win" ? first.over(answer) : [];
  const surely = others.length > 0 ? [" ", phrase("surely over", { tiles: textOf(others) })] : [];
  return [best, ...surely].flatMap((it) => textWithTiles(it));
}

// How far it is.
function progressShown() {
  const [words, bar] = [make("span"), make("progress", { "aria-hidden": "true" })];
  const tell = (number, most) => {
    words.textContent = phrase("counted so far", { number, most });
    Object.assign(bar, { max: most, value: number });
    if (number === 0) bar.removeAttribute("value");
  };
  return { element: make("div", { class: "counting", "aria-live": "off" }, words, bar), tell };
}

function captionOf(columns, goal) {
  const isWorth = goal === "worth";
  if (columns[0].words !== undefined) return phrase(isWorth ? "worth caption" : "chances caption");
  return colon(goalWords(goal), phrase(isWorth ? "worths caption" : "discards caption"));
}

// What is shown of the answers so far: the curves, the table, and once all is told what is reached by the last draw.
function chancesShown(told, most, isDone, goal) {
  const counted = [...told].sort((one, other) => one.turns - other.turns);
  if (counted.length === 0) return { words: isDone ? [phrase("not counted")] : [], parts: [] };
  const last = isDone ? counted.at(-1).turns : most;
  const columns = counted[0].discards ? discardColumns(counted, goal) : goalColumns(counted[0].shanten, goal);
  const table = make("div", { class: "movable" }, turnsTable(columns, counted, last, captionOf(columns, goal)));
  return { words: isDone ? lastWords(columns, goal, counted.at(-1)) : [], parts: [chancesPicture(columns, counted, last), table] };
}

// A choice of one of several values, each with its words.
function choiceOf({ name, look, says, values, chosen }, wordsOf, choose) {
  const options = values.map((value) => {
    const input = make("input", { type: "radio", name, value, change: () => choose(value) });
    input.checked = value === chosen;
    const words = make("span");
    words.textContent = wordsOf(value);
    return make("label", { class: "option" }, input, words);
  });
  return make("fieldset", { class: `choice ${look}`, role: "radiogroup", "aria-label": says }, ...options);
}

// The winds by which a win is paid, while points are shown.
function stakesChoice(ask) {
  const choiceFor = (key) => {
    const choose = (wind) => {
      state.stakes[key] = wind;
      ask();
    };
    const about = { name: `worth-${key}`, look: "named", says: named(key), values: WIND_LETTERS, chosen: state.stakes[key] };
    const winds = choiceOf(about, (wind) => named(`${wind} short`), choose);
    winds.prepend(make("legend", {}, named(key)));
    return winds;
  };
  return make("div", { class: "stakes" }, choiceFor("seat"), choiceFor("round"));
}

// Puts what is told into the part.
function showChances(part, { lines, told, hasFailed }, most, goal) {
  const isDone = hasFailed || told.length === lines.length;
  const counted = hasFailed ? [] : told.filter((it) => it?.counted).flatMap(byDraws);
  const { words, parts } = chancesShown(counted, most, isDone, goal);
  part.progress.tell(counted.length, most);
  part.progress.element.hidden = isDone;
  part.said.replaceChildren(...words);
  part.body.setAttribute("aria-busy", String(!isDone));
  part.body.replaceChildren(...parts);
  // What is moved to be seen can be moved by keys.
  const [, table] = parts;
  const keys = { role: "group", "aria-label": phrase("chances"), tabindex: "0" };
  if (table && table.scrollWidth > table.clientWidth) for (const [key, value] of Object.entries(keys)) table.setAttribute(key, value);
}

// The part of a shape's answer that is opened; it stays open for the next hands.
export function chancesParts(answer, { line }) {
  if (answer.answer !== "shape" || answer.shanten < 0 || answer.shanten > MOST_SHANTEN) return [];
  const element = make("details", { class: "chances" }, make("summary", {}, phrase("chances")));
  const goals = goalsOf(answer);
  const part = { progress: progressShown(), said: make("p", { role: "status" }), body: make("div", { "aria-live": "off" }) };
  const help = make("p", { class: "further-help" });
  const ask = () => {
    const goal = shownOf(goals);
    const last = answer.discards ? MOST_DRAWS - 1 : MOST_DRAWS;
    stakes.hidden = goal !== "worth";
    help.textContent = phrase(goal === "worth" ? "worth help" : "chances help");
    askFor(element, questionLines(line, last, goal), (told) => showChances(part, told, last, goal));
  };
  const stakes = stakesChoice(ask);
  const choose = (goal) => {
    state.goal = goal;
    ask();
  };
  const about = { name: "goal", look: "goals", says: phrase("goal"), values: goals, chosen: shownOf(goals) };
  const choice = choiceOf(about, (goal) => choiceWords(goal, answer), choose);
  element.addEventListener("toggle", () => {
    const isTapped = element.open !== state.areChances;
    state.areChances = element.open;
    if (!element.open) return endUnseen();
    ask();
    if (isTapped && isBelow.matches) element.scrollIntoView();
  });
  element.append(choice, stakes, part.progress.element, part.said, part.body, help);
  element.open = state.areChances;
  if (element.open) ask();
  return [element];
}
