// What a deal comes to beside a win: a draw, an abort, a dead hand; and what is no deal: a penalty, a state that is written, the
// end.

import { turned } from "./draft.js";
import { make } from "./elements.js";
import { evening, keepEvening } from "./evening.js";
import { baseGame, countBar } from "./gamecount.js";
import { field, FOUR, group, head, nameOf, playerButtons, quiet, tapped, titled, toggle } from "./gameparts.js";
import { betButtons, leaveOutcome } from "./gamewin.js";
import { named } from "./names.js";
import { points } from "./numbers.js";
import { phrase } from "./words.js";

const ROUNDS = { east: "E", south: "S", west: "W", north: "N" };
const PENALTIES = ["1000", "2000", "4000", "8000"];

function playerToggles(name, list) {
  const { draft } = evening;
  const turn = (who) => (draft[list] = turned(draft[list], who));
  const buttons = playerButtons(list, FOUR, (who) => draft[list].includes(who), turn, (player) => `${phrase(name)}: ${player}`);
  return group("players", phrase(name), ...buttons);
}

// A bet at a draw says that the player is ready.
function drawBets() {
  const { draft } = evening;
  return betButtons((who) => {
    if (draft.riichi.includes(who) && !draft.ready.includes(who)) draft.ready = turned(draft.ready, who);
  });
}

export function drawScreen() {
  const nagashi = baseGame().rules.nagashi ? [titled(phrase("nagashi title"), playerToggles("nagashi title", "nagashi"))] : [];
  return [
    head(phrase("draw"), tapped(leaveOutcome)),
    titled(phrase("ready title"), playerToggles("ready title", "ready")),
    drawBets(),
    ...nagashi,
    countBar(""),
  ];
}

// An abort, or the end: nothing more is asked than the bets.
export function plainScreen() {
  const { kind } = evening.draft;
  return [head(phrase(kind), tapped(leaveOutcome)), quiet(phrase(`${kind} help`)), ...(kind === "abort" ? [betButtons()] : []), countBar("")];
}

function onePlayer(words) {
  const { draft } = evening;
  const choose = (who) => (draft.player = who);
  return titled(words, group("players", words, ...playerButtons("player", FOUR, (who) => draft.player === who, choose, (name) => name)));
}

export function chomboScreen() {
  const lacking = phrase("lacking", { what: phrase("lack player") });
  return [head(phrase("chombo"), tapped(leaveOutcome)), quiet(phrase("chombo help")), onePlayer(phrase("who")), countBar(lacking)];
}

// A number that is typed: what is typed is kept at once, and the rest of the screen shown when the field is left.
function numberField(name, words, value, take) {
  const input = make("input", { type: "text", inputmode: "numeric", "data-key": name, value: String(value), autocomplete: "off" });
  input.addEventListener("input", () => {
    take(input.value.replace("−", "-").replaceAll(/[^0-9-]/g, ""));
    keepEvening();
  });
  input.addEventListener("change", tapped(() => {}));
  return field(words, input);
}

// What a penalty still wants.
function lackOfPenalty({ player, points: taken }) {
  if (player !== null) return "lack points";
  return taken === "" ? "lack penalty" : "lack player";
}

export function penaltyScreen() {
  const { draft } = evening;
  const set = (number) => tapped(() => (draft.points = number));
  const often = PENALTIES.map((number) => toggle(`points-${number}`, points(Number(number)), draft.points === number, set(number)));
  const field = numberField("points", phrase("points other"), draft.points, (text) => (draft.points = text));
  return [
    head(phrase("penalty"), tapped(leaveOutcome)),
    onePlayer(phrase("who")),
    titled(phrase("points off"), group("often", phrase("points off"), ...often), field),
    countBar(phrase("lacking", { what: phrase(lackOfPenalty(draft)) })),
  ];
}

export function standsScreen() {
  const { draft } = evening;
  const table = draft.state;
  const set = (changes) => tapped(() => (draft.state = { ...draft.state, ...changes }));
  const round = ([word, wind]) => toggle(`round-${word}`, named(`${wind} short`), table.round === word, set({ round: word }));
  const rounds = Object.entries(ROUNDS).map(round);
  const dealers = FOUR.map((who) => toggle(`dealer-${who}`, nameOf(who), table.dealer === who, set({ dealer: who })));
  const take = (changes) => (draft.state = { ...draft.state, ...changes });
  const number = (name) => numberField(name, named(name), table[name], (text) => take({ [name]: Number(text) || 0 }));
  const changed = (who, text) => draft.state.points.map((it, at) => (at === who ? Number(text) || 0 : it));
  const pointsOf = (who) => numberField(`points-${who}`, nameOf(who), table.points[who], (text) => take({ points: changed(who, text) }));
  return [
    head(phrase("stands"), tapped(leaveOutcome)),
    titled(named("round"), group("rounds", named("round"), ...rounds)),
    titled(phrase("dealer"), group("players", phrase("dealer"), ...dealers)),
    make("div", { class: "fields" }, number("counters"), number("sticks"), ...FOUR.map(pointsOf)),
    countBar(""),
  ];
}
