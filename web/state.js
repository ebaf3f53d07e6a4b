// What the page holds: the hand that is made, the choices that last, and the library.

import { emptyRecord, lineOf, recordOf } from "./record.js";

export const state = {
  record: emptyRecord("win"),
  line: lineOf(emptyRecord("win")),
  target: "hand", // where a tapped tile goes
  thrown: null, // the tile that another player throws: for which line, who, and its kind
  isFurther: false, // whether what stands beyond the next step is shown
  areChances: false, // whether chances by turn are shown
  goal: "win", // of which goal they are shown
  stakes: { seat: "E", round: "E" }, // by which winds the points of a win are told
  isRed: false, // whether the next five is a red one
  past: [], // what stood before each change
  handId: 0, // the number of this hand in the list of hands; 0 while it isn't there
  mode: "win", // the tab: a job, "game", "many" or "hands"
  aside: null, // the form of the tabs, while a hand of a game is tapped
  rules: 1,
  names: "english",
  scheme: "device",
  desk: null,
};

const MOST_PAST = 500;

function remember() {
  const { record, line, target, handId, rules } = state;
  state.past.push({ record, line, target, handId, rules });
  if (state.past.length > MOST_PAST) state.past.shift();
}

// Takes a new record from the form, and makes its line.
export function setRecord(record, target = "hand") {
  remember();
  Object.assign(state, { record, target, isRed: false, line: lineOf(record) });
}

// Takes a line that was typed: the form holds what it can of it.
export function setLine(line) {
  remember();
  Object.assign(state, { line, record: recordOf(line) ?? state.record, target: "hand", isRed: false });
}

// Begins another hand of this job: nothing of the last one stays but the round.
export function setEmpty(job = state.record.job) {
  setRecord(emptyRecord(job, state.record.round || "E"));
  state.handId = 0;
}

export function setBack() {
  const before = state.past.pop();
  if (before) Object.assign(state, before, { isRed: false });
}

// The form of the tabs is laid aside for a hand of a game, which is valued by the game's rules.
export function layAside(line, rules) {
  const { record, line: kept, target, isRed, past, handId, rules: chosen } = state;
  state.aside ??= { record, line: kept, target, isRed, past, handId, rules: chosen };
  const taken = recordOf(line) ?? emptyRecord("win");
  Object.assign(state, { record: taken, line, target: "hand", isRed: false, past: [], handId: 0, rules });
}

export function takeForth() {
  if (state.aside) Object.assign(state, state.aside);
  state.aside = null;
}
