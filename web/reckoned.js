// A game reckoned from its lines by the library: what each changes and why, and how the game stands.

import { forLedger, outcomeOf, wordsAndNote } from "./notation.js";
import { rulesOfLine } from "./tablerules.js";

const STANDING = ["state", "isOver", "penalties"];

function standing(game) {
  return Object.fromEntries(STANDING.map((name) => [name, game[name]]));
}

// What the ledger says of an outcome: what it changes and why, or the fault for which it is refused.
function added(desk, game, outcome) {
  const { OutcomeRefused, HandRefused } = desk.ledger;
  if (outcome === null) return { fault: "no line" };
  try {
    game.add(forLedger(outcome));
  } catch (failure) {
    if (failure instanceof OutcomeRefused) return { fault: failure.fault };
    if (failure instanceof HandRefused) return { fault: "hand", answer: failure.answer };
    if (failure instanceof RangeError) return { fault: "no line" };
    throw failure;
  }
  return { changes: game.changes, moves: game.moves, ...standing(game) };
}

// A game of these lines, the first of which is the line `game`. After a line that is refused none counts. Null where the first is.
export function reckon(desk, [first, ...lines]) {
  const head = rulesOfLine(desk, first);
  if (head === null) return null;
  const game = gameOf(desk, head.rules);
  if (game === null) return null;
  const steps = [];
  for (const line of lines) {
    const before = standing(game);
    const outcome = outcomeOf(line, head.names);
    const isBehind = steps.some(({ fault }) => fault !== undefined);
    const told = isBehind ? { fault: "behind" } : added(desk, game, outcome);
    steps.push({ line, note: wordsAndNote(line).note, outcome, before, ...told });
  }
  return { ...head, game, steps, ...standing(game), note: wordsAndNote(first).note, finals: game.final() };
}

function gameOf(desk, rules) {
  try {
    return new desk.ledger.Game(rules);
  } catch (failure) {
    if (failure instanceof RangeError || failure instanceof desk.ledger.RulesRefused) return null;
    throw failure;
  }
}

// What an outcome would change in a game, which stays as it is.
export function tried(desk, { game }, outcome) {
  const before = standing(game);
  const told = added(desk, game, outcome);
  if (told.fault === undefined) game.undo();
  return { outcome, before, ...told };
}

// Of which lines what is told differs: their places among the steps of both.
export function differing(steps, others) {
  const digest = (step) => step && JSON.stringify([step.before, step.changes, step.fault]);
  return steps.map((_, at) => at).filter((at) => digest(steps[at]) !== digest(others[at]));
}
