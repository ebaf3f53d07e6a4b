// What lasts over a reload: the choices, the hand that is made, and the list of hands. A browser that keeps nothing is no fault.

import { noteKept } from "./journal.js";
import { areRules } from "./rules.js";

const KEY = "riichi_desk";
const HANDS = "riichi_desk.hands";
export const MOST_HANDS = 100;

// What the browser doesn't keep lasts as long as the page.
const unkept = new Map();

// Whether the browser keeps what the page gives it.
export function isKept() {
  try {
    localStorage.setItem(`${KEY}.kept`, "yes");
    return localStorage.getItem(`${KEY}.kept`) === "yes";
  } catch {
    return false;
  }
}

export function readKept(key, other) {
  try {
    return JSON.parse(unkept.get(key) ?? localStorage.getItem(key)) ?? other;
  } catch {
    return other;
  }
}

export function writeKept(key, value) {
  const text = JSON.stringify(value);
  try {
    localStorage.setItem(key, text);
    unkept.delete(key);
    noteKept(key, text);
  } catch {
    unkept.set(key, text);
  }
}

export function dropKept(key) {
  unkept.delete(key);
  try {
    localStorage.removeItem(key);
    noteKept(key, null);
  } catch {
    // Nothing is kept there.
  }
}

export function readChoices() {
  return readKept(KEY, {});
}

export function writeChoices(choices) {
  writeKept(KEY, choices);
}

function isHand(it) {
  return typeof it?.id === "number" && typeof it.line === "string" && typeof it.name === "string" && areRules(it.rules);
}

// The hands of the list, the newest first.
export function readHands() {
  const hands = readKept(HANDS, []);
  return Array.isArray(hands) ? hands.filter(isHand) : [];
}

function writeHands(hands) {
  writeKept(HANDS, hands.slice(0, MOST_HANDS));
}

// Puts a hand into the list, in the place of the one with its number or as a new one; gives its number.
export function keepHand(id, line, rules) {
  const known = readHands().find((hand) => hand.id === id);
  if (!known) return addHands([{ name: "", line, rules }]);
  if (known.line !== line || known.rules !== rules) changeHand(id, { line, rules });
  return id;
}

// Puts hands above the others; gives the number of the first. A number is the time, and so is never given again.
export function addHands(more) {
  const hands = readHands();
  const next = Math.max(Date.now(), ...hands.map(({ id }) => id + 1));
  const added = more.map((hand, at) => ({ ...hand, id: next + more.length - 1 - at }));
  writeHands([...added, ...hands]);
  return added[0]?.id ?? 0;
}

function changeHand(id, changes) {
  writeHands(readHands().map((hand) => (hand.id === id ? { ...hand, ...changes } : hand)));
}

export function nameHand(id, name) {
  changeHand(id, { name });
}

export function removeHand(id) {
  writeHands(readHands().filter((hand) => hand.id !== id));
}

// Puts a hand that was taken away back into its place.
export function putHandBack(hand) {
  writeHands([...readHands(), hand].sort((one, other) => other.id - one.id));
}
