// Parts that the screens of a game share.

import { make } from "./elements.js";
import { evening, keepEvening, standingGame } from "./evening.js";
import { named } from "./names.js";
import { points, signed } from "./numbers.js";
import { nameShown } from "./tablerules.js";
import { range } from "./tiles.js";
import { phrase } from "./words.js";

export const FOUR = range(0, 3);
const WINDS = { east: "E", south: "S", west: "W", north: "N" };

let showAgain = () => {};

// `show` shows the screen anew.
export function onTap(show) {
  showAgain = show;
}

// What a tap does, after which all is kept and shown.
export function tapped(act) {
  return () => {
    act();
    keepEvening();
    showAgain();
  };
}

export function goTo(screen, focus = "") {
  return tapped(() => Object.assign(evening, { screen, focus }));
}

// A button; its key says which one it is, so that the focus stays with it.
export function key(name, words, act, about = {}) {
  return make("button", { type: "button", "data-key": name, click: act, ...about }, ...[words].flat());
}

// A button that is pressed or not.
export function toggle(name, words, isOn, act, about = {}) {
  return key(name, words, act, { "aria-pressed": String(isOn), ...about });
}

// Where a name is longer, the letters of all are small on a phone.
const LONG_NAME = 8;

// A button for each of these players; `said` is its name for a screen reader.
export function playerButtons(name, players, isOn, act, said) {
  const about = (player) => ({ "aria-label": said(player), ...(player.length > LONG_NAME ? { class: "long" } : {}) });
  return players.map((who) => toggle(`${name}-${who}`, nameOf(who), isOn(who), tapped(() => act(who)), about(nameOf(who))));
}

// Buttons that lead on.
export function actions(...buttons) {
  return make("div", { class: "list-buttons" }, ...buttons);
}

export function quiet(words) {
  return make("p", { class: "quiet" }, words);
}

export function group(name, words, ...buttons) {
  return make("div", { class: `group ${name}`, role: "group", "aria-label": words }, ...buttons);
}

export function titled(words, ...children) {
  return make("div", { class: "titled" }, make("p", { class: "title", "aria-hidden": "true" }, words), ...children);
}

// A field below its name.
export function field(words, input) {
  return make("label", { class: "field" }, make("span", {}, words), input);
}

// The head of a screen: the way back, and its name.
export function head(words, back, ...more) {
  const way = back === null ? [] : [key("back", "‹", back, { class: "way-back", "aria-label": phrase("back") })];
  return make("div", { class: "game-head" }, ...way, make("h2", { tabindex: "-1" }, ...[words].flat()), ...more);
}

// The head of a state: the deal, and below it what lies on the table.
export function headOfState(state) {
  const lies = tableWords(state);
  return [dealWords(state), ...(lies.length > 0 ? [make("small", {}, ` ${lies.join(" · ")}`)] : [])];
}

export function nameOf(who, game = standingGame()) {
  return nameShown(game.names[who]);
}

// The round and the deal of a state.
export function dealWords({ round, dealer }) {
  return phrase("deal", { round: named(WINDS[round]), number: dealer + 1 });
}

function tableWords({ counters, sticks }) {
  const lie = Object.entries({ counters, sticks }).filter(([, number]) => number > 0);
  return lie.map(([word, number]) => phrase(word, { number }));
}

export function stateWords(state) {
  return [dealWords(state), ...tableWords(state)].join(" · ");
}

export function changeClass(change) {
  return change > 0 ? "gain" : change < 0 ? "loss" : "same";
}

// What changes for each of the four, and how they then stand.
export function fourChanges({ changes, state }, game) {
  const item = (who) =>
    make(
      "li",
      {},
      make("span", { class: "who" }, nameOf(who, game)),
      make("span", { class: `change ${changeClass(changes[who])}` }, signed(changes[who])),
      make("span", { class: "then" }, points(state.points[who])),
    );
  return make("ol", { class: "four", "aria-label": phrase("changes") }, ...FOUR.map(item));
}

// Who pays whom, and for what.
function moveRow({ giver, taker, points: paid, why }, game) {
  const [from, to] = [giver, taker].map((who) => (who === null ? "" : nameOf(who, game)));
  const row = ["bet", "sticks", "own bet"].includes(why) ? `move ${why}` : "move";
  const given = row === "move" ? phrase(`why ${why}`) : "";
  return make("li", {}, phrase(row, { giver: from, taker: to, points: points(paid), why: given }));
}

// The size of a hand by the values of its answer.
export function sizeText({ yakuman, limit, han, fu }) {
  if (yakuman) return named("yakuman");
  const size = phrase("han and fu", { han, fu });
  return limit ? `${named(limit === "yakuman" ? "kazoe" : limit)} ${size}` : size;
}

// What comes off the final points.
function penaltyRows({ before, penalties }, game) {
  const more = (who) => penalties[who] - before.penalties[who];
  const row = (who) => make("li", {}, phrase("penalty row", { name: nameOf(who, game), points: points(more(who)) }));
  return FOUR.filter((who) => more(who) !== 0).map(row);
}

// What of the game the outcome makes: the end, the next deal.
function nextRow({ state, isOver }) {
  return make("li", { class: "next" }, isOver ? phrase("over after") : phrase("next", { deal: stateWords(state) }));
}

// Why it changes so: what is known of the hands, who pays whom, and what comes next.
export function reasonsOf(told, game, ...more) {
  const rows = [...told.moves.map((move) => moveRow(move, game)), ...penaltyRows(told, game)];
  return make("ul", { class: "reasons", "aria-label": phrase("reasons") }, ...more, ...rows, nextRow(told));
}

export function faultWords({ fault, answer }) {
  return fault === "hand" ? phrase(`hand ${answer}`) : phrase(`fault ${fault}`);
}
