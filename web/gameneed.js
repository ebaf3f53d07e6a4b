// What a player needs in the next deal to come to a place.

import { make } from "./elements.js";
import { evening, standingGame } from "./evening.js";
import { FOUR, goTo, group, head, nameOf, quiet, tapped, titled, toggle } from "./gameparts.js";
import { named } from "./names.js";
import { points } from "./numbers.js";
import { colon, listed, phrase } from "./words.js";

const PLACES = [1, 2, 3];

// The hands of the least win, and what is paid for them.
function paidWords(paid, isDealer) {
  if (paid === null) return phrase("need none");
  const { discarder, dealer, other, limit, hands } = paid;
  const each = isDealer || dealer === 0 ? phrase("need all", { points: points(other) }) : `${points(other)} / ${points(dealer)}`;
  const sizes = hands.map((size) => phrase("han and fu", size));
  return colon(listed([...(limit === null ? [] : [named(limit)]), ...sizes]), discarder > 0 ? points(discarder) : each);
}

function needRow(title, need, isDealer) {
  const strictly = paidWords(need.strictly, isDealer);
  const tie = paidWords(need.withTie, isDealer);
  const more = tie === strictly ? [] : [make("span", { class: "quiet" }, phrase("need tie", { what: tie }))];
  return [make("dt", {}, title), make("dd", {}, strictly, ...(more.length > 0 ? [make("br"), ...more] : []))];
}

function needRows(game, who, place) {
  const { off, byTsumo } = game.game.need(who, place, evening.draft.riichi);
  const isDealer = game.state.dealer === who;
  const row = (other) => needRow(phrase("from", { name: nameOf(other, game) }), off[other], isDealer);
  const rows = FOUR.filter((other) => other !== who).flatMap(row);
  return make("dl", { class: "why needs" }, ...rows, ...needRow(named("tsumo"), byTsumo, isDealer));
}

export function needScreen() {
  const game = standingGame();
  if (game.isOver) return [head(phrase("need"), goTo("table")), make("p", {}, phrase("fault game over"))];
  const [who, place] = (evening.focus || "0-1").split("-").map(Number);
  const button = (each, it) => {
    const ask = tapped(() => (evening.focus = `${each}-${it}`));
    const about = { "aria-label": `${nameOf(each, game)}: ${phrase(`place ${it}`)}` };
    return toggle(`need-${each}-${it}`, phrase(`place ${it}`), who === each && place === it, ask, about);
  };
  const places = (each) => group("places", nameOf(each, game), ...PLACES.map((it) => button(each, it)));
  const rows = FOUR.map((each) => titled(nameOf(each, game), places(each)));
  const title = make("h3", {}, phrase("need title", { name: nameOf(who, game), place: phrase(`place ${place}`) }));
  const help = game.state.counters > 0 ? [quiet(phrase("need counters"))] : [];
  return [head(phrase("need"), goTo("table")), ...rows, title, ...help, needRows(game, who, place)];
}
