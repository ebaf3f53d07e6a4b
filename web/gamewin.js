// A win: who, from whom, who bet, and its value by han and fu or a limit hand. gametiles.js has the value by the hand's tiles.

import { emptyDraft, emptyWin, turned, valueOfWin, winNow } from "./draft.js";
import { evening } from "./evening.js";
import { baseGame, countBar } from "./gamecount.js";
import { FOUR, group, head, key, nameOf, playerButtons, tapped, titled, toggle } from "./gameparts.js";
import { named } from "./names.js";
import { LIMITS } from "./notation.js";
import { tried } from "./reckoned.js";
import { state } from "./state.js";
import { range } from "./tiles.js";
import { listed, phrase } from "./words.js";

// What is asked of the library: which of these a hand may have.
const HAN = range(1, 4);
const FU = [20, 25, 30, 40, 50, 60, 70, 80, 90, 100, 110];
const MANY_LIMITS = range(2, 6);
const [BY_RON, BY_TSUMO] = [0, 1];

// A win of this player begins; the bets of the deal stay.
export function beginWin(who, way) {
  const { at, riichi } = evening.draft;
  evening.draft = { ...emptyDraft(), at, riichi, kind: "win", wins: [emptyWin(who, way)] };
  evening.screen = "win";
}

// Back from an outcome that isn't counted: the bets stay.
export function leaveOutcome() {
  const { at, riichi, betsBefore = riichi } = evening.draft;
  evening.draft = at === null ? { ...emptyDraft(), riichi: betsBefore } : emptyDraft();
  evening.screen = at === null ? "table" : "deals";
}

export function setWin(changes) {
  const { draft } = evening;
  draft.wins = draft.wins.map((win, at) => (at === draft.now ? { ...win, ...changes } : win));
}

// ---- Who

function othersThanWinners() {
  return FOUR.filter((who) => evening.draft.wins.every(({ winner }) => winner !== who));
}

export function winTitle() {
  return phrase("wins", { names: listed(evening.draft.wins.map(({ winner }) => nameOf(winner))) });
}

export function fromButtons() {
  const { draft } = evening;
  const choose = (from) => (draft.from = from);
  const others = playerButtons("from", othersThanWinners(), (who) => draft.from === who, choose, (name) => phrase("from", { name }));
  const isSelf = draft.from === "tsumo";
  const self = draft.wins.length > 1 ? [] : [toggle("from-tsumo", named("tsumo"), isSelf, tapped(() => choose("tsumo")))];
  return group("from", phrase("from title"), ...self, ...others);
}

// Who bet; `more` is what such a bet does besides.
export function betButtons(more = () => {}) {
  const { draft } = evening;
  const turn = (who) => {
    draft.riichi = turned(draft.riichi, who);
    more(who);
  };
  const buttons = playerButtons("riichi", FOUR, (who) => draft.riichi.includes(who), turn, (name) => phrase("riichi of", { name }));
  return titled(named("riichi"), group("bets", named("riichi"), ...buttons));
}

// Several winners: which of them is looked at, and who else says ron.
export function winnerButtons() {
  const { draft } = evening;
  if (draft.from === null || draft.from === "tsumo") return [];
  const look = (at) => tapped(() => (draft.now = at));
  const add = (who) =>
    tapped(() => {
      // All are won on the same tile.
      const [on = ""] = winNow(draft).hand.match(/\bon=\S+/) ?? [];
      draft.wins = [...draft.wins, { ...emptyWin(who, winNow(draft).way), hand: on }];
      draft.now = draft.wins.length - 1;
    });
  const button = (win, at) => toggle(`winner-${at}`, nameOf(win.winner), draft.now === at, look(at));
  const winners = draft.wins.length > 1 ? draft.wins.map(button) : [];
  const others = othersThanWinners().filter((who) => who !== draft.from);
  const more = others.map((who) => key(`also-${who}`, `+ ${nameOf(who)}`, add(who), { "aria-label": `+ ${nameOf(who)}: ${named("ron")}` }));
  return [titled(phrase("also title"), group("winners", phrase("also title"), ...winners, ...more))];
}

// Who is liable for a yakuman, where the rules have that.
export function liableButtons(isYakuman) {
  const win = winNow(evening.draft);
  if ((!isYakuman && win.liable === null) || !baseGame().rules.liable) return [];
  const set = (liable) => setWin({ liable: win.liable === liable ? null : liable });
  const others = playerButtons("liable", othersThanWinners(), (who) => win.liable === who, set, (name) => phrase("liable", { name }));
  const limits = (number) => {
    const about = { "aria-label": phrase("limits", { number: `×${number}` }) };
    return toggle(`limits-${number}`, `×${number}`, win.limits === number, tapped(() => setWin({ limits: number })), about);
  };
  const numbers = win.liable === null || mostLimits() < 2 ? [] : range(1, mostLimits()).map(limits);
  return [titled(phrase("liable title"), group("liable", phrase("liable title"), ...others, ...numbers))];
}

// ---- The value

// Whether a hand may have so many han and fu, won as it is said.
function isThere(han, fu) {
  const { from } = evening.draft;
  const ways = from === null ? [BY_RON, BY_TSUMO] : [from === "tsumo" ? BY_TSUMO : BY_RON];
  const { rules } = baseGame().rules;
  return ways.some((by) => state.desk.baseOf(rules, by, han, fu) > 0);
}

function sizeButtons() {
  const win = winNow(evening.draft);
  const set = (changes) => tapped(() => setWin({ limit: null, liable: null, ...changes }));
  const dim = (isFree) => ({ "aria-disabled": String(!isFree) });
  const isOn = (name, number) => win.limit === null && win[name] === number;
  const hasFu = (number) => (win.han === null ? HAN : [win.han]).some((han) => isThere(han, number));
  const button = (name, number, about = {}) => toggle(`${name}-${number}`, phrase(name, { number }), isOn(name, number), set({ [name]: number }), about);
  const han = HAN.map((number) => button("han", number));
  const fu = FU.map((number) => button("fu", number, dim(hasFu(number))));
  return [group("han", phrase("han title"), ...han), group("fu", phrase("fu title"), ...fu)];
}

// How many limits a yakuman may have under the rules.
function mostLimits() {
  const win = (limits) => ({ kind: "tsumo", wins: [{ winner: 0, value: { yakuman: limits } }] });
  const isWon = (limits) => tried(state.desk, baseGame(), win(limits)).fault !== "no such worth";
  return MANY_LIMITS.filter(isWon).at(-1) ?? 1;
}

function limitButtons() {
  const { limit } = winNow(evening.draft);
  const severalLimits = (limits) => [`yakuman${limits}`, `${named("yakuman")} ×${limits}`];
  const more = mostLimits() < 2 ? [] : range(2, mostLimits()).map(severalLimits);
  const words = [...[...LIMITS, "yakuman"].map((word) => [word, named(word)]), ...more];
  const set = (word) => tapped(() => setWin({ limit: word, han: null, fu: null, liable: null }));
  const buttons = words.map(([word, name]) => toggle(`limit-${word}`, name, limit === word, set(word)));
  return group("limits", phrase("limit title"), ...buttons);
}

export function wayButtons() {
  const { way } = winNow(evening.draft);
  const set = (word) => tapped(() => setWin({ way: word }));
  const button = (word) => toggle(`way-${word}`, phrase(`way ${word}`), way === word, set(word));
  return group("ways", phrase("way title"), button("pad"), button("tiles"));
}

// What a win by han and fu still lacks.
function lackingWords() {
  const { from } = evening.draft;
  const value = valueOfWin(winNow(evening.draft)) === null ? [phrase("lack value")] : [];
  return phrase("lacking", { what: listed([...(from === null ? [phrase("lack from")] : []), ...value]) });
}

export function padScreen() {
  const isYakuman = /^yakuman/.test(winNow(evening.draft).limit ?? "");
  return [
    head(winTitle(), tapped(leaveOutcome), wayButtons()),
    titled(phrase("from title"), fromButtons()),
    titled(phrase("value title"), ...sizeButtons(), limitButtons()),
    betButtons(),
    ...liableButtons(isYakuman),
    ...winnerButtons(),
    countBar(lackingWords()),
  ];
}
