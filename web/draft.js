// The outcome under way, as it is tapped, and the outcome that it makes.

import { lackOfTiles } from "./asked.js";
import { handWords, recordOfHand } from "./hands.js";

export function emptyDraft() {
  return {
    at: null, // the place of the line that is put right; null for a new deal
    kind: null, // a word of the notation, or "win" for a ron or a self-draw
    riichi: [], ready: [], nagashi: [],
    from: null, // the discarder, or "tsumo"
    wins: [], now: 0,
    player: null, points: "", state: null,
  };
}

export function emptyWin(winner, way) {
  return { winner, way, han: null, fu: null, limit: null, hand: "", liable: null, limits: 1 };
}

export function winNow(draft) {
  return draft.wins[draft.now];
}

// A list of players with this one in it, or without.
export function turned(players, who) {
  return players.includes(who) ? players.filter((it) => it !== who) : [...players, who].sort();
}

function isWhole(hand) {
  const record = recordOfHand(hand);
  return record !== null && record.on.length > 0 && lackOfTiles(record) === 0;
}

// What a winner wins; null while it isn't said.
export function valueOfWin({ way, han, fu, limit, hand }) {
  if (way === "tiles") return isWhole(hand) ? { tiles: hand } : null;
  if (limit !== null) return /^yakuman/.test(limit) ? { yakuman: Number(limit.slice("yakuman".length) || 1) } : { limit };
  return han !== null && fu !== null ? { han, fu } : null;
}

function winOutcome({ wins, from, riichi }) {
  const all = wins.map((win) => {
    const value = valueOfWin(win);
    const isOne = win.limits === 1 && value !== null && !("tiles" in value);
    const limits = isOne ? {} : { limits: win.limits };
    return { winner: win.winner, value, ...(win.liable === null ? {} : { liable: win.liable, ...limits }) };
  });
  if (from === null || all.some(({ value }) => value === null)) return null;
  return from === "tsumo" ? { kind: "tsumo", wins: all.slice(0, 1), riichi } : { kind: "ron", discarder: from, wins: all, riichi };
}

// The outcome that was tapped; null while something of it isn't said.
export function outcomeOfDraft(draft) {
  const { kind, riichi, ready, nagashi, player, points, state } = draft;
  if (kind === "win") return winOutcome(draft);
  if (kind === "draw") return { kind, ready, nagashi, riichi };
  if (kind === "abort") return { kind, riichi };
  if (kind === "chombo") return player === null ? null : { kind, player };
  if (kind === "penalty") return player === null || !/^[0-9]{1,7}$/.test(points) ? null : { kind, player, points: Number(points) };
  if (kind === "stands") return { kind, state };
  return kind === "end" ? { kind } : null;
}

function winDraft({ winner, value, liable, limits }) {
  const base = { ...emptyWin(winner, "tiles" in value ? "tiles" : "pad"), liable: liable ?? null, limits: limits ?? 1 };
  if ("tiles" in value) return { ...base, hand: handWords(recordOfHand(value.tiles)) };
  if ("yakuman" in value) return { ...base, limit: value.yakuman === 1 ? "yakuman" : `yakuman${value.yakuman}` };
  return { ...base, ...value };
}

// The draft that makes this outcome, to put the line at this place right.
export function draftOf(outcome, at, riichi) {
  const { kind, wins, discarder, player, points, state, ready, nagashi } = outcome;
  const plain = { ...emptyDraft(), at, kind, riichi, ready: ready ?? [], nagashi: nagashi ?? [], player: player ?? null };
  if (wins) return { ...plain, kind: "win", wins: wins.map(winDraft), from: kind === "tsumo" ? "tsumo" : discarder };
  return { ...plain, points: points === undefined ? "" : String(points), state: state ?? null };
}
