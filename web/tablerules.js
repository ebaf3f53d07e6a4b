// The rules of a table as words of the line `game`, and the names of its four players.

import { rulesOfText } from "./rules.js";
import { wordsAndNote } from "./notation.js";

export const TABLES = ["club", "league", "online"];
// Each rule: its word, its name in the ledger where that is another, and its values; none for a flag, "points" for a number.
export const TABLE_RULES = [
  { word: "start", values: "points" },
  { word: "return", name: "returns", values: "points" },
  { word: "uma", values: "uma" },
  { word: "length", values: ["south", "east"] },
  { word: "extra", values: "points", none: "off", nothing: null },
  { word: "bust" },
  { word: "stop" },
  { word: "renchan", values: ["ready", "win"] },
  { word: "ron", values: ["all", "nearest", "two"] },
  { word: "counters", values: ["nearest", "each"] },
  { word: "sticks", values: ["nearest", "own"] },
  { word: "liable" },
  { word: "nagashi" },
  { word: "chombo", values: "points", none: "mangan", nothing: "mangan" },
  { word: "ties", values: ["share", "seat"] },
  { word: "left", values: ["first", "lost"] },
];

export function ruleValue(rules, { word, name = word }) {
  return rules[name];
}

// The word of a rule's value.
function textOfValue(rule, value) {
  if (rule.none !== undefined && value === rule.nothing) return rule.none;
  if (rule.values === undefined) return value ? "on" : "off";
  return rule.values === "uma" ? value.map((points) => points / 1000).join(",") : String(value);
}

// The value of such a word; undefined where it is none.
export function valueOfRule(rule, text) {
  if (rule.none === text) return rule.nothing;
  if (rule.values === undefined) return { on: true, off: false }[text];
  if (rule.values === "points") return /^[0-9]{1,7}$/.test(text) ? Number(text) : undefined;
  if (rule.values !== "uma") return rule.values.includes(text) ? text : undefined;
  const four = text.split(",").map((part) => (/^[-−]?[0-9]{1,4}$/.test(part) ? Number(part.replace("−", "-")) * 1000 : NaN));
  return four.length === 4 && !four.some(Number.isNaN) ? four : undefined;
}

const isSame = (one, other) => JSON.stringify(one) === JSON.stringify(other);

// The line of a game under these rules: what differs from the table of this name is said.
export function gameLine(desk, names, table, rules, rulesText) {
  const named = desk.ledger.table(table);
  const words = TABLE_RULES.filter((rule) => !isSame(ruleValue(rules, rule), ruleValue(named, rule)));
  const said = words.map((rule) => `${rule.word}=${textOfValue(rule, ruleValue(rules, rule))}`);
  const valued = rulesText === "1" ? [] : [`rules=${rulesText}`];
  return ["game", ...names, ...(table === "club" ? [] : [`table=${table}`]), ...valued, ...said].join(" ");
}

// The names, the table and the rules of a line `game`; null where it is none.
export function rulesOfLine(desk, line) {
  const { words } = wordsAndNote(line);
  const said = new Map(words.filter((word) => word.includes("=")).map((word) => word.split("=")));
  const names = words.slice(1).filter((word) => !word.includes("="));
  const table = said.get("table") ?? "club";
  if (words[0] !== "game" || !TABLES.includes(table) || ![0, 4].includes(names.length)) return null;
  const rules = desk.ledger.table(table);
  if (said.has("rules")) rules.rules = rulesOfText(desk, said.get("rules"));
  for (const rule of TABLE_RULES) if (said.has(rule.word)) rules[rule.name ?? rule.word] = valueOfRule(rule, said.get(rule.word));
  if (Object.values(rules).includes(undefined)) return null;
  return { names: names.length === 4 ? names : ["1", "2", "3", "4"], table, rules };
}

// A name as a line may have it: a line parts its words by spaces.
export function nameInLine(name) {
  return name.trim().replaceAll(/\s+/g, "_");
}

// A name as it is shown.
export function nameShown(name) {
  return name.replaceAll("_", " ");
}
