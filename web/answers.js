// What the page knows of the answer to a line, and what a hand that isn't whole still lacks.

import { lackOfTiles, missingKeys } from "./asked.js";
import { named } from "./names.js";
import { lineOf, wordsOf } from "./record.js";
import { isHouse, profileOf } from "./rules.js";
import { state } from "./state.js";
import { isPlainEnglish, phrase, within } from "./words.js";

// A win: the library's answer names the rules.
const ANY_WIN = "win 234m567m345p67s99s on=5s by=ron seat=S round=E";

// The values of a line's answer, with all that its picture needs; the values are null for a line that is no record. In English the
// library's own text says why, in another language its values do.
export function answerTo(line, rules) {
  const { desk } = state;
  const by = wordsOf(line).keys.find(([key]) => key === "by")?.[1];
  const values = isPlainEnglish() ? desk.values(line, rules) : desk.reasons(line, rules);
  return { line, rules, by, text: desk.answer(line, rules), values, reasons: desk.explain(line, rules) };
}

// As the option --rules of the program takes them.
export function rulesText(rules) {
  return String(profileOf(rules) ?? state.desk.values(ANY_WIN, rules).rules);
}

// In a sentence.
export function rulesWords(rules) {
  return isHouse(rules) ? phrase("rules of", { rules: rulesText(rules) }) : phrase("profile of", { rules });
}

// The line above the hands of a text: of the rules of a house a comment, since no line sets them for the program.
export function rulesLines(rules) {
  if (rules === 1) return [];
  return [isHouse(rules) ? `# --rules ${rulesText(rules)}` : `rules ${rules}`];
}

const LACKS = {
  on: () => phrase("the winning tile"),
  by: () => phrase("ron or tsumo", { ron: within(named("ron")), tsumo: within(named("tsumo")) }),
  seat: () => within(phrase("the seat")),
  round: () => within(phrase("the round")),
};

// What the record that is made still lacks, in words, one for each thing; none where the line was typed otherwise.
export function lacks() {
  const { line, record } = state;
  if (line !== lineOf(record)) return [];
  const tiles = lackOfTiles(record);
  const keys = missingKeys(record).map((key) => LACKS[key]?.() ?? key);
  return tiles > 0 ? [phrase(tiles === 1 ? "one more tile" : "more tiles", { number: tiles }), ...keys] : keys;
}
