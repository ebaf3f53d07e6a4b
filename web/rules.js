// The rules that a table plays by: a profile, 1 or 2, or the rules of a house, a bit each, as the library takes them.
// What a rule means is asked of the library, and so is how chosen rules are written; here stands what each is called.

import { inLanguage, phrase } from "./words.js";

const HOUSE = 0x10000;
const PROFILES = { 1: HOUSE + 0x7f0, 2: HOUSE + 0x7f3 };

// In the order of their bits: the word of the command line, and what is on where it is, in each language as in words.js.
const RULE_NAMES = {
  "red-fives": ["Red fives (aka dora)", "赤ドラ", "Rote Fünfen (Aka-Dora)", "Cinq rouges (aka dora)", "Czerwone piątki (aka dora)"],
  "raise": [
    "Four han 30 fu and three han 60 fu are a mangan (kiriage mangan)",
    "4翻30符と3翻60符は満貫（切り上げ満貫）",
    "Vier Han 30 Fu und drei Han 60 Fu sind ein Mangan (Kiriage Mangan)",
    "Quatre han 30 fu et trois han 60 fu font un mangan (kiriage mangan)",
    "Cztery han 30 fu i trzy han 60 fu to mangan (kiriage mangan)",
  ],
  "add-yakuman": [
    "Several yakuman pay a limit each",
    "役満は複合する",
    "Mehrere Yakuman zahlen je ein Limit",
    "Plusieurs yakuman paient chacun une limite",
    "Kilka yakumanów płaci po limicie za każdy",
  ],
  "double-yakuman": [
    "Rarer forms of yakuman pay two limits",
    "特別な形の役満は二倍",
    "Seltenere Formen von Yakuman zahlen zwei Limits",
    "Les formes rares de yakuman paient deux limites",
    "Rzadsze formy yakumanów płacą dwa limity",
  ],
  "counted-yakuman": [
    "13 han pay a yakuman (kazoe yakuman)",
    "13翻以上は数え役満",
    "13 Han zahlen einen Yakuman (Kazoe-Yakuman)",
    "13 han paient un yakuman (kazoe yakuman)",
    "13 han płaci yakuman (kazoe yakuman)",
  ],
  "double-wind-pair": [
    "A pair of both winds has 4 fu",
    "連風牌の雀頭は4符",
    "Ein Paar, das Platz- und Rundenwind ist, hat 4 Fu",
    "Une paire des deux vents a 4 fu",
    "Para obu wiatrów ma 4 fu",
  ],
  "kong-draw-fu": ["The draw after a kong has 2 fu", "嶺上開花のツモに2符", "Der Rinshan-Zug hat 2 Fu", "Le tirage rinshan a 2 fu", "Dobór rinshan ma 2 fu"],
  "open-simples": [
    "All simples in an open hand (kuitan)",
    "喰いタン",
    "Tanyao mit offener Hand (Kuitan)",
    "Tanyao en main ouverte (kuitan)",
    "Tanyao w otwartej ręce (kuitan)",
  ],
  "open-pinfu-fu": [
    "An open hand of 20 fu won by ron counts 30",
    "副露の平和形のロンは30符",
    "Ein offenes Ron mit 20 Fu zählt 30",
    "Un ron ouvert de 20 fu compte 30",
    "Otwarty ron za 20 fu liczy się jako 30",
  ],
  "ippatsu": ["Ippatsu", "一発", "Ippatsu", "Ippatsu", "Ippatsu"],
  "ura": ["Indicators below count (ura dora)", "裏ドラ", "Ura Dora zählen", "L’ura dora compte", "Ura dora się liczy"],
  "blessing-of-man": [
    "Ron before the own first draw is a yakuman (renhou)",
    "人和は役満",
    "Ron vor dem eigenen ersten Zug ist ein Yakuman (Renhou)",
    "Ron avant son premier tirage est un yakuman (renhou)",
    "Ron przed własnym pierwszym doborem to yakuman (renhou)",
  ],
};
export const RULES = Object.keys(RULE_NAMES);

export function ruleName(word) {
  return inLanguage(RULE_NAMES[word]);
}

export function isHouse(rules) {
  return rules >= HOUSE;
}

export function areRules(rules) {
  return rules === 1 || rules === 2 || (Number.isInteger(rules) && rules >= HOUSE && rules < HOUSE + 2 ** RULES.length);
}

// The same rules, a bit each.
export function houseOf(rules) {
  return PROFILES[rules] ?? rules;
}

export function hasRule(rules, place) {
  return (houseOf(rules) & (1 << place)) !== 0;
}

// The first of them.
export function hasReds(rules) {
  return hasRule(rules, 0);
}

export function withRule(rules, place, isOn) {
  const bit = 1 << place;
  return isOn ? houseOf(rules) | bit : houseOf(rules) & ~bit;
}

// The profile that these rules are; undefined where they are neither.
export function profileOf(rules) {
  return [1, 2].find((profile) => PROFILES[profile] === houseOf(rules));
}

// The rules of such a text, which the desk reads; undefined where it is none.
export function rulesOfText(desk, text) {
  const rules = desk.rulesOf(text);
  return rules && (profileOf(rules) ?? rules);
}

// On a button.
export function rulesShort(rules) {
  return isHouse(rules) ? phrase("rules own") : String(rules);
}
