// What the page says in the chosen language. In a phrase {@word} is a word of the game by its name in that language, and {word} is
// given.

import { GAME_WORDS } from "./words-game.js";
import { NAME_WORDS, ROMANISED } from "./words-names.js";
import { PAGE_WORDS } from "./words-page.js";
import { REASON_WORDS } from "./words-reasons.js";
import { RULE_WORDS } from "./words-rules.js";

const WORDS = { ...GAME_WORDS, ...NAME_WORDS, ...PAGE_WORDS, ...REASON_WORDS, ...RULE_WORDS };
// The languages in the order of each phrase.
const ORDER = ["en", "ja", "de", "fr", "pl"];
// The choices of the settings, each with its language.
const LANGUAGES = { english: "en", romanised: "en", script: "ja", german: "de", french: "fr", polish: "pl" };

let chosen = "english";

export function speak(name) {
  chosen = name in LANGUAGES ? name : "english";
  document.documentElement.lang = language();
}

// The choice for the language of the device.
export function choiceOfDevice() {
  const device = navigator.language.slice(0, 2);
  return Object.keys(LANGUAGES).find((name) => LANGUAGES[name] === device) ?? "english";
}

export function language() {
  return LANGUAGES[chosen];
}

// Whether the page speaks as the library does.
export function isPlainEnglish() {
  return chosen === "english";
}

// The phrase of the chosen language; one that is the same in all languages stands alone.
export function inLanguage(phrases) {
  return typeof phrases === "string" ? phrases : phrases[ORDER.indexOf(language())];
}

function phraseOf(key) {
  const text = (chosen === "romanised" && ROMANISED[key]) || inLanguage(WORDS[key]);
  // In French some signs stand apart from their word, on the same line.
  return language() === "fr" ? text.replaceAll(/ (?=[:;!?»])|« /g, (sign) => sign.replace(" ", "\u00a0")) : text;
}

export function isPhrase(key) {
  return key in WORDS;
}

export function phrase(key, given = {}) {
  return phraseOf(key).replaceAll(/\{(@?\w+)\}/g, (_, word) => (word.startsWith("@") ? phraseOf(word) : given[word]));
}

// A word, and what it is told of.
export function colon(what, more) {
  return phrase("colon", { what, more });
}

// A word within a sentence: only in German it keeps its capital letter.
export function within(words) {
  return language() === "de" ? words : words.toLowerCase();
}

// A list in a sentence.
export function listed(words) {
  return words.join(language() === "ja" ? "、" : ", ");
}
