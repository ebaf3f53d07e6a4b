// Elements of the page. Text that a person gave is only ever set as text.

import { named, tileName } from "./names.js";
import { tilesIn } from "./tiles.js";
import { language } from "./words.js";

// What is written in Japanese, with a number before it.
const JAPANESE = /([0-9]*[\p{sc=Han}\p{sc=Hira}\p{sc=Kana}ー・]+(?:[ /]+[\p{sc=Han}\p{sc=Hira}\p{sc=Kana}ー・]+)*)/u;

// A screen on which two things stand side by side; layout.css and wide.css part there too.
export const isWide = matchMedia("(min-width: 40rem)");

// A text, or another child; Japanese within a text is marked as such.
function marked(child) {
  if (typeof child !== "string" || !JAPANESE.test(child)) return [child];
  const inJapanese = (part) => make("span", { lang: "ja" }, document.createTextNode(part));
  const parts = child.split(JAPANESE).map((part, at) => (at % 2 === 1 ? inJapanese(part) : part));
  return parts.filter((part) => part !== "");
}

export function make(name, properties = {}, ...children) {
  const element = document.createElement(name);
  for (const [key, value] of Object.entries(properties)) {
    if (typeof value === "function") element.addEventListener(key, value);
    else element.setAttribute(key, value);
  }
  element.append(...children.flatMap(marked));
  return element;
}

// Gives an element its name: what is read aloud, and what is seen below a mouse.
export function label(element, name) {
  element.setAttribute("aria-label", name);
  element.title = name;
  element.lang = JAPANESE.test(name) ? "ja" : language();
  return element;
}

export function byId(id) {
  return document.getElementById(id);
}

// The drawing of a tile, which says nothing to those who can't see it.
export function drawing(tile) {
  return make("span", { class: "face", "data-face": tile });
}

// A tile as a picture with its name.
export function tileImage(tile) {
  return label(make("span", { class: "tile", role: "img" }, drawing(tile)), tileName(tile));
}

// A button with a tile on it, as large as a thumb.
export function tileButton(tile, name, press) {
  const face = make("span", { class: "tile" }, drawing(tile));
  return label(make("button", { type: "button", class: "on-tile", click: press }, face), name);
}

// The tiles of a text side by side.
export function tilesDrawn(tiles) {
  return make("span", { class: "drawn" }, ...tiles.map(tileImage));
}

// A hand as it lies: its tiles, the winning one, its melds.
export function handDrawn({ hand, on, melds }) {
  const groups = [hand, on, ...melds.map(({ tiles }) => tiles)].filter((tiles) => tiles.length > 0);
  return make("p", { class: "hand-drawn" }, ...groups.map(tilesDrawn));
}

// A group of tiles within a text, with a meld's word before it and the sign behind it.
const TILES_IN_TEXT = /((?:\b(?:ankan|chi|pon|kan):)?(?:[0-9]+[mps]|[1-7]+z)+(?![0-9a-z])[,:]?)/;
const ONE_GROUP = /^(?:(\w+):)?(\w+)([,:]?)$/;

// A text in which each group of tiles, as 789m or chi:123m, is drawn, and a meld has its name.
export function textWithTiles(text) {
  const drawnGroup = (part) => {
    const [, word, tiles, sign] = ONE_GROUP.exec(part);
    if (tilesIn(tiles) === null) return part;
    const drawn = tilesDrawn(tilesIn(tiles));
    drawn.append(sign);
    return make("span", { class: "bound" }, ...(word === undefined ? [] : [`${named(word)} `]), drawn);
  };
  return text.split(TILES_IN_TEXT).map((part, at) => (at % 2 === 1 ? drawnGroup(part) : part)).filter((part) => part !== "");
}

// Says something for a moment, where a person sees it and a screen reader hears it.
let wordsEnd = 0;
export function say(words) {
  const box = document.querySelector("dialog[open] .said") ?? byId("said");
  box.textContent = words;
  clearTimeout(wordsEnd);
  wordsEnd = setTimeout(() => {
    for (const it of document.querySelectorAll(".said")) it.textContent = "";
  }, 4000);
}
