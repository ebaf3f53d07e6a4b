// How hands leave the page and come to it: as links, as texts of lines, by the phone's own sharing, as files, on paper.

import { rulesLines } from "./answers.js";
import { byId, say } from "./elements.js";
import { linesOf } from "./record.js";
import { state } from "./state.js";
import { phrase } from "./words.js";

const MOST_NAME = 60;

// The lines of hands, for the command `line`: the profile, and above each hand its name as a comment.
export function textOfHands(hands, rules) {
  const rows = hands.flatMap(({ name, line }) => [...(name === "" ? [] : [`# ${name}`]), line]);
  return [...rulesLines(rules), ...rows].map((row) => `${row}\n`).join("");
}

// The hands of such a text: a comment directly above a line is its name.
export function handsOfText(text) {
  const { lines, rules } = linesOf(state.desk, text, 1);
  const nameAbove = (at) => (lines[at - 1]?.startsWith("#") ? lines[at - 1].slice(1).trim().slice(0, MOST_NAME) : "");
  const hands = lines.map((line, at) => ({ name: nameAbove(at), line: line.trim(), rules }));
  return hands.filter(({ line }) => line !== "" && !line.startsWith("#"));
}

// What stands behind the # of a link: the text of the hand, as `line` would take it.
function hashOf(line, rules) {
  return `#${encodeURI(textOfHands([{ name: "", line }], rules).trim())}`;
}

// The hand of a link's end; undefined where it holds none.
export function handOfHash(hash) {
  try {
    return handsOfText(decodeURIComponent(hash.slice(1)))[0];
  } catch {
    return undefined;
  }
}

// A link that opens the hand on another phone; "" where this page is a file, which others don't have.
export function linkOf(line, rules) {
  return location.protocol === "file:" ? "" : location.href.split("#")[0] + hashOf(line, rules);
}

export async function copyText(text, words = phrase("copied")) {
  try {
    await navigator.clipboard.writeText(text);
    say(words);
  } catch {
    say(copyByHand(text) ? words : phrase("can’t copy"));
  }
}

// Copies as older browsers do, and pages that come from a file.
function copyByHand(text) {
  const box = document.createElement("textarea");
  box.value = text;
  (document.querySelector("dialog[open]") ?? document.body).append(box);
  box.select();
  const isCopied = document.execCommand("copy");
  box.remove();
  return isCopied;
}

// Shares by the phone's own sheet; where there is none, the text is copied.
export async function share(title, text, url) {
  const parts = { title, text, ...(url === "" ? {} : { url }) };
  const whole = [text, url].filter((it) => it !== "").join("\n");
  if (!navigator.share) return copyText(whole, phrase("copied instead"));
  try {
    await navigator.share(parts);
  } catch (failure) {
    if (failure.name !== "AbortError") say(phrase("sharing failed"));
  }
}

export function saveFile(name, text) {
  const link = document.createElement("a");
  link.href = URL.createObjectURL(new Blob([text], { type: "text/plain" }));
  link.download = name;
  link.click();
  setTimeout(() => URL.revokeObjectURL(link.href), 10000);
}

// Prints these elements, black on white, and nothing else of the page.
export function printOnly(...parts) {
  byId("paper").replaceChildren(...parts);
  print();
}
