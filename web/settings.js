// The settings: the rule profile, the names, the colours; and what the page stands on.

import { byId, make } from "./elements.js";
import { showForm, showNames } from "./form.js";
import { hasRule, houseOf, isHouse, ruleName, RULES, rulesShort, withRule } from "./rules.js";
import { state } from "./state.js";
import { isKept } from "./store.js";
import { colon, phrase, speak } from "./words.js";

const isDark = matchMedia("(prefers-color-scheme: dark)");

function showScheme() {
  const scheme = state.scheme === "device" ? (isDark.matches ? "dark" : "light") : state.scheme;
  document.documentElement.dataset.scheme = scheme;
  const ground = getComputedStyle(document.documentElement).getPropertyValue("--ground").trim();
  document.querySelector("meta[name=theme-color]").content = ground;
}

// The rules that are chosen for the page, whatever the game plays whose hand is tapped.
function holder() {
  return state.aside ?? state;
}

// Takes the state's choices for the whole page.
export function showSettings() {
  const { rules } = holder();
  speak(state.names);
  showScheme();
  showNames();
  const chosen = { rules: isHouse(rules) ? "house" : String(rules), names: state.names, scheme: state.scheme };
  for (const [name, value] of Object.entries(chosen)) {
    for (const input of document.querySelectorAll(`#settings input[name=${name}]`)) input.checked = input.value === value;
  }
  for (const box of document.querySelectorAll("#house input")) box.nextElementSibling.textContent = ruleName(box.dataset.rule);
  byId("house").hidden = !isHouse(rules);
  for (const input of document.querySelectorAll("#house input")) input.checked = hasRule(rules, Number(input.value));
  byId("rules-now").textContent = rulesShort(rules);
  byId("open-settings").setAttribute("aria-label", colon(`${phrase("rules")} ${rulesShort(rules)}`, phrase("settings")));
  byId("open-settings").title = phrase("settings");
}

// A box for each rule that a house may choose.
function ruleBoxes() {
  return RULES.map((word, place) => {
    const box = make("input", { type: "checkbox", name: "rule", value: String(place), "data-rule": word });
    return make("label", { class: "rule" }, box, make("span"));
  });
}

const chosenRules = {
  rules: (value) => (value === "house" ? houseOf(holder().rules) : Number(value)),
  rule: (value, isOn) => withRule(holder().rules, Number(value), isOn),
};

function chooseSetting({ target: { name, value, checked } }) {
  const choose = chosenRules[name];
  if (choose) holder().rules = choose(value, checked);
  else state[name] = value;
  showSettings();
  showForm();
}

// A fact about the page: its word, and its text, which is a phrase where it has a key.
function fact(word, text, key) {
  return [make("dt", { "data-phrase": word }, phrase(word)), make("dd", key === undefined ? {} : { "data-phrase": key }, text)];
}

export function listenToSettings() {
  byId("house").append(...ruleBoxes());
  const about = byId("about");
  const kept = isKept() ? "kept here" : "kept nowhere";
  about.prepend(...fact("version", state.desk.version()), ...fact("hands and settings", phrase(kept), kept));
  byId("open-settings").addEventListener("click", () => {
    showSettings();
    byId("settings").showModal();
  });
  byId("settings").addEventListener("change", chooseSetting);
  isDark.addEventListener("change", showScheme);
}
