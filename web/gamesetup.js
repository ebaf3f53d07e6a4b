// A game before its first deal: four names and the rules of the table; and the games that are kept.

import { rulesText } from "./answers.js";
import { make, say } from "./elements.js";
import { beginGame, dropGame, evening, gameIds, keepEvening, linesOfGame, openGame, standingGame, wholeGame } from "./evening.js";
import { actions, field, FOUR, goTo, group, head, key, nameOf, quiet, stateWords, tapped, titled, toggle } from "./gameparts.js";
import { dateOf } from "./gamesheet.js";
import { points, thousands } from "./numbers.js";
import { state } from "./state.js";
import { gameLine, nameInLine, nameShown, rulesOfLine, ruleValue, TABLE_RULES, TABLES, valueOfRule } from "./tablerules.js";
import { listed, phrase } from "./words.js";

// What a new game begins with: the names and rules of the last one.
function newSetup() {
  const [id] = gameIds();
  const last = id === undefined ? null : rulesOfLine(state.desk, linesOfGame(id)[0]);
  const names = last?.names.map(nameShown) ?? ["", "", "", ""];
  const rules = last?.rules ?? { ...state.desk.ledger.table("club"), rules: state.rules };
  return { names, table: last?.table ?? "club", rules };
}

function nameField(at) {
  const { setup } = evening;
  const about = { maxlength: "24", autocapitalize: "words", placeholder: phrase("player", { number: at + 1 }) };
  const input = make("input", { type: "text", "data-key": `name-${at}`, value: setup.names[at], autocomplete: "off", ...about });
  input.addEventListener("input", () => {
    setup.names[at] = input.value;
    keepEvening();
  });
  return field(phrase(`seat ${at}`), input);
}

function chooseTable(name) {
  return tapped(() => {
    const { setup } = evening;
    evening.setup = { ...setup, table: name, rules: { ...state.desk.ledger.table(name), rules: setup.rules.rules } };
  });
}

function setRule(rule, value) {
  const { setup } = evening;
  setup.rules = { ...setup.rules, [rule.name ?? rule.word]: value };
}

// A rule that has one of a few values.
function ruleSelect(rule, values) {
  const now = ruleValue(evening.setup.rules, rule);
  const select = make("select", { "data-key": `rule-${rule.word}` });
  const words = { on: phrase("yes"), off: phrase("no") };
  for (const value of values) select.append(make("option", { value }, words[value] ?? phrase(`${rule.word} ${value}`)));
  select.value = rule.values === undefined ? (now ? "on" : "off") : String(now);
  select.addEventListener("change", () => tapped(() => setRule(rule, valueOfRule(rule, select.value)))());
  return field(phrase(`rule ${rule.word}`), select);
}

function numberText(rule, value) {
  if (value === rule.nothing && rule.none !== undefined) return "";
  return rule.values === "uma" ? value.map((it) => it / 1000).join(", ") : String(value);
}

// A rule that is a number; nothing written stands for none, where there may be none.
function ruleNumber(rule) {
  const about = rule.none === undefined ? {} : { placeholder: phrase(`${rule.word} ${rule.none}`) };
  const value = numberText(rule, ruleValue(evening.setup.rules, rule));
  const input = make("input", { type: "text", "data-key": `rule-${rule.word}`, value, autocomplete: "off", ...about });
  input.addEventListener("input", () => {
    const text = input.value.replaceAll(" ", "");
    const written = valueOfRule(rule, text === "" ? (rule.none ?? "") : text);
    input.setAttribute("aria-invalid", String(written === undefined));
    if (written !== undefined) setRule(rule, written);
    keepEvening();
  });
  return field(phrase(`rule ${rule.word}`), input);
}

function ruleField(rule) {
  if (Array.isArray(rule.values)) return ruleSelect(rule, rule.values);
  return rule.values === undefined ? ruleSelect(rule, ["on", "off"]) : ruleNumber(rule);
}

// The line of the game that is about to begin; a name that isn't written is that of the seat.
function setupLine() {
  const { names, table, rules } = evening.setup;
  const said = names.map((name, at) => nameInLine(name) || nameInLine(phrase("player", { number: at + 1 })));
  return gameLine(state.desk, said, table, rules, rulesText(rules.rules));
}

function beginPlay() {
  const line = setupLine();
  const isTaken = wholeGame([line]) !== null && !state.desk.game(`${line}\n`).startsWith("refused");
  if (isTaken) tapped(() => openGame(beginGame([line])))();
  else say(phrase("setup refused"));
}

function valuedBy({ rules }) {
  return quiet(phrase("hands by", { rules: rulesText(rules) }));
}

export function setupScreen() {
  evening.setup ??= newSetup();
  const { table } = evening.setup;
  const tables = TABLES.map((name) => toggle(`table-${name}`, phrase(`table ${name}`), table === name, chooseTable(name)));
  const more = make("summary", { "data-key": "rules-more" }, phrase("rules more"));
  const rules = make("details", { class: "rules-of-table" }, more, make("div", { class: "fields" }, ...TABLE_RULES.map(ruleField)));
  return [
    head(phrase("new game"), goTo("games")),
    make("div", { class: "fields" }, ...FOUR.map(nameField)),
    titled(phrase("table rules"), group("tables", phrase("table rules"), ...tables)),
    quiet(phrase(`about ${table}`)),
    valuedBy(evening.setup.rules),
    rules,
    actions(key("begin", phrase("begin"), beginPlay, { class: "main" })),
  ];
}

// The rules of the game that is open.
export function rulesScreen() {
  const { table, rules } = standingGame();
  const row = (rule) => [make("dt", {}, phrase(`rule ${rule.word}`)), make("dd", {}, valueText(rule, ruleValue(rules, rule)))];
  const list = make("dl", { class: "why in-halves" }, ...TABLE_RULES.flatMap(row));
  return [head(phrase("table rules"), goTo("more")), make("p", {}, phrase(`table ${table}`)), valuedBy(rules), list];
}

function valueText(rule, value) {
  if (typeof value === "boolean") return phrase(value ? "yes" : "no");
  if (rule.none !== undefined && value === rule.nothing) return phrase(`${rule.word} ${rule.none}`);
  if (rule.values === "uma") return value.map(thousands).join(", ");
  return rule.values === "points" ? points(value) : phrase(`${rule.word} ${value}`);
}

// ---- The games that are kept

function gameItem(id) {
  const game = wholeGame(linesOfGame(id));
  const open = tapped(() => openGame(id));
  const drop = tapped(() => {
    evening.gone = linesOfGame(id);
    dropGame(id);
    say(phrase("game gone"));
  });
  const names = listed(FOUR.map((who) => `${nameOf(who, game)} ${points(game.state.points[who])}`));
  const title = `${dateOf(id)} · ${game.isOver ? phrase("over") : stateWords(game.state)}`;
  return make(
    "li",
    { class: "kept-game" },
    key(`open-${id}`, [make("strong", {}, title), make("span", {}, names)], open, { class: "deal-button" }),
    key(`drop-${id}`, phrase("take away"), drop, { "aria-label": `${phrase("take away")}: ${title}` }),
  );
}

export function gamesScreen() {
  const ids = gameIds();
  const back = tapped(() => {
    beginGame(evening.gone);
    evening.gone = null;
  });
  const gone = evening.gone ? [key("bring-back", phrase("bring back"), back)] : [];
  const begin = tapped(() => Object.assign(evening, { setup: newSetup(), screen: "setup" }));
  const newGame = key("new-game", phrase("new game"), begin, { class: "main" });
  return [
    head(phrase("games"), null),
    quiet(phrase(ids.length === 0 ? "no games" : "games help")),
    actions(newGame, key("text", phrase("open a text"), goTo("text")), ...gone),
    make("ol", { class: "kept-games" }, ...ids.map(gameItem)),
  ];
}
