// The director's page: sessions, tables, one game at a time, standings, links.
import { button, by, code, fill, made } from "./elements.js";
import { GamePart } from "./gamepart.js";
import { counted, ranking, since, standsAt } from "./told.js";
import { Wire } from "./wire.js";

const wire = new Wire(decodeURIComponent(location.hash.slice(1)));
const path = "/api/director";
let hall = null;
let sure = null;
const game = new GamePart(by("game-part"), wire, say);

function say(words) {
  fill(by("said"), words ? [made("p", { class: "fault" }, words)] : []);
}

/** Asks for something, and says why where it is refused. */
async function ask(what, body) {
  say("");
  try {
    await wire.ask(`${path}/${what}`, body);
  } catch (refusal) {
    say(refusal.message);
  }
}

/** A button that is tapped twice. */
function twice(words, name, on) {
  const isSure = sure === name;
  const tap = () => {
    sure = isSure ? null : name;
    if (isSure) {
      on();
    }
    showSessions();
  };
  return button(isSure ? `Sure? ${words}` : words, tap, isSure ? { class: "main" } : {});
}

function ways({ session, stage }) {
  if (stage === "begun") {
    return [
      button("Close", () => ask("closed", { session, end_games: false })),
      twice("End all games and close", `end ${session}`, () => ask("closed", { session, end_games: true })),
    ];
  }
  if (stage === "closed") {
    return [];
  }
  const isNext = hall.sessions.every((it) => it.session >= session || it.stage === "closed");
  return [
    isNext ? button("Begin", () => ask("begun", { session })) : null,
    isNext && session > 1 ? twice("Seat by standings", `seat ${session}`, () => ask("paired", { session, by_standings: true })) : null,
    twice("Draw anew", `draw ${session}`, () => ask("paired", { session, by_standings: false, seed: 1 + Math.floor(Math.random() * 1e8) })),
  ].filter((it) => it !== null);
}

function showSessions() {
  const rows = hall.sessions.map((it) =>
    made(
      "li",
      {},
      made("span", { class: "number" }, String(it.session)),
      made("span", { class: "line" }, it.stage === "begun" ? `begun ${since(it.begun)}` : it.stage),
      null,
      made("div", { class: "under buttons" }, ...ways(it)),
    ),
  );
  const session = hall.sessions.length + 1;
  const isOver = hall.sessions.every((it) => it.stage === "closed");
  const more = isOver ? made("li", {}, twice("One session more, by standings", "more", () => ask("paired", { session, by_standings: true }))) : null;
  fill(by("sessions"), [...rows, more]);
}

function showTables() {
  by("tables-title").textContent = `Tables, session ${hall.shown}`;
  const rows = [...hall.tables].sort((one, other) => one.over - other.over || one.deals - other.deals || one.table - other.table);
  fill(
    by("tables"),
    rows.map((row) =>
      made(
        "li",
        {},
        made("span", { class: "number" }, String(row.table)),
        made("span", { class: "line" }, `${standsAt(row)}; ${counted(row.deals, "deal")}, ${row.came === null ? "no deal yet" : since(row.came)}`),
        button("Open", () => game.open(row.session, row.table)),
        made("span", { class: "under quiet" }, row.names.join(", ")),
        row.disputes ? made("span", { class: "under fault" }, `${row.disputes} in dispute`) : null,
      ),
    ),
  );
}

function show() {
  if (hall) {
    showSessions();
    showTables();
    game.showChoice(hall);
  }
}

function heard(name, told) {
  if (name === "view") {
    hall = told;
  } else if (name === "tables") {
    const changed = new Map(told.tables.map((row) => [row.table, row]));
    hall.tables = hall.tables.map((row) => changed.get(row.table) ?? row);
    game.changed(changed);
  } else if (name === "standings") {
    fill(by("standings"), ranking(told));
  }
  show();
}

function figure(title, { link, squares }) {
  return made("figure", {}, code(squares), made("figcaption", {}, made("a", { href: link }, title)));
}

by("show-codes").addEventListener("click", async () => {
  try {
    const links = await wire.ask(`${path}/links`);
    const tables = links.tables.map((it) => figure(`Table ${it.table}`, it));
    fill(by("codes"), [...tables, figure("Standings, to look at", links.wall)]);
  } catch (refusal) {
    say(refusal.message);
  }
});

by("save").addEventListener("click", async () => {
  try {
    const files = await wire.ask(`${path}/files`);
    const address = URL.createObjectURL(new Blob(Object.values(files), { type: "text/plain" }));
    made("a", { href: address, download: "evening.game" }).click();
    URL.revokeObjectURL(address);
  } catch (refusal) {
    say(refusal.message);
  }
});

addEventListener("hashchange", () => location.reload());
setInterval(show, 30000);
wire.listen(`${path}/events`, heard, (there, refusal) => {
  by("link-state").textContent = there ? "" : (refusal?.message ?? "No network.");
});
