// The page for a projector: standings, how far the tables are, and who sits where next. It can only look.
import { by, fill, made } from "./elements.js";
import { counted, ranking, since, standsAt } from "./told.js";
import { Wire } from "./wire.js";

const wire = new Wire(decodeURIComponent(location.hash.slice(1)));
let hall = null;

function line(number, words, under) {
  return made("li", {}, made("span", { class: "number" }, String(number)), made("span", { class: "line" }, words), null, under ? made("span", { class: "under quiet" }, under) : null);
}

function show() {
  const { stage, begun } = hall.sessions.find((it) => it.session === hall.shown) ?? {};
  const words = { closed: `Standings after session ${hall.shown}`, begun: `Session ${hall.shown}, begun ${since(begun)}` };
  by("title").textContent = words[stage] ?? `Session ${hall.shown}`;
  by("tables-title").textContent = `Tables, session ${hall.shown}`;
  fill(by("tables"), hall.tables.map((row) => line(row.table, row.names.join(", "), `${standsAt(row)}, ${counted(row.deals, "deal")}`)));
  const shows = hall.following !== null && stage !== "begun" && hall.following !== hall.shown;
  by("seats-part").hidden = !shows;
  by("seats-title").textContent = `Seats of session ${hall.following}`;
  fill(by("seats"), hall.seats.map((row) => line(row.table, row.names.join(", "))));
}

function heard(name, told) {
  if (name === "view") {
    hall = told;
    show();
  } else if (name === "tables") {
    const changed = new Map(told.tables.map((row) => [row.table, row]));
    hall.tables = hall.tables.map((row) => changed.get(row.table) ?? row);
    show();
  } else if (name === "standings") {
    fill(by("standings"), ranking(told));
  }
}

/** Where there is more than the screen has, it shows the next part of it, and behind the last one the first. */
function turn() {
  const { scrollHeight, clientHeight } = document.documentElement;
  const isLast = scrollY + clientHeight >= scrollHeight - 1;
  scrollTo({ top: isLast ? 0 : scrollY + 0.9 * clientHeight, behavior: "instant" });
}

setInterval(turn, 12000);
setInterval(() => hall && show(), 30000);
addEventListener("hashchange", () => location.reload());
wire.listen("/api/wall/events", heard, (there, refusal) => {
  by("link-state").textContent = there ? "" : (refusal?.message ?? "No network.");
});
