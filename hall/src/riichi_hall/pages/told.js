// What the game answers, taken apart to be shown. Nothing is reckoned here.
import { made } from "./elements.js";

const SEATS = { east: "East", south: "South", west: "West", north: "North" };

/** So many of a thing, in words. */
export function counted(number, thing) {
  return `${number} ${thing}${String(number) === "1" ? "" : "s"}`;
}

/** How long ago that was, in seconds since 1970, in words. */
export function since(then) {
  const minutes = Math.floor((Date.now() / 1000 - then) / 60);
  return minutes < 1 ? "just now" : `${minutes} min ago`;
}

/** The four numbers behind a word of an answer, or null. */
function four(text, word) {
  const words = text.split(" ");
  const place = words.indexOf(word);
  return place < 0 ? null : words.slice(place + 1, place + 5);
}

/** What a deal changes for each of the four, in words; of another answer its text. */
export function changes(text, names) {
  const numbers = four(text, "changes");
  if (!numbers) {
    return text;
  }
  const moved = names.map((name, place) => `${name} ${numbers[place]}`).filter((_, place) => numbers[place] !== "0");
  return moved.length ? moved.join(", ") : "no points change";
}

/** The four players with their points, and above them where the game is. */
export function standing(view) {
  if (view.ending[0] === "over") {
    const finals = view.ending.filter((line) => line.startsWith("final ")).map((line) => line.split(" "));
    const cells = finals.map((words) =>
      made("div", {}, made("div", { class: "name" }, `${words[1]}. ${words[2]}`), made("div", { class: "points" }, words.at(-1))),
    );
    return [made("h2", {}, "The game is over"), made("div", { class: "players" }, ...cells)];
  }
  const [, round, dealer, , counters, , sticks] = view.ending[0].split(" ");
  const points = four(view.ending[0], "points") ?? [];
  const cells = view.names.map((name, place) =>
    made(
      "div",
      { class: String(place + 1) === dealer ? "is-dealer" : undefined },
      made("div", { class: "name", title: name }, name),
      made("div", { class: "points" }, points[place]),
      made("div", { class: "quiet" }, String(place + 1) === dealer ? "deals" : " "),
    ),
  );
  const title = `${SEATS[round]} ${dealer}`;
  const lie = `${counted(counters, "counter")}, ${counted(sticks, "stick")}`;
  return [made("div", { class: "where" }, made("h2", {}, title), made("p", { class: "quiet" }, lie)), made("div", { class: "players" }, ...cells)];
}

/** Points in thousands, as the program prints them. */
export function thousands(points) {
  if (points === null) {
    return "";
  }
  const tenths = Math.trunc(Math.abs(points) / 100);
  const sign = points > 0 ? "+" : points < 0 ? "-" : "";
  return `${sign}${Math.trunc(tenths / 10)}.${tenths % 10}`;
}

/** The standings as a table. */
export function ranking(standings) {
  if (standings.fault) {
    return [made("p", { class: "fault" }, standings.fault)];
  }
  if (standings.players.length === 0) {
    return [made("p", { class: "quiet" }, "No game has begun.")];
  }
  const count = Math.max(...standings.players.map((player) => player.sessions.length));
  const head = ["place", "name", "total", ...Array.from({ length: count }, (_, at) => String(at + 1))];
  const rows = standings.players.map((player) => {
    const cells = [player.place, player.name, thousands(player.total), ...player.sessions.map(thousands)];
    return made("tr", {}, ...cells.map((cell) => made("td", {}, String(cell))));
  });
  const table = made("table", {}, made("thead", {}, made("tr", {}, ...head.map((word) => made("th", {}, word)))), made("tbody", {}, ...rows));
  const words = standings.provisional ? "If all games that go on ended now:" : "All games that were played:";
  return [made("p", { class: "quiet" }, words), made("div", { class: "scrolls" }, table)];
}

/** How a table stands, in few words. */
export function standsAt(row) {
  if (row.over) {
    return "over";
  }
  const [, round, dealer, , counters] = row.ending[0].split(" ");
  return `${SEATS[round]} ${dealer}${counters === "0" ? "" : `, ${counted(counters, "counter")}`}`;
}
