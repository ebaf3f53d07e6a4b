// The page of a table: its game, the deals that wait on this phone, and the next deal.
import { button, by, fill, made } from "./elements.js";
import { Entry } from "./entry.js";
import { Queue } from "./queue.js";
import { changes, standing } from "./told.js";
import { keepPages, Wire } from "./wire.js";

const [table, secret] = decodeURIComponent(location.hash.slice(1)).split(".");
const wire = new Wire(secret ?? "");
const queue = new Queue(table, wire, show);
const path = `/api/tables/${table}`;
const entry = new Entry(by("taps"), (line) => {
  by("line").value = line;
  look();
});
let withdrawing = null;
let looking = 0;

/** What is wrong with this page as a whole, or how the network is. */
function say(words) {
  by("link-state").textContent = words;
}

function show() {
  const { view } = queue;
  if (!view) {
    return;
  }
  by("title").textContent = `Table ${view.table}, session ${view.session}`;
  const words = { paired: "The session hasn't begun.", closed: "The session is closed." }[view.stage];
  fill(by("stands"), [...standing(view), words ? made("p", { class: "quiet" }, words) : null]);
  fill(by("disputes"), disputes(view), true);
  fill(by("waiting"), waiting(view), true);
  by("entry").hidden = view.stage !== "begun";
  by("hand-in").textContent = `Hand in deal ${queue.next}`;
  entry.show(view.names);
  fill(by("deals"), [...view.deals].reverse().map((deal) => row(view, deal)));
}

function row(view, deal) {
  const last = view.deals.filter((it) => !it.withdrawn).at(-1);
  const isLast = view.stage === "begun" && last?.number === deal.number;
  const asks = withdrawing === deal.number;
  const away = isLast ? button(asks ? "Sure?" : "Withdraw", () => withdraw(deal.number), asks ? { class: "main" } : {}) : null;
  return made(
    "li",
    { class: deal.withdrawn ? "is-withdrawn" : undefined },
    made("span", { class: "number" }, String(deal.number)),
    made("span", { class: "line" }, deal.line),
    away,
    made("span", { class: "under quiet" }, deal.withdrawn ? "withdrawn" : `${changes(deal.text, view.names)} (${deal.who})`),
  );
}

async function withdraw(number) {
  if (withdrawing !== number) {
    withdrawing = number;
    show();
    return;
  }
  withdrawing = null;
  await asked("withdrawals", { session: queue.view.session, number, who: queue.who });
}

async function asked(what, body) {
  try {
    const told = await wire.ask(`${path}/${what}`, body);
    if (told.verdict === "not-last" || told.verdict === "no-deal") {
      say(`Not done: ${told.text}`);
    }
  } catch (refusal) {
    say(refusal.message);
  }
  show();
}

function disputes(view) {
  if (view.disputes.length === 0) {
    return [];
  }
  const settle = (it, take) => () => asked("settled", { session: view.session, dispute: it.dispute, take, who: queue.who });
  const cards = view.disputes.map((it) => {
    const ours = view.deals.find((deal) => deal.number === it.number);
    return made(
      "div",
      { class: "fault" },
      made("p", {}, `Deal ${it.number} was entered differently.`),
      made("p", {}, `Kept: ${ours?.line} (${ours?.who})`),
      made("p", { class: "quiet" }, ours ? changes(ours.text, view.names) : ""),
      made("p", {}, `Not kept: ${it.line} (${it.who})`),
      made("p", { class: "quiet" }, changes(it.text, view.names)),
      made("div", { class: "buttons" }, button("The first is right", settle(it, false)), button("The second is right", settle(it, true))),
    );
  });
  return [made("h2", {}, "Look at this together"), ...cards];
}

function waiting(view) {
  if (queue.waiting.length === 0) {
    return [];
  }
  const rows = queue.waiting.map((deal, place) =>
    made(
      "li",
      {},
      made("span", { class: "number" }, String(deal.number)),
      made("span", { class: "line" }, deal.line),
      place === 0 ? null : made("span", { class: "quiet" }, "waits"),
      place === 0 ? made("div", { class: "under" }, ...held(view, deal)) : null,
    ),
  );
  return [made("h2", {}, "Not handed in yet"), made("ol", { class: "rows" }, ...rows)];
}

/** What hinders the first deal that waits, and what can be done. */
function held(view, deal) {
  const drop = button("Drop it", () => queue.drop());
  const anew = button(`It is deal ${view.next}`, () => queue.renumber());
  const edit = button("Change it", () => {
    by("line").value = deal.line;
    queue.drop();
    look();
  });
  if (deal.state !== "held") {
    return [made("p", { class: "quiet" }, deal.words ?? "It is handed in as soon as the hall answers.")];
  }
  const words = {
    another: "The other phone entered something else for this number: settle that above.",
    early: "A deal before it is missing.",
    gone: "The deal of this number was withdrawn.",
    refused: `The game refuses it: ${deal.text}`,
  }[deal.verdict];
  const ways = { another: [], early: [anew, drop], gone: [anew, drop] }[deal.verdict] ?? [edit, drop];
  return [made("p", { class: "fault" }, words ?? deal.words ?? deal.text), made("div", { class: "buttons" }, ...ways)];
}

/** Shows what the line would change, where the hall can be asked. */
function look() {
  const mine = ++looking;
  fill(by("look"), []);
  setTimeout(async () => {
    const line = by("line").value.trim();
    if (mine !== looking || !line || !queue.view || queue.waiting.length) {
      return;
    }
    const told = await wire.ask(`${path}/looks`, { session: queue.view.session, number: queue.view.next, line }).catch(() => null);
    if (mine !== looking || !told) {
      return;
    }
    const hints = (told.hints ?? []).map((hint) => made("p", { class: "quiet" }, hint));
    const isRefused = told.verdict === "refused";
    fill(by("look"), [made("p", { class: isRefused ? "fault" : "quiet" }, isRefused ? told.text : changes(told.text, queue.view.names)), ...hints]);
  }, 300);
}

function handIn() {
  const line = by("line").value.trim();
  if (!line || !queue.view) {
    return;
  }
  by("line").value = "";
  looking += 1;
  fill(by("look"), []);
  entry.empty();
  queue.add(line);
}

function heard(name, told) {
  if (name === "view") {
    queue.seen(told);
  } else if (name === "changed" && told.session === queue.view?.session) {
    const deals = new Map(queue.view.deals.map((deal) => [deal.number, deal]));
    told.deals.forEach((deal) => deals.set(deal.number, deal));
    queue.seen({ ...told, deals: [...deals.values()].sort((one, other) => one.number - other.number) });
  }
  show();
}

by("line").addEventListener("input", look);
by("line").addEventListener("keydown", (event) => event.key === "Enter" && handIn());
by("hand-in").addEventListener("click", handIn);
addEventListener("online", () => queue.hurry());
addEventListener("hashchange", () => location.reload());
keepPages();
if (!secret) {
  say("The link isn't whole: scan the code of the table again.");
} else {
  show();
  queue.hurry();
  wire.listen(`${path}/events`, heard, (there, refusal) => {
    say(there ? "" : refusal?.name === "network" || !refusal ? "No network: deals wait here." : refusal.message);
    if (there) {
      queue.hurry();
    }
  });
}
