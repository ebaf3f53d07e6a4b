// One game on the director's page: its deals, corrections, penalties, and what is in dispute.
import { button, fill, made } from "./elements.js";
import { changes, standing } from "./told.js";

/** The part of the page that shows a game. */
export class GamePart {
  constructor(place, wire, say) {
    this.place = place;
    this.wire = wire;
    this.say = say;
    this.view = null;
    this.editing = null;
    this.line = made("input", { type: "text", class: "wide", autocomplete: "off", autocapitalize: "off", spellcheck: "false", "aria-label": "a line" });
    this.hall = null;
  }

  /** Opens a game of a session. */
  async open(session, table) {
    try {
      this.view = await this.wire.ask(`/api/director/games/${session}/${table}`);
      this.editing = null;
      this.#show();
      this.place.scrollIntoView({ block: "start" });
    } catch (refusal) {
      this.say(refusal.message);
    }
  }

  /** Which sessions there are. */
  showChoice(hall) {
    this.hall = hall;
  }

  /** Some tables have changed: that of the game is read again. */
  changed(tables) {
    if (this.view && tables.get(this.view.table)?.session === this.view.session) {
      this.#again();
    }
  }

  async #again() {
    const { session, table } = this.view;
    this.view = await this.wire.ask(`/api/director/games/${session}/${table}`).catch(() => this.view);
    this.#show();
  }

  async #ask(what, body) {
    this.say("");
    const { session, table } = this.view;
    try {
      const told = await this.wire.ask(`/api/director/${what}`, { session, table, ...body });
      if (["refused", "not-last", "another", "gone", "no-deal", "early"].includes(told.verdict)) {
        this.say(`Not done: ${told.text}`);
      } else {
        this.line.value = "";
        this.editing = null;
      }
    } catch (refusal) {
      this.say(refusal.message);
    }
    await this.#again();
  }

  #row(deal) {
    const edit = () => {
      this.editing = deal.number;
      this.line.value = deal.line;
      this.#show();
      this.line.focus();
    };
    return made(
      "li",
      { class: deal.withdrawn ? "is-withdrawn" : undefined },
      made("span", { class: "number" }, String(deal.number)),
      made("span", { class: "line" }, deal.line),
      deal.withdrawn ? null : button("Correct", edit),
      made("span", { class: "under quiet" }, deal.withdrawn ? "withdrawn" : `${changes(deal.text, this.view.names)} (${deal.who})`),
    );
  }

  #dispute(it) {
    const ours = this.view.deals.find((deal) => deal.number === it.number);
    return made(
      "div",
      { class: "fault" },
      made("p", {}, `Deal ${it.number}: kept is ${ours?.line} (${ours?.who}); not kept is ${it.line} (${it.who}).`),
      made(
        "div",
        { class: "buttons" },
        button("The first is right", () => this.#ask("settled", { dispute: it.dispute, take: false })),
        button("The second is right", () => this.#ask("settled", { dispute: it.dispute, take: true })),
      ),
    );
  }

  /** The ways to write: a new line, or a deal put right. */
  #ways() {
    const line = () => this.line.value.trim();
    if (this.editing === null) {
      const start = (words) => () => {
        this.line.value = words;
        this.line.focus();
      };
      const stands = this.view.ending[0];
      return [
        button("Hand in the line", () => this.#ask("deals", { number: null, line: line() }), { class: "main" }),
        ...this.view.names.map((name) => button(`Penalty ${name}`, start(`penalty ${name} `))),
        stands.startsWith("stands") ? button("Write the state", start(stands)) : null,
        stands.startsWith("stands") ? button("The game ends", start("end")) : null,
      ];
    }
    const number = this.editing;
    const leave = () => {
      this.editing = null;
      this.line.value = "";
      this.#show();
    };
    return [
      button(`Deal ${number} was this`, () => this.#ask("corrections", { number, line: line() }), { class: "main" }),
      button(`Deal ${number} was none`, () => this.#ask("corrections", { number, line: null })),
      button("Leave it", leave),
    ];
  }

  #sessions() {
    return (this.hall?.sessions ?? []).map((it) =>
      button(`Session ${it.session}`, () => this.open(it.session, this.view.table), { "aria-pressed": String(it.session === this.view.session) }),
    );
  }

  #show() {
    const { view } = this;
    const isTyping = document.activeElement === this.line;
    this.place.hidden = false;
    fill(this.place, [
      made("h2", {}, `Table ${view.table}, session ${view.session}`),
      made("div", { class: "buttons" }, ...this.#sessions()),
      ...standing(view),
      ...view.disputes.map((it) => this.#dispute(it)),
      this.line,
      made("div", { class: "buttons" }, ...this.#ways().filter((it) => it !== null)),
      made("ol", { class: "rows" }, ...[...view.deals].reverse().map((deal) => this.#row(deal))),
    ]);
    if (isTyping) {
      this.line.focus({ preventScroll: true });
    }
  }
}
