// A deal by taps: it makes the words of a line, and knows no rule. What can't be is said by the hall.
import { button, fill, made } from "./elements.js";

const KINDS = { ron: "Ron", tsumo: "Self-draw", draw: "Draw", abort: "Abort", chombo: "Dead hand", end: "End" };
const HAN = ["1", "2", "3", "4", "mangan", "haneman", "baiman", "sanbaiman", "yakuman"];
const FU = ["20", "25", "30", "40", "50", "60", "70", "80", "90", "100", "110"];

/** The taps of one deal. `changed` is told each line that they make. */
export class Entry {
  constructor(place, changed) {
    this.place = place;
    this.changed = changed;
    this.names = [];
    this.empty();
  }

  /** Nothing is tapped. */
  empty() {
    this.kind = null;
    this.winners = [];
    this.from = null;
    this.lists = { riichi: [], ready: [] };
    this.values = {};
    this.#draw();
  }

  /** Shows the taps for these players. Where they are there already nothing moves below a finger. */
  show(names) {
    if (names.join() !== this.names.join()) {
      this.names = names;
      this.empty();
    }
  }

  #tapped() {
    this.#draw();
    this.changed(this.#line());
  }

  /** Buttons of which one, or several, are on. */
  #choice(words, options, isOn, tap, id) {
    const buttons = Object.entries(options).map(([value, shown]) =>
      button(shown, () => (tap(value), this.#tapped()), { "aria-pressed": String(isOn(value)), title: shown }),
    );
    return made("fieldset", { class: "choice", id }, made("legend", {}, words), ...buttons);
  }

  #players(words, isOn, tap) {
    return this.#choice(words, Object.fromEntries(this.names.map((name) => [name, name])), isOn, tap);
  }

  #several(words, list) {
    const names = this.lists[list];
    return this.#players(
      words,
      (name) => names.includes(name),
      (name) => (names.includes(name) ? names.splice(names.indexOf(name), 1) : names.push(name)),
    );
  }

  #value(name) {
    const value = (this.values[name] ??= { han: "1", fu: "30" });
    const select = (label, key, options) => {
      const chosen = made("select", { "aria-label": `${name}: ${label}` }, ...options.map((it) => made("option", { value: it, selected: it === value[key] }, it)));
      chosen.addEventListener("change", () => {
        value[key] = chosen.value;
        this.#tapped();
      });
      return chosen;
    };
    const isLimit = !/^\d/.test(value.han);
    return made("div", { class: "choice" }, made("span", {}, name), select("han", "han", HAN), isLimit ? null : made("span", {}, "han"), isLimit ? null : select("fu", "fu", FU), isLimit ? null : made("span", {}, "fu"));
  }

  #draw() {
    const parts = [this.#choice("How", KINDS, (kind) => kind === this.kind, (kind) => this.#turn(kind), "kinds")];
    if (this.kind === "ron" || this.kind === "tsumo") {
      parts.push(this.#players("Who won", (name) => this.winners.includes(name), (name) => this.#win(name)));
      if (this.kind === "ron") {
        parts.push(this.#players("From", (name) => name === this.from, (name) => (this.from = name)));
      }
      parts.push(...this.winners.map((name) => this.#value(name)));
    }
    if (this.kind === "draw") {
      parts.push(this.#several("Ready", "ready"));
    }
    if (this.kind === "chombo") {
      parts.push(this.#players("Whose", (name) => name === this.from, (name) => (this.from = name)));
    }
    if (["ron", "tsumo", "draw", "abort"].includes(this.kind)) {
      parts.push(this.#several("Riichi", "riichi"));
    }
    fill(this.place, parts);
  }

  /** Another way for the deal to end; who draws the winning tile wins alone. */
  #turn(kind) {
    this.kind = kind;
    if (kind === "tsumo") {
      this.winners.splice(1);
    }
  }

  #win(name) {
    if (this.kind === "tsumo") {
      this.winners = [name];
    } else if (this.winners.includes(name)) {
      this.winners.splice(this.winners.indexOf(name), 1);
    } else {
      this.winners.push(name);
    }
  }

  #worth(name) {
    const { han, fu } = this.values[name] ?? { han: "1", fu: "30" };
    return /^\d/.test(han) ? `${name} ${han}.${fu}` : `${name} ${han}`;
  }

  /** The line of what is tapped; empty while something is missing. */
  #line() {
    const named = (word) => (this.lists[word].length ? ` ${word} ${this.lists[word].join(",")}` : "");
    if (this.kind === "ron") {
      const [first, ...others] = this.winners.map((name) => this.#worth(name));
      if (!first || !this.from) {
        return "";
      }
      const [name, value] = first.split(" ");
      return `ron ${name} from ${this.from} ${value}${others.map((it) => ` and ${it}`).join("")}${named("riichi")}`;
    }
    if (this.kind === "tsumo") {
      return this.winners.length ? `tsumo ${this.#worth(this.winners[0])}${named("riichi")}` : "";
    }
    if (this.kind === "draw") {
      return `draw${named("ready")}${named("riichi")}`;
    }
    if (this.kind === "abort") {
      return `abort${named("riichi")}`;
    }
    if (this.kind === "chombo") {
      return this.from ? `chombo ${this.from}` : "";
    }
    return this.kind ?? "";
  }
}
