// Deals that this phone has entered and the hall hasn't answered: kept in this browser, and handed in one after the other.

/** How far the first one of those that wait is. */
export const STATE = { WAITS: "waits", HELD: "held" };

/** The deals of one table that wait. */
export class Queue {
  constructor(table, wire, changed) {
    // (of this hall alone: another evening at the same address has other secrets)
    this.key = `hall.${table}.${wire.secret.slice(-4)}`;
    this.wire = wire;
    this.changed = changed;
    this.path = `/api/tables/${table}`;
    this.pause = 1000;
    const kept = JSON.parse(localStorage.getItem(this.key) ?? "null");
    this.who = kept?.who ?? `phone ${Array.from(crypto.getRandomValues(new Uint8Array(2)), (byte) => byte.toString(16).padStart(2, "0")).join("")}`;
    this.waiting = kept?.waiting ?? [];
    this.view = kept?.view ?? null;
    this.isAsking = false;
    this.keep();
  }

  /** Writes what waits, and what was last seen of the game, into this browser. */
  keep() {
    localStorage.setItem(this.key, JSON.stringify({ who: this.who, waiting: this.waiting, view: this.view }));
  }

  /** The number that the next deal of this phone will have. */
  get next() {
    const last = this.waiting.at(-1);
    return last ? last.number + 1 : (this.view?.next ?? 1);
  }

  /** A deal more. */
  add(line) {
    this.waiting.push({ session: this.view.session, number: this.next, line, state: STATE.WAITS });
    this.#changed();
    this.hurry();
  }

  /** The first one is taken out; those behind it keep their order, and have numbers from the next one on if they are to move up. */
  drop() {
    this.waiting.shift();
    this.renumber();
  }

  /** Those that wait have the numbers from the next one of the book on. */
  renumber() {
    this.waiting.forEach((deal, place) => {
      deal.number = (this.view?.next ?? 1) + place;
      deal.state = STATE.WAITS;
    });
    this.#changed();
    this.hurry();
  }

  #changed() {
    this.keep();
    this.changed();
  }

  /** Hands in now, as far as it goes. */
  hurry() {
    clearTimeout(this.timer);
    this.timer = setTimeout(() => this.#handIn(), 0);
  }

  /** What the hall shows of the game now. A deal that was held for another one to come is tried again. */
  seen(view) {
    this.view = view;
    this.keep();
    const first = this.waiting[0];
    if (first?.verdict === "another") {
      this.#settled(first);
    } else if (first?.verdict === "early") {
      first.state = STATE.WAITS;
    }
    this.hurry();
  }

  /** A deal in dispute is done with as soon as the dispute is: those behind it move up where it was taken in the place of the other.
   * Where neither stands there any more, whoever entered it says what becomes of it. */
  #settled(first) {
    if (this.view.session !== first.session || this.view.disputes.some((it) => it.dispute === first.dispute)) {
      return;
    }
    const isGone = this.view.deals.find((deal) => deal.number === first.number)?.withdrawn;
    const isThere = this.view.deals.some((deal) => deal.number > first.number && deal.line === first.line);
    if (isGone && !isThere) {
      first.verdict = "gone";
    } else {
      this.waiting.shift();
    }
    if (isGone && isThere) {
      this.renumber();
    }
    this.#changed();
  }

  async #handIn() {
    const first = this.waiting[0];
    if (this.isAsking || !first || first.state === STATE.HELD) {
      return;
    }
    this.isAsking = true;
    try {
      const { session, number, line } = first;
      this.#told(first, await this.wire.ask(`${this.path}/deals`, { session, number, line, who: this.who }));
      this.pause = 1000;
      this.hurry();
    } catch (refusal) {
      this.#refused(first, refusal);
    } finally {
      this.isAsking = false;
      this.#changed();
    }
  }

  #told(first, told) {
    first.verdict = told.verdict;
    if (told.verdict === "taken" || told.verdict === "again") {
      this.waiting.shift();
      if (this.view.session === first.session) {
        this.view.next = Math.max(this.view.next, told.next);
      }
      return;
    }
    Object.assign(first, { state: STATE.HELD, text: told.text, dispute: told.dispute, theirs: told.line, words: undefined });
  }

  #refused(first, refusal) {
    if (refusal.mayPass) {
      first.words = refusal.message;
      this.timer = setTimeout(() => this.#handIn(), this.pause);
      this.pause = Math.min(2 * this.pause, 8000);
      return;
    }
    Object.assign(first, { state: STATE.HELD, verdict: refusal.name, words: refusal.message });
  }
}
