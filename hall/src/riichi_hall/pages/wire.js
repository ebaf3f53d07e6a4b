// What a page asks of the hall. The secret of the link goes into a header, and nowhere else.

const SECONDS = 8;

/** Why nothing came of it: `name` is that of the refusal, or `network`. */
export class Refusal extends Error {
  constructor(name, words) {
    super(words);
    this.name = name;
  }

  /** Whether it may go well later as it is. */
  get mayPass() {
    return ["network", "too-often", "too-many", "not-kept", "fault", "too-slow", "broken-off"].includes(this.name);
  }
}

/** The hall, asked with a secret. */
export class Wire {
  constructor(secret) {
    this.secret = secret;
  }

  async #fetched(path, options) {
    try {
      const headers = { "hall-secret": this.secret };
      return await fetch(path, { ...options, headers, cache: "no-store", credentials: "omit", referrerPolicy: "no-referrer", redirect: "error" });
    } catch {
      throw new Refusal("network", "The hall can't be reached.");
    }
  }

  /** What is answered: an object. Without a body it is only looked. */
  async ask(path, body) {
    const signal = AbortSignal.timeout ? AbortSignal.timeout(SECONDS * 1000) : undefined;
    const options = body === undefined ? { signal } : { signal, method: "POST", body: JSON.stringify(body) };
    const answer = await this.#fetched(path, options);
    let told;
    try {
      told = await answer.json();
    } catch {
      throw new Refusal("network", "The hall's answer didn't come whole.");
    }
    if (told.refused) {
      throw new Refusal(told.refused, told.words);
    }
    return told;
  }

  /** Listens for ever: `heard(name, members)` for each event, `is(there)` where the network comes or goes. */
  async listen(path, heard, is) {
    for (;;) {
      const refused = await this.#heard(path, heard, is).catch((fault) => fault);
      is(false, refused instanceof Refusal ? refused : undefined);
      await new Promise((done) => setTimeout(done, 1000));
    }
  }

  async #heard(path, heard, is) {
    const giveUp = new AbortController();
    const answer = await this.#fetched(path, { signal: giveUp.signal });
    if (!answer.ok) {
      const told = await answer.json().catch(() => ({ refused: "network", words: "" }));
      throw new Refusal(told.refused, told.words);
    }
    is(true);
    const reader = answer.body.pipeThrough(new TextDecoderStream()).getReader();
    let kept = "";
    for (;;) {
      // (a hall without news says every ten seconds that it is there)
      const silent = setTimeout(() => giveUp.abort(), 25000);
      const { value, done } = await reader.read().finally(() => clearTimeout(silent));
      if (done) {
        return;
      }
      const events = (kept + value).split("\n\n");
      kept = events.pop();
      for (const event of events) {
        const name = /^event: (.*)$/m.exec(event);
        const data = /^data: (.*)$/m.exec(event);
        if (name && data) {
          heard(name[1], JSON.parse(data[1]));
        }
      }
    }
  }
}

/** Keeps the pages for a time without network, where the browser lets them be kept. */
export function keepPages() {
  if ("serviceWorker" in navigator && isSecureContext) {
    navigator.serviceWorker.register("/files/worker.js", { scope: "/" }).catch(() => {});
  }
}
