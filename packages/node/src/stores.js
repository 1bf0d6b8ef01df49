// The store of a group: it keeps one claim for each token, the first one that is put. What a store does stands in index.d.ts (`Store`).

import { clockOf, expiryOf, limit } from "./given.js";
import { Library } from "./library.js";

const WITHDRAWN = 32; // as many zeros are the owner of a token that was withdrawn

/** A store in the memory of one process, for tests. */
export class MemoryStore {
  #now;
  #margin;
  #lasts;
  #library;
  #entries = new Map();
  #withdrawals = []; // those that are not over, in the order in which they came
  #over = 0; // how many came before these
  #deaf = 0n;

  /** Makes an empty store. */
  constructor({ now, margin = 60, lasts = 3600 } = {}) {
    this.#now = clockOf(now);
    this.#margin = limit("margin", margin);
    this.#lasts = limit("lasts", lasts);
  }

  /** Puts each claim if its key has no owner yet, and says what each key has afterwards. */
  async put(claims) {
    const library = await this.#started(), time = this.#now();
    return claims.map((it) => ({ owner: this.#put(library, it, time), time, deaf: this.#deaf }));
  }

  /** From now on each put of this key finds 32 zeros. */
  async withdraw(key, expires) {
    const library = await this.#started(), earlier = this.#entries.get(nameOf(key))?.until ?? 0n;
    const until = library.claimUntil(expiryOf(expires), this.#margin);
    const entry = { owner: new Uint8Array(WITHDRAWN), until: until > earlier ? until : earlier };
    this.#entries.set(nameOf(key), entry);
    for (const time = this.#now(); this.#withdrawals.length && this.#withdrawals[0].until <= time; this.#over++) this.#withdrawals.shift();
    this.#withdrawals.push({ key: key.slice(), expires: expiryOf(expires), until: entry.until });
  }

  /** The withdrawals that came after a position, and the position up to which these are. The first one is "". */
  async withdrawals(after) {
    const from = Math.max(Number(after) - this.#over, 0);
    return { these: this.#withdrawals.slice(from).map(({ key, expires }) => ({ key, expires })), last: String(this.#over + this.#withdrawals.length) };
  }

  /** Loses all entries, as a server does that crashes. */
  async lose() {
    const library = await this.#started();
    this.#entries.clear();
    this.#deaf = library.claimDeaf(this.#now(), this.#lasts, this.#deaf);
  }

  #put(library, { key, owner, expires }, time) {
    const entry = this.#entries.get(nameOf(key));
    if (entry && entry.until > time) return entry.owner;
    this.#entries.set(nameOf(key), { owner, until: library.claimUntil(expires, this.#margin) });
    return owner;
  }

  async #started() {
    this.#library ??= await Library.start();
    return this.#library;
  }
}

// A key, as a map has it.
const nameOf = (key) => key.join();
