// Tokens that this validator accepted, and another one too. Whether two uses are of one token, the library's report says.

import { joined } from "./library.js";
import { hexOf } from "./records.js";

const MOST = 65_536; // acceptances that are known at the least
const LONGEST = 4_194_304; // of longer messages nothing is said
const PIECE = 1_048_576;

/** The acceptances of a validator, from the first messages on: one that takes none needs no memory for them. */
export class Twice {
  #library;
  #validatorId;
  #young = null;
  #old = new Map(); // (there are two generations, so that dropping the old ones takes one step)

  constructor(library, validatorId) {
    this.#library = library;
    this.#validatorId = hexOf(validatorId);
  }

  /** Takes note of an acceptance. */
  add({ key, message }) {
    if (this.#young?.size >= MOST) [this.#old, this.#young] = [this.#young, new Map()];
    this.#young?.set(hexOf(key), message);
  }

  /** Takes messages, and gives the keys of the tokens that they show to be accepted twice, each once. */
  take(now, messages) {
    if (!this.#young) this.#begin();
    this.#library.take(now, messages);
    const uses = messages.length > LONGEST ? [] : this.#library.uses(messages);
    return uses.filter((it) => this.#isTwice(it)).map(({ key }) => key);
  }

  // The acceptances that the record has.
  #begin() {
    this.#young = new Map();
    for (const piece of this.#library.parts(PIECE)) {
      const own = this.#library.uses(piece).filter(({ validatorId, withdrawn }) => !withdrawn && hexOf(validatorId) === this.#validatorId);
      for (const it of own) this.add({ key: it.key, message: this.#library.messageOf(it) });
    }
  }

  #isTwice(use) {
    const name = hexOf(use.key), own = this.#young.get(name) ?? this.#old.get(name);
    if (!own || !this.#library.report(joined([own, this.#library.messageOf(use)])).split("\ntwice ")[1].includes(name)) return false;
    this.#young.delete(name);
    this.#old.delete(name);
    return true;
  }
}
