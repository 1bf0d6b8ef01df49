// The store of one validator in mode bound. What it has stands in a state folder, so that a restart forgets nothing.
//
// A folder that is removed, or put back from an older copy, has lost claims, and nothing tells that: wait then for as long as a token may live, before
// the next start.

import { Journal } from "./journal.js";
import { ANY, Library, joined } from "./library.js";
import { LEAST_MARGIN, STEP_BACK } from "./statements.js";

// These keys stand for what the store says of itself. No token has one of them, as they are no digest that anybody knows a text of: the use of the one
// tells a time that the clock had, and that of the other one expires when the store's deafness ends.
const TIME_KEY = new Uint8Array(32), DEAF_KEY = new Uint8Array(32).fill(1, 31);
const HALF = 16; // bytes of an owner that one use has
const WITHDRAWN = new Uint8Array(2 * HALF);
const MANY = 1000; // uses that one piece of a snapshot has

const bounded = (it) => (it > ANY ? ANY : it);
const later = (one, other) => (one > other ? one : other);
const nameOf = (key) => Buffer.from(key).toString("latin1");

/** Claims in a folder. An entry is two uses there: each has a half of the owner as its validator ID, and that of the second half is a withdrawal. */
export class LocalStore {
  #journal;
  #library;
  #now;
  #lasts;
  #margin;
  #back = BigInt(STEP_BACK / 1000);
  #entries = new Map(); // by their keys: the owner, when the entry was put, when it is over, and whether the disk has it
  #turn = this.#entries.entries(); // those that are looked at next, whether they are over
  #latest = 0n; // the greatest time that the clock had
  #deaf = 0n;

  /** Opens the folder. Makes it where its parent is there. Throws what Journal.open does. */
  static async open(folder, { longest, ahead, clock }, options) {
    const store = new LocalStore();
    store.#now = clock;
    store.#library = await Library.start();
    store.#lasts = bounded(longest + 2n * ahead);
    store.#margin = bounded(later(ahead, BigInt(LEAST_MARGIN / 1000)) + store.#back);
    store.#journal = await Journal.open(folder, options);
    try {
      await store.#journal.begin((messages) => store.#take(messages), () => store.#parts());
    } catch (why) {
      await store.close();
      throw why;
    }
    return store;
  }

  /** How many entries it has. */
  get size() {
    return this.#entries.size;
  }

  /** Lets go of the folder. */
  async close() {
    await this.#journal.close();
  }

  /** Puts each claim if its key has no owner yet, and says what each key has afterwards, once the disk has it. */
  async put(claims) {
    const { time, told } = this.#time(), entries = claims.map((it) => this.#entryOf(it, time));
    const lacking = [...new Set(entries)].filter((it) => !it.isKept), uses = [...told, ...lacking.flatMap((it) => this.#usesOf(it))], deaf = this.#deaf;
    if (uses.length) await this.#journal.keep(this.#messages(uses));
    for (const it of lacking) it.isKept = true;
    return entries.map(({ owner }) => ({ owner, time, deaf }));
  }

  /** From now on each put of this key finds 32 zeros. (Whoever claimed it before is refused by the record of the one validator.) */
  async withdraw(key, expires) {
    await this.put([{ key, owner: WITHDRAWN, expires }]);
  }

  // The store's time, and the uses that the disk is to have by then. A clock that goes back by more than the terms allow ends the epoch: what was dropped
  // meanwhile may be live.
  #time() {
    const time = this.#now(), told = [];
    if (time + this.#back < this.#latest) {
      this.#deaf = this.#library.claimDeaf(this.#latest, this.#lasts, this.#deaf);
      this.#latest = time;
      told.push(this.#useOf(DEAF_KEY, time, this.#deaf));
    }
    this.#latest = later(this.#latest, time);
    return { time, told };
  }

  // What stands under the key of a claim. An entry that is over leaves it to the next one.
  #entryOf({ key, owner, expires }, time) {
    const until = this.#library.claimUntil(expires, this.#margin);
    this.#drop(time);
    // (no message can tell a use that is over: nobody accepts the token, so nothing need stay)
    if (until <= time) return { owner, isKept: true };
    return this.#add({ key, owner, at: time, until, isKept: false });
  }

  // The entry of a key: the one that is there, or this one.
  #add(entry) {
    const name = nameOf(entry.key), is = this.#entries.get(name);
    if (is && is.until > entry.at) return is;
    this.#entries.set(name, entry);
    return entry;
  }

  // Drops entries that are over. For each one that comes it looks at two, in turns.
  #drop(time) {
    for (let n = 0; n < 2; n++) {
      const { done, value } = this.#turn.next();
      if (done) this.#turn = this.#entries.entries();
      else if (value[1].until <= time) this.#entries.delete(value[0]);
    }
  }

  // Takes messages of the folder.
  #take(messages) {
    for (const { key, at, expires, validatorId, withdrawn } of this.#library.uses(messages)) {
      this.#latest = later(this.#latest, at);
      if (nameOf(key) === nameOf(DEAF_KEY)) this.#deaf = later(this.#deaf, expires);
      else if (nameOf(key) !== nameOf(TIME_KEY)) {
        const { owner } = this.#add({ key, owner: new Uint8Array(2 * HALF), at, until: expires, isKept: true });
        owner.set(validatorId, withdrawn ? HALF : 0);
      }
    }
  }

  // -- Uses

  #useOf(key, at, expires, validatorId = new Uint8Array(HALF), withdrawn = false) {
    return { key, at, expires, validatorId, withdrawn };
  }

  #usesOf({ key, owner, at, until }) {
    return [false, true].map((it) => this.#useOf(key, at, until, owner.subarray(it ? HALF : 0, it ? 2 * HALF : HALF), it));
  }

  #messages(uses) {
    return joined(uses.map((it) => this.#library.messageOf(it)));
  }

  // All that the folder is to have, in pieces. The time comes last, since no entry that was dropped may be missed by a clock that went back before it.
  *#parts() {
    let uses = [];
    for (const it of this.#entries.values()) {
      if (uses.push(...this.#usesOf(it)) < MANY) continue;
      yield this.#messages(uses);
      uses = [];
    }
    // (this use lasts for as long as an entry may live that was dropped by then)
    uses.push(this.#useOf(TIME_KEY, this.#latest, this.#library.claimUntil(this.#library.claimUntil(this.#latest, this.#lasts), bounded(this.#margin + 1n))));
    if (this.#deaf > this.#latest) uses.push(this.#useOf(DEAF_KEY, this.#latest, this.#deaf));
    yield this.#messages(uses);
  }
}
