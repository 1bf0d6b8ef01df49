// The withdrawals that others tell the store of a group, which are read again and again.

import { atMost, withdrawalsOf } from "./given.js";
import { isOver, momentOf } from "./moments.js";
import { MOST_UNLOOKED } from "./statements.js";

const PAUSE = 1000; // milliseconds
const SECOND = 1000; // milliseconds

// A moment by the clock of a validator, which gives whole seconds.
const momentOfSecond = (time) => momentOf(Number(time) * SECOND);

// Whether it was too long ago.
const isOld = (moment, now) => isOver(MOST_UNLOOKED, moment, now, SECOND);

/** What a validator hears of the withdrawals of a store. */
export class Hearing {
  #store;
  #member;
  #after = ""; // up to where they were read
  #silent; // since when the store does not answer
  #timer; // while nothing is read
  #begun = 0; // how many calls of the store have begun
  #began; // when the last one did
  #looked; // when the last one did that has read all, or failed
  #waiting = new Set(); // requests, and the call that each waits for
  #ending = new AbortController();
  #announce;
  #announced = new Promise((resolve) => (this.#announce = resolve));
  /** Whether they were read to the end once. */
  isThere = false;
  /** What the store threw, as long as it does not answer. */
  why;

  /** @param member has `heard`, `reached` and `now` */
  constructor(store, member) {
    this.#store = store;
    this.#member = member;
  }

  /** Begins to read, and waits until all were read once, but at most so many seconds. */
  async begin(wait) {
    this.#read();
    await atMost(wait, this.#announced);
  }

  /** Whether the store has not answered for longer than so many seconds. */
  isAway(wait) {
    return this.#silent !== undefined && performance.now() - this.#silent > wait * 1000;
  }

  /**
   * Whether a token that comes at this time is to wait until withdrawals are read. They are read once a second, so that the last time is long ago only
   * where the process was stopped, or the machine suspended: tokens may have been withdrawn meanwhile.
   */
  isDue(time) {
    return this.#looked !== undefined && !this.#ending.signal.aborted && isOld(this.#looked, momentOfSecond(time));
  }

  /** Waits until they are read, for at most so many seconds. What the store was asked before the process was stopped does not count. */
  async look(time, most) {
    const now = momentOfSecond(time), one = this.#begun + (isOld(this.#began, now) ? 1 : 0);
    const request = { one }, read = new Promise((resolve) => (request.resolve = resolve));
    this.#waiting.add(request);
    if (this.#timer !== undefined) {
      clearTimeout(this.#timer);
      this.#read();
    }
    await atMost(most, read);
    this.#waiting.delete(request); // (a store may hang for ever)
    if (this.isDue(time)) this.#looked = now; // (who comes next does not wait for a store that hangs)
  }

  /** Reads nothing more. */
  close() {
    this.#ending.abort();
    clearTimeout(this.#timer);
    this.#announce();
    for (const { resolve } of this.#waiting) resolve();
  }

  // Reads what is new, page by page. What a call throws, the next one may not: it begins where this one did.
  async #read() {
    this.#timer = undefined;
    this.#silent ??= performance.now();
    try {
      while (await this.#readPage());
      if (!this.isThere && !this.#ending.signal.aborted) {
        this.isThere = true;
        this.#member.reached();
        this.#announce();
      }
    } catch (why) {
      this.why = why;
    }
    this.#looked = this.#began;
    for (const request of this.#waiting) {
      if (request.one > this.#begun) continue;
      this.#waiting.delete(request);
      request.resolve();
    }
    this.#wait();
  }

  // Reads a page, and says whether there may be another one.
  async #readPage() {
    this.#begun += 1;
    this.#began = momentOfSecond(this.#member.now());
    const { these, last } = withdrawalsOf(await this.#store.withdrawals(this.#after, { signal: this.#ending.signal }));
    if (this.#ending.signal.aborted) return false;
    this.#member.heard(these);
    this.#silent = this.why = undefined;
    const isWhole = last === this.#after;
    this.#after = last;
    return !isWhole;
  }

  // Sets the timer. It keeps neither the process nor a validator that was dropped.
  #wait() {
    if (this.#ending.signal.aborted) return;
    const self = new WeakRef(this);
    this.#timer = setTimeout(() => self.deref()?.#read(), this.#waiting.size ? 0 : PAUSE);
    this.#timer.unref?.();
  }
}
