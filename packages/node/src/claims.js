// Claims on their way to the store of a group, many in a call. The library says when a call goes out.

import { NONE } from "./library.js";
import { atMost, foundOf } from "./given.js";

const MOST = 256; // how many claims share a call

/** The moment of the clock that only goes ahead, in milliseconds. */
export const up = () => BigInt(Math.floor(performance.now()));

/** The claims of a validator. */
export class Claims {
  #pacing;
  #store;
  #member;
  #waiting = [];
  #later = []; // those without an answer, and when they are put again
  #asks = true; // whether the store is to say that it is there
  #silent; // since when it does not answer
  #timer;
  #ending = new AbortController();
  #announce;
  #announced = new Promise((resolve) => (this.#announce = resolve));
  /** Tokens that expire by then may have been claimed before the store lost entries. */
  deaf = 0n;
  /** Whether the store has answered once. */
  isThere = false;
  /** What the store threw, as long as it does not answer. */
  why;

  /** @param member has `send`, `found`, `reached` and `fail` */
  constructor(pacing, store, member) {
    this.#pacing = pacing;
    this.#store = store;
    this.#member = member;
  }

  /** Begins to put claims, and waits until the store answers, but at most so many seconds. */
  async begin(wait) {
    this.#go();
    await atMost(wait, this.#announced);
  }

  /** Puts a claim, and again until the store answers or the claim is not to go out. */
  add(deed) {
    this.#waiting.push(deed);
    this.#go();
  }

  /** Withdraws a token. */
  async withdraw(key, expires) {
    await this.#store.withdraw(key, expires, { signal: this.#ending.signal });
  }

  /** Whether the store has not answered for longer than so many seconds. If so it is asked again. */
  isAway(wait) {
    if (this.#silent === undefined) return false;
    this.#asks = true;
    this.#go();
    return performance.now() - this.#silent > wait * 1000;
  }

  /** Puts nothing more, and gives up the calls that are under way. */
  close() {
    this.#ending.abort();
    this.#announce();
  }

  // Lets all calls go out that may, and sets the timer for the next one.
  #go() {
    if (this.#ending.signal.aborted) return;
    clearTimeout(this.#timer);
    try {
      while (this.#goes());
      this.#wait();
    } catch (why) {
      this.#member.fail(why);
    }
  }

  // Lets a call go out, if one may, and says whether to look for another one.
  #goes() {
    const moment = up();
    for (const { deeds } of this.#later.filter((it) => it.when <= moment)) {
      this.#waiting.push(...deeds);
      this.#asks ||= !this.isThere;
    }
    this.#later = this.#later.filter((it) => it.when > moment);
    if (!this.#pacing.maySend(moment, this.#waiting.length + Number(this.#asks))) return false;
    const due = this.#waiting.splice(0, MOST).map((deed) => ({ deed, claim: this.#member.send(deed) })).filter((it) => it.claim);
    if (!due.length && !this.#asks) return true;
    this.#asks = false;
    this.#pacing.sent(moment);
    this.#silent ??= performance.now();
    this.#put(due.map((it) => it.deed), due.map((it) => it.claim));
    return true;
  }

  async #put(deeds, claims) {
    const put = typeof this.#store.putEach === "function" ? "putEach" : "put";
    let found;
    try {
      // (a store that sorted the list in place would give each answer to another request)
      found = foundOf(await this.#store[put](Object.freeze(claims), { signal: this.#ending.signal }), claims.length);
    } catch (why) {
      return this.#failed(deeds, why);
    }
    this.#answered(deeds, found);
  }

  // The store has answered a call, or some claims of it: the others are put again.
  #answered(deeds, found) {
    if (this.#ending.signal.aborted) return;
    const why = found.find((it) => it instanceof Error), others = deeds.filter((_, n) => found[n] instanceof Error);
    if (why && others.length === deeds.length) return this.#failed(deeds, why);
    try {
      this.#pacing.answered();
      this.why = why;
      if (!why) this.#silent = undefined;
      else this.#later.push({ when: up() + this.#pacing.pause(), deeds: others });
      for (const { deaf } of found) if (deaf > this.deaf) this.deaf = deaf;
      if (!this.isThere) {
        this.isThere = true;
        this.#member.reached();
        this.#announce();
      }
      deeds.forEach(({ number }, n) => found[n] instanceof Error || this.#member.found(number, found[n]));
    } catch (why) {
      this.#member.fail(why);
    }
    this.#go();
  }

  // A call has ended without an answer: its claims are put again.
  #failed(deeds, why) {
    if (this.#ending.signal.aborted) return;
    this.why = why;
    try {
      this.#later.push({ when: up() + this.#pacing.unanswered(), deeds });
    } catch (stopped) {
      this.#member.fail(stopped);
    }
    this.#go();
  }

  // Sets the timer for when there is something to do. It keeps neither the process nor a validator that was dropped.
  #wait() {
    const moments = this.#later.map((it) => it.when);
    if (this.#waiting.length || this.#asks) moments.push(this.#pacing.due());
    const first = moments.reduce((least, it) => (it < least ? it : least), NONE);
    if (first === NONE) return;
    const self = new WeakRef(this);
    this.#timer = setTimeout(() => self.deref()?.#go(), Math.max(Number(first) - performance.now(), 0));
    this.#timer.unref?.();
  }
}
