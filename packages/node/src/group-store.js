// What the stores of a group have alike, whatever server keeps them.

import { disposable, hookOf, limit, tell } from "./given.js";
import { Library } from "./library.js";
import { StoreFault } from "./answers.js";
import * as said from "./statements.js";

const MOST_LASTS = 2n ** 52n; // (servers count in numbers of 53 bits, and add a time)
const nameOf = (key) => Buffer.from(key).toString("hex");

/** A member of a group's store. */
export class GroupStore {
  #member;
  #wait;
  #timer;
  #warn;
  #ended = false;
  #why = "";
  #margin;
  #position = "";
  #heard = false; // the withdrawals were read to the end once
  #withdrawn = new Map();

  /** Begins. `make` makes the member, of `servers`, `group` and `replicas`, and of its terms. */
  async begin(make, { servers, group = "svid", longest = 3600, ahead = 30, replicas = 1, wait = 2, onWarning } = {}) {
    if (!(wait > 0 && wait < 2 ** 21)) throw new RangeError("wait is a number of seconds above 0");
    const library = await Library.start(), back = BigInt(said.STEP_BACK / 1000), least = BigInt(said.LEAST_MARGIN / 1000);
    const lasts = library.claimUntil(limit("longest", longest), 2n * limit("ahead", ahead));
    if (lasts >= MOST_LASTS) throw new RangeError("longest is too great for a store: with twice ahead it is below 2^52 seconds");
    const margin = (limit("ahead", ahead) > least ? limit("ahead", ahead) : least) + back;
    if (!Number.isInteger(replicas) || replicas < 1) throw new RangeError("replicas is how many servers must have a claim: at least 1");
    const all = typeof servers === "string" ? [servers] : Array.from(servers ?? []);
    if (!all.length) throw new TypeError("servers is the address of each server: give one");
    this.#member = make({ servers: all, group, replicas }, { lasts, margin, back });
    this.#margin = margin;
    this.#wait = wait * 1000;
    this.#warn = hookOf("onWarning", onWarning) ?? ((text) => process.emitWarning(text, "SvidWarning"));
    this.#watch();
    return this;
  }

  /** Ends all connections, and the calls that are under way. */
  close() {
    this.#ended = true;
    clearTimeout(this.#timer);
    this.#member.close();
  }

  async put(claims) {
    const found = await this.putEach(claims);
    for (const it of found) if (it instanceof StoreFault) throw it;
    return found;
  }

  async putEach(claims) {
    const end = this.#end();
    if (this.#member.epoch === undefined || !this.#heard || !claims.length) {
      if ((await this.#look(end)).wait) throw new StoreFault("run");
      await this.#hear(end);
    }
    const found = await this.#member.put(claims, end);
    return found.map((it, n) => {
      const isWithdrawn = !(it instanceof StoreFault) && this.#withdrawn.has(nameOf(claims[n].key));
      return isWithdrawn ? { ...it, owner: new Uint8Array(it.owner.length) } : it;
    });
  }

  async withdraw(key, expires) {
    await this.#member.withdraw(key, BigInt(expires), this.#end());
    this.#know(key, BigInt(expires));
  }

  async withdrawals(after = "") {
    return this.#member.withdrawals(after, this.#end());
  }

  async state() {
    const { epoch, deaf, time } = await this.#look(this.#end());
    return { epoch, deaf, time };
  }

  #end() {
    return performance.now() + this.#wait;
  }

  // A token is withdrawn. (Whoever withdraws it again, with an earlier expiry, does not take that back.)
  #know(key, expires) {
    const name = nameOf(key), before = this.#withdrawn.get(name) ?? 0n;
    this.#withdrawn.set(name, expires > before ? expires : before);
  }

  /** Looks at the store, and warns where its epoch has ended. */
  async #look(end) {
    const before = this.#member.epoch, is = await this.#member.look(end);
    if (before !== undefined && before !== is.epoch) {
      tell(this.#warn, `the epoch of the group's store has ended: tokens that expire by ${is.deaf} may have been claimed before`);
    }
    return is;
  }

  /** Reads the withdrawals that have come. */
  async #hear(end) {
    for (;;) {
      const after = this.#position, { these, last } = await this.#member.withdrawals(after, end);
      for (const { key, expires } of these) this.#know(key, expires);
      this.#position = last;
      if (last === after) break;
    }
    this.#heard = true;
  }

  /** Looks at the store once a second until it is closed. */
  async #watch() {
    const begun = performance.now();
    const { time, why: unseen } = await this.#look(begun + said.STATE_WAIT).catch((why) => ({ why }));
    // (the server of a Cluster that has the withdrawals may be there though another one is not)
    const unheard = await this.#hear(performance.now() + said.HEAR_WAIT).catch((why) => why), why = unseen ?? unheard;
    if (!unseen) for (const [key, expires] of this.#withdrawn) if (expires + this.#margin < time) this.#withdrawn.delete(key);
    if (why?.reason !== "run") { // (then members compare)
      if (why && !this.#why && !this.#ended) tell(this.#warn, `the group's store can't be looked at: ${why.message}`);
      this.#why = why ? why.message || "unknown" : "";
    }
    if (!this.#ended) this.#timer = setTimeout(() => this.#watch(), Math.max(0, begun + said.STATE_EVERY - performance.now())).unref();
  }
}

disposable(GroupStore);
