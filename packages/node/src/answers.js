// What the members of all stores have alike: their answers, and how long they wait. Each call ends at a moment that its caller says, by the clock of
// `performance`.

import { FAULTS } from "./scripts.js";
import * as said from "./statements.js";

/** Bytes of an entry in an answer. */
export const CELL = 33;
const ONE = 40; // bytes of a withdrawal
const LONGEST_ERROR = 1024;

/** Why a store has no answer. Nobody knows what it has. */
export class StoreFault extends Error {
  constructor(reason, more = "", options) {
    super((said.FAULTS[reason] ?? FAULTS[reason] ?? "") + more, options);
    this.name = "StoreFault";
    this.reason = reason;
  }
}

export const now = () => performance.now();
export const brief = (text) => (text.length <= LONGEST_ERROR ? text : `${text.slice(0, LONGEST_ERROR)}.. (${text.length} characters)`);
export const bytesOf = (it) => Buffer.from(it.buffer, it.byteOffset, it.byteLength);

/** What a promise has until a moment; then a StoreFault, and `undo` is called. */
export async function until(end, promise, undo = () => {}) {
  let timer, last;
  const late = new Promise((_, reject) => {
    const give = () => {
      reject(new StoreFault("silent"));
      undo();
    };
    // (a process that had no processor reads first what came meanwhile)
    timer = setTimeout(() => (last = setImmediate(give)), Math.max(0, end - now()));
  });
  promise.catch(() => {}); // (it may fail later)
  try {
    return await Promise.race([promise, late]);
  } finally {
    clearTimeout(timer);
    clearImmediate(last);
  }
}

/** What several calls wait for together. It has the time of the call that began it: when that is over, a call that has more begins it again. */
export class Shared {
  #is; // what is under way

  /** @param lastOf until when it would go on if this call began it now @param begin begins it, until a moment */
  async within(end, lastOf, begin) {
    for (;;) {
      const last = lastOf(), one = (this.#is ??= { begun: now(), last, found: begin(last).finally(() => (this.#is = undefined)) });
      try {
        return await until(end, one.found);
      } catch (why) {
        const hadTime = now() - one.begun < (one.last - one.begun) / 2; // (a timer may go off early)
        if (last <= one.last || hadTime || now() >= end) throw why;
      }
    }
  }
}

/** Lets so many go on at once. */
export class Gate {
  #free;
  #waiting = new Set();

  constructor(free) {
    this.#free = free;
  }

  async within(end, act) {
    if (this.#free > 0) this.#free--;
    else {
      let go;
      const turn = new Promise((resolve) => this.#waiting.add((go = resolve)));
      await until(end, turn, () => this.#waiting.delete(go)); // (whose turn has come goes on before any timer)
    }
    try {
      return await act();
    } finally {
      this.#next();
    }
  }

  #next() {
    const [go] = this.#waiting;
    this.#waiting.delete(go);
    if (go) go();
    else this.#free++;
  }
}

/** What is answered to one of the claims. */
export function foundOf({ time, deaf, cells }, claim, n) {
  if (!cells.length) return { owner: claim.owner, time, deaf }; // (each is there by this call)
  const cell = cells.subarray(n * CELL, (n + 1) * CELL);
  return cell[0] === 1 || cell[0] === said.STORED ? { owner: new Uint8Array(cell.subarray(1)), time, deaf } : new StoreFault(said.OF_CELL[cell[0]] ?? "answer");
}

/** Reads withdrawals, as a store tells them. */
export function withdrawalsOf(bytes) {
  if (bytes.length % ONE) throw new StoreFault("answer");
  return Array.from({ length: bytes.length / ONE }, (_, n) => {
    const one = bytes.subarray(n * ONE, (n + 1) * ONE);
    return { key: new Uint8Array(one.subarray(0, 32)), expires: one.readBigUInt64BE(32) };
  });
}
