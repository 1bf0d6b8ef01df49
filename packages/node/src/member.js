// The member of a validator: which request is answered, and what has to be done before.
//
// The library decides (include/svid.h, "A member"). Here stand a map from the numbers of requests to whom they are for, one timer for what is due,
// and what the library says is to be done.

import { Claims, up } from "./claims.js";
import { CLAIM_FAR, LATE, NOT_KEPT, Closed, Gone, Jump, NotAllowed, Refusal, SvidError, Unavailable, isUnavailable, wordsOf } from "./errors.js";
import { tell } from "./given.js";
import { Hearing } from "./hearing.js";
import { ANSWER, ANY, APPEND, AT_DISK, AT_LOG, AT_STORE, CLAIM, JUDGE, NONE, NOTHING, NO_BUNDLE, OK } from "./library.js";
import { Twice } from "./twice.js";

const NO_SIGNATURE = "BadSignature", NO_DOMAIN = "UnknownDomain";
const NOBODY = new Uint8Array(32);
const LONGEST_TIMER = 2 ** 31 - 1;
const LOOKS = 0.75; // for which part of its time a request waits until withdrawals are read
const MAY_LACK_IT = "the token is withdrawn here, but the state folder or the group's store may not have that: withdraw it again";

// Those in which somebody waits: a timer alone does not keep them.
const waiting = new Set();

// A request for a token that was read. (All that it will have is here: it takes time to add to an object.)
const requestOf = (token, clock, caller) => ({
  token, clock, caller, number: undefined, edition: -1, shown: undefined, unverifiable: undefined, subject: undefined, isWriting: false, why: undefined,
});

const least = (one, other) => (one < other ? one : other);

/** A validator that answers requests. */
export class Member {
  #library;
  #verifier;
  #callers;
  #longest;
  #life;
  #wait;
  #isBound;
  #lateAs; // the status whose word a client hears where its time is over
  #own;
  #clock;
  #sources;
  #isBundled;
  #journal;
  #retry; // keeps the last use once more that the disk did not take
  #claims;
  #hearing;
  #twice; // in mode once
  #onTwice;
  #editions = 0; // how often the bundles were replaced
  #open = new Map(); // the requests that have no answer yet, by their numbers
  #withdrawals = new Map(); // those that are on their way to the store
  #timer;

  /**
   * `terms` has `mode`, `wait` (in seconds), `callers`, `store`, `own`, `longest`, `ahead`, `life`, `clock`,
   * `validatorId`, `onTwice`, and a `journal` and `sources` of bundles, if there are any.
   */
  constructor(library, verifier, { mode, wait, callers, store, own, longest, ahead, life, clock, sources, validatorId, onTwice, journal }) {
    this.#library = library;
    this.#verifier = verifier;
    this.#callers = callers;
    this.#longest = longest;
    this.#life = life;
    this.#wait = wait;
    this.#isBound = mode === "bound";
    this.#lateAs = this.#isBound || mode === "strict" ? CLAIM_FAR : journal ? NOT_KEPT : LATE;
    this.#own = own;
    if (mode === "once") this.#twice = new Twice(library, validatorId);
    this.#onTwice = onTwice;
    this.#clock = clock;
    this.#sources = sources;
    this.#isBundled = sources === undefined;
    this.#journal = journal;
    const within = least(BigInt(Math.floor(Math.min(wait * 1000, 2 ** 63))), ANY), lasts = least(longest + 2n * ahead, ANY);
    library.openMember({ mode, hasDisk: journal !== undefined, hasStore: store !== undefined, wait: within, ahead, lasts, life });
    if (callers) library.rules(own, callers);
    if (store) this.#claims = new Claims(library.pacing(), store, this);
    // (in mode strict the claim of a token tells that it was withdrawn)
    if (typeof store?.withdrawals === "function" && mode !== "strict") this.#hearing = new Hearing(store, this);
  }

  /** Tokens are judged from now on, or once there are bundles, and the store is there. Waits for these, but at most as long as a request does. */
  async begin() {
    this.#know();
    await Promise.all([
      this.#sources?.begin((bundles) => this.renew(bundles), this.#wait), this.#claims?.begin(this.#wait), this.#hearing?.begin(this.#wait),
    ]);
  }

  /** Frees all. Whoever waits for an answer gets Closed. */
  close() {
    this.#sources?.close();
    this.#claims?.close();
    this.#hearing?.close();
    this.#library.close();
    this.fail(new Closed());
    clearTimeout(this.#timer);
  }

  /** Answers a token. `clock` gives the time of each call, and `caller` are 32 bytes. Throws Refusal, NotAllowed, Unavailable and Unverifiable. */
  async check(text, clock, caller = NOBODY) {
    const request = requestOf(this.#library.read(clock(), text), clock, caller);
    const answered = new Promise((resolve, reject) => Object.assign(request, { resolve, reject }));
    try {
      try {
        this.#come(request);
      } catch (why) {
        answered.catch(() => {}); // (the request did not come: nobody hears how it ends)
        throw why;
      }
      return await answered;
    } finally {
      this.#leave(request);
    }
  }

  /** Says what a check would, and adds nothing. */
  async judge(text, clock) {
    const request = requestOf(this.#library.read(clock(), text), clock);
    try {
      await this.#look();
      while (request.edition !== this.#editions) await this.#find(request);
      const accepted = this.#library.judge(clock(), request.token, this.#own, request.shown);
      if (this.#callers && !this.#callers.some((it) => this.#library.allows(it, accepted.spiffeId))) throw new NotAllowed();
      return accepted;
    } catch (why) {
      throw why instanceof Refusal ? this.#refusal(why, request) : why;
    } finally {
      this.#library.closeToken(request.token);
    }
  }

  /** Withdraws a token, here and in the store. Throws Gone, and Unavailable if the store may lack it. */
  async withdraw(now, key, expires) {
    const use = this.#library.withdraw(now, key, expires), number = this.#library.withdrawalComes(up());
    const ended = new Promise((resolve, reject) => this.#withdrawals.set(number, { resolve, reject }));
    this.#watch();
    this.#told(number, AT_LOG, true);
    if (!this.#journal) this.#told(number, AT_DISK, true);
    this.#journal?.keep(use.message).then(() => this.#told(number, AT_DISK, true), (why) => this.#told(number, AT_DISK, false, why));
    if (!this.#claims) this.#told(number, AT_STORE, true);
    this.#claims?.withdraw(key, expires).then(() => this.#told(number, AT_STORE, true), (why) => this.#told(number, AT_STORE, false, why));
    const { mayLack, cause } = await ended;
    if (mayLack) throw new Unavailable(MAY_LACK_IT, cause);
    return use;
  }

  /** Takes messages of other validators, and tells of the tokens that they accepted too. */
  take(now, messages) {
    if (!this.#twice) return this.#library.take(now, messages);
    for (const key of this.#twice.take(now, messages)) tell(this.#onTwice, key);
  }

  /** Replaces the bundles. Throws BadBundles, and then the old ones stay. */
  renew(bundles) {
    this.#library.renew(bundles);
    this.#editions += 1;
    this.#verifier.forget();
    if (!this.#sources) return;
    this.#isBundled = bundles.length > 0;
    this.#know();
  }

  /** The first reason why no tokens are to be sent here, as a sentence, or null. */
  unready(now) {
    try {
      this.#library.tick(now);
      this.#know(now);
    } catch (why) {
      if (!(why instanceof Jump)) throw why;
      this.#know(now, true);
    }
    this.#retry?.();
    const status = this.#library.ready();
    if (status !== OK && !isUnavailable(status)) throw this.#library.fault(status);
    return status === OK ? null : wordsOf(status);
  }

  /** The store has told withdrawals. Throws where they can't be taken now. */
  heard(these) {
    for (const { key, expires } of these) {
      try {
        this.#library.withdraw(this.#clock(), key, expires);
      } catch (why) {
        if (!(why instanceof Gone)) throw why; // (a token that has expired is refused as that)
      }
    }
  }

  /** The time, in seconds since 1970. */
  now() {
    return this.#clock();
  }

  // -- For the claims

  /** The claim of a request, if it is to go out now, or else null. */
  send({ number, use }) {
    const request = this.#open.get(number), deed = this.#library.send(up(), number);
    if (deed.what !== CLAIM) {
      this.#hand(deed);
      return null;
    }
    if (!request) return null; // (handed on, the claim would come here again)
    const owner = this.#library.ownerOf(use, this.#life, this.#isBound ? request.caller : undefined);
    // (a store that changes the key must not change that of the deed, which may go out again)
    return Object.freeze({ key: use.key.slice(), owner, expires: use.expires });
  }

  /** The store has answered the claim of a request. */
  found(number, found) {
    const request = this.#open.get(number);
    if (request) this.#ask(request, found);
  }

  /** The store is there. */
  reached() {
    this.#know();
  }

  /** Nobody gets another answer than this error. */
  fail(why) {
    const all = [...this.#open.values(), ...this.#withdrawals.values()];
    this.#open.clear();
    this.#withdrawals.clear();
    this.#watch();
    for (const it of all) it.reject(why);
  }

  // -- The way of a request

  #come(request) {
    const deed = this.#coming();
    request.number = deed.number;
    this.#open.set(deed.number, request);
    this.#watch();
    // (where nothing is to be waited for, it goes on at once)
    const looks = this.#look();
    if (looks) looks.then(() => this.#again(deed.number));
    else this.#hand(deed);
  }

  // Reads the store's withdrawals where nobody has for long, and gives undefined where somebody has.
  #look() {
    const time = this.#hearing && this.#clock();
    return this.#hearing?.isDue(time) ? this.#hearing.look(time, this.#wait * LOOKS) : undefined;
  }

  // What is to be done for a request that comes. Throws Unavailable, also with why the store does not answer.
  #coming() {
    try {
      return this.#library.come(up());
    } catch (why) {
      throw why instanceof Unavailable ? new Unavailable(why.message, this.#cause, why.reason) : why;
    }
  }

  // What the store threw, as long as it does not answer.
  get #cause() {
    return this.#claims?.why ?? this.#hearing?.why;
  }

  // Lets the library judge the token of a request, with what the store has found, if it has.
  async #ask(request, found) {
    try {
      while (request.edition !== this.#editions) await this.#find(request);
      // (where it was answered meanwhile, the library does nothing)
      const moment = request.clock(), library = this.#library;
      const { deed, subject } = found ? library.found(moment, up(), request, found) : library.judgeRequest(moment, up(), request);
      request.subject = subject ?? request.subject;
      this.#hand(deed);
    } catch (why) {
      request.reject(why);
    }
  }

  // Finds the key that made the signature of a token, among those of the bundles now. They may be replaced meanwhile.
  async #find(request) {
    const edition = this.#editions, { token } = request, asked = this.#library.keysOf(token);
    const { row, unverifiable } = asked ? await this.#verifier.first(asked) : {};
    request.shown = row ? { key: row.spelt, signed: asked.signed, signature: asked.signature } : null;
    request.unverifiable = unverifiable;
    request.edition = edition;
  }

  // Does what the library says is to be done.
  #hand(deed) {
    const request = this.#open.get(deed.number);
    if (deed.what === ANSWER) {
      this.#open.delete(deed.number);
      this.#watch();
      // (each in a step of its own: thousands may wait for one claim)
      if (deed.next !== NONE) queueMicrotask(() => this.#again(deed.next));
      if (request) this.#answer(request, deed);
    } else if (deed.what === JUDGE) this.#ask(request);
    else if (deed.what === APPEND) this.#keep(deed, request);
    else if (deed.what === CLAIM) this.#claims.add(deed);
    return deed;
  }

  #again(number) {
    const request = this.#open.get(number);
    if (request) this.#ask(request);
  }

  // Brings a use to the disk.
  #keep(deed, request) {
    const wrote = (why) => this.#safely(() => {
      Object.assign(request, { isWriting: false, why });
      this.#retry = why && (() => this.#keep(deed, request));
      this.#hand(this.#library.wrote(up(), deed.number, !why));
    });
    this.#retry = undefined;
    request.isWriting = true;
    this.#journal.keep(deed.use.message).then(() => wrote(), wrote);
  }

  #answer(request, { number, status, use }) {
    // (a disk that hangs takes nothing, until it says otherwise)
    if (request.isWriting) this.#hand(this.#library.wrote(up(), number, false));
    if (status === OK) {
      this.#twice?.add(use);
      return request.resolve(this.#library.acceptedOf(request.token.bytes, this.#own, request.subject, use));
    }
    const toldAs = status === LATE ? this.#lateAs : status;
    request.reject(this.#refusal(this.#library.fault(status, request.why ?? this.#cause, toldAs), request));
  }

  // What a refusal is to say: where no key could be asked, or where no bundle has come yet, it is not the token's fault.
  #refusal(why, { token, unverifiable }) {
    if (why.name === NO_SIGNATURE && unverifiable) return unverifiable;
    if (why.name === NO_DOMAIN && this.#sources?.awaits(this.#library.says(token.bytes).trustDomain)) return this.#library.fault(NO_BUNDLE);
    return why;
  }

  // Nobody waits for the answer any more.
  #leave(request) {
    try {
      if (this.#open.has(request.number)) this.#hand(this.#library.leave(up(), request.number));
      this.#library.closeToken(request.token);
    } catch (why) {
      if (!(why instanceof SvidError)) throw why;
    }
  }

  // -- Withdrawals

  // A keeper has a withdrawal, or may not have it: then this is why.
  #told(number, keeper, isThere, cause) {
    this.#safely(() => {
      Object.assign(this.#withdrawals.get(number) ?? {}, { cause });
      this.#ended(this.#library.withdrawalTold(number, keeper, isThere));
    });
  }

  // Hands on how a withdrawal has ended, if one has.
  #ended({ number, mayLack }) {
    const withdrawal = this.#withdrawals.get(number);
    this.#withdrawals.delete(number);
    this.#watch();
    withdrawal?.resolve({ mayLack, cause: withdrawal.cause });
    return number !== NONE;
  }

  // -- Times

  // Sees to it that there is a timer for what is due next, where somebody waits. It stays set where nobody does, and then keeps no member: to set one
  // again would take a tenth of a check.
  #watch() {
    const waits = this.#open.size + this.#withdrawals.size > 0;
    if (waits === waiting.has(this) && (this.#timer || !waits)) return;
    if (!waits) {
      waiting.delete(this);
      this.#timer?.unref?.();
      return;
    }
    waiting.add(this);
    this.#timer?.ref?.(); // (what comes later is due later)
    if (this.#timer) return;
    const self = new WeakRef(this), pause = Math.ceil(Number(this.#library.due()) - performance.now());
    this.#timer = setTimeout(() => self.deref()?.#late(), Math.min(Math.max(pause, 0), LONGEST_TIMER));
  }

  // Whatever is due is answered that it is late.
  #late() {
    this.#timer = undefined;
    if (!waiting.has(this)) return;
    this.#safely(() => {
      const moment = up();
      while (this.#hand(this.#library.overdue(moment)).what !== NOTHING);
      while (this.#ended(this.#library.withdrawalOverdue(moment)));
      this.#watch();
    });
  }

  // Does something whose failure nobody hears of. (A library that has stopped answers nobody.)
  #safely(body) {
    try {
      body();
    } catch (why) {
      this.fail(why);
    }
  }

  #know(now = 0n, isJumped = false) {
    const claims = this.#claims, hearing = this.#hearing;
    const isAway = [claims, hearing].map((it) => it?.isAway(this.#wait)).includes(true), isDeaf = claims !== undefined && claims.deaf >= now + this.#longest;
    const isOpened = claims?.isThere ?? true, isHeard = hearing?.isThere ?? true;
    this.#library.know({ isBundled: this.#isBundled, isOpened, isHeard, isJumped, isAway, isDeaf });
  }
}
