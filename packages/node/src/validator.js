// A validator that remembers which tokens were used, and bundles that judge tokens without a record.

import { Refusal } from "./errors.js";
import {
  aboutCheck, audiences, bundlesOf, bytesOf, callerOf, clockOf, disposable, expiryOf, hookOf, keyOf, limit, longestOf, modeOf, nameOf, patternsOf, random, readPatterns, seconds, tokenOf,
  validatorId, waitOf,
} from "./given.js";
import { BATCH, LEAST_RSA_BITS, Library, MOST_RSA_BITS, USUAL_RSA_BITS, joined } from "./library.js";
import { Member } from "./member.js";
import { hexOf } from "./records.js";
import { Verifier } from "./signatures.js";

const NO_SIGNATURE = "BadSignature";
const CLOCK = clockOf();
const PIECE = 1_048_576;
const NO_LOG = "log is no option: to accept a token once in a whole group, write mode \"strict\" and give the group's store";

/** How an RSA key may be long. */
function rsaBits(given = USUAL_RSA_BITS) {
  if (Number.isInteger(given) && given >= LEAST_RSA_BITS && given <= MOST_RSA_BITS) return given;
  throw new RangeError(`rsaBits is a number from ${LEAST_RSA_BITS} to ${MOST_RSA_BITS}`);
}

/** How these options verify: what makes their verifier, once there is a library. */
function verifierOf(options) {
  const { verify } = options, bits = rsaBits(options.rsaBits);
  if (verify !== undefined && typeof verify !== "function") throw new TypeError("verify is a function");
  return (library) => new Verifier(library, bits, verify);
}

/** The sources of bundles that a caller names. (Their module is for Node alone.) */
async function sourcesOf(follow) {
  return (await import("./follow.js")).Sources.open({ ...follow });
}

/** Tells an operator of a token that several validators accepted. */
function warnOfTwice(key) {
  const said = `several validators accepted the token ${hexOf(key)}: it may be stolen, or its client sent it twice`;
  if (globalThis.process?.emitWarning) globalThis.process.emitWarning(said, { code: "SVID_TWICE" });
  else console.warn(said);
}

/** What a state folder keeps of a validator, and its store. (Their modules are for Node alone.) */
async function keptIn(state, { mode, store, ...terms }) {
  if (state === undefined) return { store, kept: [] };
  const { Journal } = await import("./journal.js"), journal = await Journal.open(state);
  if (mode !== "bound" || store) return { store, journal, kept: [journal] };
  try {
    const claims = await (await import("./local.js")).LocalStore.open(`${state}/claims`, terms);
    return { store: claims, journal, kept: [journal, claims] };
  } catch (why) {
    await journal.close();
    throw why;
  }
}

const letGo = (kept) => Promise.all(kept.map((it) => it.close()));

/** Checks JWT-SVIDs, and remembers which were used. Documentation of all of it stands in index.d.ts. */
export class Validator {
  #library;
  #member;
  #isBound;
  #clock;
  #follows;
  #kept;

  /** Opens a validator whose record is empty, or is that of its state folder. */
  static async open(options) {
    // (left out in silence, it would let each process accept the token)
    if (options.log !== undefined) throw new TypeError(NO_LOG);
    const own = audiences(options.audiences), { mode, state, ...given } = modeOf(options), wait = waitOf(options.wait), clock = clockOf(options.now);
    if (options.follow !== undefined && options.bundles !== undefined) throw new TypeError("give bundles, or follow sources of them");
    const bundles = options.follow === undefined ? bundlesOf(options.bundles) : [];
    const longest = longestOf(options.longest), ahead = limit("ahead", options.ahead ?? 30), step = limit("step", options.step);
    const callers = patternsOf("callers", options.callers), verifier = verifierOf(options);
    const onTwice = hookOf("onTwice", options.onTwice) ?? warnOfTwice;
    // (all options are read before this waits: whoever gave them may change them then)
    const [id, life, sources] = await Promise.all([validatorId(options.validatorId), random(), options.follow && sourcesOf(options.follow)]);
    const terms = { longest, ahead, step, validatorId: id };
    const { store, journal, kept } = await keptIn(state, { ...given, mode, longest, ahead, clock });
    if (journal) terms.validatorId = journal.id;
    const ready = await Library.start().then((library) => {
      readPatterns(callers, (...it) => library.allows(...it));
      if (callers && own.some((it) => it.includes("\n"))) throw new RangeError("with callers, no audience has a line feed");
      library.openValidator(terms, own, bundles);
      const given = { mode, wait, callers, store, own, longest, ahead, life, clock, sources, validatorId: terms.validatorId, onTwice, journal };
      return { library, mode, clock, follows: sources !== undefined, kept, member: new Member(library, verifier(library), given) };
    }).catch(async (why) => {
      await letGo(kept);
      throw why;
    });
    const validator = new this(ready);
    try {
      await journal?.begin((messages) => ready.library.take(clock(), messages), () => ready.library.parts(PIECE));
      await ready.member.begin();
    } catch (why) {
      await validator.close();
      throw why;
    }
    return validator;
  }

  /** Takes what `open` has made: call that instead. */
  constructor(ready) {
    if (!ready?.library) throw new TypeError("call `await Validator.open(..)`");
    this.#library = ready.library;
    this.#member = ready.member;
    this.#isBound = ready.mode === "bound";
    this.#clock = ready.clock;
    this.#follows = ready.follows;
    this.#kept = ready.kept;
  }

  /** Frees the record and the bundles, and lets go of the state folder. Closing twice does nothing. */
  async close() {
    this.#member.close();
    await letGo(this.#kept);
  }

  /** Whether tokens are to be sent to this validator: `unready` says null. */
  get ready() {
    return this.unready() === null;
  }

  /** The first reason why no tokens are to be sent to this validator, as a sentence, or null. */
  unready(now) {
    return this.#member.unready(this.#time(now));
  }

  /** Accepts a token, as the mode says. */
  async check(token, about) {
    const { now, caller } = aboutCheck(about), text = tokenOf(token);
    if (now !== undefined) seconds(now);
    if ((caller !== undefined) !== this.#isBound) throw new TypeError("give a caller in the mode bound, and in no other one");
    return await this.#member.check(text, () => this.#time(now), this.#isBound ? await callerOf(caller) : undefined); // (`await` saves two turns)
  }

  /** Answers what `check` would, and uses nothing up. */
  async judge(token, now) {
    const text = tokenOf(token);
    if (now !== undefined) seconds(now);
    return this.#member.judge(text, () => this.#time(now));
  }

  /** Withdraws a token until it expires. */
  async withdraw(token, now) {
    const { key, expires } = this.#library.says(tokenOf(token));
    return this.withdrawKey(key, expires, now);
  }

  /** Withdraws the token with this key, which expires then. */
  async withdrawKey(key, expires, now) {
    return this.#member.withdraw(this.#time(now), keyOf(key), expiryOf(expires));
  }

  /** What a token says. Nobody has vouched for it. */
  says(token) {
    return this.#library.says(tokenOf(token));
  }

  /** Whether a pattern allows a SPIFFE ID. */
  allows(pattern, spiffeId) {
    return this.#library.allows(nameOf("pattern", pattern), nameOf("spiffeId", spiffeId));
  }

  /** The one bearer token of a request: `{ token }`, or `{ several, spelling }` where it has none. */
  bearer(values) {
    return this.#library.bearer(values.length, values.length ? bytesOfHeader(values[0]) : new Uint8Array());
  }

  /** Advances the record, and drops what has expired. */
  tick(now) {
    this.#library.tick(this.#time(now));
  }

  /** Takes messages of other validators, or a record that was saved. */
  take(messages, now) {
    this.#member.take(this.#time(now), bytesOf("messages", messages));
  }

  /** The record as messages, in pieces. */
  parts(size = PIECE) {
    if (!Number.isInteger(size) || size < BATCH) throw new RangeError(`size is a number of bytes from ${BATCH} on`);
    return this.#library.parts(size);
  }

  /** The whole record as messages. */
  record() {
    return joined([...this.parts()]);
  }

  /** The moment of the record, and how many uses it has. */
  size() {
    return this.#library.size();
  }

  /** A message of 8,205 bytes, for a validator that is to `answer` what is missing here. */
  summary() {
    return this.#library.summary();
  }

  /** Answers the summary of another validator. */
  answer(summary, now) {
    return this.#library.answer(this.#time(now), bytesOf("summary", summary));
  }

  /** What the record holds, as `svid report` prints it. */
  report() {
    return this.#library.report(this.record());
  }

  /** Replaces the bundles. The record stays. */
  renew(bundles) {
    if (this.#follows) throw new TypeError("this validator follows sources of bundles, which would replace these");
    this.#member.renew(bundlesOf(bundles));
  }

  // The time of a call.
  #time(now) {
    return now === undefined ? this.#clock() : seconds(now);
  }
}

/** Judges tokens by bundles, without a record. */
export class Bundles {
  #library;
  #verifier;
  #terms;

  /** Reads bundles. */
  static async open(options) {
    const own = audiences(options.audiences), longest = longestOf(options.longest), bundles = bundlesOf(options.bundles);
    const verifier = verifierOf(options);
    const library = await Library.start();
    library.openBundles(bundles);
    return new Bundles({ library, verifier: verifier(library), terms: { own, longest } });
  }

  /** Takes what `open` has made: call that instead. */
  constructor(ready) {
    if (!ready?.library) throw new TypeError("call `await Bundles.open(..)`");
    this.#library = ready.library;
    this.#verifier = ready.verifier;
    this.#terms = ready.terms;
  }

  /** Frees the bundles. Closing twice does nothing. */
  close() {
    this.#library.close();
  }

  /** Answers what a validator with an empty record would. */
  async judge(given, now) {
    const token = tokenOf(given);
    if (now !== undefined) seconds(now);
    const asked = this.#library.ask(token);
    const found = asked ? await this.#verifier.first(asked) : {};
    const question = found.row ? this.#library.question(token, found.number) : null;
    try {
      return this.#library.judgeBy({ ...this.#terms, now: now === undefined ? CLOCK() : seconds(now) }, token, question);
    } catch (why) {
      throw why instanceof Refusal && why.name === NO_SIGNATURE && found.unverifiable ? found.unverifiable : why;
    }
  }

  /** What a token says. Nobody has vouched for it. */
  says(token) {
    return this.#library.says(tokenOf(token));
  }

  /** The one bearer token of a request: `{ token }`, or `{ several, spelling }` where it has none. */
  bearer(values) {
    return this.#library.bearer(values.length, values.length ? bytesOfHeader(values[0]) : new Uint8Array());
  }
}

for (const it of [Validator, Bundles]) disposable(it);

// The bytes of a header's value: Node makes a character of each.
function bytesOfHeader(value) {
  return Uint8Array.from(value, (it) => (it.charCodeAt(0) < 256 ? it.charCodeAt(0) : 0x3f));
}
