// The library svid as a WebAssembly module: the calls of include/svid.h that this package makes.
//
// Pointers, lengths and times are BigInts, as they have 64 bits; a status is a number. A handle has an instance of the module for
// itself, so that one that stops, or that has no memory left, takes no other with it.

import { isUnavailable, learn, ofBundles, ofDocuments, ofStatus, unjudgedBy, wordsOf, Closed, OutOfMemory, Stopped, Unavailable } from "./errors.js";
import { Accepted, Use } from "./records.js";

/** What a call answers that did what it is for, and a member that has no bundle. */
export const OK = 0, NO_BUNDLE = 212;
/** Why reading of a file of a state folder ends. */
export const FILE_END = 52, FILE_TEAR = 53, FILE_OTHER = 55;
/** The most bytes that are written to it at once. */
export const MOST_PAYLOAD = 16_777_215;
const TOO_SHORT = 1, NO_MEMORY = 2, CLOSED = 5, JUMP = 9, MAGIC = 11, BEARER_SEVERAL = 82, BEARER_SPELLING = 84, NOT_ALLOWED = 91;
const FIRST_REFUSAL = 101, TOO_LONG = 101;
const SPKI_ROOM = 2100, FRAME_MORE = 39;
const STATUSES = 256, MOST_TEXTS = 8192;
/** How many bytes the message of a use has: the least that `parts` is given. */
export const BATCH = 82;
const MOST_CANDIDATES = 3n;
const MAJOR = 3;
/** No limit, of seconds. */
export const ANY = 2n ** 64n - 1n;
/** How many bits an RSA key may have: unless an option says more, at the least, and at the most. */
export const USUAL_RSA_BITS = 4096, LEAST_RSA_BITS = 2048, MOST_RSA_BITS = 16384;
/** What `open` is to open. */
export const VALIDATOR = "validator", BUNDLES = "bundles";
/** The modes of a member, by their names. */
export const MODES = { once: 0n, strict: 1n, bound: 2n, reuse: 3n };
/** What is to be done for a request. */
export const NOTHING = 0, JUDGE = 1, APPEND = 2, CLAIM = 3, ANSWER = 4;
/** No number of a request, and no moment. */
export const NONE = 2n ** 64n - 1n;
/** Who keeps a withdrawal, and that one of them may not have it. */
export const AT_DISK = 0n, AT_STORE = 1n, AT_LOG = 2n, MAY_LACK = 2n;

// The sizes of the header's structures, in bytes.
const TOLD = 40, TERMS = 40, SETTING = 32, HANDLE = 16, DIGEST = 32, VALIDATOR_ID = 16, WORD = 8, PART = 88, DOCUMENT = 24, PACING = 24, ENTRY = 72;
// So many bytes an entry takes in messages, or more.
const LEAST_ENTRY = 64;

const FOLDER = 64, DUE = 16, READER = 24, FRAME = 24, BEARS = 40;

// Room that each instance has from its beginning, and where it stands: no call on a token needs more, but for long rows. A token that has
// more bytes than its room is too long for the library however many those are, so the rest is not lent.
export const TOKEN_ROOM = 65_544;
const TOKEN = 0, TOLD_AT = 65_544, USED = 65_584, QUESTION = 65_648, SMALL = 65_680, DEED = 65_936, KEY = 66_032, SIGNATURE = 131_568;
const OUT = 180_720, ROOM = 262_128;
const OUT_ROOM = BigInt(ROOM - OUT);
const NO_KEY = [0n, 0n, 0n, 0n, 0n, 0n];
// Of so many tokens' keys the rows are kept: most tokens have those of a few.
const MOST_ROWS = 8;
const PACING_FIRST = [0n, 0n, 10n];

const NEEDS = [
  "room", "free_room", "svid_version", "svid_id_parse", "svid_key_spki", "svid_bearer_token", "svid_token_says", "svid_token_signature",
  "svid_id_allows", "svid_batch_of", "svid_report", "svid_entries_read", "svid_validator_open_by_lengths", "svid_validator_close", "svid_validator_bundles", "svid_validator_withdraw", "svid_validator_tick",
  "svid_validator_take", "svid_validator_parts", "svid_validator_size", "svid_validator_summary", "svid_validator_answer", "svid_bundles_open",
  "svid_bundles_close", "svid_bundles_ask", "svid_bundles_question", "svid_bundles_judge", "svid_bundles_join", "svid_token_open",
  "svid_token_close", "svid_validator_ask_token", "svid_validator_judge_token", "svid_member_open", "svid_member_know", "svid_member_ready",
  "svid_member_come", "svid_member_judge", "svid_member_send", "svid_member_wrote", "svid_member_found", "svid_member_leave", "svid_member_overdue",
  "svid_member_due", "svid_member_rules", "svid_withdrawal_come", "svid_withdrawal_told", "svid_withdrawal_overdue", "svid_pacing_may_send",
  "svid_pacing_due", "svid_pacing_sent", "svid_pacing_answered", "svid_pacing_unanswered", "svid_claim_owner", "svid_claim_owner_of_caller",
  "svid_claim_until", "svid_claim_deaf", "svid_entries_write", "svid_status_name", "svid_status_sentence", "svid_token_payload",
  "svid_journal_open", "svid_journal_begin", "svid_journal_due", "svid_journal_answer", "svid_journal_put", "svid_journal_synced",
  "svid_journal_unwritten", "svid_journal_failed", "svid_journal_piece", "svid_journal_read", "svid_journal_bears",
];

const encoder = new TextEncoder();
const decoder = new TextDecoder("utf-8", { ignoreBOM: true });

/** The text that bytes are. */
export const textOf = (bytes) => decoder.decode(bytes);
/** The bytes of a text in UTF-8. */
export const utf8 = (text) => encoder.encode(text);
/** Bytes, one directly after the other. */
export function joined(pieces) {
  const all = new Uint8Array(pieces.reduce((sum, it) => sum + it.length, 0));
  let at = 0;
  for (const it of pieces) {
    all.set(it, at);
    at += it.length;
  }
  return all;
}

let compiled;

/** The module, which is compiled once. */
function module() {
  compiled ??= bytesOf(new URL("../svid.wasm", import.meta.url)).then((bytes) => WebAssembly.compile(bytes)).catch((why) => {
    compiled = undefined; // (a file or a server that was away may be there the next time)
    throw why;
  });
  return compiled;
}

async function bytesOf(url) {
  if (url.protocol === "file:" && globalThis.process?.versions?.node) return (await import("node:fs/promises")).readFile(url);
  const answer = await fetch(url);
  if (!answer.ok) throw new Error(`${url} can't be fetched: status ${answer.status}`);
  return answer.arrayBuffer();
}

/** One handle of the library, in an instance of its own. */
export class Library {
  #calls; // the exports of the instance, or null once it is closed
  #bytes;
  #view;
  #base; // where the room of every call stands
  #in; // what stands there, as calls take it
  #rows = []; // those of keys that were read last
  #handle;
  #kind;
  #spare = []; // handles of tokens that are closed

  /** Starts an instance of the module. Throws OutOfMemory. */
  static async start() {
    const code = await module();
    const there = new Set(WebAssembly.Module.exports(code).map((it) => it.name));
    const missing = NEEDS.filter((it) => !there.has(it));
    if (missing.length) throw new Error(`svid.wasm lacks ${missing.join(", ")}: take the one that was built with this package`);
    let instance;
    try {
      instance = await WebAssembly.instantiate(code, {});
    } catch (why) {
      throw new OutOfMemory({ cause: why });
    }
    const version = instance.exports.svid_version();
    if (Math.floor(version / 10_000) !== MAJOR) throw new Error(`svid.wasm has version ${version}, and this package needs ${MAJOR}xxxx`);
    const library = new Library(instance.exports);
    learn(() => library.#saysOfAll());
    return library;
  }

  constructor(calls) {
    this.#calls = calls;
    const room = this.#lend(ROOM), at = (offset) => room + BigInt(offset);
    this.#base = Number(room);
    this.#in = {
      token: at(TOKEN), told: at(TOLD_AT), used: at(USED), question: at(QUESTION), small: at(SMALL), deed: at(DEED), use: at(DEED + 32), key: at(KEY),
      signature: at(SIGNATURE), out: at(OUT),
    };
    this.#handle = this.#closed();
  }

  // What it says of each status, by its number. (An error may be made when no instance is there any more.)
  #saysOfAll() {
    const all = new Map();
    for (let status = 0; status < STATUSES; status++) {
      const name = textOf(this.#text("svid_status_name", status)), sentence = textOf(this.#text("svid_status_sentence", status)), { more } = this.#told();
      all.set(status, { name, says: sentence.slice(0, more), advice: sentence.slice(more + 1) });
    }
    return all;
  }

  // A handle that is closed.
  #closed() {
    const at = this.#lend(HANDLE);
    this.#bytes.fill(0, Number(at), Number(at) + HANDLE);
    return at;
  }

  // -- Handles

  /** Opens a validator. `terms` has `longest`, `ahead`, `step` and `validatorId`; `own` the audiences. Throws BadBundles. */
  openValidator(terms, own, given) {
    this.#kind = VALIDATOR;
    const bundles = this.#joined(given);
    this.#within(({ lend, room }) => {
      const at = room(TERMS);
      this.#setWords(at, [terms.longest, terms.ahead, terms.step]);
      this.#set(at + 24n, terms.validatorId);
      this.#reads("svid_validator_open_by_lengths", at, ...this.#audiences(own, lend, room), ...lend(bundles));
    });
  }

  /** Replaces the bundles of a validator. Throws BadBundles, and then the old ones stay. */
  renew(given) {
    const bundles = this.#joined(given);
    this.#within(({ lend }) => this.#reads("svid_validator_bundles", ...lend(bundles)));
  }

  /** Opens bundles. Throws BadBundles. */
  openBundles(given) {
    this.#kind = BUNDLES;
    const bundles = this.#joined(given);
    this.#within(({ lend }) => this.#reads("svid_bundles_open", ...lend(bundles)));
  }

  /** Reads the bundle of a trust domain, to see whether it is one. Throws BadBundles. */
  readBundle(domain, text) {
    this.openBundles([[domain, text]]);
    this.#run("svid_bundles_close", this.#handle);
  }

  // Makes a call that reads bundles.
  #reads(name, ...given) {
    const status = this.#call(name, this.#handle, ...given);
    if (status !== OK) throw ofBundles(status, this.#told());
  }

  // The one text of bundles. Those of several trust domains, each a name and a text, are joined to it. Throws BadBundles.
  #joined(given) {
    if (given instanceof Uint8Array) return given;
    // (to the library, a document with an empty name has none: a space is no name of a trust domain either)
    const pieces = given.flatMap(([name, text]) => [utf8(name || " "), text]);
    return this.#within(({ room, lend }) => {
      const bytes = lend(joined(pieces)), documents = room(DOCUMENT * given.length);
      const lens = pieces.map((it) => BigInt(it.length));
      this.#setWords(documents, given.flatMap((_, n) => [lens[2 * n], lens[2 * n + 1], 0n]));
      const { status, bytes: text } = this.#written("svid_bundles_join", ...bytes, documents, BigInt(given.length));
      if (status !== OK) throw ofDocuments(status, this.#told(), given.map(([name]) => name));
      return text;
    });
  }

  /** Frees all that it holds, with the instance. Does nothing to a closed one. */
  close() {
    const calls = this.#calls;
    if (calls === null) return;
    this.#calls = this.#bytes = this.#view = null;
    try {
      if (this.#kind) calls[`svid_${this.#kind}_close`](this.#handle);
    } catch {
      // (an instance that has stopped goes as a whole)
    }
  }

  // -- Tokens, by bundles

  /**
   * The first keys that may have signed a token: rows of `alg` and `key` (JSON), and `signed` and `signature` of the token. Null where the token
   * is refused already, for whatever reason comes first.
   */
  ask(token) {
    const length = this.#lendToken(token);
    const rows = this.#written("svid_bundles_ask", this.#handle, this.#in.token, length, MOST_CANDIDATES);
    if (rows.status >= FIRST_REFUSAL) return null;
    if (rows.status !== OK) throw this.fault(rows.status);
    const signature = this.#text("svid_token_signature", this.#in.token, length, this.#in.small);
    return { rows: rowsOf(rows.bytes), signed: this.#seen(this.#in.token, this.#word(this.#in.small)), signature };
  }

  /** The question of a row of bundles. */
  question(token, number) {
    const length = this.#lendToken(token);
    this.#good("svid_bundles_question", this.#handle, this.#in.token, length, BigInt(number), this.#in.question);
    return this.#seen(this.#in.question, DIGEST);
  }

  /** Judges a token by bundles, at a time. `terms` has `now`, `longest` and `own`, the audiences. */
  judgeBy({ now, longest, own }, token, yes) {
    const length = this.#lendToken(token);
    return this.#within(({ lend, room }) => {
      const setting = room(SETTING);
      this.#setWords(setting, [now, longest]);
      this.#set(setting + 16n, new Uint8Array(VALIDATOR_ID));
      if (yes) this.#set(this.#in.question, yes);
      const audiences = this.#audiences(own, lend, room);
      const lent = [this.#in.question, yes ? 1n : 0n, this.#in.token, length, this.#in.out, OUT_ROOM, this.#in.used];
      this.#good("svid_bundles_judge", this.#handle, setting, ...audiences, ...lent);
      return this.#accepted(token, own);
    });
  }

  // What an acceptance is: its ID stands in OUT, and its use in USED.
  #accepted(token, own) {
    return this.acceptedOf(token, own, this.#subject(), this.#used(this.#in.used));
  }

  /** What an acceptance is, for callers. */
  acceptedOf(token, own, subject, use) {
    return new Accepted(subject, use, own, () => this.says(token), () => JSON.parse(textOf(this.#payload(token))));
  }

  // The ID in OUT, and its parts.
  #subject() {
    const begins = this.#base + OUT, length = this.#length(), spiffeId = textOf(this.#bytes.subarray(begins, begins + length));
    this.#run("svid_id_parse", this.#in.out, BigInt(length), this.#in.small);
    return this.#parts(spiffeId);
  }

  // An ID that was parsed last, and its parts.
  #parts(spiffeId) {
    const small = this.#base + SMALL, domain = this.#number(small + 8), begins = spiffeId.length - this.#number(small + 16);
    return { spiffeId, trustDomain: spiffeId.slice(begins - domain, begins), path: spiffeId.slice(begins) };
  }

  // A use with its message.
  #used(at, withdrawn = false) {
    const use = this.#use(at), message = this.#base + SMALL;
    if (withdrawn) return new Use(use, withdrawn, this.messageOf({ ...use, withdrawn }));
    this.#run("svid_batch_of", at, this.#in.small);
    return new Use(use, withdrawn, this.#bytes.slice(message, message + BATCH));
  }

  #use(pointer) {
    const begins = Number(pointer), view = this.#view, key = begins + 16, validatorId = key + DIGEST;
    const expires = view.getBigUint64(begins, true), at = view.getBigUint64(begins + WORD, true);
    return { expires, at, key: this.#bytes.slice(key, validatorId), validatorId: this.#bytes.slice(validatorId, validatorId + VALIDATOR_ID) };
  }

  // -- Tokens that are read once

  /** Reads a token. Close it in the end. Throws Refusal for what is none, and then advances the record too. */
  read(now, token) {
    const length = this.#lendToken(token), at = this.#spare.pop() ?? this.#closed();
    const status = this.#call("svid_token_open", at, this.#in.token, length);
    if (status === OK) return { at, bytes: this.#bytes.slice(this.#base + TOKEN, this.#base + TOKEN + Number(length)) };
    this.#spare.push(at);
    this.tick(now);
    throw this.fault(status);
  }

  /** Closes a token. Does nothing once all is closed. */
  closeToken({ at }) {
    if (this.#calls === null) return;
    this.#run("svid_token_close", at);
    this.#spare.push(at);
  }

  /**
   * The first keys that may have signed a token that was read: rows of `alg` and `key` (JSON), and `signed` and `signature` of the token. Null
   * where the token is refused already, for whatever reason comes first.
   */
  keysOf({ at, bytes }) {
    const read = (all) => {
      const begins = WORD + lengthAt(all, 4);
      return { rows: this.#rowsOf(all.subarray(begins)), signed: bytes.subarray(0, lengthAt(all, 0)), signature: all.slice(WORD, begins) };
    };
    const { status, is } = this.#read(read, "svid_validator_ask_token", this.#handle, at, MOST_CANDIDATES);
    if (status >= FIRST_REFUSAL) return null;
    if (status !== OK) throw this.fault(status);
    return is;
  }

  // The rows that bytes are.
  #rowsOf(bytes) {
    let known = this.#rows.find(({ view }) => view.byteLength === bytes.length && isSame(view, this.#view, bytes.byteOffset));
    if (!known) {
      const kept = bytes.slice();
      known = { view: new DataView(kept.buffer), rows: rowsOf(kept) };
      this.#rows = [known, ...this.#rows].slice(0, MOST_ROWS);
    }
    return known.rows;
  }

  /** Says what a check would, and adds nothing. `shown` has the key, and what it signed, or is null where no key did. Throws Refusal. */
  judge(now, token, own, shown) {
    this.#good("svid_validator_judge_token", this.#handle, now, ...this.#shown(shown), token.at, ...this.#outputs());
    return this.#accepted(token.bytes, own);
  }

  // A key, and what it signed, as calls take them.
  #shown(shown) {
    this.#open();
    if (!shown) return NO_KEY;
    const { key, signed, signature } = shown, base = this.#base;
    this.#bytes.set(key, base + KEY);
    this.#bytes.set(signed, base + TOKEN);
    this.#bytes.set(signature, base + SIGNATURE);
    return [this.#in.key, BigInt(key.length), this.#in.token, BigInt(signed.length), this.#in.signature, BigInt(signature.length)];
  }

  #outputs() {
    return [this.#in.out, OUT_ROOM, this.#in.used];
  }

  // -- The member of a validator: its requests, each by a number

  /** Lets a validator answer requests. `terms` has `mode`, `hasDisk`, `hasStore`, `wait` (in milliseconds), `ahead`, `lasts` and `life`. */
  openMember({ mode, hasDisk, hasStore, wait, ahead, lasts, life }) {
    this.#open();
    this.#setWords(this.#in.small, [MODES[mode], BigInt(hasDisk), BigInt(hasStore), 0n, wait, ahead, lasts]);
    this.#set((this.#in.small + 56n), life);
    this.#make("svid_member_open", this.#in.small);
  }

  /** Says who may call: each whom one of these patterns allows. */
  rules(own, callers) {
    this.#within(({ lend }) => this.#make("svid_member_rules", ...lend(utf8(own.join("\n"))), 0n, ...lend(utf8(callers.join("\n")))));
  }

  /** Tells a member what it is to know. */
  know({ isBundled, isOpened, isHeard, isJumped, isAway, isDeaf }) {
    this.#open();
    const [bundled, opened, heard, jumped, away, deaf] = [isBundled, isOpened, isHeard, isJumped, isAway, isDeaf].map(BigInt);
    this.#setWords(this.#in.small, [bundled, 1n, opened, heard, 1n, 1n, 0n, jumped, 0n, away, deaf, 0n]);
    this.#make("svid_member_know", this.#in.small);
  }

  /** The status that says whether tokens are to be sent to a member. */
  ready() {
    return this.#run("svid_member_ready", this.#handle);
  }

  /** A request comes. Throws Unavailable. */
  come(up) {
    return this.#deedOf("svid_member_come", up);
  }

  /** Judges the token of a request: what is to be done, and whose token it is, if it is good. */
  judgeRequest(now, up, { number, token, shown }) {
    return this.#judged("svid_member_judge", [now, up, number], token, shown);
  }

  /** The store has answered the claim of a request. `found` has `time`, `deaf` and `owner`. */
  found(now, up, { number, token, shown, caller }, { time, deaf, owner }) {
    const small = this.#in.small;
    this.#open();
    this.#set(small, caller);
    this.#setWords(small + 32n, [time, deaf]);
    this.#set(small + 48n, owner);
    return this.#judged("svid_member_found", [now, up, number, small, small + 32n], token, shown);
  }

  #judged(name, given, token, shown) {
    const status = this.#call(name, this.#handle, ...given, ...this.#shown(shown), token.at, ...this.#outputs(), this.#in.deed);
    if (status === CLOSED || status === JUMP) throw this.fault(status); // (nothing happened)
    const subject = status === OK ? this.#subject() : null;
    return { deed: this.#deed(), subject };
  }

  /** The claim of a request is about to go out. */
  send(up, number) {
    return this.#deedOf("svid_member_send", up, number);
  }

  /** The use of a request is on the disk, or may not be there. */
  wrote(up, number, isThere) {
    return this.#deedOf("svid_member_wrote", up, number, BigInt(isThere));
  }

  /** Nobody waits any more for the answer to a request. */
  leave(up, number) {
    return this.#deedOf("svid_member_leave", up, number);
  }

  /** Answers the request that came first, if its time is over. */
  overdue(up) {
    return this.#deedOf("svid_member_overdue", up);
  }

  /** When a request or a withdrawal is due, or NONE. */
  due() {
    this.#make("svid_member_due", this.#in.small);
    return this.#word(this.#in.small);
  }

  /** A withdrawal is on its way: its number. */
  withdrawalComes(up) {
    return this.#withdrawal("svid_withdrawal_come", up).number;
  }

  /** A keeper has a withdrawal, or may not have it. */
  withdrawalTold(number, keeper, isThere) {
    return this.#withdrawal("svid_withdrawal_told", number, keeper, BigInt(isThere));
  }

  /** Gives up the withdrawal that came first, if its time is over. */
  withdrawalOverdue(up) {
    return this.#withdrawal("svid_withdrawal_overdue", up);
  }

  /** Whose the claim of a token is: that of a caller, if there is one, or else that of a life of a validator. */
  ownerOf({ expires, validatorId }, life, caller) {
    const small = this.#in.small, owner = (this.#in.small + 32n);
    this.#open();
    this.#set(small, caller ?? joined([validatorId, life]));
    if (caller) this.#run("svid_claim_owner_of_caller", small, expires, owner);
    else this.#run("svid_claim_owner", small, small + 16n, expires, owner);
    return this.#seen(owner, DIGEST);
  }

  // Makes a call that says what is to be done.
  #deedOf(name, ...given) {
    this.#make(name, ...given, this.#in.deed);
    return this.#deed();
  }

  // What the last call says is to be done. `use` is that of a claim, and of an acceptance.
  #deed() {
    const at = this.#base + DEED, what = this.#number(at), status = this.#number(at + 16), isAccepted = what === ANSWER && status === OK;
    const number = this.#view.getBigUint64(at + 8, true), next = this.#view.getBigUint64(at + 24, true);
    const use = isAccepted || what === APPEND ? this.#used(this.#in.use) : what === CLAIM ? this.#use(this.#in.use) : null;
    return { what, number, status, next, use };
  }

  // Makes a call about withdrawals: the one that has ended, if one has.
  #withdrawal(name, ...given) {
    this.#make(name, ...given, this.#in.small);
    const [number, disk, store] = this.#words(this.#in.small, 3);
    return { number, mayLack: disk === MAY_LACK || store === MAY_LACK };
  }

  // Makes a call on the handle that tells nothing.
  #make(name, ...given) {
    const status = this.#run(name, this.#handle, ...given);
    if (status !== OK) throw this.fault(status);
  }

  // -- Claims in a store

  /** When the claims that wait go out, by the milliseconds of a clock that only goes ahead. */
  pacing() {
    const at = this.#lend(PACING);
    this.#setWords(at, PACING_FIRST);
    return {
      maySend: (up, waiting) => this.#run("svid_pacing_may_send", at, up, BigInt(waiting)) === 1,
      due: () => this.#time("svid_pacing_due", at),
      sent: (up) => this.#run("svid_pacing_sent", at, up),
      answered: () => this.#run("svid_pacing_answered", at),
      unanswered: () => this.#time("svid_pacing_unanswered", at),
      pause: () => this.#word(at + 16n),
    };
  }

  /** Until when a store keeps the entry of a token. */
  claimUntil(expires, margin) {
    return this.#time("svid_claim_until", expires, margin);
  }

  /** The `deaf` of a store that has lost entries. */
  claimDeaf(time, lasts, before) {
    return this.#time("svid_claim_deaf", time, lasts, before);
  }

  // Makes a call that gives a time. (WebAssembly gives 64 bits with a sign)
  #time(name, ...given) {
    return BigInt.asUintN(64, this.#run(name, ...given));
  }

  // -- A state folder

  /** What is due in the folder of this ID, with the least and the greatest number of its journals, and the frames of payloads. */
  folder(id, oldest, newest) {
    const at = this.#lend(FOLDER), due = this.#lend(DUE), named = this.#lend(VALIDATOR_ID), word = (n) => this.#word(at + BigInt(WORD * n));
    const judge = (status) => {
      if (status !== OK) throw new Unavailable(wordsOf(status));
    };
    const run = (name, ...given) => judge(this.#run(name, at, ...given));
    const frame = (name, payload) => this.#within(({ lend, room }) => {
      const lent = lend(payload), size = payload.length + FRAME_MORE, out = room(size);
      judge(this.#call(name, at, named, ...lent, out, BigInt(size)));
      return this.#seen(out, this.#length());
    });
    this.#set(named, id);
    run("svid_journal_open", oldest, newest);
    return {
      newest: () => word(2),
      isEnded: () => word(3) !== 0n,
      end: () => word(5),
      begin: () => run("svid_journal_begin"),
      due: () => {
        run("svid_journal_due", due);
        return { call: this.#word(due), journal: this.#word(due + 8n) };
      },
      answer: (isDone) => run("svid_journal_answer", Number(isDone)),
      put: (payload) => frame("svid_journal_put", payload),
      piece: (payload) => frame("svid_journal_piece", payload),
      synced: () => run("svid_journal_synced"),
      unwritten: () => run("svid_journal_unwritten"),
      failed: () => run("svid_journal_failed"),
    };
  }

  /**
   * Reads the journal of this number, or the snapshot as number 0: its messages, how many bytes its frames have, the status that says what stands
   * after them, and of another format its number.
   */
  framesOf(id, number, bytes) {
    return this.#within(({ lend, room }) => {
      const [named] = lend(id), [at, length] = lend(bytes), reader = room(READER), frame = room(FRAME), bears = room(BEARS), messages = [];
      this.#setWords(reader, [0n, 0n, 0n]);
      for (;;) {
        const status = this.#run("svid_journal_read", named, number, at, length, reader, frame), [payload, size, format] = this.#words(frame, 3);
        if (status !== OK) return { status, at: Number(this.#word(reader + 8n)), format, messages };
        this.#run("svid_journal_bears", at + payload, size, bears);
        const begins = this.#word(bears + 32n); // (another writer may put a position before them)
        if (begins < size) messages.push(this.#seen(at + payload + begins, size - begins));
      }
    });
  }

  /** Whether a file may be messages without frames, as old versions wrote: then the library finds no fault at its beginning. */
  beginsAsMessages(bytes) {
    return this.#within(({ lend }) => {
      // (what is cut off there goes on with zeros)
      const status = this.#call("svid_entries_read", ...lend(joined([bytes.subarray(0, 64), new Uint8Array(64)])), 0n, 0n);
      if (status === NO_MEMORY) throw new OutOfMemory();
      return status !== MAGIC || this.#told().message > 1;
    });
  }

  // -- Texts

  // The payload of a token.
  #payload(token) {
    const length = this.#lendToken(token);
    return this.#text("svid_token_payload", this.#in.token, length);
  }

  /** What a token says: nobody has vouched for it. */
  says(token) {
    const length = this.#lendToken(token), lens = this.#in.key, out = this.#in.out;
    const said = this.#saidIn(length, lens, MOST_TEXTS, out, OUT_ROOM);
    if (said) return said;
    const texts = Number(this.#word(this.#in.small + 40n)), size = this.#length();
    return this.#within(({ room }) => this.#saidIn(length, room(WORD * texts), texts, room(size), size));
  }

  // The same, with room for so many texts, and so many bytes: null where that is too little.
  #saidIn(length, lens, texts, out, size) {
    const status = this.#call("svid_token_says", this.#in.token, length, this.#in.small, lens, BigInt(texts), out, BigInt(size));
    if (status === TOO_SHORT) return null;
    if (status !== OK) throw this.fault(status);
    const [expires, count] = this.#words(this.#in.small + 32n, 2);
    let at = out;
    const [alg, spiffeId, trustDomain, keyId, ...audiences] = this.#words(lens, Number(count)).map((it) => {
      at += it;
      return textOf(this.#seen(at - it, it));
    });
    return { alg, spiffeId, trustDomain, keyId, audiences, key: this.#seen(this.#in.small, DIGEST), expires };
  }

  /** A key as SubjectPublicKeyInfo; null where the algorithm can't use it. */
  spki(key, alg, mostBits) {
    return this.#within(({ lend, room }) => {
      const out = room(SPKI_ROOM);
      const status = this.#call("svid_key_spki", ...lend(utf8(key)), ...lend(utf8(alg)), BigInt(mostBits), out, BigInt(SPKI_ROOM));
      if (status === NO_MEMORY) throw new OutOfMemory();
      return status === OK ? this.#seen(out, this.#length()) : null;
    });
  }

  /** The one bearer token of a request: `{ token }`, or `{ several, spelling }` where it has none: whether there are several fields, or one is misspelt. */
  bearer(count, value) {
    return this.#within(({ lend }) => {
      const status = this.#run("svid_bearer_token", BigInt(count), ...lend(value), this.#in.small);
      if (status === TOO_LONG) throw ofStatus(status);
      if (status !== OK) return { several: status === BEARER_SEVERAL, spelling: status === BEARER_SPELLING };
      const [at, length] = this.#words(this.#in.small, 2).map(Number);
      return { token: value.slice(at, at + length) };
    });
  }

  /** The trust domain and the path of a SPIFFE ID. Throws RangeError for what is none. */
  partsOf(spiffeId) {
    return this.#within(({ lend }) => {
      const status = this.#run("svid_id_parse", ...lend(utf8(spiffeId)), this.#in.small);
      if (status === OK) return this.#parts(spiffeId);
      throw new RangeError(`${JSON.stringify(spiffeId)} is no SPIFFE ID (byte ${this.#word(this.#in.small)}): ${wordsOf(status)}`);
    });
  }

  /** Whether a pattern allows a SPIFFE ID. Throws RangeError for what is no pattern, or no ID. */
  allows(pattern, spiffeId) {
    return this.#within(({ lend }) => {
      const status = this.#run("svid_id_allows", ...lend(utf8(pattern)), ...lend(utf8(spiffeId)), this.#in.small);
      if (status === OK || status === NOT_ALLOWED) return status === OK;
      if (status === NO_MEMORY) throw new OutOfMemory();
      const offset = this.#word(this.#in.small);
      if (status < NOT_ALLOWED) throw new RangeError(`${JSON.stringify(spiffeId)} is no SPIFFE ID (byte ${offset}): ${wordsOf(status)}`);
      throw new RangeError(`${JSON.stringify(pattern)} is no pattern of SPIFFE IDs (byte ${offset}): ${wordsOf(status)}`);
    });
  }

  // -- The record

  /** Withdraws the token of a key. Throws Gone. */
  withdraw(now, key, expires) {
    this.#open();
    this.#set(this.#in.small, key);
    this.#good("svid_validator_withdraw", this.#handle, now, this.#in.small, expires, this.#in.used);
    return this.#used(this.#in.used, true);
  }

  /** Advances the record. */
  tick(now) {
    this.#good("svid_validator_tick", this.#handle, now);
  }

  /** Takes messages. */
  take(now, messages) {
    this.#within(({ lend }) => this.#good("svid_validator_take", this.#handle, now, ...lend(messages)));
  }

  /** The record as messages, in pieces of at most so many bytes. Other calls may come in between. */
  *parts(size) {
    const part = new Uint8Array(PART);
    for (let done = false; !done; ) {
      yield this.#within(({ room }) => {
        const at = room(PART), out = room(size);
        this.#set(at, part);
        this.#good("svid_validator_parts", this.#handle, at, out, BigInt(size));
        part.set(this.#seen(at, PART));
        done = this.#word(at + 8n) === 1n;
        return this.#seen(out, this.#length());
      });
    }
  }

  /** The moment of the record, and how many uses it has. */
  size() {
    this.#good("svid_validator_size", this.#handle, this.#in.small);
    const [moment, uses] = this.#words(this.#in.small, 2);
    return { moment, uses: Number(uses) };
  }

  /** The summary of the record. */
  summary() {
    return this.#text("svid_validator_summary", this.#handle);
  }

  /** The answer to a summary. */
  answer(now, summary) {
    return this.#within(({ lend }) => this.#text("svid_validator_answer", this.#handle, now, ...lend(summary)));
  }

  /** What messages tell, for people to read. */
  report(messages) {
    return this.#within(({ lend }) => textOf(this.#text("svid_report", ...lend(messages), 0n)));
  }

  /** The uses of messages, in their order. */
  uses(messages) {
    return this.#within(({ lend, room }) => {
      const lent = lend(messages), most = Math.floor(messages.length / LEAST_ENTRY), entries = room(ENTRY * most);
      this.#good("svid_entries_read", ...lent, entries, BigInt(most));
      const all = Array.from({ length: this.#length() }, (_, n) => entries + BigInt(ENTRY * n));
      return all.map((at) => ({ ...this.#use(at + 8n), withdrawn: this.#word(at) !== 0n }));
    });
  }

  /** A use as a message. */
  messageOf({ withdrawn, expires, at, key, validatorId }) {
    const small = this.#in.small, entry = (this.#in.small + 128n);
    this.#open();
    this.#setWords(entry, [BigInt(withdrawn), expires, at]);
    this.#set(entry + 24n, joined([key, validatorId]));
    this.#good("svid_entries_write", entry, 1n, small, BigInt(BATCH));
    return this.#seen(small, BATCH);
  }

  // -- Calls

  // Makes a call that tells.
  #call(name, ...given) {
    return this.#run(name, ...given, this.#in.told);
  }

  // The same, of a call that is to be OK.
  #good(name, ...given) {
    const status = this.#call(name, ...given);
    if (status !== OK) throw this.fault(status);
  }

  // Makes a call. An instance that has stopped makes none.
  #run(name, ...given) {
    const calls = this.#open();
    try {
      return calls[name](...given);
    } catch (why) {
      throw new Stopped({ cause: why });
    } finally {
      this.#look();
    }
  }

  // Makes a call that writes text, and makes it again where its room was too short: `{ status, bytes }`.
  #written(name, ...given) {
    const { status, is } = this.#read((bytes) => bytes.slice(), name, ...given);
    return { status, bytes: is };
  }

  // The same: `is` is what `read` says of the bytes, which the next call may write over.
  #read(read, name, ...given) {
    const say = (status, at, length) => ({ status, is: status === OK ? read(this.#bytes.subarray(at, at + length)) : null });
    const status = this.#call(name, ...given, this.#in.out, OUT_ROOM);
    if (status !== TOO_SHORT) return say(status, this.#base + OUT, this.#length());
    return this.#within(({ room }) => {
      const size = this.#length(), out = room(size);
      return say(this.#call(name, ...given, out, BigInt(size)), Number(out), size);
    });
  }

  // The text of a call that is OK.
  #text(name, ...given) {
    const { status, bytes } = this.#written(name, ...given);
    if (status !== OK) throw this.fault(status);
    return bytes;
  }

  /** The error for a status that is not OK. `cause` is what the store threw last, and a client hears the word of `toldAs`. */
  fault(status, cause, toldAs = status) {
    return isUnavailable(status) ? new Unavailable(wordsOf(status), cause, unjudgedBy(toldAs)) : ofStatus(status, this.#told());
  }

  // What a call told beside its status.
  #told() {
    const [length, input, message, offset, more] = this.#words(this.#in.told, TOLD / WORD).map(Number);
    return { length, input, message, offset, more };
  }

  // The length that a call told.
  #length() {
    return this.#number(this.#base + TOLD_AT);
  }

  #open() {
    if (this.#calls === null) throw new Closed();
    this.#look();
    return this.#calls;
  }

  // -- Memory

  // Views of the memory as it is now: once it has grown, those of before have no bytes. (To ask for its buffer costs more.)
  #look() {
    if (this.#bytes?.length || !this.#calls) return;
    const { buffer } = this.#calls.memory;
    this.#bytes = new Uint8Array(buffer);
    this.#view = new DataView(buffer);
  }

  // Lends memory to a call, and takes it back.
  #within(body) {
    const rooms = [];
    const room = (size) => {
      const at = this.#lend(size);
      rooms.push(at);
      return at;
    };
    const lend = (bytes) => {
      const at = room(bytes.length);
      this.#set(at, bytes);
      return [at, BigInt(bytes.length)];
    };
    try {
      return body({ room, lend });
    } finally {
      for (const it of rooms) if (this.#calls) this.#run("free_room", it);
    }
  }

  #lend(size) {
    const at = this.#run("room", BigInt(size));
    if (at === 0n) throw new OutOfMemory();
    return at;
  }

  // Lends the bytes of a token, and gives their length.
  #lendToken(token) {
    this.#open();
    const begins = this.#base + TOKEN, room = this.#bytes.subarray(begins, begins + TOKEN_ROOM);
    if (typeof token === "string") return BigInt(encoder.encodeInto(token, room).written);
    room.set(token);
    return BigInt(token.length);
  }

  // The audiences, one directly after the other, and their lengths.
  #audiences(own, lend, room) {
    const names = own.map(utf8), lens = room(WORD * names.length);
    this.#setWords(lens, names.map((it) => BigInt(it.length)));
    return [...lend(joined(names)), lens, BigInt(names.length)];
  }

  #set(at, bytes) {
    this.#bytes.set(bytes, Number(at));
  }

  #seen(at, length) {
    return this.#bytes.slice(Number(at), Number(at) + Number(length));
  }

  // The whole number of 64 bits there, if it is none too great. (To make a bigint of it first costs more.)
  #number(at) {
    return this.#view.getUint32(at, true) + this.#view.getUint32(at + 4, true) * 2 ** 32;
  }

  #word(at) {
    return this.#view.getBigUint64(Number(at), true);
  }

  #words(at, count) {
    return Array.from({ length: count }, (_, n) => this.#view.getBigUint64(Number(at) + n * WORD, true));
  }

  #setWords(at, words) {
    words.forEach((it, n) => this.#view.setBigUint64(Number(at) + n * WORD, it, true));
  }
}

// The number of 32 bits there, the highest byte first.
const lengthAt = (bytes, at) => ((bytes[at] << 24) | (bytes[at + 1] << 16) | (bytes[at + 2] << 8) | bytes[at + 3]) >>> 0;

// Whether what a view has stands in another one from there on. (Four bytes at once, and last the last four: it takes time.)
function isSame(one, other, at) {
  const last = one.byteLength - 4;
  for (let n = 0; n < last; n += 4) if (one.getUint32(n) !== other.getUint32(at + n)) return false;
  return last < 0 || one.getUint32(last) === other.getUint32(at + last);
}

// The rows of algorithms and keys that bytes are: `key` is the JSON of a key, and `spelt` its bytes.
function rowsOf(bytes) {
  const rows = [];
  let at = 0;
  const field = () => {
    const length = lengthAt(bytes, at);
    at += 4 + length;
    return bytes.subarray(at - length, at);
  };
  while (at < bytes.length) {
    const alg = textOf(field()), spelt = field();
    rows.push({ alg, key: textOf(spelt), spelt });
  }
  return rows;
}
