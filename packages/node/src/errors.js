// What this package throws: a refusal of a token, and why a call did nothing.

const NOT_JUDGED = "NotJudged";

/** The base of all errors of this package. Its `name` says which one it is, and stays the same in all versions. */
export class SvidError extends Error {}

/** The token is refused, and the record has gained no use. `name` says why. Nothing of the token is in the error, so you can log it. */
export class Refusal extends SvidError {
  constructor(name, sentence) {
    super(sentence);
    this.name = name;
  }
}

/** The validator is closed. Make a new one. */
export class Closed extends SvidError {
  constructor() {
    super(wordsOf(CLOSED));
  }
}

/** `now` is more than `step` seconds past the record's moment. Nothing happened. */
export class Jump extends SvidError {
  constructor() {
    super(wordsOf(JUMP));
  }
}

/** The token has expired, so there is nothing to withdraw. */
export class Gone extends SvidError {
  constructor() {
    super(wordsOf(GONE));
  }
}

/** The messages tell of a time more than `ahead` seconds past `now`. None of them was taken. */
export class TooFar extends SvidError {
  constructor() {
    super(wordsOf(TOO_FAR));
  }
}

/** The trust bundles can't be read. A validator that has bundles keeps the ones that it has. */
export class BadBundles extends SvidError {}

/** The bytes are no messages of a validator, and none of them was taken. `reason` says why, and `number` and `offset` where. */
export class BadMessages extends SvidError {
  constructor(reason, number, offset, says) {
    super(`${reason}${number ? ` in message ${number} at byte ${offset}` : ""}: ${says}`);
    Object.assign(this, { reason, number, offset });
  }
}

/** The token is good, and none of the `callers` of the validator allows its subject. Answer with status 403: the token is not used up. */
export class NotAllowed extends SvidError {
  constructor() {
    super("the token is good, and its subject is none of the callers that may call");
  }
}

/** Nobody accepts the token: the store failed, or did not answer in time. Answer with status 503. The token may be used up all the same. */
export class Unavailable extends SvidError {
  constructor(says, cause, reason = NOT_JUDGED) {
    super(says, cause === undefined ? {} : { cause });
    this.reason = reason;
  }
}

/** Another process has the state folder. Stop it, or give this one a folder of its own. */
export class Held extends SvidError {
  constructor(folder, holder) {
    super(`the state folder ${folder} is held by ${holder}: stop it, or give this one a folder of its own`);
  }
}

/** The state folder can't be read: a file is damaged, missing or of another version. No crash leaves such a file. */
export class BadFolder extends SvidError {}

/** The platform's WebCrypto, or a verifier of your own, could not say whether a key made a signature. Nothing was accepted. */
export class Unverifiable extends SvidError {
  constructor(options) {
    super("the signature can't be verified here: see the cause, and give `verify` where WebCrypto lacks the algorithm", options);
  }
}

/** There is no memory. Nothing was accepted, and you can make the call again. */
export class OutOfMemory extends SvidError {
  constructor(options) {
    super(wordsOf(NO_MEMORY), options);
  }
}

/** The library has stopped, so this validator makes no other call. Open a new one, and let it take the record that you saved last. */
export class Stopped extends SvidError {
  constructor(options) {
    super("the library has stopped in this or an earlier call: open a new validator, and let it take the record that was saved last", options);
  }
}

// (each by its own text, since tools that make scripts shorter change the names of classes)
for (const [name, kind] of Object.entries({
  SvidError, Closed, Jump, Gone, TooFar, BadBundles, BadMessages, NotAllowed, Unavailable, Held, BadFolder, Unverifiable, OutOfMemory, Stopped,
})) {
  Object.defineProperty(kind.prototype, "name", { value: name, configurable: true, writable: true });
}

/** The names of all refusals, in the order in which the library looks for them. (They are known before there is a library to ask.) */
// lists:begin refusals (written by tools/lists from lists/refusals.toml)
export const REFUSALS = Object.freeze([
  "TooLong", "NotThreeParts", "HeaderSpelling", "HeaderNotObject", "Crit", "Alg", "Typ", "Kid", "PayloadSpelling", "PayloadNotObject",
  "SignatureSpelling", "Sub", "Aud", "Exp", "Nbf", "Jti", "NotAudience", "Expired", "NotYet", "TooLongLived", "UnknownDomain", "NoKey",
  "BadSignature", "Withdrawn", "Replayed",
]);
// lists:end

// What is due where messages are at fault, by the status.
// lists:begin due (written by tools/lists from lists/statuses.toml)
const DUE = new Map([
  [11, "4A 53 52, which is JSR, and then 02 or 01"],
  [12, "01 for a batch, or 02 for a summary, which only version 2 has"],
  [13, "a number of at most 65,536 uses, or of 4,096 in version 1"],
  [14, "a use whose last byte is 00 or 01"],
  [15, "a use that expires after the batch's moment"],
  [16, "a use that was made at the batch's moment or before it"],
  [17, "a use that is greater than the one before it"],
  [18, "the rest of the message"],
]);
// lists:end

// Why there is no answer about a token: the first status and the last one, and the word by which a client hears it.
// lists:begin reasons (written by tools/lists from lists/statuses.toml)
const REASONS = [
  [2, 2, "NoMemory"],
  [9, 9, "ClockJump"],
  [58, 58, "NotClaimed"],
  [59, 59, "EntriesLost"],
  [202, 202, "NotKept"],
  [211, 222, "NotReady"],
];
// lists:end

// What the library says of each status: its name, what is wrong, and what to do.
let words;
const UNKNOWN = { name: "", says: "The library could not be started.", advice: "" };

/** Keeps what the library says of each status, by its number: `{ name, says, advice }`. */
export function learn(asking) {
  words ??= asking();
}

// Statuses of a token; and those that say nothing of it: of a claim, of a request, and of a validator that is to get no tokens.
const FIRST_REFUSAL = 101, LAST_REFUSAL = FIRST_REFUSAL + REFUSALS.length - 1;
export const CLAIM_FAR = 58, LATE = 201, NOT_KEPT = 202;
const CLAIM_DEAF = 59, LEFT = 203, ENDED = 211, DEAF = 222;

/** Whether a status says that there is no answer now. */
export function isUnavailable(status) {
  return status === CLAIM_FAR || status === CLAIM_DEAF || (status >= LATE && status <= LEFT) || (status >= ENDED && status <= DEAF);
}

/** The word by which a client hears why there is no answer about its token. */
export function unjudged(why) {
  const status = why instanceof OutOfMemory ? NO_MEMORY : why instanceof Jump ? JUMP : OK;
  return why instanceof Unavailable ? why.reason : unjudgedBy(status);
}

/** The same, by the status. */
export const unjudgedBy = (status) => REASONS.find(([first, last]) => first <= status && status <= last)?.[2] ?? NOT_JUDGED;

/** What a status says: what is wrong, where that is, and what to do. */
export function wordsOf(status, where = "") {
  const { says, advice } = words?.get(status) ?? UNKNOWN;
  return [says, where, advice].filter(Boolean).join(" ");
}

// The same as the rest of a sentence.
function clauseOf(status) {
  const { says, advice } = words.get(status);
  return [says, advice].filter(Boolean).map((it) => it[0].toLowerCase() + it.slice(1).replace(/\.$/, "")).join(": ");
}

// The name of a status, as docs/FORMATS.md has it: "NoKey".
const reasonOf = (status) => words.get(status).name.replace(/^SVID_/, "").replace(/([A-Z])([A-Z]*)_?/g, (_, first, rest) => first + rest.toLowerCase());

// Those that have an error of their own.
const OK = 0, NO_MEMORY = 2, CLOSED = 5, GONE = 7, TOO_FAR = 8, JUMP = 9, NOT_ALLOWED = 91;
const FAULTS = new Map([[NO_MEMORY, OutOfMemory], [CLOSED, Closed], [GONE, Gone], [TOO_FAR, TooFar], [JUMP, Jump], [NOT_ALLOWED, NotAllowed]]);
// Those of bundles that can't be read, and of these the ones that are about one of several trust domains.
const TOO_MUCH = 3, NOT_SUMMARY = 4, BUNDLES_NOT_OBJECT = 31, BUNDLES_DOMAIN = 32, BUNDLES_KEYS = 33, BUNDLES_UNNAMED = 37, BUNDLES_TWICE = 38;
const BUNDLE_FAULTS = new Set([TOO_MUCH, BUNDLES_NOT_OBJECT, BUNDLES_DOMAIN, BUNDLES_KEYS, BUNDLES_UNNAMED]);
const RANKED = new Set([BUNDLES_DOMAIN, BUNDLES_KEYS]);
// Those of a bundle that can't be joined to others.
const DOCUMENT_FAULTS = new Set([BUNDLES_NOT_OBJECT, BUNDLES_DOMAIN, BUNDLES_KEYS, BUNDLES_TWICE]);

/** The error for a status that is not OK. `told` is what the call told beside it. */
export function ofStatus(status, told) {
  if (status >= FIRST_REFUSAL && status <= LAST_REFUSAL) return new Refusal(reasonOf(status), wordsOf(status));
  if (FAULTS.has(status)) return new (FAULTS.get(status))();
  if (DUE.has(status)) return new BadMessages(reasonOf(status), told.message, told.offset, `${clauseOf(status)}, and due is ${DUE.get(status)}`);
  if (status === TOO_MUCH || status === NOT_SUMMARY) return new BadMessages(reasonOf(status), told.message, told.offset, clauseOf(status));
  return new SvidError(`the library answered ${status}, which include/svid.h explains`);
}

/** The same, of a call that reads bundles. */
export function ofBundles(status, told) {
  if (!BUNDLE_FAULTS.has(status)) return ofStatus(status, told);
  return new BadBundles(wordsOf(status, RANKED.has(status) ? `It is number ${told.offset} of the names in rising order, counted from 0.` : ""));
}

/** The same, of a call that joins the bundles of these trust domains. */
export function ofDocuments(status, told, names) {
  if (!DOCUMENT_FAULTS.has(status)) return ofStatus(status, told);
  return new BadBundles(`${JSON.stringify(names[told.input - 1])}: ${wordsOf(status)}`);
}
