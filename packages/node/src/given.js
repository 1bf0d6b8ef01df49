// What callers give: times, audiences, bundles, validator IDs, modes and callers, as the library takes them. And what a store answers.

import { BadBundles } from "./errors.js";
import { ANY, MODES, TOKEN_ROOM, textOf, utf8 } from "./library.js";

const YEAR_5138 = 100_000_000_000n;
const HOUR = 3600;
const VALIDATOR_ID = 16, KEY = 32, OWNER = 32;
const LEAST_WAIT = 0.001; // (the library counts milliseconds)
const ANYBODY = "spiffe://example.org";

/** The time of a call, in whole seconds. (It has no default: a clock that gives nothing is none.) */
export function seconds(now) {
  const whole = wholeOf("now", now);
  if (whole >= YEAR_5138) throw new RangeError(`now is in seconds since 1970, and ${now} is not: Date.now() is in milliseconds`);
  return whole;
}

/** The clock of a service: a function that gives the time in seconds. */
export function clockOf(given = () => Date.now() / 1000) {
  if (typeof given !== "function") throw new TypeError("now is a function that gives the time in seconds since 1970");
  return () => seconds(given());
}

/** A hook of the service, if there is one. */
export function hookOf(name, given) {
  if (given !== undefined && typeof given !== "function") throw new TypeError(`${name} is a function`);
  return given;
}

/** Calls a hook of the service. It keeps no request from its answer, and what it throws, at once or later, ends no process. */
export function tell(hook, ...given) {
  try {
    Promise.resolve(hook(...given)).catch(() => {});
  } catch {
    // (a listener that throws changes nothing)
  }
}

/** Lets `using` and `await using` close what is of a class, where the platform has them. (`close` is looked up then: that of a subclass.) */
export function disposable({ prototype }) {
  const calls = { dispose() { this.close(); }, async asyncDispose() { await this.close(); } };
  for (const [name, value] of Object.entries(calls)) if (Symbol[name]) Object.defineProperty(prototype, Symbol[name], { value, configurable: true, writable: true });
}

/** A number of seconds without a limit, or the limit that stands for none. */
export function limit(name, given) {
  return given === undefined || given === null ? ANY : wholeOf(name, given);
}

/** For how many seconds a token may live: an hour, unless the caller says another number, or in a word that there is no limit. */
export function longestOf(given = HOUR) {
  return given === "unlimited" ? ANY : wholeOf("longest", given);
}

/** When a token expires. (It has no default: a withdrawal without an end would stay in each record.) */
export const expiryOf = (given) => wholeOf("expires", given);

function wholeOf(name, given) {
  if (typeof given === "number" && given >= 0 && Number.isFinite(given)) return bounded(name, BigInt(Math.floor(given)));
  if (typeof given === "bigint" && given >= 0n) return bounded(name, given);
  throw new TypeError(`${name} is a number of seconds from 0 on, or a bigint, and not ${given}`);
}

function bounded(name, whole) {
  if (whole > ANY) throw new RangeError(`${name} is at most 2^64-1`);
  return whole;
}

/** The audiences of a service. */
export function audiences(given) {
  const names = typeof given === "string" ? [given] : Array.from(given ?? []);
  if (!names.length || names.some((it) => typeof it !== "string" || !it)) {
    throw new TypeError("audiences is a name of this service, or an array of such, and none is empty");
  }
  return names.map((it) => textOf(utf8(it))); // (as tokens name them)
}

/** The 16 bytes that name a validator: by default random ones. */
export async function validatorId(given) {
  return given === undefined ? random() : sized("validatorId", given, VALIDATOR_ID);
}

/** 16 random bytes. */
export async function random() {
  return (await webCrypto()).getRandomValues(new Uint8Array(VALIDATOR_ID));
}

/** WebCrypto, which is not global in each Node 18. */
export const webCrypto = async () => globalThis.crypto ?? (await import("node:crypto")).webcrypto;

/** The mode of a validator, its state folder and its store, if it has them. In the modes once and reuse, a store tells withdrawals alone. */
export function modeOf({ mode = "once", store, state, validatorId: id }) {
  if (!Object.hasOwn(MODES, mode)) throw new RangeError(`mode is one of ${Object.keys(MODES).join(", ")}, and not ${String(mode)}`);
  const isOfGroup = mode === "strict" || mode === "bound";
  if (state !== undefined && !nameOf("state", state)) throw new TypeError("state is the path of a folder");
  if (state !== undefined && id !== undefined) throw new TypeError("a state folder has the validator's ID: leave out validatorId");
  if (store === undefined && (mode === "strict" || (isOfGroup && state === undefined))) {
    throw new TypeError("give a store in the modes strict and bound, or in mode bound a state folder");
  }
  if (store !== undefined && (typeof store?.put !== "function" || typeof store.withdraw !== "function")) {
    throw new TypeError("a store has the methods put and withdraw");
  }
  if (store !== undefined && !isOfGroup && typeof store.withdrawals !== "function") {
    throw new TypeError("in the modes once and reuse give a store with the method withdrawals, or none");
  }
  return { mode, store, state };
}

/** The 32 bytes and the expiry of each withdrawal that a store tells, and up to where it has told. Throws TypeError for what is no answer. */
export function withdrawalsOf({ these, last }) {
  return { these: Array.from(these, ({ key, expires }) => ({ key: keyOf(key), expires: expiryOf(expires) })), last: nameOf("last", last) };
}

/** For how many seconds a call waits. */
export function waitOf(given = 2) {
  if (typeof given === "number" && given >= LEAST_WAIT) return given;
  throw new RangeError(`wait is a number of seconds, and at least ${LEAST_WAIT}`);
}

/** Waits for a promise, but at most so many seconds. */
export async function atMost(wait, promise) {
  let timer;
  const late = new Promise((resolve) => (timer = setTimeout(resolve, Math.min(wait * 1000, 2 ** 31 - 1))));
  await Promise.race([promise, late]);
  clearTimeout(timer);
}

/** The patterns of who may call, in a list that is a copy. Undefined for all callers, which an empty list is not. */
export function patternsOf(name, given) {
  if (given === undefined) return undefined;
  const patterns = typeof given === "string" ? [given] : [...given];
  if (!patterns.length) throw new RangeError(`${name} is empty: name who may call, or leave it out to let all call`);
  return patterns.map((it) => nameOf("a pattern", it));
}

/** These patterns, once the library has read each of them. Throws where one is none. */
export function readPatterns(patterns, allows) {
  patterns?.forEach((it) => allows(it, ANYBODY));
  return patterns;
}

const isPlain = (given) => [Object.prototype, null].includes(Object.getPrototypeOf(given));

/** What a check is given beside its token: its time, or an object that may also have its caller. */
export function aboutCheck(given) {
  if (!isPlain(given ?? 0)) return { now: given };
  const unknown = Object.keys(given).find((it) => it !== "now" && it !== "caller");
  if (unknown !== undefined) throw new TypeError(`a check takes now and caller, and no ${unknown}`);
  return given;
}

/** The 32 bytes that tell a caller from all others. Its bytes are copied at once, since a buffer may be filled again by the next request. */
export async function callerOf(given) {
  if (typeof given !== "string" && !(given instanceof Uint8Array)) throw new TypeError("caller is a string or a Uint8Array");
  const caller = typeof given === "string" ? utf8(given) : new Uint8Array(given);
  return new Uint8Array(await (await webCrypto()).subtle.digest("SHA-256", caller));
}

/** What a store answers to so many claims, or, to each of them, why it does not. Throws TypeError for what is none. */
export function foundOf(given, count) {
  const one = ({ owner, time, deaf = 0n }) => ({ owner: sized("owner", owner, OWNER), time: wholeOf("time", time), deaf: wholeOf("deaf", deaf) });
  const found = Array.from(given, (it) => (it instanceof Error ? it : one(it)));
  if (found.length !== count) throw new TypeError(`${count} claims have ${found.length} answers`);
  return found;
}

/**
 * A token as it is now. Bytes are copied, since a buffer may be filled again while a signature is verified: what was verified must be what is
 * judged. (What has more bytes than are copied is too long all the same.)
 */
export function tokenOf(given) {
  if (typeof given === "string") return given;
  if (given instanceof Uint8Array) return new Uint8Array(given.subarray(0, TOKEN_ROOM));
  throw new TypeError(`a token is a string or a Uint8Array, and not ${given === null ? "null" : typeof given}`);
}

/** A text. */
export function nameOf(what, given) {
  if (typeof given === "string") return given;
  throw new TypeError(`${what} is a string, and not ${given === null ? "null" : typeof given}`);
}

/** The key of a token. */
export const keyOf = (given) => sized("key", given, KEY);

function sized(name, given, size) {
  if (!(given instanceof Uint8Array) || given.length !== size) throw new TypeError(`${name} is a Uint8Array of ${size} bytes`);
  return new Uint8Array(given); // (`slice` of a Buffer makes no copy)
}

/** Messages, as bytes. */
export function bytesOf(name, given) {
  if (!(given instanceof Uint8Array)) throw new TypeError(`${name} is a Uint8Array`);
  return given;
}

/**
 * Bundles as the library takes them: their one text, or of each trust domain its name and the text of its bundle. Bytes are copied, since they may
 * change until the library reads them. Throws BadBundles.
 */
export function bundlesOf(given) {
  if (typeof given === "string") return utf8(given);
  if (given instanceof Uint8Array) return new Uint8Array(given);
  const entries = typeof given === "object" && !Array.isArray(given) ? Object.entries(given ?? 0) : [];
  // (such as a promise, which has none yet)
  if (!entries.length && !isPlain(given ?? 0)) throw new TypeError("bundles is an object from trust domains to bundles, or the JSON text of one");
  return entries.map(([name, it]) => [name, bundleText(name, it)]);
}

// The text of one bundle, which the library judges.
function bundleText(name, given) {
  if (typeof given === "string") return utf8(given);
  if (given instanceof Uint8Array) return new Uint8Array(given);
  try {
    return utf8(JSON.stringify(given) ?? ""); // (a function has no text)
  } catch (why) {
    throw new BadBundles(`${JSON.stringify(name)}: The bundle can't be written as JSON: ${why.message}`, { cause: why });
  }
}
