// A token, taken apart for the eye: its three parts, what they decode to, and where in the token a piece of that stands.

import { JsonFault, parse } from "./json.js";
import { textOf } from "./library.js";

const encoder = new TextEncoder();

const OK = 0, SCHEME = 83, TOO_LONG = 101;

// lists:begin bearer (written by tools/lists from lists/statuses.toml)
/** Why a request has no bearer token, by status (include/svid.h), and what to send. */
export const BEARER_FAULTS = {
  81: "the request has no header field Authorization: send one such field, with Bearer and one token",
  82: "the request has more than one header field Authorization: send one such field, with Bearer and one token",
  83: "the header field Authorization has another scheme than Bearer: send one such field, with Bearer and one token",
  84: "in the header field Authorization, Bearer is not followed by one token: send one such field, with Bearer and one token",
};
// lists:end

/**
 * Where the token stands in what a person put in: blanks around it count for nothing. Of a header field Authorization, with its name or
 * without, the library tells it.
 * @returns `{ from, to, isField, fault }`: `isField` says that the library took the token out of a field, and `fault` is the status that says why
 * a field has no token
 */
export function tokenIn(text, library) {
  const trimmed = text.trim(), start = text.length - text.trimStart().length, name = /^authorization:/i.exec(trimmed)?.[0] ?? "";
  const whole = { from: start, to: start + trimmed.length, isField: false };
  if (!trimmed) return whole;
  const { status, at, length } = library.bearerToken(trimmed.slice(name.length));
  // (no character before the token and in it has two bytes)
  const from = start + name.length + at;
  if (status === OK) return { from, to: from + length, isField: true };
  return status === TOO_LONG || (status === SCHEME && !name) ? whole : { ...whole, fault: status };
}

/** A part of a token between its periods. */
export class Part {
  #read;
  #decoded;
  #json;

  /** @param {string} text the part; @param {number} from where it begins in the token; @param {Library} library by which it is read */
  constructor(text, from, library) {
    this.text = text;
    this.from = from;
    this.to = from + text.length;
    this.library = library;
  }

  /** The bytes that it decodes to; none where the library does not read it. */
  get bytes() {
    this.#read ??= this.library.part(this.text);
    return this.#read.bytes;
  }

  /** Where it is misspelt: its first character that no part has, or else its last one. Undefined where it is not. */
  get badAt() {
    if (this.bytes || this.#read.status === TOO_LONG) return undefined;
    const bad = [...this.text].findIndex((it) => !isSpelled(it, this.library));
    return bad === -1 ? this.text.length - 1 : bad;
  }

  /** The decoded bytes as text. */
  get decoded() {
    return (this.#decoded ??= this.bytes && textOf(this.bytes));
  }

  /** `{ node }`, the decoded text as JSON, or `{ fault }` where it is none; neither where nothing is decoded. */
  get json() {
    return (this.#json ??= this.#parsed());
  }

  #parsed() {
    const bytes = this.bytes;
    if (bytes === undefined) return {};
    try {
      const badAt = firstNotText(bytes, this.decoded);
      if (badAt !== undefined) throw new JsonFault(badAt, "these bytes are no UTF-8");
      return { node: parse(this.decoded) };
    } catch (fault) {
      return { fault };
    }
  }

  /** Which characters of the token hold a piece of the decoded text, as a pair of indices: four of them hold three bytes. */
  charactersOf(from, to) {
    const text = this.decoded;
    const before = encoder.encode(text.slice(0, from)).length, length = encoder.encode(text.slice(from, to)).length;
    return [this.from + Math.floor((before * 4) / 3), this.from + Math.min(Math.ceil(((before + length) * 4) / 3), this.text.length)];
  }
}

/** The parts of a token: as many as its periods make, so three of one that is well formed. */
export function partsOf(token, library) {
  let from = 0;
  return token.split(".").map((text) => {
    const part = new Part(text, from, library);
    from = part.to + 1;
    return part;
  });
}

const spelled = new Map();

// Whether a part may have a character. (Of eight, no bit is left over.)
function isSpelled(it, library) {
  if (!spelled.has(it)) spelled.set(it, library.part(it.repeat(8)).status === OK);
  return spelled.get(it);
}

// Where bytes are not UTF-8: the first character of the decoded text that stands for other bytes than its own.
function firstNotText(bytes, text) {
  const again = encoder.encode(text), at = again.findIndex((it, n) => it !== bytes[n]);
  if (at === -1 && again.length === bytes.length) return undefined;
  // (a character that the bad bytes begin does not count)
  return new TextDecoder("utf-8", { ignoreBOM: true }).decode(bytes.subarray(0, at === -1 ? again.length : at), { stream: true }).length;
}
