// Trust bundles as the page takes them, and why an entry of one is no candidate for a token (docs/FORMATS.md, "Bundles", "Candidates").

import { member, parse } from "./json.js";
import { textOf } from "./library.js";

const OK = 0;
// lists:begin entries (written by tools/lists from lists/statuses.toml)
/** Why an entry of a bundle is no key for JWT-SVIDs, by status (include/svid.h). */
const ENTRY_FAULTS = {
  61: "it is no JSON object",
  62: "it has no use, which must be \"jwt-svid\"",
  63: "it is for X.509-SVIDs",
  64: "its use is not \"jwt-svid\"",
  65: "its kid is not there, or no text",
  66: "its kty is neither RSA nor EC",
  67: "a number in it is no whole number of 64 bits",
  68: "it has more than 65,536 bytes as compact JSON",
};
const KEY_KTY = 72;
const OTHER_KTY = "its kty is not the algorithm's: RSA for RS and PS, EC for ES";
// lists:end

// lists:begin bundles (written by tools/lists from lists/statuses.toml)
/** Why bundles can't be read, by status (include/svid.h), and what to do. */
export const BUNDLE_FAULTS = {
  3: ["Bundles, a table or messages have more than 67,108,864 bytes.", "Give less at once."],
  31: ["The bundles are no JSON object.", "Write one object that has a JWK Set under the name of each trust domain."],
  32: ["A name of the bundles is no trust domain name.", "Correct that name, or take it out."],
  33: ["A name of the bundles has no list of keys.", "Write a JWK Set under that name, or take it out."],
};
// lists:end

const encoder = new TextEncoder();

function nodeOf(text) {
  try {
    return parse(text);
  } catch {
    return undefined;
  }
}

/** Bundles as the library takes them: an object of trust domains. The text of a bundle is not changed. */
export function bundlesOf(library, text, domain) {
  return library.isOneBundle(text) ? `{${JSON.stringify(domain)}:${text}}` : text;
}

/** How many entries the bundle of one trust domain has. */
export function countOf(text) {
  return member(nodeOf(text), "keys")?.value.items?.length ?? 0;
}

/** The names of the trust domains, in rising order, as the library counts them. */
export function domainsOf(bundles) {
  const names = new Set((nodeOf(bundles)?.members ?? []).map((it) => it.name));
  return [...names].sort(byBytes);
}

/** The entries of the bundle of a trust domain, as nodes of JSON. */
export function entriesOf(bundles, domain) {
  const keys = member(member(nodeOf(bundles), domain)?.value, "keys")?.value;
  return keys?.kind === "array" ? keys.items : [];
}

/**
 * The key that an entry is: `{ key }`, as the library lists keys; or `{ reason }`, why it is skipped for a token.
 * @param entry the text of the entry
 * @param names what the token says, as `library.says`: `alg` and `kid`, and either may be absent
 * @param fitting the keys that may have signed the token, as the library lists them
 */
export function keyOf(library, entry, { alg, kid }, fitting) {
  const { status, bytes } = library.keyText(entry);
  if (status !== OK) return { reason: ENTRY_FAULTS[status] ?? refuse(status) };
  const key = textOf(bytes);
  if (alg === undefined || fitting.has(key)) return { key };
  const reason = library.spki(key, alg).status === KEY_KTY ? OTHER_KTY : `its kid is not that of the token, ${JSON.stringify(kid)}`;
  return { reason };
}

function refuse(status) {
  throw new Error(`the library answered ${status}`);
}

function byBytes(a, b) {
  const x = encoder.encode(a), y = encoder.encode(b);
  for (let i = 0; i < x.length && i < y.length; i++) if (x[i] !== y[i]) return x[i] - y[i];
  return x.length - y.length;
}
