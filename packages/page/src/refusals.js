// The refusals in the order in which the library looks for them: what each asks, and, where one holds, why and where in the token.
// Which one holds says the library alone.

import { member, stringAt } from "./json.js";
import { textOf } from "./library.js";
import { agoOf, dateOf, spanOf } from "./time.js";

const WHOLE = [0, Infinity];

/** @typedef {object} Case what a token was judged by: `token`, `parts`, `names` (what it says, as `Library.says`), `own` (audiences), `now`, `longest`, `library` */

// The number of each in the library, its name, and what a token must be to pass it.
// lists:begin refusals (written by tools/lists from lists/refusals.toml)
const ALGORITHMS = "RS256 to RS512, ES256 to ES512 and PS256 to PS512";
const LIST = [
  { number: 101, name: "TooLong", asks: "It has at most 65,536 bytes" },
  { number: 102, name: "NotThreeParts", asks: "It has three parts" },
  { number: 103, name: "HeaderSpelling", asks: "The header is base64url" },
  { number: 104, name: "HeaderNotObject", asks: "The header is a JSON object" },
  { number: 105, name: "Crit", asks: "It has no crit" },
  { number: 106, name: "Alg", asks: "alg is one of the nine of JWT-SVID" },
  { number: 107, name: "Typ", asks: "typ is JWT or JOSE, if it is there" },
  { number: 108, name: "Kid", asks: "kid is a text, if it is there" },
  { number: 109, name: "PayloadSpelling", asks: "The payload is base64url" },
  { number: 110, name: "PayloadNotObject", asks: "The payload is a JSON object" },
  { number: 111, name: "SignatureSpelling", asks: "The signature is base64url" },
  { number: 112, name: "Sub", asks: "sub is a SPIFFE ID" },
  { number: 113, name: "Aud", asks: "aud is a text, or a list of texts" },
  { number: 114, name: "Exp", asks: "exp is a number in digits" },
  { number: 115, name: "Nbf", asks: "nbf is one too, if it is there" },
  { number: 116, name: "Jti", asks: "jti is a text, if it is there" },
  { number: 117, name: "NotAudience", asks: "aud names this service" },
  { number: 118, name: "Expired", asks: "It has not expired" },
  { number: 119, name: "NotYet", asks: "It is valid already" },
  { number: 120, name: "TooLongLived", asks: "It does not live too long" },
  { number: 121, name: "UnknownDomain", asks: "Its trust domain is known" },
  { number: 122, name: "NoKey", asks: "A key may have signed it" },
  { number: 123, name: "BadSignature", asks: "Such a key verifies it" },
  { number: 124, name: "Withdrawn", asks: "It was not withdrawn" },
  { number: 125, name: "Replayed", asks: "It was not used before" },
];
// lists:end

// `holds(case)` of each tells why it holds, and the characters of the token that do not fit.
const HOLDS = {
  TooLong: tooLong,
  NotThreeParts: notThreeParts,
  HeaderSpelling: (it) => misspelt(it, 0, "header"),
  HeaderNotObject: (it) => notObject(it, 0, "header"),
  Crit: (it) => wrong(it, 0, "crit", "names extensions that must be understood, and svid has none"),
  Alg: (it) => wrong(it, 0, "alg", `is none of ${ALGORITHMS}`),
  Typ: (it) => wrong(it, 0, "typ", "is neither JWT nor JOSE"),
  Kid: (it) => wrong(it, 0, "kid", "is no text"),
  PayloadSpelling: (it) => misspelt(it, 1, "payload"),
  PayloadNotObject: (it) => notObject(it, 1, "payload"),
  SignatureSpelling: signatureMisspelt,
  Sub: noId,
  Aud: (it) => wrong(it, 1, "aud", "is neither a text nor a list of one or more texts"),
  Exp: (it) => wrong(it, 1, "exp", "is no number in digits alone, below 2^64"),
  Nbf: (it) => wrong(it, 1, "nbf", "is no number in digits alone, below 2^64"),
  Jti: (it) => wrong(it, 1, "jti", "is no text"),
  NotAudience: notAudience,
  Expired: expired,
  NotYet: notYet,
  TooLongLived: tooLongLived,
  UnknownDomain: unknownDomain,
  NoKey: noKey,
  BadSignature: badSignature,
  Withdrawn: withdrawn,
  Replayed: replayed,
};

/** Each refusal, in their order: its `number`, its `name`, what it `asks`, and `holds(case)`. */
export const REFUSALS = LIST.map((it) => ({ ...it, holds: HOLDS[it.name] }));

/** The groups that the refusals make, each by the name of its first. */
export const GROUPS = {
  TooLong: "Form", Sub: "Claims", NotAudience: "This service, at this time", UnknownDomain: "Signature", Withdrawn: "Record of used tokens",
};

/** The refusal that a status is, if it is one. */
export function refusalOf(status) {
  return REFUSALS.find((it) => it.number === status);
}

/** The JSON of a part, where it is an object. */
export function objectOf(parts, part) {
  const node = parts.length === 3 ? parts[part].json.node : undefined;
  return node?.kind === "object" ? node : undefined;
}

// A character as it looks, or by its number where it looks like nothing, as a blank of no width.
const shown = (text) => JSON.stringify(text).replace(/(?! )[\p{C}\p{M}\p{Z}]/gu, (it) => `\\u${it.codePointAt(0).toString(16).padStart(4, "0")}`);
const said = (why, ...marks) => ({ why, marks });

function tooLong({ token }) {
  return said(`It has ${new TextEncoder().encode(token).length.toLocaleString("en")} bytes.`, [65536, token.length]);
}

function notThreeParts({ token, parts }) {
  const count = parts.length - 1;
  if (!token) return said("There is no token.");
  const behind = count > 2 ? [[parts[2].to, token.length]] : [WHOLE];
  return said(`It has ${count === 0 ? "no period" : count === 1 ? "one period" : `${count} periods`}, so it is no token in compact form.`, ...behind);
}

function misspelt({ parts }, which, name) {
  const part = parts[which], at = part.badAt ?? 0, bad = [...part.text.slice(at, at + 2)][0] ?? "";
  const isLast = at === part.text.length - 1 && /[\w-]/.test(bad);
  const why = isLast ? "Its last character has bits that are left over, or one too few." : `${shown(bad)} is no character of base64url.`;
  const inToken = which ? `, which is character ${part.from + at + 1} of the token` : "";
  return said(`The ${name} is misspelt at character ${at + 1}${inToken}. ${why}`, [part.from + at, part.from + at + bad.length]);
}

function signatureMisspelt(it) {
  const part = it.parts[2];
  return part.text ? misspelt(it, 2, "signature") : said("The signature is empty.", [part.from - 1, part.from]);
}

function notObject({ parts }, which, name) {
  const part = parts[which], { fault } = part.json;
  if (!part.text) return said(`The ${name} is empty.`, [Math.max(part.from - 1, 0), part.to + 1]);
  if (!fault) return said(`The ${name} is JSON, but no object.`, [part.from, part.to]);
  // (the last character, where the text ends too early)
  const from = Math.min(part.charactersOf(fault.at, fault.at + 1)[0], part.to - 1);
  return said(`The ${name} is no JSON: at character ${fault.at + 1}, ${fault.message}.`, [from, part.to]);
}

// The characters of a member in the token; of the whole part where it is not there.
function charactersOf({ parts }, which, name) {
  const part = parts[which], found = member(objectOf(parts, which), name);
  return found ? part.charactersOf(found.from, found.to) : [part.from, part.to];
}

function wrong(it, which, name, fault) {
  const isThere = member(objectOf(it.parts, which), name);
  return said(isThere ? `${name} ${fault}.` : `There is no ${name}.`, charactersOf(it, which, name));
}

// lists:begin ids (written by tools/lists from lists/statuses.toml)
/** Why a text is no SPIFFE ID, by status (include/svid.h). */
const ID_FAULTS = {
  21: "the ID has more than 2,048 bytes",
  22: "the ID does not begin with spiffe://",
  23: "the trust domain name of the ID is empty",
  24: "the ID has a byte that may not stand in a trust domain name",
  25: "the ID has a trust domain name of more than 255 bytes",
  26: "the ID has an empty segment",
  27: "the ID has a segment that is one or two periods",
  28: "the ID has a byte that may not stand in a path segment",
};
// lists:end
// Those about characters, which are shown.
const ID_DOMAIN_BYTE = 24, ID_SEGMENT_DOTS = 27, ID_PATH_BYTE = 28;

function noId(it) {
  const id = stringAt(objectOf(it.parts, 1), "sub");
  if (id === undefined) return wrong(it, 1, "sub", "is no text");
  const { status, offset } = it.library.parseId(id);
  const rest = textOf(new TextEncoder().encode(id).subarray(offset)), dots = rest.match(/^\.*/)[0];
  const bad = { [ID_DOMAIN_BYTE]: [...rest][0], [ID_SEGMENT_DOTS]: dots, [ID_PATH_BYTE]: [...rest][0] }[status];
  return said(`sub is no SPIFFE ID: ${ID_FAULTS[status]}${bad === undefined ? "" : `, ${shown(bad)}`}.`, charactersOf(it, 1, "sub"));
}

/** A claim that is a time, if it is one. */
export function timeOf(parts, name) {
  const node = member(objectOf(parts, 1), name)?.value;
  return node?.kind === "number" && /^\d{1,20}$/.test(node.text) ? BigInt(node.text) : undefined;
}

const list = (names) => names.map((it) => JSON.stringify(it)).join(", ");

function notAudience(it) {
  const mine = it.own.length ? `and this service is ${list(it.own)}` : "and this service has no name here";
  return said(`The token is for ${list(it.names.audiences)}, ${mine}.`, charactersOf(it, 1, "aud"));
}

function expired(it) {
  const { exp } = it.names;
  return said(`It expired at ${dateOf(exp)}, ${exp === it.now ? "this very second" : agoOf(exp, it.now)}.`, charactersOf(it, 1, "exp"));
}

function notYet(it) {
  const nbf = timeOf(it.parts, "nbf");
  return said(`It is valid from ${dateOf(nbf)} on, ${agoOf(nbf, it.now)}.`, charactersOf(it, 1, "nbf"));
}

function tooLongLived(it) {
  const { exp } = it.names, left = exp - it.now;
  return said(`It expires ${agoOf(exp, it.now)}, and ${spanOf(it.longest)} are allowed (${left} s, and ${it.longest} s).`, charactersOf(it, 1, "exp"));
}

function unknownDomain(it) {
  return said(`The bundles have no trust domain ${JSON.stringify(it.names.domain)}.`, charactersOf(it, 1, "sub"));
}

function noKey(it) {
  const { kid } = it.names;
  const named = kid === undefined ? "" : ` with the kid ${JSON.stringify(kid)}`;
  const name = kid === undefined ? "alg" : "kid";
  return said(`The bundle has no key for this algorithm${named}. The keys below say why each was passed over.`, charactersOf(it, 0, name));
}

function badSignature({ parts }) {
  return said("No key that may have signed it verifies the signature.", [parts[2].from, parts[2].to]);
}

// (by its key, which is made of the trust domain and the jti, or of the signed bytes where there is none)
function charactersOfKey(it) {
  const jti = stringAt(objectOf(it.parts, 1), "jti");
  return jti ? charactersOf(it, 1, "jti") : [0, it.parts[1].to];
}

function withdrawn(it) {
  return said("The record below has a withdrawal of this token.", charactersOfKey(it));
}

function replayed(it) {
  return said("The record below has a use of this token already.", charactersOfKey(it));
}
