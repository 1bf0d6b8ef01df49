// Verifies signatures by the browser's own cryptography (WebCrypto): is this signature good for this key?
//
// The library says which key can be used with an algorithm, and gives it as SubjectPublicKeyInfo.

import { hexOf, MOST_RSA_BITS } from "./library.js";

// lists:begin curves (written by tools/lists from lists/algorithms.toml)
const CURVES = { ES256: "P-256", ES384: "P-384", ES512: "P-521" };
// lists:end
const OK = 0;
const encoder = new TextEncoder();

// lists:begin keys (written by tools/lists from lists/statuses.toml)
/** Why a key can't be used, by the status of `Library.spki`. */
const KEY_FAULTS = {
  70: "the algorithm is none of RS256 to RS512, ES256 to ES512 and PS256 to PS512",
  71: "the key is no JSON object",
  72: "the key's kty is not the algorithm's: RSA for RS and PS, EC for ES",
  73: "the key's alg is there, and is not the algorithm",
  74: "the key's n is no odd number in as few bytes of base64url as hold it",
  75: "the key's n has fewer than 2,048 bits, more than most_bits, or more than 16,384",
  76: "the key's e is no odd number from 3 to 2^31-1 in as few bytes of base64url as hold it",
  77: "the key's crv is not the algorithm's: P-256 for ES256, P-384 for ES384, P-521 for ES512",
  78: "the key's x is not base64url of 32, 48 or 66 bytes, as the curve has it",
  79: "the key's y is not base64url of 32, 48 or 66 bytes, as the curve has it",
};
// lists:end

/** Why no signature is verified or made here, if so. */
export const lacking = () => (globalThis.crypto?.subtle ? undefined : "WebCrypto works only on https, localhost and files");

const answered = new Map();

/**
 * How a key answers: `{ is: "good" }`, `{ is: "bad" }`, or `{ is: "unusable", why }` where the browser takes no such key.
 * An answer is kept, by all that it is about.
 * @param row of `Validator.ask`; @param {string} signed the token up to its second period; @param {Uint8Array} signature
 */
export function answer(row, signed, signature) {
  const question = JSON.stringify([row.key, row.alg, signed, hexOf(signature)]);
  if (!answered.has(question)) answered.set(question, ask(row, signed, signature));
  return answered.get(question);
}

async function ask({ alg, spki }, signed, signature) {
  if (spki.status !== OK) return { is: "unusable", why: faultOf(spki.status) };
  if (lacking()) return { is: "unusable", why: lacking() };
  const [importing, verifying] = parametersOf(alg);
  try {
    const imported = await crypto.subtle.importKey("spki", spki.bytes, importing, false, ["verify"]);
    // (OpenSSL, in Node, takes a shorter one for RSA-PSS, and NSS, in Firefox, any even length for ECDSA)
    if (signature.length !== lengthBy(imported.algorithm)) return { is: "bad" };
    const isGood = await crypto.subtle.verify(verifying, imported, signature, encoder.encode(signed));
    return { is: isGood ? "good" : "bad" };
  } catch (error) {
    if (!(error instanceof DOMException)) throw error;
    return { is: "unusable", why: error.message || "the browser takes no such key" };
  }
}

// (what the library has as its parameter most_bits is a number here)
function faultOf(status) {
  return KEY_FAULTS[status]?.replace("most_bits", MOST_RSA_BITS.toLocaleString("en")) ?? `the library says ${status} of it`;
}

/**
 * How many bytes a signature by a key has: as many as its modulus (RFC 8017, sections 8.1.2 and 8.2.2), or r and s, each as long as the order of its curve
 * (RFC 7518, section 3.4).
 */
function lengthBy({ modulusLength, namedCurve }) {
  return namedCurve ? 2 * Math.ceil(Number(namedCurve.slice("P-".length)) / 8) : Math.ceil(modulusLength / 8);
}

function parametersOf(alg) {
  const bits = alg.slice(2), hash = `SHA-${bits}`;
  switch (alg.slice(0, 2)) {
    case "RS":
      return [{ name: "RSASSA-PKCS1-v1_5", hash }, { name: "RSASSA-PKCS1-v1_5" }];
    case "PS":
      return [{ name: "RSA-PSS", hash }, { name: "RSA-PSS", saltLength: bits / 8 }];
    default:
      return [{ name: "ECDSA", namedCurve: CURVES[alg] }, { name: "ECDSA", hash }];
  }
}
