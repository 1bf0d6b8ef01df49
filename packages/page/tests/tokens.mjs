// Tokens and keys for the tests: made again in each run, by the cryptography of Node.

import { generateKeyPairSync } from "node:crypto";

const encoder = new TextEncoder();
const { subtle } = globalThis.crypto;

const KINDS = {
  RS: (bits) => ({ name: "RSASSA-PKCS1-v1_5", hash: `SHA-${bits}` }),
  PS: (bits) => ({ name: "RSA-PSS", hash: `SHA-${bits}` }),
  ES: (bits) => ({ name: "ECDSA", namedCurve: { 256: "P-256", 384: "P-384", 512: "P-521" }[bits] }),
};
const SIGNING = {
  RS: () => ({ name: "RSASSA-PKCS1-v1_5" }),
  PS: (bits) => ({ name: "RSA-PSS", saltLength: bits / 8 }),
  ES: (bits) => ({ name: "ECDSA", hash: `SHA-${bits}` }),
};

export const base64url = (it) => Buffer.from(it).toString("base64url");

/** A key pair: how it signs, and its entry in a bundle. (It is read again: Node 20 hangs for ever if its collector comes while it writes a key as JWK that it has just made.) */
export async function makeKey(alg, kid = `key-${alg}`, modulusLength = 2048) {
  const bits = Number(alg.slice(2)), kind = KINDS[alg.slice(0, 2)](bits), { namedCurve } = kind, der = (type) => ({ type, format: "der" });
  const made = generateKeyPairSync(namedCurve ? "ec" : "rsa", { namedCurve, modulusLength, publicKeyEncoding: der("spki"), privateKeyEncoding: der("pkcs8") });
  const { kty, crv, x, y, n, e } = await subtle.exportKey("jwk", await subtle.importKey("spki", made.publicKey, kind, true, ["verify"]));
  const entry = JSON.parse(JSON.stringify({ kty, use: "jwt-svid", kid, crv, x, y, n, e })), privateKey = await subtle.importKey("pkcs8", made.privateKey, kind, false, ["sign"]);
  const sign = async (input) => new Uint8Array(await subtle.sign(SIGNING[alg.slice(0, 2)](bits), privateKey, encoder.encode(input)));
  return { alg, kid, entry, sign };
}

/** A token of these texts or bytes of JSON, or values, signed by a key. */
export async function sign(key, header, payload) {
  const text = (it) => (typeof it === "string" || it instanceof Uint8Array ? it : JSON.stringify(it));
  const input = `${base64url(text(header))}.${base64url(text(payload))}`;
  return `${input}.${base64url(await key.sign(input))}`;
}

/** A number after the other that only looks random: the same in each run. */
export function random(seed) {
  let state = seed;
  const next = () => {
    state = (state + 0x6d2b79f5) | 0;
    let it = Math.imul(state ^ (state >>> 15), 1 | state);
    it = (it + Math.imul(it ^ (it >>> 7), 61 | it)) ^ it;
    return (it ^ (it >>> 14)) >>> 0;
  };
  return { below: (n) => next() % n, pick: (list) => list[next() % list.length] };
}

/** A batch of uses, each `{ exp, key, validatorId, at, withdrawn }` with numbers and buffers, in a version of the format. */
export function batch(moment, uses, version = 2) {
  const texts = uses.map(({ exp, key, validatorId, at, withdrawn = 0 }) => {
    const it = Buffer.alloc(65);
    it.writeBigUInt64BE(BigInt(exp), 0);
    key.copy(it, 8);
    validatorId.copy(it, 40);
    it.writeBigUInt64BE(BigInt(at), 56);
    it[64] = withdrawn;
    return version === 2 ? it : it.subarray(0, 64);
  });
  const head = Buffer.alloc(17);
  head.set([0x4a, 0x53, 0x52, version, 1]);
  head.writeBigUInt64BE(BigInt(moment), 5);
  head.writeUInt32BE(texts.length, 13);
  return Buffer.concat([head, ...texts.sort(Buffer.compare)]);
}

const INSERTED = Buffer.from('{}[]",:\\\0\n.-_0eE+u/ 19');

/** Bytes with up to so many changes, drawn by `r`. */
export function mutated(bytes, r, most) {
  let it = Buffer.from(bytes);
  for (let n = r.below(most + 1); n > 0 && it.length; n--) {
    const at = r.below(it.length);
    const change = r.below(5);
    if (change === 0) it[at] = r.below(256);
    else if (change === 1) it[at] ^= 1 << r.below(8);
    else if (change === 2) it = Buffer.concat([it.subarray(0, at), it.subarray(at + 1)]);
    else if (change === 3) it = Buffer.concat([it.subarray(0, at), Buffer.from([r.pick(INSERTED)]), it.subarray(at)]);
    else it = Buffer.concat([it.subarray(0, at), it.subarray(at + r.below(20))]);
  }
  return it;
}
