// What a service needs to test its own use of this package: an issuer, a clock, and a store in memory. What everything does stands in testing.d.ts.

import { Buffer } from "node:buffer";
import { createPrivateKey, createPublicKey, generateKeyPairSync, randomUUID, sign } from "node:crypto";

export { MemoryStore } from "./src/stores.js";

const LIFE = 300; // seconds
const part = (it) => Buffer.from(JSON.stringify(it)).toString("base64url");

/** A clock that a test sets. */
export class Clock {
  #time;

  constructor(time = Date.now() / 1000) {
    this.#time = Math.floor(time);
  }

  /** Its time. (It can be handed on without the clock.) */
  now = () => this.#time;

  /** Lets so many seconds pass. */
  advance(seconds) {
    this.#time += seconds;
  }

  /** Sets it to this time. */
  set(time) {
    this.#time = time;
  }
}

// What makes a token wrong, by the name of its refusal: other claims, a key of nobody's, another name of a key, or another text.
const WRONGS = {
  Expired: { claims: (time) => ({ exp: time - 1 }) },
  NotYet: { claims: (time) => ({ nbf: time + LIFE / 2 }) },
  NotAudience: { claims: () => ({ aud: [randomUUID()] }) },
  BadSignature: { key: () => keyOf("") },
  NoKey: { header: () => ({ kid: randomUUID() }) },
  NotThreeParts: { text: (it) => it.slice(0, it.lastIndexOf(".")) },
};

/** An issuer of tokens, with the keys of one trust domain. */
export class Issuer {
  #domain;
  #audience;
  #now;
  #keys = [];

  constructor({ trustDomain = "example.org", audience, now = () => Math.floor(Date.now() / 1000) } = {}) {
    this.#domain = trustDomain;
    this.#audience = audience;
    this.#now = now;
    this.rotate();
  }

  /** The bundle of the trust domain: a JWK set. */
  get bundle() {
    return { keys: this.#keys.map(({ kid, publicKey }) => ({ use: "jwt-svid", kid, ...publicKey.export({ format: "jwk" }) })) };
  }

  /** The bundles of a validator: that one, by its trust domain. */
  get bundles() {
    return { [this.#domain]: this.bundle };
  }

  /** Signs by a new key from now on. The bundle has the keys of before too. */
  rotate() {
    this.#keys.push(keyOf(randomUUID()));
  }

  /** Takes all keys but the newest one out of the bundle. */
  retire() {
    this.#keys.splice(0, this.#keys.length - 1);
  }

  /** A token with these claims beside the usual ones, wrong in a named way where one is named. */
  token(claims = {}, wrong) {
    if (wrong !== undefined && !Object.hasOwn(WRONGS, wrong)) throw new RangeError(`${wrong} is none of ${Object.keys(WRONGS).join(", ")}`);
    const made = WRONGS[wrong] ?? {}, time = this.#now(), key = this.#keys.at(-1), signing = made.key?.() ?? key;
    const usual = { sub: `spiffe://${this.#domain}/client`, aud: this.#audience, exp: time + LIFE, jti: randomUUID() };
    const signed = [{ alg: "ES256", kid: key.kid, ...made.header?.() }, { ...usual, ...claims, ...made.claims?.(time) }].map(part).join(".");
    const signature = sign("SHA256", Buffer.from(signed), { key: signing.privateKey, dsaEncoding: "ieee-p1363" });
    const text = `${signed}.${signature.toString("base64url")}`;
    return made.text?.(text) ?? text;
  }
}

// (The key is read again: Node 20 hangs for ever if its collector comes while it writes a key as JWK that it has just made. What made it has the same lock.)
function keyOf(kid) {
  const type = "pkcs8", format = "der", publicKeyEncoding = { type: "spki", format };
  const made = generateKeyPairSync("ec", { namedCurve: "P-256", publicKeyEncoding, privateKeyEncoding: { type, format } });
  return { kid, privateKey: createPrivateKey({ key: made.privateKey, format, type }), publicKey: createPublicKey({ key: made.publicKey, ...publicKeyEncoding }) };
}
