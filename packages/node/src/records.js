// What callers get of a token that was accepted or withdrawn, and how `JSON.stringify` writes it.

/** The hexadecimal digits of bytes. */
export const hexOf = (bytes) => Array.from(bytes, (it) => it.toString(16).padStart(2, "0")).join("");
// A number of 64 bits: as a text where JavaScript's numbers do not have it.
const numberOf = (it) => (it <= Number.MAX_SAFE_INTEGER ? Number(it) : String(it));
const written = (it) => (typeof it === "bigint" ? numberOf(it) : it instanceof Uint8Array ? hexOf(it) : it);
const listed = (fields) => Object.fromEntries(Object.entries(fields).map(([name, it]) => [name, written(it)]));

/** One entry of a record. */
export class Use {
  constructor({ expires, at, key, validatorId }, withdrawn, message) {
    this.expires = expires;
    this.at = at;
    this.key = key;
    this.validatorId = validatorId;
    this.withdrawn = withdrawn;
    this.message = message;
  }

  /** The same in numbers and texts: bytes as hexadecimal digits. */
  toJSON() {
    return listed(this);
  }
}

/** A token that was accepted. What few callers want of it is read when they ask: that takes as long as to judge it. */
export class Accepted {
  #own;
  #says;
  #said;
  #claims;

  /** @param own the audiences of the service @param says reads the token @param claims reads its payload */
  constructor({ spiffeId, trustDomain, path }, use, own, says, claims) {
    this.spiffeId = spiffeId;
    this.trustDomain = trustDomain;
    this.path = path;
    this.expires = use.expires;
    this.use = use;
    this.#own = own;
    this.#says = says;
    this.#claims = claims;
  }

  /** All claims of the token, as `JSON.parse` reads its payload: a new object each time. */
  get claims() {
    return this.#claims();
  }

  /** The first audience of the service that the token names. */
  get audience() {
    const { audiences } = this.#read();
    return this.#own.find((it) => audiences.includes(it));
  }

  /** The name of the key that signed it; "" where it has none. */
  get keyId() {
    return this.#read().keyId;
  }

  /** The same in numbers and texts. */
  toJSON() {
    return { ...listed(this), audience: this.audience, keyId: this.keyId };
  }

  #read() {
    return (this.#said ??= this.#says());
  }
}
