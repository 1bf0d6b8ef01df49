// Verifies signatures by WebCrypto: is this signature good for this key?
//
// The library says which key can be used with an algorithm, and gives it as SubjectPublicKeyInfo. A key that it does not give, or that
// WebCrypto does not read, made no signature. What WebCrypto can't do is an error, and no answer.

import { SvidError, Unverifiable } from "./errors.js";
import { webCrypto } from "./given.js";

// Each algorithm of a token, in the words of WebCrypto.
// lists:begin algorithms (written by tools/lists from lists/algorithms.toml)
const ALGORITHMS = {
  RS256: { family: "RSASSA-PKCS1-v1_5", hash: "SHA-256" },
  RS384: { family: "RSASSA-PKCS1-v1_5", hash: "SHA-384" },
  RS512: { family: "RSASSA-PKCS1-v1_5", hash: "SHA-512" },
  ES256: { family: "ECDSA", hash: "SHA-256", curve: "P-256" },
  ES384: { family: "ECDSA", hash: "SHA-384", curve: "P-384" },
  ES512: { family: "ECDSA", hash: "SHA-512", curve: "P-521" },
  PS256: { family: "RSA-PSS", hash: "SHA-256" },
  PS384: { family: "RSA-PSS", hash: "SHA-384" },
  PS512: { family: "RSA-PSS", hash: "SHA-512" },
};
// lists:end

/** Verifies signatures, and keeps each key that it has read. */
export class Verifier {
  #library;
  #mostBits;
  #own;
  #keys = new Map();

  /** @param own a verifier of the service's own: called with the algorithm, the key as JSON, what is signed, and the signature */
  constructor(library, mostBits, own) {
    this.#library = library;
    this.#mostBits = mostBits;
    this.#own = own;
  }

  /** Drops the keys of bundles that were replaced. */
  forget() {
    this.#keys.clear();
  }

  /**
   * The first row whose key made the signature: `{ number, row }`. Where none did, `{ unverifiable }` is the error of the first that could
   * not be asked, if there is one. Throws where the library has no memory.
   */
  async first({ rows, signed, signature }) {
    let unverifiable;
    for (let number = 0; number < rows.length; number++) {
      const row = rows[number];
      try {
        // (what a verifier of the service's own answers counts as yes if it is `true`, and not if it is an object, say)
        if ((await this.#made(row, signed, signature)) === true) return { number, row };
      } catch (why) {
        if (why instanceof SvidError) throw why;
        unverifiable ??= new Unverifiable({ cause: why });
      }
    }
    return { unverifiable };
  }

  #made({ alg, key }, signed, signature) {
    return this.#own ? this.#own(alg, key, signed, signature) : this.#verified(alg, key, signed, signature);
  }

  async #verified(alg, key, signed, signature) {
    const name = `${alg} ${key}`;
    if (!this.#keys.has(name)) {
      const read = this.#read(alg, key);
      this.#keys.set(name, read);
      // (a key that could not be read this time may be read the next time)
      read.catch(() => this.#keys.get(name) === read && this.#keys.delete(name));
    }
    const public_ = await this.#keys.get(name);
    if (!public_) return false;
    const { family, hash } = ALGORITHMS[alg];
    // (OpenSSL, in Node, takes a shorter one for RSA-PSS, and NSS, in Firefox, any even length for ECDSA)
    if (signature.length !== lengthBy(public_.algorithm)) return false;
    const saltLength = Number(hash.slice(4)) / 8;
    return (await webCrypto()).subtle.verify({ name: family, hash, saltLength }, public_, signature, signed);
  }

  // A key as WebCrypto has it, or null where it makes no signature.
  async #read(alg, key) {
    const der = this.#library.spki(key, alg, this.#mostBits);
    if (!der) return null;
    const { family, hash, curve } = ALGORITHMS[alg];
    try {
      return await (await webCrypto()).subtle.importKey("spki", der, { name: family, hash, namedCurve: curve }, false, ["verify"]);
    } catch (why) {
      if (why?.name === "DataError") return null; // (a point that is not on its curve)
      throw why;
    }
  }
}

// How many bytes a signature by a key has: as many as its modulus (RFC 8017, sections 8.1.2 and 8.2.2), or r and s, each as long as the order of its
// curve (RFC 7518, section 3.4).
function lengthBy({ modulusLength, namedCurve }) {
  return namedCurve ? 2 * Math.ceil(Number(namedCurve.slice("P-".length)) / 8) : Math.ceil(modulusLength / 8);
}
