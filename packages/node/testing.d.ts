/** What a service needs to test its own use of `svid`: an issuer of tokens, a clock, and a store in memory. For tests alone. */

import type { RefusalName } from "./index.js";

export { MemoryStore } from "./index.js";

/** A clock that a test sets, in whole seconds since 1970. */
export class Clock {
  /** Begins at this time, by default that of the machine. */
  constructor(time?: number);
  /** Its time, for the option `now` of a validator, of an `Issuer` and of a `MemoryStore`. */
  readonly now: () => number;
  /** Lets so many seconds pass. */
  advance(seconds: number): void;
  /** Sets it to this time. */
  set(time: number): void;
}

/** What `new Issuer` takes. */
export interface IssuerOptions {
  /** The trust domain whose keys it has. By default "example.org". */
  trustDomain?: string;
  /** The audience of its tokens, where their claims name none. */
  audience?: string;
  /** Its clock. By default that of the machine. */
  now?: () => number;
}

/** How a token can be wrong, by the name of its refusal. */
export type Wrong = Extract<RefusalName, "Expired" | "NotYet" | "NotAudience" | "BadSignature" | "NoKey" | "NotThreeParts">;

/** An issuer of tokens, with the keys of one trust domain: ES256, by node:crypto. */
export class Issuer {
  /** Makes a key. */
  constructor(options?: IssuerOptions);
  /** The bundle of the trust domain: a JWK set. */
  readonly bundle: { readonly keys: readonly object[] };
  /** That bundle, as a validator takes it. */
  readonly bundles: { readonly [trustDomain: string]: { readonly keys: readonly object[] } };
  /** Signs by a new key from now on. The bundle has the keys of before too. */
  rotate(): void;
  /** Takes all keys but the newest one out of the bundle. */
  retire(): void;
  /**
   * A token with these claims. By default it is that of `spiffe://TRUST-DOMAIN/client`, lives for 300 seconds, and has a `jti` of its own.
   *
   * @param wrong why it is to be refused. Another name throws RangeError.
   */
  token(claims?: { readonly [name: string]: unknown }, wrong?: Wrong): string;
}
