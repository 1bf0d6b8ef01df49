import type { Claim, Found, Seconds, Store, Withdrawals } from "../index.js";

/** What `PostgresStore.open` takes. */
export interface PostgresStoreOptions {
  /**
   * The address of each server, `postgres://USER@HOST/DATABASE?sslmode=verify-full`. With several, the one that is the primary is used. Without
   * `sslmode` the server must speak TLS, and nobody checks its certificate. A password may stand in a file that the variable PGPASSFILE names.
   */
  servers: string | Iterable<string>;
  /** The group's name, which is that of the schema. By default "svid". */
  group?: string;
  /** The `longest` of the validators. By default 3,600, and with twice `ahead` below 2^52: more throws RangeError. */
  longest?: Seconds;
  /** The `ahead` of the validators. By default 30. */
  ahead?: Seconds;
  /** How many servers must have a claim before it counts. By default 1. */
  replicas?: number;
  /** How many seconds a call may take. By default 2. */
  wait?: number;
  /** Is told that the store can't be looked at, or that its epoch has ended. By default `process.emitWarning`. */
  onWarning?: (text: string) => void;
}

/** What a store is at the moment. */
export interface StoreState {
  /** Names one history of the store in which nothing was lost. */
  readonly epoch: string;
  /** As in `Found`. */
  readonly deaf: bigint;
  /** The store's time, in seconds since 1970. */
  readonly time: bigint;
}

/**
 * The store has no answer. Nobody knows what it has: the same call may be made again. `reason` says why: "missing" (there is no store), "rights", "unfit" (the
 * server may lose entries, or the members don't agree), "epoch", "late" (the token expires too late), "silent", ..
 */
export class StoreFault extends Error {
  readonly reason: string;
}

/**
 * The store of a group in PostgreSQL 15 or later, over node-pg (`npm install pg`). It is a member of the same store as svidd with `--store postgres://..`:
 * services with this package and sidecars accept a token once together. An administrator makes the store by what `svidd schema` prints.
 *
 * It looks at the store once a second until `close`. Nothing of that keeps the process.
 */
export class PostgresStore implements Store {
  private constructor();
  /** Begins, and connects in the background. Throws TypeError and RangeError for what can't be used. */
  static open(options: PostgresStoreOptions): Promise<PostgresStore>;
  /**
   * Is that of `Store`. Throws StoreFault, for all claims of a call where one has no answer. A token that was withdrawn after it was claimed has the owner of
   * a withdrawn one within a second.
   */
  put(claims: readonly Claim[]): Promise<Found[]>;
  /** Is that of `Store`. Throws StoreFault where the store can't be looked at. */
  putEach(claims: readonly Claim[]): Promise<(Found | StoreFault)[]>;
  /** Is that of `Store`. Throws StoreFault. */
  withdraw(key: Uint8Array, expires: Seconds): Promise<void>;
  /**
   * The withdrawals after a position, and the position up to which these are read. Ask again until it stays. The first position is "". Throws
   * StoreFault.
   */
  withdrawals(after?: string): Promise<Withdrawals>;
  /** Looks at the store, and says what it is. Throws StoreFault. */
  state(): Promise<StoreState>;
  /** Ends all connections, and the calls that are under way. */
  close(): void;
  /** Does what `close` does, for `using`, where the platform has that. */
  [Symbol.dispose](): void;
  /** The same, for `await using`. */
  [Symbol.asyncDispose](): Promise<void>;
}
