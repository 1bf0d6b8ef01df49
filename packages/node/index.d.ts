/**
 * Checks SPIFFE JWT-SVIDs, and accepts each of them once. README.md has an introduction.
 *
 * All times are whole seconds since 1970. A call takes them as a number or a bigint, and answers bigints, since a token may have any number of 64
 * bits.
 */

/** The time of a call, in seconds since 1970. One of 100,000,000,000 or more, as milliseconds are, is a RangeError. */
export type Seconds = number | bigint;

declare global {
  // (what TypeScript 5.2 and the types of Node declare in the same words)
  interface SymbolConstructor {
    readonly dispose: unique symbol;
    readonly asyncDispose: unique symbol;
  }
  namespace Express {
    interface Request {
      /** What `guard` let the request in by; left out where the path is open. */
      svid?: Accepted;
    }
  }
}

/** A token in compact form, as it stands after `Authorization: Bearer`. */
export type Token = string | Uint8Array;

/** The bundle of one trust domain, a JWK set: its JSON text, or the object. A text stays as it is, since the library reads it. */
export type Bundle = string | Uint8Array | object;

/**
 * The bundles of all trust domains: an object from their names to bundles, or the JSON text of such an object. A name is `example.org`; in an
 * object it may also be `spiffe://example.org`. Put no bundle that comes from elsewhere between texts of your own: it could bring keys for
 * another trust domain.
 */
export type BundleSet = string | Uint8Array | { readonly [trustDomain: string]: Bundle };

/**
 * Whether a key made a signature.
 *
 * @param alg the algorithm's name, as "ES256"
 * @param key the key as JSON (RFC 7517), always the same text for the same key
 * @param signed the bytes that are signed
 * @param signature the signature's bytes: of ES256, ES384 and ES512 both numbers, one directly after the other
 */
export type Verify = (alg: string, key: string, signed: Uint8Array, signature: Uint8Array) => boolean | Promise<boolean>;

/** On what terms tokens are judged. */
export interface Terms {
  /** This service's own names. A token is for it where one of them is in `aud`. */
  audiences: string | Iterable<string>;
  /** How many seconds a token may still live, or that there is no limit; a token that expires later is refused as `TooLongLived`. By default 3,600. */
  longest?: Seconds | "unlimited";
  /** Verifies signatures instead of WebCrypto. Where it throws, the check throws `Unverifiable`. */
  verify?: Verify;
  /** How many bits an RSA key may have: 2,048 to 16,384, by default 4,096. It is not for `verify`. */
  rsaBits?: number;
}

/** What `Bundles.open` takes. */
export interface BundlesOptions extends Terms {
  /** The keys of each trust domain. */
  bundles: BundleSet;
}

/** A server that gives a bundle, as SPIFFE federation has it. */
export interface Endpoint {
  /** Its address, as "https://HOST/PATH". */
  url: string;
  /**
   * The SPIFFE ID of the server, which must show an X.509-SVID of it (profile https_spiffe). Left out, it must show a certificate for its name
   * (https_web).
   */
  id?: string;
  /**
   * The path of a file with who vouches for the server. Without an `id`: certificates as PEM, by default those that Node knows. With one: a bundle of
   * the ID's trust domain, by default the one that is followed here. Where the server gives its own trust domain's bundle, the file must be there,
   * and counts until the first bundle has come.
   */
  authorities?: string;
}

/** Where the bundles of a validator come from. They are looked at until it closes. */
export interface Follow {
  /** Of each trust domain the path of a file, an address as "https://HOST/PATH", or an endpoint. */
  sources?: { readonly [trustDomain: string]: string | Endpoint };
  /** A folder whose file `example.org.json` is the bundle of example.org, and so on. A file that is removed takes its trust domain with it. */
  folder?: string;
  /**
   * Is told what is wrong with a source, once until that changes; and null once it is well again. By default `process.emitWarning`, with the code
   * "SVID_BUNDLE".
   */
  onFault?: (why: Error | null, source: string) => void;
}

/**
 * How often a token is accepted. "once": once by this validator. "strict": once by all validators that share the `store`. "bound": again and again,
 * but from one caller alone, by all that share the `store`. "reuse": again and again.
 */
export type Mode = "once" | "strict" | "bound" | "reuse";

/** What is put under a key that has no owner yet. */
export interface Claim {
  /** 32 bytes by which all uses of the token are known. */
  readonly key: Uint8Array;
  /** 32 bytes that say whose claim it is. */
  readonly owner: Uint8Array;
  /** When the token expires. */
  readonly expires: bigint;
}

/** What a store answers to a claim. */
export interface Found {
  /** 32 bytes: the owner that the key has after the put. It may be that of an earlier claim. */
  readonly owner: Uint8Array;
  /** The store's time, read at the put or after it. */
  readonly time: Seconds;
  /**
   * Tokens that expire by then may have been claimed before the store lost entries: no validator accepts them. Left out, the store has never lost
   * one.
   */
  readonly deaf?: Seconds;
}

/** What a store gets beside the arguments of a call. */
export interface Asked {
  /** Is aborted once the validator is closed, so that nobody waits for the answer any more. */
  readonly signal: AbortSignal;
}

/**
 * The store of a group, which validators in the modes "strict" and "bound" share. It keeps the first claim of each token key:
 *
 * - Two puts of one key never overlap, whoever makes them.
 * - An entry stays until its token has expired by the store's own clock, and for a margin after that: at least the validators' `ahead`, and what
 *   the clock of the store may step back.
 * - Before it answers again after it may have lost entries, it increases `Found.deaf`: to its time at the loss plus the validators' `longest` plus
 *   twice their `ahead`.
 *
 * Several calls may be under way at once. A call that fails throws anything: then nobody knows what the store has, and the validator puts the same
 * claims again. A call ends within some seconds, even if the server does not answer.
 */
export interface Store {
  /**
   * Puts each claim if its key has no owner yet, and says what each key has afterwards. Answers in the order of the claims. Without claims it answers
   * an empty list: so a validator learns that the store is there. The list and its claims are frozen.
   */
  put(claims: readonly Claim[], about: Asked): Promise<readonly Found[]>;
  /**
   * Is `put`, with an Error in the place of each answer that is not there. A store whose claims are on several servers may have it: validators call it
   * instead, and put again what has no answer.
   */
  putEach?(claims: readonly Claim[], about: Asked): Promise<readonly (Found | Error)[]>;
  /**
   * From now on each put of this key finds an owner of 32 zeros, whoever claimed it before. The entry stays as one with this expiry does. What it
   * answers does not count.
   */
  withdraw(key: Uint8Array, expires: bigint, about: Asked): Promise<unknown>;
  /**
   * Gives the withdrawals that came after a position, and the position up to which it has read. The first one is ""; one that it does not know
   * reads all again. Validators in the modes "once", "bound" and "reuse" ask once a second, until the position stays. It may be left out.
   */
  withdrawals?(after: string, about: Asked): Promise<Withdrawals>;
}

/** What a store tells of withdrawals. */
export interface Withdrawals {
  /** The key of each, and when its token expires. */
  readonly these: readonly { readonly key: Uint8Array; readonly expires: Seconds }[];
  /** The position behind them. */
  readonly last: string;
}

/** What `new MemoryStore` takes. */
export interface MemoryStoreOptions {
  /** Its clock, in seconds since 1970. By default that of the machine. */
  now?: () => Seconds;
  /** For how many seconds an entry stays after its token has expired. By default 60. */
  margin?: Seconds;
  /** How many seconds a token may live that is claimed. By default 3,600. */
  lasts?: Seconds;
}

/** A store in the memory of one process, for tests. */
export class MemoryStore implements Store {
  /** Makes an empty store. */
  constructor(options?: MemoryStoreOptions);
  /** Is that of `Store`. */
  put(claims: readonly Claim[]): Promise<Found[]>;
  /** Is that of `Store`. */
  withdraw(key: Uint8Array, expires: Seconds): Promise<void>;
  /** Is that of `Store`. */
  withdrawals(after: string): Promise<Withdrawals>;
  /** Loses all entries, as a server does that crashes. */
  lose(): Promise<void>;
}

/** What `Validator.open` takes: its terms, and either bundles, or where they come from. */
export type ValidatorOptions = ValidatorTerms & ({ bundles: BundleSet; follow?: undefined } | { follow: Follow; bundles?: undefined });

/** On what terms a validator accepts tokens. */
export interface ValidatorTerms extends Terms {
  /** How often a token is accepted. By default "once". */
  mode?: Mode;
  /**
   * The store of the group. The modes "strict" and "bound" claim tokens there, and need one; in the modes "once" and "reuse" it has `withdrawals`,
   * and only these are shared. Mode "bound" needs none where it has a state folder, and then accepts tokens in this process alone.
   */
  store?: Store;
  /**
   * The path of a folder that keeps the record, so that no token that `check` answered is accepted again after a crash, a restart or a loss of power.
   * It is made where its parent is there. In mode "once" `check` returns once the disk has the use, and so does `withdraw` in each mode. In mode
   * "bound" without a store it keeps who used each token, in its folder `claims`. What `take` got is kept from the next snapshot on. One process
   * holds a folder at a time, by the command `flock` (Debian: util-linux). `svidd` writes the same files.
   *
   * `process.emitWarning` tells what an operator is to know, as of a snapshot that could not be written, with the code "SVID_STATE". For Node
   * alone.
   */
  state?: string;
  /** The clock, in seconds since 1970. By default that of the machine. A call throws TypeError where it gives no time, as undefined is none. */
  now?: () => Seconds;
  /**
   * Patterns of the SPIFFE IDs that may call (`Validator.allows`). A good token of another caller throws `NotAllowed`, and is not used up. Left out,
   * all may call. What is no pattern throws RangeError, and so does an empty list.
   */
  callers?: string | Iterable<string>;
  /** How many seconds `check`, `withdraw` and `withdrawKey` may take, until they throw `Unavailable`. At least 0.001, and by default 2. */
  wait?: number;
  /** How many seconds a message's moment, or the store's time, may lie past `now`: a little more than clocks differ. By default 30. */
  ahead?: Seconds;
  /**
   * A `now` more than so many seconds past the record's moment is answered with `Jump`, so that a wrong clock does not expire the record. By
   * default there is no limit. After a longer pause you need a new validator, so set it to more than the longest time without a call.
   */
  step?: Seconds;
  /**
   * Gets the key (`Use.key`) of a token that this validator accepted in mode "once", and another one too: once, when `take` shows it. Of messages
   * of more than 4 MiB it gets nothing. By default `process.emitWarning`, with the code "SVID_TWICE".
   */
  onTwice?: (key: Uint8Array) => void;
  /**
   * 16 bytes that name this validator among all that share its record; by default random ones. Two of one ID accept a token twice. A state folder
   * has its own.
   */
  validatorId?: Uint8Array;
}

/** What a check is given beside its token. */
export interface CheckOptions {
  /** The time of the call. By default that of the clock. */
  readonly now?: Seconds;
  /**
   * What tells who presents the token from all others, as its address or certificate, in mode "bound" alone. A text counts as its bytes in UTF-8.
   */
  readonly caller?: string | Uint8Array;
}

/** One entry of a record: a token was accepted, or withdrawn. */
export interface Use {
  /** When the token expires. The entry is dropped then. */
  readonly expires: bigint;
  /** The record's moment when the entry was made. */
  readonly at: bigint;
  /** 32 bytes by which all uses of the token are known. */
  readonly key: Uint8Array;
  /** 16 bytes that name the validator that made the entry. */
  readonly validatorId: Uint8Array;
  /** Whether the token was withdrawn, and not accepted. */
  readonly withdrawn: boolean;
  /** The entry as a message of 82 bytes, for `take` of other validators. */
  readonly message: Uint8Array;
  /** The same in numbers and texts, for `JSON.stringify`: bytes as hexadecimal digits. */
  toJSON(): object;
}

/** A token that was accepted. */
export interface Accepted {
  /** The SPIFFE ID of the token's subject, as "spiffe://example.org/billing/api". */
  readonly spiffeId: string;
  /** The trust domain of the subject, as "example.org". */
  readonly trustDomain: string;
  /** The path of the subject with its first "/", as "/billing/api"; "" where it has none. */
  readonly path: string;
  /** When the token expires. */
  readonly expires: bigint;
  /** What the record has gained, or would gain. */
  readonly use: Use;
  /** The first of the service's own audiences that the token names. Throws `Closed` once the validator is closed, unless it was read before. */
  readonly audience: string;
  /** The name of the key that signed the token, `kid`; "" where it has none. Throws as `audience` does. */
  readonly keyId: string;
  /** All claims of the token, as `JSON.parse` reads its payload: a new object each time. Throws `Closed` once the validator is closed. */
  readonly claims: { readonly [name: string]: unknown };
  /** The same in numbers and texts, for `JSON.stringify`: bytes as hexadecimal digits. Throws as `audience` does. */
  toJSON(): object;
}

/** What a token says. Nobody has vouched for it: neither signature nor times nor audience were looked at. */
export interface Says {
  /** The algorithm, as "ES256". */
  readonly alg: string;
  /** The subject. */
  readonly spiffeId: string;
  /** The trust domain of the subject. */
  readonly trustDomain: string;
  /** The name of its key, `kid`; "" where it has none. */
  readonly keyId: string;
  /** Its audiences. */
  readonly audiences: readonly string[];
  /** 32 bytes by which all uses of the token are known: `key` of `Use`. */
  readonly key: Uint8Array;
  /** When it expires. */
  readonly expires: bigint;
}

/**
 * What the header fields Authorization of a request bear: a token, or none. `several` says whether there is more than one field, and `spelling`
 * whether the scheme is Bearer, and the rest no token.
 */
export type Bearer =
  | { readonly token: Uint8Array; readonly several?: undefined; readonly spelling?: undefined }
  | { readonly token?: undefined; readonly several: boolean; readonly spelling: boolean };

/**
 * Judges tokens by bundles, without a record: a token is never `Withdrawn` or `Replayed`.
 *
 * Each method throws `Closed` after `close`, `OutOfMemory` and `Stopped`.
 */
export class Bundles {
  private constructor(ready: never);
  /** Reads bundles. Throws `BadBundles`, `OutOfMemory`, and TypeError and RangeError for options that can't be. */
  static open(options: BundlesOptions): Promise<Bundles>;
  /** Answers what a validator with an empty record would. Throws `Refusal` and `Unverifiable`. */
  judge(token: Token, now?: Seconds): Promise<Accepted>;
  /** What a token says, for a log, say. Throws `Refusal` for what is no JWT-SVID. */
  says(token: Token): Says;
  /** Finds the one bearer token of a request, by the values of all its header fields Authorization. Throws `Refusal` for one that is `TooLong`. */
  bearer(values: readonly string[]): Bearer;
  /** Frees the bundles. Closing twice does nothing. */
  close(): void;
  /** Does what `close` does, for `using`, where the platform has that. */
  [Symbol.dispose](): void;
  /** The same, for `await using`. */
  [Symbol.asyncDispose](): Promise<void>;
}

/**
 * Checks JWT-SVIDs, and remembers which were used. Make one for each process.
 *
 * Any number of checks may run at once: signatures are verified in between, and each token is accepted once.
 *
 * Each method throws `Closed` after `close`, `OutOfMemory` and `Stopped`; each with `now` throws `Jump`. Where `now` is left out or undefined, it is
 * the time of the clock. Tokens are judged at the record's moment, the greatest time that it has seen.
 */
export class Validator {
  protected constructor(ready: never);
  /**
   * Opens a validator whose record is empty, or is that of its state folder. With a store, or sources of bundles, it waits until these answer, but
   * at most for `wait`: `unready` says whether they have. Throws `BadBundles`, `OutOfMemory`, and TypeError and RangeError for options that can't
   * be. Of a state folder it throws `Held`, `BadFolder`, what the system says, and `TooFar` where the clock is behind the record that was kept.
   */
  static open(options: ValidatorOptions): Promise<Validator>;
  /** Whether tokens are to be sent to this validator: `unready` says null. */
  readonly ready: boolean;
  /**
   * The first reason why no tokens are to be sent to this validator, as a sentence, or null if it is ready. Ask it where a load balancer asks, as at
   * the path /readyz: it also tries the disk and the store again, and advances the record to `now`.
   */
  unready(now?: Seconds): string | null;
  /**
   * Accepts a token, as `mode` says. Throws `Refusal`, whose `name` says why not; `NotAllowed` for a good token of who may not call; `Unavailable` if
   * the disk or the store fails, or if the check takes longer than `wait`; and `Unverifiable`.
   *
   * @param about the time, or an object with the time and the caller. In mode "bound" it must have a caller, and in any other mode none.
   */
  check(token: Token, about?: Seconds | CheckOptions): Promise<Accepted>;
  /**
   * Answers what `check` would, but the record gains no use: `check` may still accept it. It asks no store and knows no caller: a token that another
   * validator accepted, or, in mode "bound", another caller's, may seem good to it.
   */
  judge(token: Token, now?: Seconds): Promise<Accepted>;
  /**
   * Withdraws a token until it expires: from now on it is refused as `Withdrawn`. Send the `message` of its result to the other validators.
   *
   * It verifies no signature: the token is withdrawn that has this trust domain and `jti`, or this text where it has no `jti`. Throws `Gone` for
   * an expired token, and `Refusal` for what is no JWT-SVID. Throws `Unavailable` if the disk or the store may lack it: then the token is
   * withdrawn here.
   */
  withdraw(token: Token, now?: Seconds): Promise<Use>;
  /** Withdraws the token with this key of 32 bytes (`Use.key`), which expires at `expires`. Throws `Gone` if it has expired, and `Unavailable`. */
  withdrawKey(key: Uint8Array, expires: Seconds, now?: Seconds): Promise<Use>;
  /** What a token says, for a log, say. Throws `Refusal` for what is no JWT-SVID. */
  says(token: Token): Says;
  /**
   * Whether a pattern allows a SPIFFE ID: "spiffe://example.org/billing/api" allows that ID, "spiffe://example.org/billing/*" all IDs below the path,
   * by whole segments, and "spiffe://example.org" all of the trust domain. Throws RangeError for what is no pattern, or no SPIFFE ID.
   */
  allows(pattern: string, spiffeId: string): boolean;
  /** Finds the one bearer token of a request, by the values of all its header fields Authorization. Throws `Refusal` for one that is `TooLong`. */
  bearer(values: readonly string[]): Bearer;
  /** Advances the record to `now`, and drops what has expired by then. */
  tick(now?: Seconds): void;
  /**
   * Takes messages of other validators, or a record that was saved: at most 67,108,864 bytes. Taking a message twice, or in another order, makes
   * no difference. Throws `TooFar` and `BadMessages`, and then takes none of them.
   */
  take(messages: Uint8Array, now?: Seconds): void;
  /**
   * The record as messages, each a piece of at most `size` bytes (82 at the least, by default 1,048,576), for `take`. Other calls may come in
   * between. Together they have each use that the record had at the first piece, and that is still live at the last.
   */
  parts(size?: number): IterableIterator<Uint8Array>;
  /** The whole record as messages, in one piece: to save it, or for `take` of another validator. */
  record(): Uint8Array;
  /** The moment of the record, and how many uses it has; withdrawals count too. */
  size(): { readonly moment: bigint; readonly uses: number };
  /** A message of 8,205 bytes, for a validator that is to `answer` what is missing here. */
  summary(): Uint8Array;
  /** Answers the summary of another validator: messages with the uses that it may lack. Throws `TooFar`, and `BadMessages` for no summary. */
  answer(summary: Uint8Array, now?: Seconds): Uint8Array;
  /** What the record holds, as `svid report` prints it. It is for people and for tests. Throws `BadMessages` for one of more than 67,108,864 bytes. */
  report(): string;
  /** Replaces the bundles. The record stays. Throws `BadBundles`, and then the old ones stay, and TypeError if it follows sources. */
  renew(bundles: BundleSet): void;
  /** Frees the record and the bundles, and ends once it has let go of the state folder. Closing twice does nothing. */
  close(): Promise<void>;
  /** Begins what `close` does, for `using`, where the platform has that. Take `await using` with a state folder. */
  [Symbol.dispose](): void;
  /** Does what `close` does, for `await using`. */
  [Symbol.asyncDispose](): Promise<void>;
}

/** A request, as Express and node:http have it. */
export interface Incoming {
  /** Names and values of all header fields, in turn. */
  rawHeaders: string[];
  /** The path of the request, and what follows "?". */
  url?: string | undefined;
}

/** A response, as Express and node:http have it. */
export interface Outgoing {
  statusCode: number;
  setHeader(name: string, value: string): unknown;
  end(body: string): unknown;
}

/** What middleware and listeners take beside a validator. */
export interface GuardOptions<Request extends Incoming = Incoming> {
  /**
   * Patterns of the SPIFFE IDs that may call (`Validator.allows`). Another one with a good token is answered with status 403, and the token is not
   * used up. Left out, all may call. What is no pattern throws RangeError, and so does an empty list.
   */
  allow?: string | readonly string[];
  /** Says who presents the token of a request, as the client's address. A validator in mode "bound" needs it (`CheckOptions.caller`). */
  caller?: (req: Request) => string | Uint8Array;
  /**
   * Paths that need no token, as those of health checks: "/healthz" is that path alone, and "/static/*" each path below "/static". There `req.svid`
   * is left out, and a token is not looked at. They are compared with `req.url`. What can be read in two ways is on no list. What is no path throws
   * RangeError.
   */
  openPaths?: string | readonly string[];
  /** Is told why a request was answered with status 503. By default `console.error` has the reason alone, since a request has its token. */
  onError?: (why: unknown, req: Request) => void;
  /** Is told of each `Refusal`, and of each `NotAllowed`. By default nobody is. */
  onRefusal?: (why: Refusal | NotAllowed, req: Request) => void;
}

/**
 * Middleware for Express and its like: checks the bearer token of each request, and goes on if it is good. `req.svid` is then what the check
 * answered, whatever stood there before.
 *
 * Any other request is answered with status 401 and a header WWW-Authenticate, and a good token of who may not call with status 403. Where nothing
 * can be said of the token, as while the store is away, the status is 503, with `Retry-After`. The body is JSON, with a `reason`; no cache keeps it.
 */
export function guard<Request extends Incoming = Incoming>(
  validator: Validator,
  options?: GuardOptions<Request>,
): (req: Request & { svid?: Accepted }, res: Outgoing, next: (why?: unknown) => void) => Promise<void>;

/** A listener for node:http that calls `handler` where the request has a good token, and answers any other request as `guard` does. */
export function protect<Request extends Incoming, Response extends Outgoing>(
  validator: Validator,
  handler: (req: Request & { svid: Accepted }, res: Response) => unknown,
  options?: GuardOptions<Request>,
): (req: Request, res: Response) => Promise<unknown>;

/** The base of all errors of this package. Its `name` says which one it is, and stays the same. */
export class SvidError extends Error {}

/** The token is refused, and the record has gained no use. Nothing of the token is in the error, so you can log it. */
export class Refusal extends SvidError {
  private constructor(name: never);
  /** Why: the name that the program `svid` prints. A token has the first that holds, in the order of `RefusalName`. */
  readonly name: RefusalName;
}

/** Why a token is refused, in the order in which the library looks. */
// lists:begin refusals (written by tools/lists from lists/refusals.toml)
export type RefusalName =
  /** The token has more than 65,536 bytes. */
  | "TooLong"
  /** The token has not exactly two periods. */
  | "NotThreeParts"
  /** The header is not base64url. */
  | "HeaderSpelling"
  /** The header is no JSON object. */
  | "HeaderNotObject"
  /** The header has a member `crit`. */
  | "Crit"
  /** `alg` is none of the nine algorithms RS256 to RS512, ES256 to ES512 and PS256 to PS512. */
  | "Alg"
  /** `typ` is there, and is neither "JWT" nor "JOSE". */
  | "Typ"
  /** `kid` is there, and is no string. */
  | "Kid"
  /** The payload is not base64url. */
  | "PayloadSpelling"
  /** The payload is no JSON object. */
  | "PayloadNotObject"
  /** The signature is empty, or not base64url. */
  | "SignatureSpelling"
  /** `sub` is no SPIFFE ID. */
  | "Sub"
  /** `aud` is neither a string nor a list of one or more strings. */
  | "Aud"
  /** `exp` is no whole number from 0 to 2^64-1, written with digits alone. */
  | "Exp"
  /** `nbf` is there, and is no whole number from 0 to 2^64-1. */
  | "Nbf"
  /** `jti` is there, and is no string. */
  | "Jti"
  /** No value of `aud` is one of the validator's audiences. */
  | "NotAudience"
  /** The token has expired: `exp` is not greater than the record's moment. */
  | "Expired"
  /** The token is not valid yet: `nbf` is greater than the record's moment. */
  | "NotYet"
  /** The token expires more than `longest` seconds past the record's moment. */
  | "TooLongLived"
  /** The bundles have no trust domain of this name. */
  | "UnknownDomain"
  /** The trust domain has no key that fits `alg` and `kid`. */
  | "NoKey"
  /** No key among the first 3 that fit made the signature. */
  | "BadSignature"
  /** The token was withdrawn. */
  | "Withdrawn"
  /** The token was accepted before, here or by a validator whose messages were taken. */
  | "Replayed"
// lists:end

/** The names of all refusals, in their order. */
export const REFUSALS: readonly RefusalName[];

/** The validator is closed. Make a new one. */
export class Closed extends SvidError {}

/** `now` is more than `step` seconds past the record's moment. Nothing happened. */
export class Jump extends SvidError {}

/** The token has expired, so there is nothing to withdraw. */
export class Gone extends SvidError {}

/** The messages tell of a time more than `ahead` seconds past `now`. None of them was taken. */
export class TooFar extends SvidError {}

/**
 * The trust bundles can't be read. A validator that has bundles keeps the ones that it has. Of an object of bundles the message begins with the
 * name of the first one at fault: leave that out, so that it does not hold up the others.
 */
export class BadBundles extends SvidError {}

/** The bytes are no messages of a validator. None of them was taken. */
export class BadMessages extends SvidError {
  /** A name of docs/FORMATS.md, as "Truncated"; or "TooMuch" for more than 67,108,864 bytes, or "NotSummary". */
  readonly reason: string;
  /** Which of the messages is bad, counted from 1; 0 for "TooMuch" and "NotSummary". */
  readonly number: number;
  /** The number of the bad byte in it, counted from 0. */
  readonly offset: number;
}

/** The token is good, and none of the `callers` allows its subject. Answer with status 403: the token is not used up. */
export class NotAllowed extends SvidError {}

/**
 * Nobody accepts the token: the disk or the store failed, or there was no answer in time. `cause` is what the disk said, or what the store threw
 * last, if it did. Answer with status 503. The token may be used up all the same, and then its client needs a new one.
 */
export class Unavailable extends SvidError {
  /** Why, as the `reason` of an answer with status 503: "NotReady", "NotClaimed", "NotKept", "EntriesLost" or "NotJudged". */
  readonly reason: string;
}

/** Another process has the state folder. Stop it, or give this one a folder of its own. */
export class Held extends SvidError {}

/** The state folder can't be read: a file is damaged, missing or of another version. No crash leaves such a file. The message says what to do. */
export class BadFolder extends SvidError {}

/** WebCrypto here, or your `verify`, could not say whether a key made the signature: see `cause`. Nothing was accepted. */
export class Unverifiable extends SvidError {}

/** There is no memory. Nothing was accepted, and you can make the call again. */
export class OutOfMemory extends SvidError {}

/** The library has stopped, and this validator makes no other call. Open a new one, and let it take the record that you saved last. */
export class Stopped extends SvidError {}
