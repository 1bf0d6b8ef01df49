// What TypeScript makes of the package, under strict: tests/package.test.mjs compiles this.

import { Bundles, MemoryStore, NotAllowed, REFUSALS, Refusal, SvidError, Unavailable, Validator, guard, protect } from "svid";
import type { Accepted, Claim, Follow, Found, RefusalName, Store, Use, Verify } from "svid";

const validator: Validator = await Validator.open({ audiences: ["ledger"], bundles: { "example.org": "{}", "other.org": { keys: [] } }, longest: 60n });
const accepted: Accepted = await validator.check("a.b.c", 1_767_225_600);
const id: string = accepted.spiffeId, expires: bigint = accepted.expires, message: Uint8Array = accepted.use.message;

// @ts-expect-error (bundles are wanted)
await Validator.open({ audiences: "ledger" });
// @ts-expect-error (bundles are given, or followed)
await Validator.open({ audiences: "ledger", bundles: "{}", follow: { folder: "bundles" } });
const follow: Follow = { folder: "bundles", sources: { "example.com": "a.json", "example.net": { url: "https://example.net/", id: "spiffe://example.net/server" } } };
const followed = await Validator.open({ audiences: "ledger", follow: { ...follow, onFault: (why, source) => console.error(why?.message, source) }, now: () => 5n });
// @ts-expect-error (a source that is well again has no fault)
const heard: Follow = { folder: "bundles", onFault: (why) => console.error(why.message) };
// @ts-expect-error (a validator that is ready has no reason)
const unready: string = followed.unready();
// @ts-expect-error (no life has this name)
await Validator.open({ audiences: "ledger", bundles: "{}", longest: "short" });
await Validator.open({ audiences: "ledger", bundles: "{}", longest: "unlimited" });
// @ts-expect-error (there is no log of a group)
await Validator.open({ audiences: "ledger", bundles: "{}", log: {} });
// @ts-expect-error (audiences are texts)
await Validator.open({ audiences: [1], bundles: "{}" });
// @ts-expect-error (a validator is opened, and not made)
new Validator();
// @ts-expect-error (what a check answers can't be changed)
accepted.spiffeId = "";
// @ts-expect-error (a check is to be awaited)
const early: Accepted = validator.check("a.b.c");
// @ts-expect-error (a token is text or bytes)
await validator.check(1);

try {
  await validator.check(new Uint8Array());
} catch (why) {
  if (why instanceof Refusal) {
    const name: RefusalName = why.name;
    const isReplayed: boolean = name === "Replayed";
    // @ts-expect-error (no refusal has this name)
    const isOther = name === "Replaid";
    void [isReplayed, isOther];
  } else if (why instanceof SvidError) console.error(why.name, why.message);
}

const use: Use = await validator.withdraw("a.b.c");
validator.take(use.message, 5);
for (const it of validator.parts(1000)) validator.take(it);
const { moment, uses }: { moment: bigint; uses: number } = validator.size();
const names: readonly RefusalName[] = REFUSALS;

const verify: Verify = async (alg, key, signed, signature) => alg === "ES256" && key !== "" && signed.length > signature.length;
const bundles = await Bundles.open({ audiences: "ledger", bundles: new Uint8Array(), verify, rsaBits: 8192 });
bundles[Symbol.dispose]();
await bundles[Symbol.asyncDispose]();
// @ts-expect-error (bundles use nothing up)
bundles.check("a.b.c");

const store: Store = {
  put: async (claims: readonly Claim[], { signal }): Promise<Found[]> => claims.map((it) => ({ owner: it.owner, time: signal.aborted ? 0 : 1n })),
  withdraw: async (key, expires) => console.log(key.length, expires > 0n),
  withdrawals: async (after) => ({ these: [{ key: new Uint8Array(32), expires: 5 }], last: after }),
};
const strict = await Validator.open({ audiences: "ledger", bundles: "{}", mode: "strict", store, wait: 0.5, callers: ["spiffe://example.org"], onTwice: (key) => console.error(key.length) });
const reason: string | null = strict.ready ? null : strict.unready(5);
const bound = await Validator.open({ audiences: "ledger", bundles: "{}", mode: "bound", store: new MemoryStore({ margin: 5n, now: () => 5 }) });
await bound.check("a.b.c", { caller: "10.0.0.7", now: 5n });
const kept = await Validator.open({ audiences: "ledger", bundles: "{}", mode: "bound", state: "/var/lib/ledger" });
const claims: unknown = (await kept.check("a.b.c", { caller: "10.0.0.7" })).claims["sub"];
await kept.close();
await kept[Symbol.asyncDispose]();
// @ts-expect-error (a folder has a path)
await Validator.open({ audiences: "ledger", bundles: "{}", state: 7 });
const isKnown = (why: unknown): boolean => why instanceof NotAllowed || (why instanceof Unavailable && why.cause !== undefined);
guard(bound, { caller: (req: { rawHeaders: string[]; socket: { remoteAddress?: string } }) => req.socket.remoteAddress ?? "" });
await bound.check("a.b.c", { caller: new Uint8Array(4) });
guard(bound, { caller: () => new Uint8Array(4), allow: "spiffe://example.org", openPaths: "/healthz" });
const each: Store = { ...store, putEach: async (claims) => claims.map(() => new Error("its server is away")) };
await Validator.open({ audiences: new Set(["ledger"]), bundles: { "example.org": new Uint8Array() }, mode: "strict", store: each, validatorId: new Uint8Array(16), ahead: 5, step: 100n });
await Validator.open({ audiences: "ledger", follow: { sources: { "example.com": { url: "https://example.com/", authorities: "web.pem" } } } });
// @ts-expect-error (no mode has this name)
await Validator.open({ audiences: "ledger", bundles: "{}", mode: "twice" });
// @ts-expect-error (a store has both)
await Validator.open({ audiences: "ledger", bundles: "{}", mode: "strict", store: { put: store.put } });
// @ts-expect-error (a caller is text or bytes)
await bound.check("a.b.c", { caller: 7 });
// @ts-expect-error (a judgment asks for no caller)
await bound.judge("a.b.c", { caller: "10.0.0.7" });

const middleware = guard(validator, { onError: (why, req) => console.error(why, req.rawHeaders), openPaths: ["/healthz"], onRefusal: (why) => console.log(why.name) });
// (@types/express extends this one)
const ofExpress = (req: Express.Request): string => `${req.svid?.audience} ${req.svid?.keyId} ${JSON.stringify(req.svid)}`;
// @ts-expect-error (a path that is open has none)
const unsure = (req: Express.Request): string => req.svid.spiffeId;
const listener = protect(validator, (req: { rawHeaders: string[]; svid: Accepted }, res: { statusCode: number; setHeader(name: string, value: string): void; end(text?: string): void }) => res.end(req.svid.spiffeId));
const bearer = validator.bearer(["Bearer a"]);
if (bearer.token) await validator.check(bearer.token);
else console.log(bearer.several || bearer.spelling);
void [claims, followed, heard, unready, ofExpress, unsure, id, expires, message, early, moment, uses, names, middleware, listener, reason, isKnown];
