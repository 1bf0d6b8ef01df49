// Requests, and their answers: the modes, the store of a group, deadlines and readiness.

import assert from "node:assert/strict";
import { test } from "node:test";
import { imported } from "./ending.mjs";
import { PACKAGE, PATIENCE, counted, gate, issuer, listed, now, run, said, seen, token, until, within } from "./making.mjs";

const { MemoryStore, SvidError, Unavailable, Validator } = await imported();
const { sentences } = await listed();

const LONG = 600; // seconds that no test waits
const one = issuer(), terms = { audiences: "ledger", bundles: one.bundles, wait: LONG };
const PREFIX = "spiffe://example.org/billing";

// A store whose calls do `before` what is put, and `after` it, as a test wants.
class Fickle {
  constructor(options) {
    this.store = new MemoryStore(options);
    this.puts = [];
    this.before = this.after = () => {};
  }
  async put(claims, { signal }) {
    this.signal = signal;
    if (claims.length) this.puts.push(claims);
    await this.before();
    const found = await this.store.put(claims);
    await this.after();
    return found;
  }
  async withdraw(key, expires) {
    await this.before();
    await this.store.withdraw(key, expires);
  }
}

const strict = (store, options) => within("opening", Validator.open({ ...terms, mode: "strict", store, ...options }));
const bound = (store, options) => within("opening", Validator.open({ ...terms, mode: "bound", store, ...options }));
const away = () => Promise.reject(new Error("the store is away"));
const times = (count, make) => Array.from({ length: count }, (_, n) => make(n));

// Timers that keep the process: each request that waits has one of them, and no other one is set while a test looks.
const timers = () => process.getActiveResourcesInfo().filter((it) => it === "Timeout").length;

// The store answers nothing until `open` is called.
function held(store) {
  const it = gate();
  store.before = () => it.passed;
  return {
    open() {
      store.before = () => {};
      it.open();
    },
  };
}

// -- Modes

test("in mode reuse a token may come again, until it is withdrawn", async () => {
  const validator = await Validator.open({ ...terms, mode: "reuse" }), text = token(one);
  for (let n = 0; n < 3; n++) assert.equal((await validator.check(text)).path, "/billing/api");
  assert.equal(validator.size().uses, 0);
  // (another validator takes the message)
  const other = await Validator.open({ ...terms, mode: "reuse" }), { message } = await validator.withdraw(text);
  assert.equal(await said(other.check(text)), "accepted");
  other.take(message);
  for (const it of [validator, other]) {
    assert.equal(await said(it.check(text)), "Withdrawn");
    it.close();
  }
});

test("a store is given in the modes that claim tokens, and in no other one", async () => {
  const { put, withdraw } = new MemoryStore(), store = { put, withdraw };
  const wrong = [{ mode: "strict" }, { mode: "bound" }, { store }, { mode: "once", store }, { mode: "reuse", store }, { mode: "strict", store: {} }];
  for (const it of wrong) await assert.rejects(Validator.open({ ...terms, ...it }), TypeError);
  for (const mode of ["twice", "", "toString", null, 1]) {
    await assert.rejects(Validator.open({ ...terms, mode, store }), { name: "RangeError", message: /^mode is one of once, strict, bound, reuse, and not/ });
  }
  const due = { name: "RangeError", message: "wait is a number of seconds, and at least 0.001" };
  for (const wait of [0, 0.0009, -1, NaN, "2", null, 2n]) await assert.rejects(Validator.open({ ...terms, wait }), due);
  for (const wait of [0.001, 0.5, 1e300, Infinity]) (await Validator.open({ ...terms, wait })).close();
});

test("of many checks of one token at once one is accepted, and one claim goes out", async () => {
  const store = new Fickle(), validator = await strict(store, { wait: LONG, verify: () => true }), text = token(one), hold = held(store);
  const answers = times(3000, () => said(validator.check(text)));
  await until(() => store.puts.length);
  hold.open();
  assert.deepEqual(counted(await Promise.all(answers)), { accepted: 1, Replayed: 2999 });
  assert.deepEqual(store.puts.map((it) => it.length), [1]);
  assert.equal(validator.size().uses, 1);
  validator.close();
});

test("validators of one store accept each token once", async () => {
  const store = new MemoryStore(), both = [await strict(store), await strict(store)], tokens = times(20, () => token(one));
  const answers = await Promise.all(tokens.map((text) => Promise.all([0, 1, 0, 1].map((n) => said(both[n].check(text))))));
  for (const it of answers) assert.deepEqual(counted(it), { accepted: 1, Replayed: 3 });
  for (const it of both) it.close();
});

test("over a store that fails now and then, and is slow, no token is accepted twice", async () => {
  const store = new Fickle(), both = [await strict(store, { wait: 0.2 }), await strict(store, { wait: 0.2 })], tokens = times(40, () => token(one));
  let seed = 7;
  const chance = (most) => (seed = (seed * 48_271) % 2_147_483_647) % most;
  store.before = store.after = async () => {
    const drawn = chance(8);
    if (drawn < 2) await away();
    if (drawn === 2) await new Promise((resolve) => setTimeout(resolve, 30));
  };
  const answers = [];
  for (const it of both) await until(() => it.ready);
  // (on a busy machine all of them may be late)
  await until(async () => {
    await Promise.all(times(8, async (n) => {
      for (let at = 0; at < tokens.length; at++) {
        const text = tokens[(at * 7 + n * 5) % tokens.length];
        answers.push([text, await said(both[n % 2].check(text))]);
      }
    }));
    return answers.some(([, it]) => it === "accepted");
  });
  const names = Object.keys(counted(answers.map(([, it]) => it))), won = answers.filter(([, it]) => it === "accepted").map(([it]) => it);
  assert.deepEqual(names.filter((it) => !["accepted", "Replayed", "Unavailable"].includes(it)), []);
  assert.equal(new Set(won).size, won.length);
  for (const it of both) it.close();
});

test("a life takes no claims of the one before for its own", async () => {
  const store = new MemoryStore(), text = token(one), validatorId = new Uint8Array(16).fill(7);
  for (const due of ["accepted", "Replayed"]) {
    const validator = await strict(store, { validatorId });
    assert.equal(await said(validator.check(text)), due);
    validator.close();
  }
});

test("a token is bound to its caller, in the whole group", async () => {
  const store = new MemoryStore(), both = [await bound(store), await bound(store)], text = token(one);
  const owner = "10.0.0.7", thief = "10.0.0.70";
  for (const it of [...both, both[0]]) {
    assert.equal((await it.check(text, { caller: owner })).path, "/billing/api");
    assert.equal(await said(it.check(text, { caller: Buffer.from(owner), now: now() })), "accepted");
    assert.equal(await said(it.check(text, { caller: thief })), "Replayed");
  }
  await both[0].withdraw(text);
  for (const it of both) assert.equal(await said(it.check(text, { caller: owner })), "Withdrawn");
  for (const it of both) it.close();
});

test("a caller whose bytes change during its check is the one that it was", async () => {
  const validator = await bound(new MemoryStore()), text = token(one), owner = Uint8Array.of(1), caller = Uint8Array.of(2);
  assert.equal(await said(validator.check(text, { caller: owner })), "accepted");
  const thief = said(validator.check(text, { caller }));
  caller.set(owner);
  assert.equal(await thief, "Replayed");
  validator.close();
});

test("a caller is given in mode bound, and in no other one", async () => {
  const checks = await bound(new MemoryStore()), others = [await Validator.open(terms), await strict(new MemoryStore())], text = token(one);
  for (const it of [undefined, {}, now(), { now: now() }]) await assert.rejects(checks.check(text, it), { name: "TypeError", message: /in the mode bound/ });
  for (const caller of [null, 7, ["a"], {}, new ArrayBuffer(3)]) await assert.rejects(checks.check(text, { caller }), TypeError);
  for (const it of others) {
    await assert.rejects(it.check(text, { caller: "a" }), { name: "TypeError", message: /in no other one/ });
    await assert.rejects(it.check(text, { now: now(), who: "a" }), { name: "TypeError", message: /no who/ });
    assert.equal(await said(it.check(text, { now: now() })), "accepted");
  }
  for (const it of [checks, ...others]) it.close();
});

// -- The store

test("a check that is late leaves its claim to this life", async () => {
  const store = new Fickle(), before = timers(), validator = await strict(store, { wait: 0.2 }), text = token(one), hold = held(store);
  const why = await validator.check(text).catch((it) => it);
  assert.ok(why instanceof Unavailable);
  assert.equal(why.message, sentences("LATE"));
  assert.equal(timers(), before);
  hold.open();
  assert.equal(await inTime(validator, text), "accepted");
  assert.equal(await inTime(validator, text), "Replayed");
  validator.close();
});

test("claims are put again and again to a store that does not answer, and its error is told", async () => {
  const store = new Fickle(), validator = await strict(store, { wait: 0.3 }), text = token(one);
  store.before = away;
  await until(async () => {
    const before = store.puts.length, why = await validator.check(text).catch((it) => it);
    assert.equal(why.name, "Unavailable");
    return why.cause?.message === "the store is away" && store.puts.length > before + 1; // (a check that is late before it was put has no cause)
  });
  store.before = () => {};
  assert.equal(await inTime(validator, text), "accepted");
  validator.close();
});

test("a claim whose answer was lost is put again, and finds its own entry", async () => {
  const store = new Fickle(), validator = await strict(store, { wait: LONG }), text = token(one);
  store.after = () => {
    store.after = () => {};
    return away();
  };
  assert.equal(await said(validator.check(text)), "accepted");
  assert.equal(store.puts.length, 2);
  assert.deepEqual(store.puts[0], store.puts[1]);
  assert.equal(await said(validator.check(text)), "Replayed");
  validator.close();
});

test("an entry of another owner refuses the token, and one of zeros withdraws it", async () => {
  for (const [byte, due, uses] of [[7, "Replayed", 0], [0, "Withdrawn", 1]]) {
    const store = new Fickle(), put = store.put.bind(store);
    store.put = async (...given) => (await put(...given)).map((it) => ({ ...it, owner: new Uint8Array(32).fill(byte) }));
    const validator = await strict(store);
    assert.equal(await said(validator.check(token(one))), due);
    assert.equal(validator.size().uses, uses);
    validator.close();
  }
});

test("what is no answer counts as none: the claim is put again", async () => {
  const wrong = [
    () => [], (it) => [...it, ...it], () => undefined, () => null, () => [undefined], ([it]) => [{ ...it, owner: new Uint8Array(31) }],
    ([it]) => [{ ...it, owner: undefined }], ([it]) => [{ ...it, time: undefined }], ([it]) => [{ ...it, time: NaN }], ([it]) => [{ ...it, deaf: -1 }],
  ];
  const store = new Fickle(), put = store.put.bind(store);
  let answers;
  store.put = async (claims, about) => {
    const found = await put(claims, about);
    return claims.length && answers ? answers(found) : found;
  };
  const validator = await strict(store, { wait: LONG });
  for (const it of wrong) {
    const count = store.puts.length;
    answers = (found) => (store.puts.length > count + 1 ? found : it(found));
    assert.equal(await said(validator.check(token(one))), "accepted", String(it));
    assert.equal(store.puts.length, count + 2, String(it));
  }
  // (numbers will do, and a store that has lost nothing need not say so)
  answers = (found) => found.map((it) => ({ owner: it.owner, time: Number(it.time) }));
  assert.equal(await said(validator.check(token(one))), "accepted");
  validator.close();
});

test("a claim without an answer stops no other, and is put again", async (t) => {
  let moment = performance.now(), away;
  const clock = t.mock.method(performance, "now", () => moment);
  const store = new Fickle(), why = new Error("its server is away"), names = (claims) => claims.map((it) => it.key.join());
  store.putEach = async (claims, about) => {
    const found = await store.put(claims, about);
    if (claims.length === 2) away ??= names(claims)[0];
    return names(claims).map((name, n) => (name === away ? why : found[n]));
  };
  const validator = await strict(store, { verify: () => true }), answers = [], all = times(3, () => said(validator.check(token(one))).then((it) => answers.push(it)));
  // (the first call goes out at once, and the next one, which has both others, 20 ms later)
  await new Promise((resolve) => setImmediate(resolve));
  moment += 20;
  await until(() => answers.length === 2);
  clock.mock.restore();
  await until(() => store.puts.filter((it) => names(it).includes(away)).length > 2);
  assert.equal(answers.length, 2);
  assert.equal(validator.ready, true);
  away = "";
  await Promise.all(all);
  assert.deepEqual(answers, times(3, () => "accepted"));
  // (a store that has put alone may say so too)
  const other = new Fickle(), put = other.put.bind(other);
  let wrongs = 0;
  other.put = async (...given) => (await put(...given)).map((it) => (wrongs++ ? it : why));
  const checks = await strict(other);
  assert.equal(await said(checks.check(token(one))), "accepted");
  assert.equal(other.puts.length, 2);
  for (const it of [validator, checks]) it.close();
});

test("a store that changes the list of claims, or a claim, throws, and nothing is accepted", async () => {
  const changes = [(claims) => claims.push(claims.pop()), (claims) => (claims[0].owner = new Uint8Array(32).fill(7))];
  for (const change of changes) {
    const store = new Fickle(), put = store.put.bind(store);
    store.put = async (claims, about) => {
      if (claims.length) change(claims);
      return put(claims, about);
    };
    const validator = await strict(store, { wait: 0.2 });
    await until(async () => {
      const why = await validator.check(token(one)).then(() => ({ name: "accepted" }), (it) => it);
      assert.equal(why.name, "Unavailable");
      return why.cause instanceof TypeError;
    });
    assert.equal(store.puts.length, 0);
    validator.close();
  }
});

test("a claim whose key a store has changed is put again with its own key", async () => {
  const changes = [(it) => it.key.reverse(), (it) => structuredClone(it.key, { transfer: [it.key.buffer] })];
  for (const change of changes) {
    const store = new Fickle(), validator = await strict(store, { wait: LONG }), text = token(one), keys = [];
    store.before = () => {
      const [claim] = store.puts.at(-1);
      keys.push(Buffer.from(claim.key));
      if (keys.length > 1) return;
      change(claim);
      throw new Error("the store is away");
    };
    assert.equal(await said(validator.check(text)), "accepted");
    const { key } = validator.says(text);
    assert.deepEqual(keys, [Buffer.from(key), Buffer.from(key)]);
    validator.close();
  }
});

test("many claims share a call, and 256 at the most", async (t) => {
  let moment = performance.now();
  const clock = t.mock.method(performance, "now", () => moment);
  const store = new Fickle(), validator = await strict(store, { verify: () => true }), hold = held(store);
  const answers = times(700, () => said(validator.check(token(one))));
  // (all claims wait by then, and the next call goes out 20 ms later)
  await new Promise((resolve) => setImmediate(resolve));
  await until(() => {
    moment += 20;
    return store.puts.flat().length === 700;
  });
  hold.open();
  assert.deepEqual(counted(await Promise.all(answers)), { accepted: 700 });
  clock.mock.restore();
  const counts = store.puts.map((it) => it.length);
  assert.equal(Math.max(...counts), 256);
  assert.ok(counts.length < 12, String(counts));
  assert.equal(new Set(store.puts.flat().map((it) => it.key.join())).size, 700);
  validator.close();
});

test("a call that hangs does not hold up the others", async () => {
  const store = new Fickle(), validator = await strict(store, { wait: LONG }), hold = gate();
  store.before = () => (store.puts.length === 1 ? hold.passed : undefined);
  let first;
  const checked = said(validator.check(token(one))).then((it) => (first = it));
  await until(() => store.puts.length);
  for (let n = 0; n < 3; n++) assert.equal(await said(validator.check(token(one))), "accepted");
  assert.equal(first, undefined);
  hold.open();
  assert.equal(await checked, "accepted");
  validator.close();
});

test("a claim whose check is late is not put any more", async () => {
  const store = new Fickle(), validator = await strict(store, { wait: 0.2 }), hold = gate();
  store.before = () => (store.puts.length === 1 ? hold.passed.then(away) : undefined);
  let late;
  await until(async () => {
    assert.equal(await said(validator.check((late = token(one)))), "Unavailable");
    return store.puts.length > 0; // (a busy machine may be late with the claim itself)
  });
  hold.open();
  // (what has no answer is put again within 250 ms)
  const begun = performance.now();
  await until(() => performance.now() > begun + 300);
  assert.equal(await inTime(validator, token(one)), "accepted");
  const key = Buffer.from(validator.says(late).key);
  assert.deepEqual(store.puts.map((it) => it.some((claim) => key.equals(claim.key))), [true, ...store.puts.slice(1).map(() => false)]);
  validator.close();
});

test("a claim whose check is late is not put, though nobody has looked at the time", async (t) => {
  let moment = performance.now();
  const clock = t.mock.method(performance, "now", () => moment);
  const store = new Fickle(), validator = await strict(store, { wait: LONG, verify: () => true }), hold = held(store);
  const first = said(validator.check(token(one)));
  await until(() => store.puts.length);
  const second = said(validator.check(token(one)));
  // (it waits for the first call, or for its time to go out, which does not come)
  await new Promise((resolve) => setImmediate(resolve));
  moment += 1000 * LONG;
  assert.equal(await second, "Unavailable");
  clock.mock.restore();
  assert.equal(store.puts.length, 1);
  hold.open();
  validator.close();
  assert.equal(await first, "Closed");
});

test("tokens that may have been claimed before a store lost entries are not accepted", async () => {
  const store = new MemoryStore({ lasts: 3620 }), validator = await strict(store, { longest: 3600 });
  assert.equal(await said(validator.check(token(one))), "accepted");
  assert.equal(validator.unready(), null);
  await store.lose();
  await assert.rejects(validator.check(token(one)), { name: "Unavailable", message: sentences("CLAIM_DEAF") });
  assert.equal(validator.unready(), sentences("DEAF"));
  assert.equal(validator.unready(now() + 60), null);
  validator.close();
});

test("a token that lives longer than the store keeps it is not accepted", async () => {
  const validator = await strict(new MemoryStore({ now: () => now() - 3600 }), { longest: 3600 });
  await assert.rejects(validator.check(token(one)), { name: "Unavailable", message: sentences("CLAIM_FAR") });
  validator.close();
});

test("a store in memory keeps the first claim until its token has expired, and a margin longer", async () => {
  let clock = 1000;
  const store = new MemoryStore({ now: () => clock, margin: 10, lasts: 100 });
  const filled = (byte) => new Uint8Array(32).fill(byte), zeros = filled(0);
  const claim = (owner, key = 1, expires = 1050n) => ({ key: filled(key), owner: filled(owner), expires });
  const found = async (...claims) => (await store.put(claims)).map(({ owner, time, deaf }) => [owner[0], Number(time), Number(deaf)]);
  assert.deepEqual(await found(), []);
  assert.deepEqual(await found(claim(7), claim(8), claim(7)), [[7, 1000, 0], [7, 1000, 0], [7, 1000, 0]]);
  clock = 1059.9;
  assert.deepEqual(await found(claim(8)), [[7, 1059, 0]]);
  clock = 1060;
  assert.deepEqual(await found(claim(8)), [[8, 1060, 0]]);
  await found(claim(7, 2, 1200n));
  await store.withdraw(filled(2), 1100n);
  clock = 1209;
  assert.deepEqual((await store.put([claim(8, 2)]))[0].owner, zeros);
  await store.lose();
  assert.deepEqual(await found(claim(8, 2)), [[8, 1209, 1309]]);
});

// -- Withdrawals

test("a withdrawal reaches the other validators by the store", async () => {
  const store = new MemoryStore(), before = timers(), both = [await strict(store), await strict(store)], text = token(one);
  const use = await both[0].withdraw(text);
  assert.ok(use.withdrawn && use.message.length === 82);
  for (const it of [...both, both[1]]) assert.equal(await said(it.check(text)), "Withdrawn");
  assert.equal(both[1].size().uses, 1);
  assert.equal(timers(), before);
  for (const it of both) it.close();
});

test("a withdrawal that the store may not have says so", async () => {
  const store = new Fickle(), before = timers(), validator = await strict(store, { wait: 0.2 }), text = token(one);
  store.before = away;
  await until(async () => {
    const why = await validator.withdraw(text).catch((it) => it);
    assert.equal(why.name, "Unavailable");
    assert.match(why.message, /withdraw it again/);
    return why.cause?.message === "the store is away"; // (one that is late before the store was asked has no cause)
  });
  store.before = () => Promise.reject(); // (a store may throw anything)
  await assert.rejects(validator.withdraw(text), { name: "Unavailable", message: /withdraw it again/ });
  const hold = held(store);
  await assert.rejects(within("a withdrawal", validator.withdraw(text)), { name: "Unavailable", message: /withdraw it again/ });
  assert.equal(timers(), before);
  hold.open();
  assert.equal(await inTime(validator, text), "Withdrawn");
  await until(async () => (await said(validator.withdraw(text))) === "accepted");
  validator.close();
});

// -- Callers

test("who may not call is told so, and the token is not used up", async () => {
  const others = ["spiffe://example.org/other", "spiffe://example.com"], ours = ["spiffe://example.com", `${PREFIX}/*`];
  for (const mode of ["once", "reuse", "strict"]) {
    const options = () => ({ ...terms, mode, ...(mode === "strict" ? { store: new MemoryStore() } : {}) });
    const closed = await Validator.open({ ...options(), callers: others }), text = token(one);
    for (const name of ["check", "judge", "check"]) {
      assert.equal(await said(closed[name](text)), "NotAllowed", mode);
      assert.equal(await said(closed[name](`${text.slice(0, -6)}AAAAAA`)), "BadSignature", mode);
    }
    assert.equal(closed.size().uses, 0);
    closed.close();
    for (const callers of [ours, ours[1], new Set(ours), undefined]) {
      const opened = await Validator.open({ ...options(), callers }), good = token(one);
      for (const name of ["judge", "check"]) assert.equal(await said(opened[name](good)), "accepted", mode);
      opened.close();
    }
  }
});

test("callers that are no patterns, or none, are refused", async () => {
  for (const callers of [[], new Set()]) await assert.rejects(Validator.open({ ...terms, callers }), { name: "RangeError", message: /leave it out to let all call/ });
  for (const callers of ["", "example.org", ["spiffe://example.org", "a"], ["*"]]) {
    await assert.rejects(Validator.open({ ...terms, callers }), { name: "RangeError", message: /no pattern of SPIFFE IDs/ });
  }
  for (const callers of [[1], 1, null]) await assert.rejects(Validator.open({ ...terms, callers }), TypeError);
  await assert.rejects(Validator.open({ ...terms, audiences: ["ledger", "a\nb"], callers: `${PREFIX}/*` }), { name: "RangeError", message: /line feed/ });
});

// -- Deadlines

test("a verifier that takes too long is not waited for, and the token is not used up", async () => {
  const slow = gate(), before = timers(), validator = await Validator.open({ ...terms, verify: () => slow.passed, wait: 0.2 }), text = token(one);
  assert.equal(await said(validator.check(text)), "Unavailable");
  assert.equal(timers(), before);
  slow.open(true);
  assert.equal(await inTime(validator, text), "accepted");
  assert.equal(validator.size().uses, 1);
  validator.close();
});

test("a check has two seconds, unless an option says more", async () => {
  const validator = await Validator.open({ ...terms, wait: undefined, verify: () => gate().passed }), begun = performance.now();
  assert.equal(await said(validator.check(token(one))), "Unavailable");
  const took = performance.now() - begun;
  assert.ok(took > 1900 && took < PATIENCE * 1000, String(took));
  validator.close();
});

test("an answer of a verifier that comes too late is worth nothing for another token", async () => {
  // (a token that comes later has the handle of the one that is late)
  const slow = gate(), late = token(one), verify = (_alg, _key, signed) => (late.startsWith(Buffer.from(signed).toString()) ? slow.passed : false);
  const validator = await Validator.open({ ...terms, verify, wait: 2 });
  assert.equal(await said(validator.check(late)), "Unavailable");
  const next = said(validator.check(token(issuer())));
  validator.renew(one.bundles);
  slow.open(true);
  assert.equal(await next, "BadSignature");
  assert.equal(validator.size().uses, 0);
  validator.close();
});

test("those that wait are late one by one", async () => {
  const store = new Fickle(), before = timers(), validator = await strict(store, { wait: 0.3 }), tokens = times(4, () => token(one)), hold = held(store);
  const answers = await Promise.all(times(8, (n) => said(validator.check(tokens[n % 4]))));
  assert.deepEqual(counted(answers), { Unavailable: 8 });
  assert.equal(timers(), before);
  hold.open();
  validator.close();
});

test("who waits behind a late claim goes on", async () => {
  const store = new Fickle(), validator = await strict(store, { wait: 3 }), text = token(one), hold = gate();
  store.before = () => (store.puts.length === 1 ? hold.passed : undefined);
  const first = said(validator.check(text));
  await until(() => store.puts.length);
  const came = performance.now();
  await until(() => performance.now() > came + 1500);
  // (its turn comes as the first one is late, and it is not late itself; its claim is that of the same life)
  const second = validator.check(text);
  assert.deepEqual([await first, await said(second)], ["Unavailable", "accepted"]);
  hold.open();
  validator.close();
});

test("who waits behind a request that ends by an error has its turn", async (t) => {
  const time = now(), store = new Fickle({ now: () => time }), before = timers(), text = token(one);
  const validator = await strict(store, { wait: LONG, step: 3600 }), hold = held(store);
  validator.tick(time);
  const first = said(validator.check(text)), second = said(validator.check(text, time));
  await until(() => store.puts.length);
  const clock = t.mock.method(Date, "now", () => (time + 7200) * 1000);
  hold.open();
  assert.equal(await first, "Jump");
  clock.mock.restore();
  assert.equal(await second, "accepted");
  assert.equal(timers(), before);
  validator.close();
});

test("closing answers all that wait, and gives up what the store was asked", async () => {
  const store = new Fickle(), before = timers(), validator = await strict(store, { wait: LONG }), tokens = times(3, () => token(one)), hold = held(store);
  const answers = times(6, (n) => said(validator.check(tokens[n % 3])));
  answers.push(said(validator.withdraw(token(one))));
  await until(() => store.puts.length);
  assert.equal(store.signal.aborted, false);
  validator.close();
  assert.deepEqual(counted(await Promise.all(answers)), { Closed: 7 });
  assert.equal(timers(), before);
  assert.ok(store.signal.aborted);
  hold.open();
  for (const call of [() => validator.unready(), () => validator.ready]) assert.throws(call, { name: "Closed" });
});

test("a library that has stopped answers all that wait", async () => {
  const store = new Fickle(), before = timers();
  await store.store.put([]); // (it has an instance of its own)
  const [validator, calls] = await seen(() => strict(store, { wait: LONG })), hold = held(store);
  const answers = [said(validator.check(token(one))), said(validator.check(token(one))), said(validator.withdraw(token(one)))];
  await until(() => store.puts.length);
  assert.throws(() => calls.svid_validator_tick(2n ** 32n - 8n, 1n, 2n ** 32n - 8n), WebAssembly.RuntimeError);
  hold.open();
  assert.deepEqual(counted(await Promise.all(answers)), { Stopped: 3 });
  assert.equal(timers(), before);
  validator.close();
});

// A member over a library of the test's own, which takes a request and says what a test wants.
async function memberOver(said) {
  const { Member } = await imported("src/member.js"), pacing = { maySend: () => false, due: () => 2n ** 64n - 1n };
  const library = { openMember() {}, pacing: () => pacing, read: () => ({}), closeToken() {}, come: () => ({ what: 0, number: 1n }), ...said };
  return new Member(library, {}, { mode: "strict", store: {}, wait: LONG, own: ["ledger"], longest: 1n, ahead: 1n });
}

test("a claim that has no request does not go out, and does not come again", async () => {
  const { CLAIM } = await imported("src/library.js"), due = { what: CLAIM, number: 7n, use: { key: new Uint8Array(32), expires: 1n } };
  let looks = 0;
  const pacing = { maySend: () => (looks += 1) < 0, due: () => 2n ** 64n - 1n };
  const member = await memberOver({ send: () => due, pacing: () => pacing });
  assert.equal(member.send(due), null);
  assert.equal(looks, 0);
});

test("a request that did not come ends no process", async (t) => {
  const heard = [], hear = (why) => heard.push(why);
  process.on("unhandledRejection", hear);
  t.after(() => process.off("unhandledRejection", hear));
  const fault = new SvidError("no more"), fails = () => {
    throw fault;
  };
  const member = await memberOver({ due: fails, leave: fails });
  await assert.rejects(member.check("a", () => 1n), fault);
  member.fail(new Error("the end"));
  await new Promise((resolve) => setImmediate(resolve)); // (before that, Node says which promises failed unhandled)
  assert.deepEqual(heard, []);
});

// What a program says that ends by itself. It has the package, a garbage collector, options of a validator, and a good token.
async function programSays(body) {
  const program = `import { setFlagsFromString } from "node:v8";
    import { runInNewContext } from "node:vm";
    import { MemoryStore, Validator } from ${JSON.stringify(`${PACKAGE}/index.js`)};
    setFlagsFromString("--expose-gc");
    const gc = runInNewContext("gc"), terms = ${JSON.stringify(terms)}, token = ${JSON.stringify(token(one))};
    const end = performance.now() + ${PATIENCE * 1000};
    async function collectUntil(holds) {
      while (!holds() && performance.now() < end) {
        await new Promise((resolve) => setTimeout(resolve, 5));
        gc();
      }
    }
    ${body}`;
  const words = ["--input-type=module", "--eval", program];
  return (await run(process.execPath, words, { timeout: 2 * PATIENCE * 1000 })).stdout;
}

test("a process that has no memory for the library says so", async () => {
  const stdout = await programSays(`WebAssembly.instantiate = async () => { throw new RangeError("no memory"); };
    await Validator.open(terms).catch((why) => console.log(why.name, why.message, why.cause.name));`);
  assert.equal(stdout, "OutOfMemory The library could not be started. RangeError\n");
});

test("a validator that is dropped is freed, also while its store is away", async () => {
  const stdout = await programSays(`let started = 0, freed = 0;
    const watch = new FinalizationRegistry(() => (freed += 1)), instantiate = WebAssembly.instantiate;
    WebAssembly.instantiate = async (...given) => {
      const instance = await instantiate(...given);
      watch.register(instance.exports.memory, (started += 1));
      return instance;
    };
    const store = { put: () => Promise.reject(new Error("away")), withdraw: async () => {} };
    const open = async (options) => (await Validator.open({ ...terms, ...options })).check(token).catch(() => {});
    await open({ wait: 600 });
    await open({ wait: 600, mode: "strict", store: new MemoryStore() });
    await open({ wait: 0.05, mode: "strict", store });
    await collectUntil(() => freed === started);
    console.log(freed, "of", started);
    // (neither does one that is kept keep the process)
    globalThis.kept = await Validator.open({ ...terms, mode: "strict", wait: 0.05, store });`);
  assert.equal(stdout, "4 of 4\n");
});

test("a check keeps the process, though the timer of one before it is set yet", async () => {
  const stdout = await programSays(`let isAway = false, answer;
    const memory = new MemoryStore(), store = { put: (claims) => (isAway ? new Promise(() => {}) : memory.put(claims)), withdraw: async () => {} };
    const validator = await Validator.open({ ...terms, mode: "strict", wait: 3, store });
    await validator.check(token).catch(() => {}); // (it is late on a busy machine)
    isAway = true;
    process.on("exit", () => console.log(answer));
    answer = await validator.check(${JSON.stringify(token(one))}).catch((why) => why.name);`);
  assert.equal(stdout, "Unavailable\n");
});

test("a check has its answer though its validator was dropped", async () => {
  const stdout = await programSays(`let puts = 0;
    const store = { put: (claims) => (claims.length ? (puts++, new Promise(() => {})) : []), withdraw: async () => {} };
    const check = async () => (await Validator.open({ ...terms, mode: "strict", wait: 3, store })).check(token);
    let answer;
    check().catch((why) => (answer = why.name));
    await collectUntil(() => puts || answer);
    for (let n = 0; n < 5; n++) gc();
    // (nothing else keeps the process from here on)
    process.on("exit", () => console.log(answer));`);
  assert.equal(stdout, "Unavailable\n");
});

// -- Readiness

test("opening asks a store until it answers", async () => {
  const store = new Fickle(), before = timers();
  let asked = 0;
  store.before = () => (++asked < 3 ? away() : undefined);
  const validator = await strict(store, { wait: LONG });
  assert.deepEqual([asked, validator.ready], [3, true]);
  assert.equal(timers(), before);
  validator.close();
});

test("a store that is not there yet", async () => {
  const store = new Fickle(), before = timers();
  store.before = away;
  const validator = await strict(store, { wait: 0.1 });
  assert.equal(timers(), before);
  assert.equal(validator.unready(), sentences("STORE_UNREACHED"));
  assert.equal(validator.ready, false);
  const why = await validator.check(token(one)).catch((it) => it);
  assert.deepEqual([why.name, why.message], ["Unavailable", sentences("STORE_UNREACHED")]);
  assert.equal(store.puts.length, 0);
  store.before = () => {};
  await until(() => validator.ready);
  assert.equal(await inTime(validator, token(one)), "accepted");
  validator.close();
});

test("opening does not wait for a store longer than a check does", async () => {
  const store = new Fickle(), hold = held(store), validator = await strict(store, { wait: 0.1 });
  assert.equal(validator.unready(), sentences("STORE_UNREACHED"));
  hold.open();
  await until(() => validator.ready);
  validator.close();
});

test("a store that goes away, and comes back", async () => {
  const store = new Fickle(), validator = await strict(store, { wait: 0.1 });
  await until(() => validator.ready);
  store.before = away;
  // (on a busy machine the time of a check may be over before its claim goes out)
  await until(async () => {
    assert.equal(await said(validator.check(token(one))), "Unavailable");
    return !validator.ready;
  });
  assert.equal(validator.unready(), sentences("STORE_AWAY"));
  store.before = () => {};
  await until(() => validator.ready); // (each look asks the store)
  validator.close();
});

test("a store's withdrawals are heard in each mode but strict", async () => {
  for (const mode of ["once", "reuse", "bound"]) {
    const store = new MemoryStore(), terms_ = { ...terms, mode, store }, about = mode === "bound" ? { caller: "10.0.0.7" } : {};
    const before = token(one), later = token(one);
    const validators = [await Validator.open(terms_)];
    await validators[0].withdraw(before);
    validators.push(await Validator.open(terms_));
    for (const it of validators) assert.equal(await said(it.check(before, about)), "Withdrawn", mode);
    await validators[1].withdraw(later);
    // (a judgment asks the store nothing)
    await until(async () => (await said(validators[0].judge(later))) === "Withdrawn");
    for (const it of validators) it.close();
  }
});

test("withdrawals are read page by page, and until they are no token is judged", async () => {
  const texts = times(3, () => token(one)), store = new MemoryStore(), asked = [], hold = gate();
  const reader = await Validator.open({ ...terms, mode: "reuse" });
  const keys = texts.map((it) => reader.says(it).key), expires = now() + 3000;
  store.withdrawals = async (after, { signal }) => {
    asked.push(after);
    assert.equal(signal.aborted, false);
    if (after === "2") await hold.passed;
    const at = Number(after);
    return { these: keys.slice(at, at + 1).map((key) => ({ key, expires })), last: String(Math.min(at + 1, 3)) };
  };
  const validator = await Validator.open({ ...terms, mode: "once", store, wait: 0.1 });
  assert.equal(validator.unready(), sentences("WITHDRAWALS_UNREAD"));
  const why = await validator.check(texts[0]).catch((it) => it);
  assert.deepEqual([why.name, why.message], ["Unavailable", sentences("WITHDRAWALS_UNREAD")]);
  hold.open();
  await until(() => validator.ready);
  assert.deepEqual(asked.slice(0, 4), ["", "1", "2", "3"]);
  for (const it of texts) assert.equal(await said(validator.judge(it)), "Withdrawn");
  await until(() => asked.length > 4);
  assert.equal(asked[4], "3");
  for (const it of [validator, reader]) it.close();
});

test("opening waits until withdrawals are read, and while they are read again a validator is ready for as long as a check may take", async (t) => {
  const text = token(one), reader = await Validator.open({ ...terms, mode: "reuse" }), { key, expires } = reader.says(text), hold = gate(), up = performance.now.bind(performance);
  let asked = 0, isHeld = false, ahead = 0;
  t.mock.method(performance, "now", () => up() + ahead);
  const withdrawals = async (after) => {
    asked += 1;
    if (isHeld) await hold.passed;
    await new Promise(setImmediate);
    return { these: after === "8" ? [{ key, expires }] : [], last: String(Math.min(Number(after) + 1, 9)) };
  };
  const store = Object.assign(new MemoryStore(), { withdrawals }), validator = await bound(store);
  assert.deepEqual([validator.unready(), await said(validator.judge(text))], [null, "Withdrawn"]);
  [asked, isHeld] = [0, true];
  await until(() => asked);
  ahead = 100 * LONG; // a tenth of the time, in milliseconds
  assert.equal(validator.unready(), null);
  ahead = 2000 * LONG;
  assert.equal(validator.unready(), sentences("STORE_AWAY"));
  hold.open();
  await until(() => validator.ready);
  for (const it of [validator, reader]) it.close();
});

test("withdrawals that fail, or are none, are read again, and tell that the store is away", async () => {
  const store = new MemoryStore(), text = token(one), read = store.withdrawals.bind(store);
  const wrong = [undefined, {}, { these: [], last: 7 }, { these: [{ key: new Uint8Array(31), expires: 1 }], last: "1" }, { these: [{ key: new Uint8Array(32), expires: -1 }], last: "1" }];
  store.withdrawals = away;
  const validator = await bound(store, { wait: 1.5 }); // (longer than from one reading to the next)
  assert.equal(validator.ready, false);
  await until(async () => (await validator.check(text, { caller: "10.0.0.7" }).catch((it) => it)).cause?.message === "the store is away");
  store.withdrawals = async (after) => (wrong.length ? wrong.shift() : read(after));
  await until(() => validator.ready);
  assert.equal(wrong.length, 0);
  store.withdrawals = away;
  await until(() => validator.unready() === sentences("STORE_AWAY"));
  store.withdrawals = read;
  await until(() => validator.ready);
  validator.close();
});

test("withdrawals that could not be taken are read again", async () => {
  const store = new MemoryStore(), text = token(one), read = store.withdrawals.bind(store);
  let time = now(), told = 0;
  store.withdrawals = async (after) => {
    const is = await read(after);
    told += is.these.length;
    return is;
  };
  const validator = await Validator.open({ ...terms, mode: "reuse", store, step: 100, now: () => time }), { key, expires } = validator.says(text);
  validator.tick();
  time += 1000; // (the clock has jumped)
  await store.withdraw(key, expires);
  await until(() => told);
  time -= 1000;
  await until(async () => (await said(validator.check(text))) === "Withdrawn");
  validator.close();
});

test("a withdrawal of a token that is over holds up no other one", async () => {
  const store = new MemoryStore(), text = token(one), reader = await Validator.open({ ...terms, mode: "reuse" });
  const these = [{ key: new Uint8Array(32), expires: 1 }, { key: reader.says(text).key, expires: now() + 3000 }];
  store.withdrawals = async () => ({ these, last: "" });
  const validator = await Validator.open({ ...terms, store });
  assert.equal(await said(validator.check(text)), "Withdrawn");
  for (const it of [validator, reader]) it.close();
});

test("a store in memory tells what was withdrawn, and forgets what is over", async () => {
  let time = 1000;
  const store = new MemoryStore({ now: () => time, margin: 5 }), key = (n) => new Uint8Array(32).fill(n);
  await store.withdraw(key(1), 1010);
  await store.withdraw(key(2), 2000);
  assert.deepEqual(await store.withdrawals(""), { these: [{ key: key(1), expires: 1010n }, { key: key(2), expires: 2000n }], last: "2" });
  assert.deepEqual(await store.withdrawals("2"), { these: [], last: "2" });
  time = 1016;
  await store.withdraw(key(3), 3000);
  assert.deepEqual(await store.withdrawals(""), { these: [{ key: key(2), expires: 2000n }, { key: key(3), expires: 3000n }], last: "3" });
  assert.deepEqual(await store.withdrawals("2"), { these: [{ key: key(3), expires: 3000n }], last: "3" });
  assert.deepEqual((await store.withdrawals("of another store")).these.length, 2);
});

test("withdrawals that are read keep neither the process, nor a validator that was dropped", async () => {
  const stdout = await programSays(`let asked = 0;
    const store = { put: async () => [], withdraw: async () => {}, withdrawals: async (last) => (asked++, { these: [], last }) };
    let started = 0, freed = 0;
    const watch = new FinalizationRegistry(() => (freed += 1)), instantiate = WebAssembly.instantiate;
    WebAssembly.instantiate = async (...given) => {
      const instance = await instantiate(...given);
      watch.register(instance.exports.memory, (started += 1));
      return instance;
    };
    const open = async () => void (await Validator.open({ ...terms, mode: "once", store }));
    for (let n = 0; n < 3; n++) await open();
    await collectUntil(() => freed === started);
    console.log(asked >= 3, started - freed);
    globalThis.kept = await Validator.open({ ...terms, mode: "once", store });`);
  assert.equal(stdout, "true 0\n");
});

// A store whose withdrawals are read once at the start of a validator, and then where that is due. `pass` lets time pass by the clock that a validator
// has, and by the one that only goes ahead: while the machine is suspended, that stands still. `waits` are those of requests for a look, in
// milliseconds, and `readNext` reads as the timer would.
function suspended(t) {
  const memory = new MemoryStore(), it = { asked: 0, waits: [], before: () => {}, after: () => {}, isOver: () => false };
  const later = setTimeout, up = performance.now();
  let time = now(), ahead = 0;
  t.mock.method(performance, "now", () => up + ahead * 1000);
  t.mock.method(globalThis, "setTimeout", (body, pause, ...rest) => {
    if (pause === 0.75 * LONG * 1000) it.waits.push(pause);
    if (pause === 1000) it.readNext = body;
    const isAtOnce = it.waits.length > 0 && it.isOver();
    return later(body, pause === 1000 ? 2 ** 30 : isAtOnce ? 0 : pause, ...rest);
  });
  it.pass = (wall, upward) => {
    time += wall;
    ahead += upward;
  };
  const withdrawals = async (after) => {
    it.asked += 1;
    await it.before();
    const page = await memory.withdrawals(after);
    await it.after(); // (what was read may be old by now)
    return page;
  };
  const store = { put: (claims) => memory.put(claims), withdraw: (...given) => memory.withdraw(...given), withdrawals };
  it.open = (mode, options) => Validator.open({ ...terms, mode, store, now: () => time, ...options });
  // Another member withdraws a token meanwhile.
  it.withdraw = async (validator, text, wall = 100, upward = 0) => {
    const { key, expires } = validator.says(text);
    await store.withdraw(key, expires);
    it.pass(wall, upward);
  };
  return it;
}

test("a token that was withdrawn while the process was stopped, or the machine suspended, is refused at once", async (t) => {
  for (const mode of ["once", "reuse", "bound"]) {
    const store = suspended(t), validator = await store.open(mode), about = mode === "bound" ? { caller: "10.0.0.7" } : {};
    const tokens = times(4, () => token(one));
    assert.equal(await said(validator.check(tokens[0], about)), "accepted");
    for (let n = 0; n < 4; n++) {
      await store.withdraw(validator, tokens[n], n % 2 ? 9 : 0, n % 2 ? 0 : 8);
      assert.equal(await said(n < 2 ? validator.check(tokens[n], about) : validator.judge(tokens[n])), "Withdrawn", `${mode} ${n}`);
    }
    validator.close();
    t.mock.restoreAll();
  }
});

test("no token waits for withdrawals that were read some seconds ago", async (t) => {
  const store = suspended(t), validator = await store.open("reuse"), asked = store.asked;
  await store.withdraw(validator, token(one), 8, 6.5); // (a clock of whole seconds may say one more)
  assert.equal(await said(validator.check(token(one))), "accepted");
  store.pass(-100, 0); // (a clock may be set back)
  assert.equal(await said(validator.check(token(one))), "accepted");
  assert.equal(store.asked, asked);
  store.before = away;
  store.pass(100, 8);
  store.readNext(); // (that fails)
  await until(() => store.asked > asked);
  assert.equal(await said(validator.check(token(one))), "accepted");
  assert.deepEqual([store.waits, store.asked], [[], asked + 1]);
  validator.close();
});

test("what a store was asked before a suspension does not count after it", async (t) => {
  const store = suspended(t), validator = await store.open("reuse"), text = token(one), hold = gate();
  store.after = () => hold.passed;
  store.pass(100, 0);
  const first = said(validator.check(token(one)));
  await until(() => store.asked > 1);
  await store.withdraw(validator, text);
  const second = said(validator.check(text));
  hold.open();
  assert.deepEqual([await first, await second], ["accepted", "Withdrawn"]);
  validator.close();
});

test("requests after a suspension share a look at the store, also one that fails", async (t) => {
  for (const isAway of [false, true]) {
    const store = suspended(t), validator = await store.open("reuse"), text = token(one), hold = gate(), asked = store.asked;
    store.before = () => hold.passed.then(isAway ? away : undefined);
    await store.withdraw(validator, text);
    const answers = times(100, () => said(validator.check(text)));
    await until(() => store.waits.length === 100);
    hold.open();
    assert.deepEqual(counted(await Promise.all(answers)), { [isAway ? "accepted" : "Withdrawn"]: 100 });
    assert.equal(await said(validator.check(token(one))), "accepted");
    assert.deepEqual([store.waits.length, store.asked - asked], [100, isAway ? 1 : 2]);
    validator.close();
    t.mock.restoreAll();
  }
});

test("while a store hangs after a suspension, a request waits for a part of its time, and the next one not at all", async (t) => {
  for (const mode of ["once", "reuse", "bound"]) {
    const store = suspended(t), validator = await store.open(mode), about = mode === "bound" ? { caller: "10.0.0.7" } : {}, hold = gate();
    Object.assign(store, { before: () => hold.passed, isOver: () => true });
    await store.withdraw(validator, token(one));
    assert.equal(await said(validator.check(token(one), about)), "accepted");
    assert.equal(await said(validator.judge(token(one))), "accepted");
    assert.deepEqual(store.waits, [0.75 * LONG * 1000]);
    hold.open();
    validator.close();
    t.mock.restoreAll();
  }
});

test("a request ends in its time though the store hangs after a suspension", async (t) => {
  const store = suspended(t), validator = await store.open("reuse", { wait: 0.2 }), hold = gate();
  store.before = () => hold.passed;
  await store.withdraw(validator, token(one));
  await until(async () => (await said(validator.check(token(one)))) === "accepted");
  hold.open();
  validator.close();
});

test("closing answers who waits for a look at the store", async (t) => {
  const store = suspended(t), validator = await store.open("reuse"), hold = gate();
  store.before = () => hold.passed;
  await store.withdraw(validator, token(one));
  const answers = [said(validator.check(token(one))), said(validator.judge(token(one)))];
  await until(() => store.waits.length === 2);
  validator.close();
  assert.deepEqual(await Promise.all(answers.map((it) => within("an answer", it))), ["Closed", "Closed"]);
  hold.open();
});

test("a clock that jumps", async () => {
  const validator = await Validator.open({ ...terms, step: 3600 }), time = now();
  assert.equal(validator.unready(time), null);
  assert.equal(validator.unready(time + 7200), sentences("JUMPED"));
  assert.equal(validator.unready(time), null);
  assert.throws(() => validator.unready(Date.now()), RangeError);
  validator.close();
});

test("renewed bundles count for who waits", async () => {
  const store = new Fickle(), validator = await strict(store, { wait: LONG }), text = token(one), hold = held(store);
  const answers = times(2, () => said(validator.check(text)));
  await until(() => store.puts.length);
  validator.renew(issuer("k2").bundles);
  hold.open();
  // (a key that is gone by then lets nobody in)
  assert.deepEqual(await Promise.all(answers), ["NoKey", "NoKey"]);
  validator.close();
});

// What a check answers, once it is not too late: a wait may be short for a busy machine.
async function inTime(validator, text) {
  let answer;
  await until(async () => (answer = await said(validator.check(text))) !== "Unavailable");
  return answer;
}
