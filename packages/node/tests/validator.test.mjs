// What a validator does beside the vectors: many checks at once, withdrawals, messages, bundles, times, and running out of memory.

import assert from "node:assert/strict";
import { constants, sign } from "node:crypto";
import { readdirSync } from "node:fs";
import { cp, mkdtemp, rename, rm } from "node:fs/promises";
import { tmpdir } from "node:os";
import { join } from "node:path";
import { test } from "node:test";
import { inspect } from "node:util";
import { imported } from "./ending.mjs";
import { PACKAGE, TOP, counted, digest, exhausted, hex, issuer, listed, made, now, read, run, said, seen, token, within } from "./making.mjs";

const { Bundles, MemoryStore, REFUSALS, Refusal, SvidError, Validator } = await imported();
const { sentences } = await listed();

const one = issuer(), bundles = one.bundles;
const terms = { audiences: ["ledger"], bundles, wait: 600 }; // (a machine may be busy)

test("1,000 tokens, each sent four times at once, are each accepted once", async () => {
  const validator = await Validator.open(terms);
  const tokens = Array.from({ length: 1000 }, () => token(one));
  const answers = await Promise.all([0, 1, 2, 3].flatMap(() => tokens.map(async (it) => [it, await said(validator.check(it))])));
  assert.deepEqual(counted(answers.map(([, it]) => it)), { accepted: 1000, Replayed: 3000 });
  assert.equal(new Set(answers.filter(([, it]) => it === "accepted").map(([it]) => it)).size, 1000);
  assert.equal(validator.size().uses, 1000);
  validator.close();
});

test("an acceptance has all that it says", async () => {
  const validatorId = Uint8Array.from({ length: 16 }, (_, n) => n);
  const validator = await Validator.open({ ...terms, validatorId }), time = now();
  const accepted = await validator.check(token(one, { exp: time + 60 }), time);
  assert.deepEqual(
    [accepted.spiffeId, accepted.trustDomain, accepted.path, accepted.expires],
    ["spiffe://example.org/billing/api", "example.org", "/billing/api", BigInt(time + 60)],
  );
  const { use } = accepted;
  assert.deepEqual([use.expires, use.at, use.withdrawn, hex(use.validatorId)], [BigInt(time + 60), BigInt(time), false, hex(validatorId)]);
  assert.equal(hex(use.message), hex(validator.record()));
  assert.deepEqual(validator.size(), { moment: BigInt(time), uses: 1 });
  const bare = await validator.check(token(one, { sub: "spiffe://example.org" }), time);
  assert.deepEqual([bare.trustDomain, bare.path], ["example.org", ""]);
  validator.close();
});

test("an acceptance says which audience matched and which key signed, and is written as JSON", async () => {
  const time = now(), own = ["first", "ledger", "last"], validator = await Validator.open({ ...terms, audiences: own }), judge = await Bundles.open({ ...terms, audiences: own });
  const text = token(one, { aud: ["other", "last", "ledger"], exp: time + 60, "é": { x: [null, 1.5] } });
  const all = [await validator.judge(text, time), await validator.check(text, time), await judge.judge(text, time)];
  for (const it of all) {
    assert.deepEqual([it.audience, it.keyId], ["ledger", "k1"]);
    assert.deepEqual(it.claims, JSON.parse(Buffer.from(text.split(".")[1], "base64url")));
    assert.notEqual(it.claims, it.claims);
    const { use, ...rest } = JSON.parse(JSON.stringify(it));
    assert.deepEqual(rest, {
      spiffeId: "spiffe://example.org/billing/api", trustDomain: "example.org", path: "/billing/api", expires: time + 60, audience: "ledger", keyId: "k1",
    });
    assert.deepEqual([use.expires, use.at, use.withdrawn, use.key, use.message], [time + 60, time, false, hex(it.use.key), hex(it.use.message)]);
    assert.ok(!JSON.stringify(it).includes(text.slice(-20)) && !inspect(it, { showHidden: true, depth: 9 }).includes(text.slice(-20)));
  }
  const withdrawn = await validator.withdrawKey(new Uint8Array(32), 2n ** 60n, time);
  assert.deepEqual(JSON.parse(JSON.stringify(withdrawn)).expires, String(2n ** 60n));
  // (what was not asked for is gone with the validator)
  const late = await validator.check(token(one), time), early = await validator.check(token(one), time);
  assert.equal(early.keyId, "k1");
  validator.close();
  assert.throws(() => late.audience, { name: "Closed" });
  assert.throws(() => early.claims, { name: "Closed" });
  assert.equal(early.audience, "ledger");
});

test("a validator goes by the clock that it is given", async () => {
  let time = 1_800_000_000;
  const validator = await Validator.open({ ...terms, now: () => time }), text = token(one, { exp: time + 60 });
  assert.equal((await validator.check(text)).use.at, BigInt(time));
  assert.equal(await said(validator.check(token(one, { nbf: time + 5, exp: time + 60 }))), "NotYet");
  time += 60;
  assert.equal(await said(validator.judge(text)), "Expired");
  validator.tick();
  assert.deepEqual(validator.size(), { moment: BigInt(time), uses: 0 });
  time = Date.now();
  assert.throws(() => validator.tick(), { name: "RangeError" });
  await assert.rejects(Validator.open({ ...terms, now: 5 }), { name: "TypeError", message: /now is a function/ });
  validator.close();
});

test("a clock that gives no time is refused, and a call without one goes by the clock", async () => {
  const bundles = await Bundles.open(terms);
  for (const time of [undefined, null, NaN, "5"]) {
    const validator = await Validator.open({ ...terms, now: () => time }), text = token(one), { moment } = validator.size();
    for (const call of ["check", "judge", "withdraw"]) assert.equal(await said(validator[call](text)), "TypeError", `${call} ${time}`);
    for (const call of ["tick", "unready"]) assert.throws(() => validator[call](), TypeError, `${call} ${time}`);
    assert.throws(() => validator.take(new Uint8Array()), TypeError);
    assert.deepEqual(validator.size(), { moment, uses: 0 });
    await assert.rejects(new MemoryStore({ now: () => time }).put([]), TypeError);
    if (time !== undefined) assert.equal(await said(bundles.judge(text, time)), "TypeError");
    validator.close();
  }
  assert.throws(() => new MemoryStore({ now: 5 }), TypeError);
  const time = 1_800_000_000, validator = await Validator.open({ ...terms, now: () => time }), text = token(one, { exp: time + 60 });
  for (const about of [undefined, {}, { now: undefined }]) {
    await validator.check(token(one, { exp: time + 60 }), about);
    assert.equal(validator.size().moment, BigInt(time));
  }
  for (const call of ["judge", "withdraw"]) await validator[call](text, undefined);
  for (const call of ["tick", "unready"]) validator[call](undefined);
  validator.take(new Uint8Array(), undefined);
  assert.equal(validator.size().moment, BigInt(time));
  assert.equal(await said(bundles.judge(token(one), undefined)), "accepted");
  validator.close();
  bundles.close();
});

test("a refusal has a name and a sentence, and nothing of the token", async () => {
  const validator = await Validator.open(terms), text = token(one);
  await validator.check(text);
  const why = await validator.check(text).catch((it) => it);
  assert.ok(why instanceof Refusal && why instanceof SvidError && why instanceof Error);
  assert.equal(String(why), "Replayed: The token was accepted before, here or by a validator whose messages were taken.");
  assert.ok(!JSON.stringify({ ...why }).includes(text.slice(0, 10)));
  assert.equal(REFUSALS.at(-1), "Replayed");
  validator.close();
});

test("judge uses nothing up", async () => {
  const validator = await Validator.open(terms), text = token(one);
  for (let n = 0; n < 3; n++) assert.equal(await said(validator.judge(text)), "accepted");
  assert.equal(await said(validator.check(text)), "accepted");
  assert.equal(await said(validator.judge(text)), "Replayed");
  validator.close();
});

test("a token is a text or bytes, and no other thing", async () => {
  const validator = await Validator.open(terms), text = token(one);
  assert.equal(await said(validator.check(Buffer.from(text))), "accepted");
  assert.equal(await said(validator.check(text)), "Replayed");
  for (const it of [undefined, null, 1, {}, [], new ArrayBuffer(3)]) assert.equal(await said(validator.check(it)), "TypeError");
  for (const it of ["", "a", "\ud800.\ud800.\ud800", "ü".repeat(10), `${text}\n`, ` ${text}`]) {
    assert.ok(REFUSALS.includes(await said(validator.check(it))), it);
  }
  validator.close();
});

test("a token of any length takes no memory for more than 65,536 bytes", async () => {
  const { validator, memory } = await watched();
  const before = memory.buffer.byteLength;
  for (const it of ["a", "€", "😀"]) assert.equal(await said(validator.check(it.repeat(3_000_000))), "TooLong", it);
  assert.equal(await said(validator.check(Buffer.alloc(30_000_000, "a"))), "TooLong");
  assert.equal(await said(validator.check("a".repeat(65_536))), "NotThreeParts");
  assert.equal(await said(validator.check("a".repeat(65_537))), "TooLong");
  assert.equal(memory.buffer.byteLength, before);
  validator.close();
});

test("bytes that change while their signature is verified are judged as they were", async () => {
  // (a forged token of the same length)
  const claims = (name) => ({ sub: `spiffe://example.org/${name}`, exp: now() + 300 });
  for (const kind of [Validator, Bundles]) {
    const verified = gate(), it = await kind.open({ ...terms, verify: () => verified.passed });
    const bytes = Buffer.from(token(one, claims("good"))), forged = Buffer.from(token(issuer(), claims("evil")));
    assert.equal(bytes.length, forged.length);
    const judged = it.judge(bytes);
    bytes.set(forged);
    verified.open(true);
    assert.equal((await judged).path, "/good", kind.name);
    it.close();
  }
});

test("a renewal while a signature is verified decides by the new bundles", async () => {
  const other = issuer("k1"), verified = gate();
  const validator = await Validator.open({ ...terms, verify: () => verified.passed });
  const checked = said(validator.check(token(one)));
  validator.renew(other.bundles);
  verified.open(true);
  // (the answer of yes was to a question about the key that is gone: the token is asked about again)
  assert.equal(await checked, "accepted");
  assert.equal(verified.asked, 2);
  validator.close();
  const strict = await Validator.open(terms), text = token(one);
  const answer = said(strict.check(text));
  strict.renew(other.bundles);
  assert.equal(await answer, "BadSignature");
  strict.renew(bundles);
  assert.equal(await said(strict.check(text)), "accepted");
  strict.close();
});

test("bundles that are refused leave those that were there", async () => {
  const validator = await Validator.open(terms);
  for (const it of ["", "[]", "{", '{"example.org":{}}', { "example.org": "{}" }, { "Example": { keys: [] } }, Buffer.from([0xff])]) {
    assert.throws(() => validator.renew(it), { name: "BadBundles" }, String(it));
  }
  assert.throws(() => validator.renew(null), TypeError);
  assert.throws(() => validator.renew([]), TypeError);
  assert.equal(await said(validator.check(token(one))), "accepted");
  for (const it of ["", "[]"]) await assert.rejects(Validator.open({ ...terms, bundles: it }), { name: "BadBundles" });
  await assert.rejects(Bundles.open({ ...terms, bundles: "[]" }), { name: "BadBundles" });
  validator.close();
});

test("of bundles that can't be joined the first is named", async () => {
  const own = bundles["example.org"], none = '{"keys":[]}', validator = await Validator.open(terms);
  const nested = (depth) => `{"keys":[],"x":${"[".repeat(depth - 1)}${"]".repeat(depth - 1)}}`;
  const rows = [
    ["foreign.org", `{"keys":[]},"example.org":{"keys":[]}`, "NOT_OBJECT"], ["foreign.org", nested(127), "NOT_OBJECT"],
    ["foreign.org", "", "NOT_OBJECT"], ["foreign.org", [], "NOT_OBJECT"], ["foreign.org", null, "NOT_OBJECT"],
    ["foreign.org", {}, "KEYS"], ["foreign.org", '{"keys":7}', "KEYS"], ["Foreign", none, "DOMAIN"], ["", none, "DOMAIN"], ["", '{"example.com":{"keys":[]}}', "DOMAIN"],
    ['a":{"keys":[]},"b', none, "DOMAIN"], ["spiffe://example.org", none, "TWICE"],
  ];
  for (const [name, bundle, fault] of rows) {
    const given = { "example.org": own, [name]: bundle, "last.org": "" };
    const why = { name: "BadBundles", message: `${JSON.stringify(name)}: ${sentences(`BUNDLES_${fault}`)}` };
    for (const kind of [Validator, Bundles]) await assert.rejects(kind.open({ ...terms, bundles: given }), why, fault);
    assert.throws(() => validator.renew(given), why);
  }
  for (const it of [() => {}, Symbol("a"), undefined, 1n]) {
    const given = { "example.org": own, "foreign.org": it };
    assert.throws(() => validator.renew(given), { name: "BadBundles", message: /^"foreign\.org": .*JSON/ });
  }
  assert.equal(await said(validator.check(token(one))), "accepted");
  // (the text of all has more bytes than stand ready for it)
  validator.renew({ "example.org": own, "foreign.org": nested(126), "long.org": { keys: [], x: "x".repeat(200_000) } });
  assert.equal(await said(validator.check(token(one))), "accepted");
  validator.close();
});

test("the text of a bundle can't bring another trust domain with it", async () => {
  const other = issuer("k1", "P-256", "other.org");
  const text = `{"keys":[]},"other.org":${JSON.stringify(other.bundles["other.org"])}`;
  for (const it of [text, Buffer.from(text)]) {
    await assert.rejects(Validator.open({ ...terms, bundles: { "example.org": it } }), { name: "BadBundles" });
  }
  await assert.rejects(Validator.open({ ...terms, bundles: { "example.org": Buffer.from('\ufeff{"keys":[]}') } }), { name: "BadBundles" });
  const texts = { "example.org": JSON.stringify(bundles["example.org"]), "other.org": Buffer.from(JSON.stringify(other.bundles["other.org"])) };
  const validator = await Validator.open({ ...terms, bundles: texts });
  for (const it of [one, other]) assert.equal(await said(validator.check(token(it))), "accepted");
  // (a name may be a SPIFFE ID, and there may be none)
  validator.renew({ "spiffe://other.org": texts["other.org"] });
  assert.equal(await said(validator.check(token(other))), "accepted");
  assert.equal(await said(validator.check(token(one))), "UnknownDomain");
  validator.renew({});
  assert.equal(await said(validator.check(token(other))), "UnknownDomain");
  validator.close();
});

test("a withdrawn token is refused, here and by whoever takes the message", async () => {
  const [validator, other] = await Promise.all([Validator.open(terms), Validator.open(terms)]), text = token(one);
  const use = await validator.withdraw(text);
  assert.ok(use.withdrawn);
  assert.equal(hex(use.message), hex(validator.record()));
  other.take(use.message);
  for (const it of [validator, other]) assert.equal(await said(it.check(text)), "Withdrawn");
  const again = await validator.withdrawKey(use.key, use.expires);
  assert.equal(hex(again.key), hex(use.key));
  assert.equal(await said(validator.withdraw(token(one, { exp: now() - 1 }))), "Gone");
  assert.equal(await said(validator.withdraw("a.b")), "NotThreeParts");
  assert.equal(await said(validator.withdrawKey(new Uint8Array(31), 1)), "TypeError");
  for (const it of [undefined, null, "1", NaN, -1]) assert.equal(await said(validator.withdrawKey(new Uint8Array(32), it)), "TypeError");
  for (const it of [validator, other]) it.close();
});

test("validators that hear of a use refuse the token", async () => {
  const [validator, other, late] = await Promise.all([0, 1, 2].map(() => Validator.open(terms))), text = token(one), time = now();
  const { use } = await validator.check(text, time);
  other.take(use.message, time);
  other.take(use.message, time);
  assert.equal(await said(other.check(text, time)), "Replayed");
  late.take(validator.answer(late.summary(), time), time);
  assert.equal(await said(late.check(text, time)), "Replayed");
  assert.equal(late.report(), validator.report());
  assert.throws(() => late.take(use.message.slice(0, 81)), { name: "BadMessages", reason: "Truncated", number: 1 });
  assert.throws(() => late.take("text"), TypeError);
  assert.throws(() => late.answer(use.message), { name: "BadMessages", reason: "NotSummary" });
  for (const it of [validator, other, late]) it.close();
});

test("blanks around a bearer token are no part of it", async () => {
  const text = token(one), judges = await Promise.all([Validator.open(terms), Bundles.open(terms)]);
  for (const it of judges) {
    for (const value of [`Bearer ${text}`, `bearer   ${text} `, ` \tBearer ${text} \t `]) assert.equal(Buffer.from(it.bearer([value]).token).toString(), text);
    it.close();
  }
});

test("of a token that another one accepted too, a validator says so once", async () => {
  const keys = [], onTwice = (key) => {
    keys.push(hex(key));
    throw new Error("no logger");
  };
  const first = await Validator.open({ ...terms, onTwice }), two = await Validator.open(terms), time = now(), three = await Validator.open({ ...terms, onTwice });
  const tokens = Array.from({ length: 40 }, () => token(one)), uses = [];
  for (const it of tokens) uses.push((await two.check(it, time)).use);
  const early = await first.check(tokens[20], time);
  first.take(new Uint8Array(uses.slice(0, 20).flatMap(({ message }) => [...message])), time);
  assert.deepEqual(keys, []);
  // (of tokens that were accepted before the first messages, and after them)
  for (const [n, { use }] of [[20, early], [30, await first.check(tokens[30], time)]]) {
    for (let again = 0; again < 2; again++) {
      first.take(uses[n].message, time);
      assert.deepEqual(keys.splice(0), again ? [] : [hex(use.key)]);
    }
  }
  const { use } = await first.check(tokens[31], time);
  first.take(use.message, time);
  first.take((await three.withdrawKey(use.key, time + 60, time)).message, time);
  assert.deepEqual(keys, []);
  assert.throws(() => first.take(new Uint8Array(5)), { name: "BadMessages" });
  await assert.rejects(Validator.open({ ...terms, onTwice: 7 }), { name: "TypeError", message: "onTwice is a function" });
  const warned = new Promise((resolve) => process.once("warning", resolve));
  two.take((await three.check(tokens[35], time)).use.message, time);
  const { code, message } = await within("a warning", warned);
  assert.deepEqual([code, message.includes(hex(uses[35].key))], ["SVID_TWICE", true]);
  for (const it of [first, two, three]) it.close();
});

test("of its last 65,536 acceptances a validator says so too", async () => {
  const { Twice } = await imported("src/twice.js"), library = await (await imported("src/library.js")).Library.start();
  const [own, other] = await Promise.all([0, 1].map(() => Validator.open(terms))), text = token(one), { use } = await own.check(text);
  const twice = new Twice({ ...Object.fromEntries(["uses", "report", "messageOf"].map((it) => [it, (given) => library[it](given)])), parts: () => [], take() {} }, use.validatorId);
  twice.take(0n, new Uint8Array());
  twice.add(use);
  for (let n = 1; n <= 65_536; n++) twice.add({ key: new Uint8Array(new BigUint64Array([BigInt(n), 0n, 0n, 0n]).buffer), message: use.message });
  assert.deepEqual(twice.take(0n, (await other.check(text)).use.message).map(hex), [hex(use.key)]);
  for (const it of [own, other, library]) it.close();
});

test("a record is saved and put back, in one piece or in many", async () => {
  const validator = await Validator.open(terms), tokens = Array.from({ length: 300 }, () => token(one)), time = now();
  await Promise.all(tokens.map((it) => validator.check(it, time)));
  const whole = await Validator.open(terms), pieces = await Validator.open(terms);
  whole.take(validator.record(), time);
  const parts = [...validator.parts(82)];
  assert.equal(parts.length, 300);
  for (const it of parts) pieces.take(it, time);
  for (const it of [whole, pieces]) {
    assert.equal(digest(it.report()), digest(validator.report()));
    assert.equal(await said(it.check(tokens[7], time)), "Replayed");
    it.close();
  }
  for (const it of [81, 0, 1.5, "82"]) assert.throws(() => validator.parts(it), RangeError);
  validator.close();
});

test("a validator that is closed says so, also to a check that is on its way", async () => {
  const verified = gate();
  const validator = await Validator.open({ ...terms, verify: () => verified.passed }), text = token(one);
  const checked = said(validator.check(text));
  validator.close();
  validator.close();
  verified.open(true);
  assert.equal(await checked, "Closed");
  for (const name of ["check", "judge", "withdraw"]) assert.equal(await said(() => validator[name](text)), "Closed", name);
  for (const name of ["tick", "size", "summary", "record", "report"]) assert.throws(() => validator[name](), { name: "Closed" }, name);
  assert.throws(() => validator.take(new Uint8Array()), { name: "Closed" });
  assert.throws(() => validator.renew(bundles), { name: "Closed" });
  assert.throws(() => validator.bearer(["Bearer a"]), { name: "Closed" });
  const judge = await Bundles.open(terms);
  judge.close();
  assert.equal(await said(judge.judge(text)), "Closed");
  for (const symbol of [Symbol.dispose, Symbol.asyncDispose].filter(Boolean)) {
    for (const kind of [Validator, Bundles]) {
      const it = await kind.open(terms);
      await it[symbol]();
      assert.equal(await said(it.judge(text)), "Closed", `${kind.name} ${String(symbol)}`);
    }
  }
});

test("times are seconds, and milliseconds are refused", async () => {
  const validator = await Validator.open({ ...terms, step: 1000 }), time = now(), text = token(one, { exp: time + 300 });
  for (const it of [Date.now(), 1e11, 10n ** 11n]) assert.equal(await said(validator.check(text, it)), "RangeError");
  for (const it of [-1, NaN, Infinity, "1", -1n, null, [], new Date(), { then: 1 }, { now: null }]) {
    assert.equal(await said(validator.check(text, it)), "TypeError", String(it));
  }
  assert.equal(await said(validator.judge(text, {})), "TypeError");
  assert.equal(await said(validator.check(text, time + 0.9)), "accepted");
  assert.equal(validator.size().moment, BigInt(time));
  assert.equal(await said(validator.check(text, time + 1001)), "Jump");
  assert.throws(() => validator.tick(BigInt(time + 1001)), { name: "Jump" });
  assert.equal(await said(validator.check(text, 5)), "Replayed");
  validator.tick(time + 400);
  assert.equal(validator.size().uses, 0);
  validator.close();
});

test("a clock before 1970 is refused, and the record stays", async (t) => {
  const validator = await Validator.open(terms), text = token(one), { moment } = validator.size();
  const clock = t.mock.method(Date, "now", () => -1000);
  for (const call of ["check", "judge"]) assert.equal(await said(validator[call](text)), "TypeError", call);
  assert.throws(() => validator.tick(), TypeError);
  clock.mock.restore();
  assert.equal(validator.size().moment, moment);
  assert.equal(await said(validator.check(text)), "accepted");
  validator.close();
});

test("options that can't be are refused", async () => {
  const wrong = [
    { audiences: [] }, { audiences: "" }, { audiences: ["ledger", ""] }, { audiences: undefined }, { audiences: [1] },
    { audiences: 7 }, { audiences: {} }, { bundles: undefined }, { bundles: 1 }, { longest: -1 }, { longest: "60" }, { longest: null }, { ahead: NaN }, { step: -1n },
    { validatorId: new Uint8Array(15) }, { validatorId: "x" }, { rsaBits: 1024 }, { rsaBits: 16385 }, { rsaBits: "4096" }, { verify: 1 },
    { longest: 2n ** 64n },
  ];
  for (const it of wrong) {
    const [name] = Object.keys(it), why = await Validator.open({ ...terms, ...it }).catch((error) => error);
    assert.ok(["TypeError", "RangeError"].includes(why.name) && why.message.includes(name), `${name}: ${why}`);
  }
  assert.throws(() => new Validator(), TypeError);
  assert.throws(() => new Bundles(), TypeError);
});

test("options that change while a validator opens are those that were given", async () => {
  const other = issuer("k1"), text = token(one, { aud: "first" }), forged = token(other, { aud: "first" });
  const opening = (kind, given) => {
    const options = { ...terms, audiences: ["first"], bundles: Buffer.from(JSON.stringify(bundles)), ...given }, opens = kind.open(options);
    options.audiences[0] = "other";
    options.bundles.fill(0x20);
    options.callers?.splice(0, 1, "spiffe://example.org");
    Object.assign(options, { verify: () => true, rsaBits: 1, callers: undefined });
    return opens;
  };
  for (const kind of [Validator, Bundles]) {
    const it = await opening(kind);
    assert.deepEqual([await said(it.judge(forged)), await said(it.judge(text))], ["BadSignature", "accepted"], kind.name);
    it.close();
  }
  const admins = await opening(Validator, { callers: ["spiffe://example.org/admin"] });
  assert.equal(await said(admins.check(text)), "NotAllowed");
  admins.close();
});

test("bundles that never are any are refused", async () => {
  // (a service that forgot to wait for its bundles, say, would refuse each token)
  for (const it of [Promise.resolve(bundles), new Map(Object.entries(bundles)), new ArrayBuffer(8), new Date(), [bundles]]) {
    const due = { name: "TypeError", message: /^bundles is an object from trust domains to bundles, or the JSON text of one/ };
    for (const kind of [Validator, Bundles]) await assert.rejects(kind.open({ ...terms, bundles: it }), due);
    const validator = await Validator.open(terms);
    assert.throws(() => validator.renew(it), due);
    assert.equal(await said(validator.check(token(one))), "accepted");
    validator.close();
  }
  for (const it of [{}, Object.create(null)]) (await Validator.open({ ...terms, bundles: it })).close();
});

test("options of which two can't be end no process", async () => {
  const program = `import { Validator } from "${PACKAGE}/index.js";
    const wrong = { audiences: "ledger", validatorId: "x", follow: {} };
    for (let n = 0; n < 2; n++) await Validator.open(wrong).catch((why) => console.log(why.name));
    await import("${PACKAGE}/src/follow.js");
    setImmediate(() => console.log("there"));`;
  const { stdout } = await run(process.execPath, ["--input-type=module", "--eval", program]);
  assert.equal(stdout, "TypeError\nTypeError\nthere\n");
});

test("a log of a group is refused, and the error says how a token is accepted once in a group", async () => {
  for (const log of [{}, null]) {
    const due = { name: "TypeError", message: /^log is no option: .* write mode "strict" and give the group's store/ };
    await assert.rejects(Validator.open({ ...terms, log }), due);
  }
});

test("audiences may have any characters", async () => {
  for (const name of ["a\nb", "\u0000", "ü", " ledger "]) {
    const validator = await Validator.open({ ...terms, audiences: [name, "other"] });
    assert.equal(await said(validator.check(token(one, { aud: name }))), "accepted");
    for (const it of ["a", "b", "", "ledger"]) assert.equal(await said(validator.check(token(one, { aud: it }))), "NotAudience");
    validator.close();
  }
});

test("a token may live for an hour, unless the caller says otherwise", async () => {
  const time = now(), hour = token(one, { exp: time + 3600 }), more = token(one, { exp: time + 3601 });
  for (const kind of [Validator, Bundles]) {
    for (const [longest, due] of [[undefined, "TooLongLived"], [3601, "accepted"], ["unlimited", "accepted"]]) {
      const it = await kind.open({ ...terms, longest });
      assert.deepEqual([await said(it.judge(hour, time)), await said(it.judge(more, time))], ["accepted", due]);
      it.close();
    }
  }
});

test("of the acceptances that may prove to be others' too, the last ones alone are kept", async () => {
  const { Twice } = await imported("src/twice.js"), keyOf = (n) => new Uint8Array(Uint32Array.of(n).buffer), most = 65_536;
  const library = { parts: () => [], take() {}, uses: (it) => it, messageOf: ({ key }) => key, report: (bytes) => `\ntwice 1\n${hex(bytes.subarray(0, 4))}` };
  const twice = new Twice(library, new Uint8Array(16)), isKnown = (n) => twice.take(0n, [{ key: keyOf(n) }]).length === 1;
  assert.equal(isKnown(0), false);
  for (let n = 0; n <= 2 * most; n++) twice.add({ key: keyOf(n), message: keyOf(n) });
  assert.deepEqual([0, most - 1, most, 2 * most].map(isKnown), [false, false, true, true]);
});

test("longest bounds how long a token may live", async () => {
  for (const kind of [Validator, Bundles]) {
    const it = await kind.open({ ...terms, longest: 60 }), time = now();
    const judge = (exp) => said(it.judge(token(one, { exp }), time));
    assert.deepEqual([await judge(time + 60), await judge(time + 61)], ["accepted", "TooLongLived"]);
    it.close();
  }
});

test("bundles judge without a record, and at any time", async () => {
  const judge = await Bundles.open(terms), time = now(), text = token(one, { exp: time + 300 });
  for (let n = 0; n < 3; n++) assert.equal(await said(judge.judge(text)), "accepted");
  assert.equal(await said(judge.judge(text, time + 300)), "Expired");
  assert.equal(await said(judge.judge(text, time)), "accepted");
  assert.equal((await judge.judge(text)).use.expires, BigInt(time + 300));
  assert.equal(await said(judge.judge(token(issuer()))), "BadSignature");
  assert.equal(await said(judge.judge(token(one, { aud: "other" }))), "NotAudience");
  judge.close();
});

test("a token may have thousands of audiences", async () => {
  const aud = [...Array.from({ length: 9000 }, () => "a"), "ledger"], text = token(one, { aud });
  const validator = await Validator.open(terms);
  assert.deepEqual(validator.says(text).audiences, aud);
  assert.equal((await validator.check(text)).audience, "ledger");
  validator.close();
});

test("a token says what it says, with no one's word for it", async () => {
  const validator = await Validator.open(terms), audiences = Array.from({ length: 40 }, (_, n) => `service-${n}-${"x".repeat(n * 60)}`);
  const says = validator.says(token(issuer("other"), { aud: audiences, exp: 5 }));
  assert.deepEqual(
    [says.alg, says.spiffeId, says.trustDomain, says.keyId, says.audiences, says.expires, says.key.length],
    ["ES256", "spiffe://example.org/billing/api", "example.org", "other", audiences, 5n, 32],
  );
  assert.throws(() => validator.says("a.b"), { name: "NotThreeParts" });
  validator.close();
});

test("a key verifies by each algorithm that it may sign by", async () => {
  const { privateKey, publicKey } = made("rsa", { modulusLength: 2048 }), entry = { use: "jwt-svid", kid: "r", ...publicKey.export({ format: "jwk" }) };
  const validator = await Validator.open({ ...terms, bundles: { "example.org": { keys: [entry] } }, mode: "reuse" });
  const part = (it) => Buffer.from(JSON.stringify(it)).toString("base64url");
  for (const alg of ["RS256", "PS256", "RS512", "PS512", "RS256"]) {
    const signed = [{ alg, kid: "r" }, { sub: "spiffe://example.org/a", aud: "ledger", exp: now() + 300 }].map(part).join(".");
    const padding = alg.startsWith("PS") ? constants.RSA_PKCS1_PSS_PADDING : constants.RSA_PKCS1_PADDING;
    const made = sign(`SHA${alg.slice(2)}`, Buffer.from(signed), { key: privateKey, padding, saltLength: constants.RSA_PSS_SALTLEN_DIGEST });
    assert.equal(await said(validator.check(`${signed}.${made.toString("base64url")}`)), "accepted", alg);
  }
  validator.close();
});

test("a verifier gets a key as it stands in the bundles now", async () => {
  const notes = [], verify = (_, key) => notes.push(JSON.parse(key).z) > 0;
  const noted = (length, note) => ({ "example.org": { keys: [{ ...one.entry, more: "-".repeat(length), z: note }] } });
  const validator = await Validator.open({ ...terms, bundles: noted(0, ""), verify, mode: "reuse" });
  const all = [0, 1, 2, 3].flatMap((length) => ["1", "2"].map((note) => [length, note])); // (keys that differ at their end, wherever that stands in a word)
  for (const it of all) {
    validator.renew(noted(...it));
    assert.equal(await said(validator.check(token(one))), "accepted");
  }
  assert.deepEqual(notes, all.map(([, note]) => note));
  validator.close();
});

test("a library that could not be read is read the next time", async () => {
  const room = await mkdtemp(join(tmpdir(), "svid-library-")), file = join(room, "svid.wasm");
  try {
    await cp(PACKAGE, room, { recursive: true });
    await rename(file, `${file}.away`);
    const { Validator } = await import(join(room, "index.js"));
    await assert.rejects(Validator.open(terms), { code: "ENOENT" });
    await rename(`${file}.away`, file);
    (await Validator.open(terms)).close();
  } finally {
    await rm(room, { recursive: true });
  }
});

test("what can't be verified is an error, and never let in", async () => {
  const fails = () => Promise.reject(new Error("no such algorithm"));
  for (const kind of [Validator, Bundles]) {
    const it = await kind.open({ ...terms, verify: fails });
    const why = await it.judge(token(one)).catch((error) => error);
    assert.deepEqual([why.name, why.cause.message], ["Unverifiable", "no such algorithm"]);
    // (what needs no signature to be refused is refused all the same)
    assert.equal(await said(it.judge(token(one, { exp: 1 }))), "Expired");
    it.close();
  }
  // Another key that fits is asked all the same.
  const keys = [issuer("a"), issuer("b")], text = token({ ...keys[1], kid: undefined });
  const both = { "example.org": { keys: keys.map((it) => it.entry) } };
  const verify = (_alg, key) => (key.includes(keys[0].entry.x) ? fails() : true);
  const validator = await Validator.open({ ...terms, bundles: both, verify });
  assert.equal(await said(validator.check(text)), "accepted");
  validator.close();
  for (const it of [() => false, async () => false, () => undefined, () => 1, () => "no", () => ({ valid: false })]) {
    const never = await Validator.open({ ...terms, verify: it });
    assert.equal(await said(never.check(token(one))), "BadSignature");
    never.close();
  }
});

test("a verifier of one's own is given what is signed, and the key", async () => {
  const given = [];
  const validator = await Validator.open({ ...terms, verify: (...it) => given.push(it) > 0 }), text = token(one);
  await validator.check(text);
  const [alg, key, signed, signature] = given[0], period = text.lastIndexOf(".");
  assert.deepEqual([alg, JSON.parse(key), given.length], ["ES256", one.entry, 1]);
  assert.equal(Buffer.from(signed).toString(), text.slice(0, period));
  assert.equal(Buffer.from(signature).toString("base64url"), text.slice(period + 1));
  validator.close();
});

test("a key that WebCrypto does not read made no signature, and a fault of WebCrypto is no answer", async () => {
  const point = { ...one.entry, x: one.entry.y, y: one.entry.x };
  const off = await Validator.open({ ...terms, bundles: { "example.org": { keys: [point] } } });
  assert.equal(await said(off.check(token(one))), "BadSignature");
  off.close();
  const { subtle } = globalThis.crypto ?? (await import("node:crypto")).webcrypto;
  for (const name of ["importKey", "verify"]) {
    const before = subtle[name], validator = await Validator.open(terms), text = token(one);
    subtle[name] = () => Promise.reject(new DOMException("not here", "NotSupportedError"));
    try {
      assert.equal(await said(validator.check(text)), "Unverifiable", name);
    } finally {
      subtle[name] = before;
    }
    assert.equal(await said(validator.check(text)), "accepted", name);
    validator.close();
  }
});

test("no memory is answered, and accepts nothing", async () => {
  const { validator, calls } = await watched();
  const spare = exhausted(calls), text = token(one);
  assert.equal(calls.room(1n), 0n);
  assert.equal(await said(validator.check(text)), "OutOfMemory");
  assert.throws(() => validator.take(new Uint8Array(5)), { name: "OutOfMemory", message: "There was no memory. Make the call again." });
  assert.throws(() => validator.renew(bundles), { name: "OutOfMemory" });
  assert.throws(() => validator.renew(JSON.stringify(bundles)), { name: "OutOfMemory" });
  assert.throws(() => validator.bearer(["Bearer a"]), { name: "OutOfMemory" });
  assert.throws(() => validator.says(text), { name: "OutOfMemory" });
  assert.throws(() => validator.record(), { name: "OutOfMemory" });
  for (const it of spare) calls.free_room(it);
  assert.equal(validator.size().uses, 0);
  assert.equal(await said(validator.check(text)), "accepted");
  assert.equal(await said(validator.check(text)), "Replayed");
  validator.close();
});

test("no memory for a check is answered wherever it is wanted", async () => {
  const { validator, calls } = await watched(), text = token(one);
  await validator.check(token(one)); // (a key is read, and what a check lends stands ready: the library itself lacks memory)
  let refused = 0;
  for (const it of exhausted(calls)) {
    const answer = await said(validator.check(text));
    if (answer === "accepted") break;
    assert.equal(answer, "OutOfMemory");
    refused += 1;
    calls.free_room(it);
  }
  assert.ok(refused > 5, `${refused} were refused`);
  assert.equal(await said(validator.check(text)), "Replayed");
  assert.equal(validator.size().uses, 2);
  validator.close();
});

test("no memory to join bundles is answered wherever it is wanted", async () => {
  const { validator, calls } = await watched(), other = issuer("k1", "P-256", "other.org");
  let refused = 0;
  for (const it of exhausted(calls)) {
    const answer = await said(() => validator.renew({ ...bundles, ...other.bundles }));
    if (answer === "accepted") break;
    assert.equal(answer, "OutOfMemory");
    assert.notEqual(await said(validator.judge(token(other))), "accepted");
    refused += 1;
    calls.free_room(it);
  }
  assert.ok(refused > 5, `${refused} were refused`);
  for (const it of [one, other]) assert.equal(await said(validator.check(token(it))), "accepted");
  validator.close();
});

test("memory that grows is looked at anew", async () => {
  const { validator, memory, calls } = await watched(), before = memory.buffer;
  const tokens = Array.from({ length: 50 }, () => token(one)), messages = [], time = now();
  for (const [n, it] of tokens.entries()) {
    messages.push((await validator.check(it, time)).use.message);
    if (n % 10 === 0) calls.room(BigInt(memory.buffer.byteLength)); // (it has grown behind the back of the package)
  }
  assert.equal(before.byteLength, 0); // (the first buffer is detached)
  const again = await Validator.open(terms);
  messages.forEach((it) => again.take(it, time));
  assert.equal(digest(again.report()), digest(validator.report()));
  for (const it of [again, validator]) it.close();
});

test("a library that has stopped says so, and takes no other with it", async () => {
  const { validator, calls } = await watched(), other = await Validator.open(terms), text = token(one);
  // (a pointer beyond the memory is what a damaged program would give)
  assert.throws(() => calls.svid_validator_tick(2n ** 32n - 8n, 1n, 2n ** 32n - 8n), WebAssembly.RuntimeError);
  assert.equal(await said(validator.check(text)), "Stopped");
  assert.throws(() => validator.size(), { name: "Stopped" });
  assert.equal(await said(other.check(text)), "accepted");
  for (const it of [validator, other]) it.close();
});

test("a module of another build is refused by name", async () => {
  const before = WebAssembly.Module.exports;
  WebAssembly.Module.exports = (code) => before(code).filter((it) => it.name !== "svid_token_says");
  try {
    await assert.rejects(Validator.open(terms), /lacks svid_token_says/);
  } finally {
    WebAssembly.Module.exports = before;
  }
  const start = WebAssembly.instantiate;
  WebAssembly.instantiate = async (...given) => ({ exports: { ...(await start(...given)).exports, svid_version: () => 40100 } });
  try {
    await assert.rejects(Validator.open(terms), /has version 40100, and this package needs 3xxxx/);
  } finally {
    WebAssembly.instantiate = start;
  }
});

test("JavaScript names nothing of tokens, keys and messages", () => {
  const files = ["index.js", ...readdirSync(`${TOP}/packages/node/src`).map((it) => `src/${it}`)];
  // (what tools/lists writes in errors.js is no rule, nor is an example of an ID)
  const code = files.map((it) => read(`packages/node/${it}`).replace(/lists:begin[^]*?lists:end/g, "").replace(/(^|\s)\/\/.*|\/\*[^]*?\*\//gm, "")).join("\n");
  for (const it of [/\bkty\b/, /\bcrv\b/, /\bkid\b/, /\bjti\b/, /\baud\b/, /\bexp\b/, /\bnbf\b/, /jwt-svid/, /base64url/, /\bJSR\b/, /spiffe:(?!\/\/(example\.org|DOMAIN))/, /"jwk"/]) {
    assert.doesNotMatch(code, it);
  }
});

// A verifier that waits.
function gate() {
  const it = { asked: 0 };
  const passed = new Promise((resolve) => (it.open = resolve));
  Object.defineProperty(it, "passed", { get: () => (it.asked++, passed) });
  return it;
}

// A validator whose instance the test sees.
async function watched() {
  const [validator, calls] = await seen(() => Validator.open(terms));
  return { validator, calls, memory: calls.memory };
}

assert.ok(PACKAGE, "SVID_PACKAGE names the package");
