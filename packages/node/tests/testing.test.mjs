// What a service is given to test its own use of the package.

import assert from "node:assert/strict";
import { test } from "node:test";
import { imported } from "./ending.mjs";
import { PATIENCE, said } from "./making.mjs";

const { Validator } = await imported(), { Clock, Issuer, MemoryStore } = await imported("testing.js");

const open = (issuer, options) => Validator.open({ audiences: "ledger", bundles: issuer.bundles, wait: PATIENCE, ...options });

test("a token of an issuer is good, and has what it is told", async () => {
  const issuer = new Issuer({ trustDomain: "example.com", audience: "ledger" }), validator = await open(issuer);
  const accepted = await validator.check(issuer.token());
  assert.deepEqual([accepted.spiffeId, accepted.audience], ["spiffe://example.com/client", "ledger"]);
  assert.equal((await validator.check(issuer.token({ sub: "spiffe://example.com/web", aud: ["a", "ledger"] }))).path, "/web");
  assert.equal(await said(validator.check(new Issuer({ trustDomain: "example.com" }).token({ aud: "ledger" }))), "NoKey");
  assert.equal(await said(validator.check(issuer.token({ aud: undefined }))), "Aud");
  validator.close();
});

test("a token that is wrong in a named way is refused as that", async () => {
  const issuer = new Issuer({ audience: "ledger" }), validator = await open(issuer);
  for (const name of ["Expired", "NotYet", "NotAudience", "BadSignature", "NoKey", "NotThreeParts"]) {
    assert.equal(await said(validator.check(issuer.token({}, name))), name);
  }
  for (const name of ["Replayed", "toString", ""]) assert.throws(() => issuer.token({}, name), RangeError);
  validator.close();
});

test("an issuer that rotates signs by its new key, and retires the old ones", async () => {
  const issuer = new Issuer({ audience: "ledger" }), old = [issuer.token(), issuer.token()], validator = await open(issuer);
  issuer.rotate();
  assert.equal(await said(validator.check(issuer.token())), "NoKey");
  validator.renew(issuer.bundles);
  for (const it of [issuer.token(), old[0]]) assert.equal(await said(validator.check(it)), "accepted");
  issuer.retire();
  validator.renew(issuer.bundles);
  assert.equal(issuer.bundle.keys.length, 1);
  assert.equal(await said(validator.check(old[1])), "NoKey");
  assert.equal(await said(validator.check(issuer.token())), "accepted");
  validator.close();
});

test("a clock goes as it is told", async () => {
  const clock = new Clock(1_800_000_000), issuer = new Issuer({ audience: "ledger", now: clock.now }), validator = await open(issuer, { now: clock.now });
  const text = issuer.token();
  assert.equal(await said(validator.judge(text)), "accepted");
  clock.advance(299);
  assert.equal(await said(validator.judge(text)), "accepted");
  clock.advance(1);
  assert.equal(await said(validator.judge(text)), "Expired");
  clock.set(5);
  assert.equal(clock.now(), 5);
  assert.ok(Math.abs(new Clock().now() - Date.now() / 1000) < 600);
  validator.close();
});

test("a store in memory that loses its entries lets nobody in by what it may have had", async () => {
  const issuer = new Issuer({ audience: "ledger" }), store = new MemoryStore({ lasts: 600 }), text = issuer.token();
  const validators = [await open(issuer, { mode: "strict", store }), await open(issuer, { mode: "strict", store })];
  assert.equal(await said(validators[0].check(text)), "accepted");
  assert.equal(await said(validators[1].check(text)), "Replayed");
  await store.lose();
  assert.equal(await said(validators[1].check(issuer.token())), "Unavailable");
  for (const it of validators) it.close();
});
