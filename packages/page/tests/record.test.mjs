// The record as the page reads it, and what calls of the module leave in its memory.

import assert from "node:assert/strict";
import { readFileSync } from "node:fs";
import { test } from "node:test";
import { Library } from "../src/library.js";
import { changesOf, recordOf, useName } from "../src/record.js";

test("a row has all of its key", () => {
  const key = "11".repeat(32), other = "22".repeat(32), validatorId = "33".repeat(16);
  const report = `moment 100\nuses 4\n200 ${other} ${validatorId} 10\n200 ${key} ${validatorId} 50\n250 ${key} ${validatorId} 40\n300 ${key} ${validatorId} 60 withdrawn\ntwice 1\n${key} 2\n`;
  const { moment, rows, uses } = recordOf(report);
  assert.equal(moment, 100n);
  assert.deepEqual(uses.map((it) => it.isWithdrawal), [false, false, false, true]);
  assert.deepEqual(rows.map(({ key, from, exp, isTwice, uses }) => [key, from, exp, isTwice, uses.length]), [[key, 40n, 300n, true, 3], [other, 10n, 200n, false, 1]]);
});

test("what changed is counted", () => {
  const use = (at, isWithdrawal = false) => ({ exp: 9n, key: "k", validatorId: "p", at: BigInt(at), isWithdrawal });
  const before = { uses: [use(1), use(2), use(3), use(4)] }, after = { uses: [use(4), use(4, true), use(5)] };
  const { gained, known, lost } = changesOf(before, after);
  assert.deepEqual([[...gained], known, lost], [[use(4, true), use(5)].map(useName), 1, 3]);
});

test("calls leave nothing in the memory of the module", async () => {
  const library = await Library.load(readFileSync(process.env.SVID_MODULE));
  const example = (name) => readFileSync(new URL(`../../../examples/${name}`, import.meta.url)), validatorId = new Uint8Array(16);
  const messages = example("shared.messages"), bundles = example("bundles.json").toString(), token = example("token.txt").toString().trim();
  const call = () => {
    assert.equal(library.report(messages).status, 0);
    const took = library.withValidator({ validatorId }, "ledger", "{}", (validator) => [validator.take(0n, messages).status, validator.tell().status]);
    assert.deepEqual(took, { status: 0, value: [0, 0] });
    const said = library.withValidator({ validatorId }, "ledger", bundles, (validator) => [validator.ask(token).rows.length, validator.judge(0n, undefined, token).status]);
    assert.deepEqual(said, { status: 0, value: [1, 123] });
    assert.equal(library.candidates(bundles, token).length, 1);
    assert.deepEqual([library.says(token).status, library.signature(token).status, library.bearerToken(`Bearer ${token}`).status, library.parseId("spiffe://a").status, library.isOneBundle(bundles)], [0, 0, 0, 0, false]);
  };
  for (let n = 0; n < 100; n++) call();
  const before = library.calls.memory.buffer.byteLength;
  for (let n = 0; n < 3000; n++) {
    call();
    assert.equal(library.calls.memory.buffer.byteLength, before, `after ${n} calls`);
  }
});
