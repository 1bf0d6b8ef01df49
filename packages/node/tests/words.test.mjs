// What an error says, in the words of lists/statuses.toml. (What is wrong with messages: vectors.test.mjs.)

import assert from "node:assert/strict";
import { test } from "node:test";
import { imported } from "./ending.mjs";
import { listed, now } from "./making.mjs";

const { Validator } = await imported(), { Library } = await imported("src/library.js");
const { LISTED, sentences, wholeClause } = await listed();

const open = (options = {}) => Validator.open({ audiences: "ledger", bundles: "{}", ...options });
const EMPTY = Uint8Array.from([...Buffer.from("JSR\x02\x01"), ...Array(12).fill(0)]);

test("calls that do nothing", async () => {
  const time = now(), validator = await open({ step: 100 }), late = await open({ ahead: undefined });
  validator.tick(time);
  late.tick(time + 31);
  assert.throws(() => validator.tick(time + 101), { name: "Jump", message: sentences("JUMP") });
  await assert.rejects(validator.withdrawKey(new Uint8Array(32), time, time), { name: "Gone", message: sentences("GONE") });
  assert.throws(() => validator.take(late.record(), time), { name: "TooFar", message: sentences("TOO_FAR") });
  assert.throws(() => validator.answer(EMPTY, time), { name: "BadMessages", message: `NotSummary: ${wholeClause("NOT_SUMMARY")}` });
  const many = Buffer.alloc(17 * 3_947_581, EMPTY);
  assert.throws(() => validator.take(many, time), { name: "BadMessages", message: `TooMuch: ${wholeClause("TOO_MUCH")}` });
  validator.close();
  assert.throws(() => validator.tick(time), { name: "Closed", message: sentences("CLOSED") });
});

test("bundles that can't be read", async () => {
  const rank = (number) => `It is number ${number} of the names in rising order, counted from 0.`;
  const opened = await open();
  const rows = [["[]", "NOT_OBJECT", ""], ['{"a":{"keys":[]},"B":{}}', "DOMAIN", rank(0)], ['{"a":{"keys":[]},"b":{}}', "KEYS", rank(1)]];
  for (const [bundles, name, where] of rows) {
    await assert.rejects(open({ bundles }), { name: "BadBundles", message: sentences(`BUNDLES_${name}`, where) });
  }
  for (const bundles of ['{"keys":[],"spiffe_sequence":1}', '{"A":1,"keys":null}']) {
    const unnamed = { name: "BadBundles", message: sentences("BUNDLES_UNNAMED") };
    await assert.rejects(open({ bundles }), unnamed);
    assert.throws(() => opened.renew(bundles), unnamed);
  }
  const none = '{"keys":[]}', given = [["a", "[]", "NOT_OBJECT"], ["B", none, "DOMAIN"], ["a", "{}", "KEYS"], ["spiffe://b", none, "TWICE"]];
  for (const [domain, text, name] of given) {
    const message = `${JSON.stringify(domain)}: ${sentences(`BUNDLES_${name}`)}`;
    await assert.rejects(open({ bundles: { b: none, [domain]: text, c: "" } }), { name: "BadBundles", message });
  }
});

test("texts that are no SPIFFE IDs, and no patterns", async () => {
  const rows = {
    TOO_LONG: [`spiffe://${"a".repeat(2040)}`, 0], SCHEME: ["example.org", 0], DOMAIN_EMPTY: ["spiffe://", 0], DOMAIN_BYTE: ["spiffe://A", 9],
    DOMAIN_LONG: [`spiffe://${"a".repeat(256)}`, 0], SEGMENT_EMPTY: ["spiffe://a//b", 11], SEGMENT_DOTS: ["spiffe://a/../b", 11],
    PATH_BYTE: ["spiffe://a/b*", 12],
  };
  const validator = await open();
  for (const [name, [text, offset]] of Object.entries(rows)) {
    const said = (what, prefix) => ({ name: "RangeError", message: `${JSON.stringify(text)} is no ${what} (byte ${offset}): ${sentences(`${prefix}_${name}`)}` });
    assert.throws(() => validator.allows("spiffe://a", text), said("SPIFFE ID", "ID"));
    assert.throws(() => validator.allows(text, "spiffe://a"), said("pattern of SPIFFE IDs", "PATTERN"));
  }
  validator.close();
});

test("why there is no answer now, and why no tokens are to be sent here", async () => {
  const library = await Library.start(), unready = ["STORE_UNREACHED", "JUMPED", "STORE_AWAY", "DEAF"];
  for (const name of ["CLAIM_FAR", "CLAIM_DEAF", "LATE", "NOT_KEPT", "LEFT", "ENDED", ...unready]) {
    const cause = new Error("away"), why = library.fault(LISTED.get(name).number, cause);
    assert.deepEqual([why.name, why.message, why.cause], ["Unavailable", sentences(name), cause]);
  }
  assert.equal(library.fault(7777).name, "SvidError");
  library.close();
});
