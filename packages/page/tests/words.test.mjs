// What the page says of a status, in the words of lists/statuses.toml.

import assert from "node:assert/strict";
import { readFileSync } from "node:fs";
import { test } from "node:test";
import { clause, LISTED, sentences, wholeClause } from "../../../lists/listed.mjs";
import { BUNDLE_FAULTS } from "../src/bundles.js";
import { examine, readRecord } from "../src/examine.js";
import { Library } from "../src/library.js";
import { faultOfMessages } from "../src/record.js";
import { BEARER_FAULTS, tokenIn } from "../src/token.js";
import { answer } from "../src/verify.js";
import { base64url } from "./tokens.mjs";
import { bytesOf, vectorsOf } from "./vectors.mjs";

const NONE = new Uint8Array();
const library = await Library.load(readFileSync(process.env.SVID_MODULE));
const input = { token: "", bundles: "{}", domain: "", own: ["ledger"], now: 1767225600n, longest: undefined, validatorId: new Uint8Array(16), record: readRecord(library, NONE) };

test("a subject that is no SPIFFE ID", async () => {
  const texts = {
    TOO_LONG: [`spiffe://${"a".repeat(2040)}`], SCHEME: ["example.org"], DOMAIN_EMPTY: ["spiffe://"], DOMAIN_BYTE: ["spiffe://a\u{1F600}", "\u{1F600}"],
    DOMAIN_LONG: [`spiffe://${"a".repeat(256)}`], SEGMENT_EMPTY: ["spiffe://a//b"], SEGMENT_DOTS: ["spiffe://a/../b", ".."], PATH_BYTE: ["spiffe://a/b*", "*"],
  };
  assert.equal(Object.keys(texts).length, [...LISTED.keys()].filter((it) => it.startsWith("ID_")).length);
  for (const [name, [sub, shown]] of [...Object.entries(texts), ["PATH_BYTE", ["spiffe://a/b\u{1F600}", "\u{1F600}"]]]) {
    const token = [{ alg: "ES256" }, { sub, aud: "ledger", exp: 1767229200 }].map((it) => base64url(JSON.stringify(it))).join(".") + ".AAAA";
    const { verdict } = await examine(library, { ...input, token });
    assert.equal(verdict.why, `sub is no SPIFFE ID: ${clause(`ID_${name}`)}${shown ? `, ${JSON.stringify(shown)}` : ""}.`);
  }
});

test("a character that can't be seen is told by its number", async () => {
  const part = (it) => base64url(JSON.stringify(it)), head = part({ alg: "ES256" });
  // (a letter that can be seen is shown, and a blank too)
  for (const [bad, shown] of [["\u200b", "\\u200b"], ["\u00a0", "\\u00a0"], ["\u202e", "\\u202e"], ["\u0301", "\\u0301"], ["\u{e0001}", "\\ue0001"], ["\n", "\\n"], [" ", " "], ["é", "é"]]) {
    const misspelt = await examine(library, { ...input, token: `${head.slice(0, 4)}${bad}${head.slice(4)}.e30.AAAA` });
    assert.equal(misspelt.verdict.why, `The header is misspelt at character 5. "${shown}" is no character of base64url.`);
    const { verdict } = await examine(library, { ...input, token: `${head}.${part({ sub: `spiffe://a/b${bad}`, aud: "ledger", exp: 1767229200 })}.AAAA` });
    assert.equal(verdict.why, `sub is no SPIFFE ID: ${clause("ID_PATH_BYTE")}, "${shown}".`);
  }
});

test("bundles that can't be read", async () => {
  for (const [bundles, name] of [["[]", "NOT_OBJECT"], ['{"A":{"keys":[]}}', "DOMAIN"], ['{"a":{}}', "KEYS"]]) {
    const { fault } = await examine(library, { ...input, bundles });
    assert.equal(BUNDLE_FAULTS[fault.status].join(" "), sentences(`BUNDLES_${name}`));
  }
});

test("a field without a bearer token", () => {
  for (const [text, name] of [["Authorization: Basic a", "SCHEME"], ["Bearer a b", "SPELLING"]]) {
    assert.equal(BEARER_FAULTS[tokenIn(text, library).fault], wholeClause(`BEARER_${name}`));
  }
});

test("bytes that are no messages", () => {
  const seen = new Set();
  for (const { messages, fault, name } of vectorsOf("messages").vectors.filter((it) => it.fault)) {
    const bytes = bytesOf(messages), listed = fault.reason.replace(/(?<=.)([A-Z])/g, "_$1").toUpperCase();
    const said = faultOfMessages(library, bytes, library.join(NONE, bytes));
    assert.ok(said.startsWith(`${clause(listed)}. `) && said.endsWith(` Due there: ${LISTED.get(listed).due}.`), `${name}: ${said}`);
    seen.add(listed);
  }
  assert.equal(seen.size, 8);
  assert.equal(faultOfMessages(library, NONE, { status: LISTED.get("TOO_MUCH").number }), `${wholeClause("TOO_MUCH")}.`);
});

test("a key that can't be used", async () => {
  const words = { "ALGORITHM_LENGTHS": "32, 48 or 66", "most_bits": "4,096", "ALGORITHM_CURVES": "P-256 for ES256, P-384 for ES384, P-521 for ES512", "ALGORITHM_KTYS": "RSA for RS and PS, EC for ES" };
  for (const name of ["KEY_NOT_OBJECT", "KEY_KTY", "KEY_ALG", "KEY_N", "KEY_BITS", "KEY_E", "KEY_CRV", "KEY_X", "KEY_Y"]) {
    const due = Object.entries(words).reduce((it, [from, to]) => it.replace(from, to), clause(name)).replace(/^its /, "the key's ");
    assert.deepEqual(await answer({ key: name, alg: "ES256", spki: { status: LISTED.get(name).number } }, "", NONE), { is: "unusable", why: due });
  }
});
