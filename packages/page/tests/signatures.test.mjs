// The vectors of signatures, by the WebCrypto of Node. (verdicts.mjs has them by that of each browser.)

import assert from "node:assert/strict";
import { readFileSync } from "node:fs";
import { test } from "node:test";
import { examine, readRecord } from "../src/examine.js";
import { Library } from "../src/library.js";
import { vectorsOf } from "./vectors.mjs";

const library = await Library.load(readFileSync(process.env.SVID_MODULE)), record = readRecord(library, new Uint8Array());
const { setting, vectors } = vectorsOf("signatures");

async function said({ token, keys }) {
  const input = { token, bundles: `{"example.org":{"keys":[${keys.join(",")}]}}`, domain: "", own: [setting.audience], now: BigInt(setting.now) };
  const { verdict } = await examine(library, { ...input, longest: 1n << 40n, validatorId: new Uint8Array(16), record });
  return verdict.status === 0 ? "accepted" : verdict.refusal;
}

test("the vectors of signatures, by Node", async () => {
  const wrong = [];
  for (const it of vectors) {
    const answer = await said(it);
    if (answer !== (it.answer.startsWith("accepted") ? "accepted" : it.answer.replace("refused ", ""))) wrong.push(`${it.name}: ${answer}, and not ${it.answer}`);
  }
  assert.ok(vectors.length > 100);
  assert.deepEqual(wrong, []);
});

test("a signature has its length, whatever a browser takes", async (t) => {
  const asked = [];
  t.mock.method(crypto.subtle, "verify", async (algorithm, key, signature) => asked.push([algorithm.name, signature.length]) > 0);
  for (const alg of ["RS256", "PS512", "ES256", "ES384", "ES512"]) {
    const { token, keys } = vectors.find((it) => it.name === `${alg}, a good signature`), at = token.lastIndexOf(".") + 1;
    // (what was asked before is not asked again: these signatures are of no vector)
    const of = (length) => ({ keys, token: token.slice(0, at) + Buffer.alloc(length, 7).toString("base64url") });
    const due = Buffer.from(token.slice(at), "base64url").length;
    for (const length of [1, 2, due / 2, due - 2, due - 1, due + 1, due + 2, 2 * due]) assert.equal(await said(of(length)), "BadSignature", `${alg}, ${length}`);
    assert.deepEqual(asked, []);
    assert.equal(await said(of(due)), "accepted", alg);
    assert.equal(asked.pop()[1], due);
  }
});
