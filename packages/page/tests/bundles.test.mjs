// Trust bundles as the page takes them.

import assert from "node:assert/strict";
import { readFileSync } from "node:fs";
import { test } from "node:test";
import { bundlesOf, domainsOf, entriesOf } from "../src/bundles.js";
import { Library, textOf } from "../src/library.js";
import { makeKey, sign } from "./tokens.mjs";

const library = await Library.load(readFileSync(process.env.SVID_MODULE));

test("a module that asks its host for something is not started, and named", () => {
  // (a function f of a module m)
  const asking = Uint8Array.from([0, 0x61, 0x73, 0x6d, 1, 0, 0, 0, 1, 4, 1, 0x60, 0, 0, 2, 7, 1, 1, 0x6d, 1, 0x66, 0, 0]);
  assert.throws(() => new Library(new WebAssembly.Module(asking)), { message: "the module asks its host for f" });
});

test("a bundle as SPIRE prints it is one, and an object of trust domains is not", () => {
  for (const one of ['{"keys":[]}', '{"keys":null,"spiffe_sequence":1}']) assert.ok(library.isOneBundle(one));
  for (const other of ["", "[]", "{", '{"a":{"keys":[]}}', '{"keys":{"keys":[]}}', '{"keys":7}']) assert.ok(!library.isOneBundle(other));
});

test("the name of a bundle is a name, whatever stands in it", () => {
  const one = '{"keys":[{"kid":"a"}]}';
  for (const name of ["example.org", "", 'a"b', "a\\", 'a":{"keys":[]},"b', "\n", "é😀"]) {
    const bundles = bundlesOf(library, one, name);
    assert.deepEqual(domainsOf(bundles), [name]);
    assert.equal(entriesOf(bundles, name).length, 1);
  }
  assert.equal(bundlesOf(library, '{"a":{"keys":[]}}', "b"), '{"a":{"keys":[]}}');
});

test("trust domains are counted in the order of the bytes of their names", () => {
  // (U+FFEE has the bytes EF BF AE, and U+1F600 F0 9F 98 80)
  assert.deepEqual(domainsOf('{"b":1,"\u{1F600}":2,"\uffee":3,"b":4,"a":5}'), ["a", "b", "\uffee", "\u{1F600}"]);
});

test("the text of a key has each name once, in the order of its bytes", () => {
  const text = ' { "use" : "jwt-svid" , "n" : [ 1 , { "z" : null , "a" : "\\u00e9" } ] , "\\ud83d\\ude00" : 1 , "\\uffee" : 2 , "n" : [ ] , "kty" : "EC" , "kid" : "k" } ';
  const { status, bytes } = library.keyText(text);
  assert.deepEqual([status, textOf(bytes)], [0, '{"kid":"k","kty":"EC","n":[],"use":"jwt-svid","\uffee":2,"\u{1F600}":1}']);
});

test("all keys that may have signed a token are listed, and none where bundles or the token are refused", async () => {
  const keys = await Promise.all(Array.from({ length: 5 }, (_, n) => makeKey("ES256", `k${n}`)));
  const bundles = JSON.stringify({ "example.org": { keys: [7, ...keys.map((it) => it.entry)] } });
  const token = await sign(keys[0], '{"alg":"ES256"}', '{"sub":"spiffe://example.org/a","aud":"ledger","exp":1767229200}');
  assert.deepEqual(library.candidates(bundles, token).map((it) => JSON.parse(it).kid), ["k0", "k1", "k2", "k3", "k4"]);
  for (const [other, text] of [["{", token], [bundles, ""], ["{}", token]]) assert.deepEqual(library.candidates(other, text), []);
});
