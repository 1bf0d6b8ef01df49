// Holds what the page explains against what the library says: why a token is refused, and why a key was passed over, over inputs that were
// mutated. JavaScript explains, and the library decides, so each of the two would show where the other errs.

import assert from "node:assert/strict";
import { readFileSync } from "node:fs";
import { test } from "node:test";
import { examine, readRecord, use, withdraw } from "../src/examine.js";
import { Library } from "../src/library.js";
import { REFUSALS } from "../src/refusals.js";
import { base64url, makeKey, mutated, random, sign } from "./tokens.mjs";

const CASES = 4000, NOW = 1767225600n;
const r = random(7);
const indexOf = (name) => REFUSALS.findIndex((it) => it.name === name);

// Whether what the page reads in a token has passed a check, as far as JavaScript can say.
const PASSES = {
  HeaderSpelling: ([header]) => header.badAt === undefined,
  HeaderNotObject: ([header]) => header.json.node?.kind === "object",
  PayloadSpelling: ([, payload]) => payload.badAt === undefined,
  PayloadNotObject: ([, payload]) => payload.json.node?.kind === "object",
  SignatureSpelling: ([, , signature]) => signature.text !== "" && signature.badAt === undefined,
};

const NOT_TEXT = [Buffer.from([0xff]), Buffer.from([0xef, 0xbb, 0xbf]), Buffer.from([0xc3]), Buffer.from("\u{1F600}"), Buffer.from("\\ud83d"), Buffer.from("[".repeat(130)), Buffer.from("1e400"), Buffer.from("-0")];

// Bytes with a change of any kind, or with something that is hard to read put in.
function changed(text) {
  const bytes = mutated(Buffer.from(text), r, r.pick([0, 0, 1, 2]));
  if (r.below(8)) return bytes;
  const at = r.pick([0, bytes.length, r.below(bytes.length + 1)]);
  return Buffer.concat([bytes.subarray(0, at), r.pick(NOT_TEXT), bytes.subarray(at)]);
}

const MEMBERS = ['"use":"jwt-svid"', '"use":"x509-svid"', '"use":1', '"kid":"k1"', '"kid":"k2"', '"kid":""', '"kid":7', '"kty":"EC"', '"kty":"RSA"', '"kty":"oct"', '"n":1.5', '"n":-0', '"n":18446744073709551615', '"n":18446744073709551616',
  '"n":-9223372036854775808', '"n":{"a":[1,{"b":1e3}]}', '"é":"\\u00e9\\n\\u2028"', '"n":{"z":1,"a":2,"\u{1F600}":3,"\uffee":4}', '"__proto__":{"use":1}', '"toString":1'];

function bundlesOf(entry) {
  const made = Array.from({ length: r.below(4) }, () => {
    const members = Array.from({ length: r.below(6) }, () => r.pick(MEMBERS));
    return r.below(8) ? `{${['"use":"jwt-svid"', '"kid":"k1"', '"kty":"EC"', ...members].join(r.pick([",", " , "]))}}` : r.pick(["1", "[]", "null", "{}"]);
  });
  const keys = `{"keys":[${[entry, ...made].join(",")}]}`, other = '{"keys":null}';
  return r.pick([keys, `{"example.org":${keys}}`, `{"a":${other},"example.org":${keys}}`, `{"example.org":${other},"example.org":${keys}}`, `{"example.org":${other}}`]);
}

test("what the page explains is what the library says", async (t) => {
  const library = await Library.load(readFileSync(process.env.SVID_MODULE)), key = await makeKey("ES256", "k1");
  const record = readRecord(library, new Uint8Array()), entry = JSON.stringify(key.entry), validatorId = new Uint8Array(16);
  const seen = new Map();
  let passedOver = 0, asked = 0;
  for (let n = 0; n < CASES; n++) {
    const header = changed(r.pick(['{"alg":"ES256","kid":"k1"}', '{"alg":"ES256"}', '{"alg":"RS256","typ":"JWT"}']));
    const payload = changed(r.pick(['{"sub":"spiffe://example.org/a","aud":["ledger","b"],"exp":1767229200,"nbf":1767225600,"jti":"1"}', '{"sub":"spiffe://other.example","aud":"ledger","exp":1767225600}']));
    const signed = await sign(key, header, payload);
    const token = r.below(4) ? signed : mutated(Buffer.from(signed), r, 3).toString();
    const input = { token, bundles: r.below(6) ? bundlesOf(entry) : mutated(Buffer.from(bundlesOf(entry)), r, 2).toString(), domain: "", own: r.pick([["ledger"], ["other"], []]), now: NOW + BigInt(r.pick([0, -1, 3600])), longest: r.pick([undefined, 60n]), validatorId, record };
    const what = JSON.stringify({ ...input, now: String(input.now), longest: String(input.longest), validatorId: "", record: "" });
    const { parts, fault, keys, verdict } = await examine(library, input);
    if (fault) {
      assert.ok(fault.status >= 31 && fault.status <= 33, what);
      continue;
    }
    seen.set(verdict.refusal, (seen.get(verdict.refusal) ?? 0) + 1);
    // A check that the token passed is passed for JavaScript too, and one that holds is not.
    for (const [name, passes] of Object.entries(PASSES)) {
      if (verdict.passed > indexOf(name)) assert.ok(passes(parts), `${name} is passed: ${what}`);
      if (verdict.refusal === name) assert.ok(!passes(parts), `${name} holds: ${what}`);
    }
    assert.equal(Boolean(verdict.why), verdict.refusal !== undefined, what);
    assert.doesNotMatch(verdict.why, /undefined|NaN|\[object/, what);
    for (const [from, to] of verdict.marks) assert.ok(from >= 0 && from < to && (to <= token.length || to === Infinity), `${verdict.refusal} marks ${from} to ${to}: ${what}`);
    if (verdict.refusal && token) assert.ok(verdict.marks.length, `${verdict.refusal} marks nothing: ${what}`);
    for (const it of keys) {
      assert.ok(it.text && it.entry, what);
      if (it.reason) passedOver++;
      if (it.row) asked++;
    }
    const named = new Set(keys.filter((it) => it.row).map((it) => it.text));
    assert.ok([...named].every((it) => input.bundles.includes(it)), `a key that stands in no bundle: ${what}`);
  }
  t.diagnostic(`page: ${CASES} explanations: ${asked} keys asked, ${passedOver} passed over, ${seen.size} verdicts`);
  assert.ok(seen.size >= 20 && asked > 500 && passedOver > 1000, `${asked} keys asked, ${passedOver} passed over, ${[...seen].join(" ")}`);
});

test("a text that begins with a byte order mark is the whole text", async () => {
  const library = await Library.load(readFileSync(process.env.SVID_MODULE)), key = await makeKey("ES256", "\ufeffk1");
  const record = readRecord(library, new Uint8Array()), bundles = JSON.stringify({ "example.org": { keys: [key.entry] } });
  const token = await sign(key, '{"alg":"ES256","kid":"\ufeffk1"}', '{"sub":"spiffe://example.org/a","aud":["\ufeffledger"],"exp":1767229200}');
  const input = { token, bundles, domain: "", own: ["\ufeffledger"], now: NOW, longest: undefined, validatorId: new Uint8Array(16), record };
  const { names, keys, verdict } = await examine(library, input);
  assert.deepEqual([names.kid, names.audiences, verdict.status], ["\ufeffk1", ["\ufeffledger"], 0]);
  assert.deepEqual(keys.map((it) => [it.reason, it.row?.answer.is]), [[undefined, "good"]]);
  const unasked = (await examine(library, { ...input, own: [] })).verdict;
  assert.deepEqual([unasked.status, unasked.isUnasked], [0, true]);
  const bad = await sign(key, '{"alg":"ES256"}', '{"sub":"spiffe://example.org/\ufeffa","aud":"ledger","exp":1767229200}');
  assert.equal((await examine(library, { ...input, token: bad })).verdict.why, 'sub is no SPIFFE ID: the ID has a byte that may not stand in a path segment, "\\ufeff".');
});

test("an entry with very many members is soon read", async () => {
  const library = await Library.load(readFileSync(process.env.SVID_MODULE)), key = await makeKey("ES256", "k1"), record = readRecord(library, new Uint8Array());
  const many = Array.from({ length: 100_000 }, (_, n) => `"${n}":1,`).join("");
  const bundles = `{"example.org":{"keys":[{${many}${JSON.stringify(key.entry).slice(1)},${JSON.stringify(key.entry)}]}}`;
  const token = await sign(key, '{"alg":"ES256","kid":"k1"}', '{"sub":"spiffe://example.org/a","aud":"ledger","exp":1767229200}');
  const before = process.cpuUsage();
  const { keys, verdict } = await examine(library, { token, bundles, domain: "", own: ["ledger"], now: NOW, longest: undefined, validatorId: new Uint8Array(16), record });
  const { user, system } = process.cpuUsage(before);
  assert.deepEqual([verdict.status, keys.map((it) => it.reason ?? it.row.answer.is)], [0, ["it has more than 65,536 bytes as compact JSON", "good"]]);
  assert.ok(user + system < 10_000_000, `${user + system} µs of the processor`);
});

test("of many keys that fit, the first ones are tried", async () => {
  const library = await Library.load(readFileSync(process.env.SVID_MODULE));
  const keys = await Promise.all(Array.from({ length: 6 }, (_, n) => makeKey("ES256", `k${n}`)));
  const bundles = JSON.stringify({ "example.org": { keys: keys.map((it) => it.entry) } });
  const record = readRecord(library, new Uint8Array()), validatorId = new Uint8Array(16);
  const judge = (token) => examine(library, { token, bundles, domain: "", own: ["ledger"], now: NOW, longest: undefined, validatorId, record });
  const payload = Buffer.from('{"sub":"spiffe://example.org/a","aud":"ledger","exp":1767229200}');
  for (const [n, key] of keys.entries()) {
    const unnamed = await judge(await sign(key, Buffer.from('{"alg":"ES256"}'), payload));
    assert.equal(unnamed.verdict.refusal, n < 3 ? undefined : "BadSignature");
    assert.deepEqual(unnamed.keys.map((it) => it.reason), [...Array(3).fill(undefined), ...Array(3).fill("only the first 3 keys that fit are tried")]);
    const named = await judge(await sign(key, Buffer.from(`{"alg":"ES256","kid":"k${n}"}`), payload));
    assert.equal(named.verdict.refusal, undefined);
  }
});

test("of a token that was used or withdrawn, its jti is marked, or what is signed where it has none", async () => {
  const library = await Library.load(readFileSync(process.env.SVID_MODULE)), key = await makeKey("ES256", "k1");
  const usual = { bundles: JSON.stringify({ "example.org": { keys: [key.entry] } }), domain: "", own: ["ledger"], now: NOW, longest: undefined, validatorId: new Uint8Array(16) };
  for (const jti of ["", "one"]) {
    const payload = JSON.stringify({ sub: "spiffe://example.org/a", aud: "ledger", exp: 1767229200, ...(jti && { jti }) });
    const input = { ...usual, token: await sign(key, '{"alg":"ES256","kid":"k1"}', payload), record: readRecord(library, new Uint8Array()) };
    const result = await examine(library, input), [, { from }, { from: end }] = result.parts;
    for (const [change, name] of [[use, "Replayed"], [withdraw, "Withdrawn"]]) {
      const { verdict } = await examine(library, { ...input, record: readRecord(library, change(library, input, result)) });
      // (four characters hold three bytes, and the last one of these ends the object)
      const its = [from + Math.floor((payload.indexOf('"jti"') * 4) / 3), from + Math.ceil(((payload.length - 1) * 4) / 3)];
      assert.deepEqual([verdict.refusal, verdict.marks], [name, [jti ? its : [0, end - 1]]], jti);
    }
  }
});

test("where no key fits, the kid of the token is named, if it has one", async () => {
  const library = await Library.load(readFileSync(process.env.SVID_MODULE)), key = await makeKey("ES256", "k1"), record = readRecord(library, new Uint8Array());
  const usual = { bundles: JSON.stringify({ "example.org": { keys: [key.entry] } }), domain: "", own: ["ledger"], now: NOW, longest: undefined, validatorId: new Uint8Array(16), record };
  for (const [kid, named] of [[undefined, ""], ["k2", ' with the kid "k2"']]) {
    const token = await sign(key, JSON.stringify({ alg: "RS256", kid }), '{"sub":"spiffe://example.org/a","aud":"ledger","exp":1767229200}');
    const { names, verdict } = await examine(library, { ...usual, token });
    assert.deepEqual([names.kid, verdict.refusal, verdict.why], [kid, "NoKey", `The bundle has no key for this algorithm${named}. The keys below say why each was passed over.`]);
  }
});
