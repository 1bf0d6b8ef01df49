// What the page says of tokens, in any browser: each refusal by a token of its own, the vectors of keys and signatures, each reason to pass a
// key over.

import assert from "node:assert/strict";
import { after, before, test } from "node:test";
import { REFUSALS } from "../src/refusals.js";
import { base64url, makeKey, sign } from "./tokens.mjs";
import { vectorsOf } from "./vectors.mjs";

const NOW = 1767225600;
const SUB = "spiffe://example.org/billing/api";
const GOOD = { sub: SUB, aud: "ledger", exp: NOW + 300, jti: "one" };
const ORDER = REFUSALS.map((it) => it.name);

let browser, page, key;

const bundlesOf = (...entries) => JSON.stringify({ "example.org": { keys: entries } });
const fresh = () => ({ bundles: bundlesOf(key.entry), domain: "", own: "ledger", time: String(NOW), longest: "" });
const header = { alg: "ES256", kid: "key-ES256" };
const signed = (change = {}, head = header) => sign(key, head, { ...GOOD, ...change });

// A list in pieces of as many keys as are tried for a token.
const inThrees = (all) => Array.from({ length: Math.ceil(all.length / 3) }, (_, n) => all.slice(3 * n, 3 * n + 3));

async function shown() {
  return page.run(() => ({
    said: document.getElementById("verdict-said").textContent,
    why: document.getElementById("verdict-why").textContent,
    kind: document.getElementById("verdict").dataset.verdict, // (which has its colour)
    states: [...document.querySelectorAll("#checks [data-state]")].map((it) => it.dataset.state),
    marked: [...document.querySelectorAll("#token-shown mark")].map((it) => it.textContent).join(""),
    members: [...document.querySelectorAll("#parts .marked")].map((it) => it.querySelector("dt")?.textContent ?? "signature"),
  }));
}

async function unsigned(head, payload, signature = "c2ln") {
  return [head, payload].map((it) => base64url(typeof it === "string" ? it : JSON.stringify(it))).join(".") + `.${signature}`;
}

// What marked characters of a token decode to, with what shares their first and last group of four.
function decodedAt(token, marked) {
  const at = token.indexOf(marked), part = token.lastIndexOf(".", at) + 1;
  assert.ok(marked && at !== -1, "nothing is marked");
  const from = part + ((at - part) & ~3);
  return Buffer.from(token.slice(from, at + marked.length), "base64url").toString();
}

// A refusal: the token, what stands in other fields, what of the token is marked (a text, or the member that it is), and words of the reason.
const REFUSED = {
  TooLong: { token: async () => `${"A".repeat(65536)}BCD`, marked: "BCD", why: /65,539 bytes/ },
  NotThreeParts: { token: async () => "e30.e30.c2ln.more", marked: ".more", why: /3 periods/ },
  HeaderSpelling: { token: async () => "e3*0.e30.c2ln", marked: "*", why: /character 3/ },
  HeaderNotObject: { token: async () => unsigned('{"alg" "ES256"}', GOOD), marked: base64url('{"alg" "ES256"}').slice(9), why: /at character 8, a colon/ },
  Crit: { token: async () => signed({}, { ...header, crit: [] }), member: "crit", why: /extensions/ },
  Alg: { token: async () => signed({}, { alg: "HS256" }), member: "alg", why: /none of RS256 to RS512, ES256/ },
  Typ: { token: async () => signed({}, { ...header, typ: "at+jwt" }), member: "typ", why: /neither JWT nor JOSE/ },
  Kid: { token: async () => signed({}, { ...header, kid: 7 }), member: "kid", why: /kid is no text/ },
  PayloadSpelling: { token: async () => `${base64url(JSON.stringify(header))}.e31.c2ln`, marked: "1", why: /payload is misspelt at character 3.*left over/ },
  PayloadNotObject: { token: async () => unsigned(header, "[1]"), marked: base64url("[1]"), why: /JSON, but no object/ },
  SignatureSpelling: { token: async () => unsigned(header, GOOD, ""), marked: ".", why: /signature is empty/ },
  Sub: { token: async () => signed({ sub: "spiffe://example.org/a//b" }), member: "sub", why: /the ID has an empty segment/ },
  Aud: { token: async () => signed({ aud: [] }), member: "aud", why: /neither a text nor a list/ },
  Exp: { token: async () => sign(key, header, `{"sub":"${SUB}","aud":"ledger","exp":1e10}`), member: "exp", why: /no number in digits alone/ },
  Nbf: { token: async () => signed({ nbf: "soon" }), member: "nbf", why: /nbf is no number/ },
  Jti: { token: async () => signed({ jti: 1 }), member: "jti", why: /jti is no text/ },
  NotAudience: { token: async () => signed({ aud: ["other", "third"] }), member: "aud", why: /for "other", "third", and this service is "ledger"/ },
  Expired: { token: async () => signed({ exp: NOW - 240 }), member: "exp", why: /expired at .*, 4 min ago/ },
  NotYet: { token: async () => signed({ nbf: NOW + 60 }), member: "nbf", why: /valid from .*, in 1 min/ },
  TooLongLived: { token: async () => signed(), fields: { longest: "299" }, member: "exp", why: /300 s, and 299 s/ },
  UnknownDomain: { token: async () => signed({ sub: "spiffe://other.example/x" }), member: "sub", why: /no trust domain "other.example"/ },
  NoKey: { token: async () => signed({}, { ...header, kid: "other" }), member: "kid", why: /with the kid "other"/ },
  BadSignature: { token: async () => (await signed()).replace(/.{4}$/, "AAAA"), member: "signature", why: /No key/ },
  Withdrawn: { token: async () => signed({ jti: "two" }), press: "withdraw", member: "jti", why: /a withdrawal/ },
  Replayed: { token: async () => signed({ jti: "three" }), press: "use", member: "jti", why: /a use of this token/ },
};

/** Tests what the page says in a browser, which `start` starts. */
export function testVerdicts(start) {
  before(async () => {
    browser = await start();
    page = await browser.open(process.env.SVID_PAGE);
    key = await makeKey("ES256");
  });
  after(() => browser?.close());

  test("every refusal has a token here", () => assert.deepEqual(Object.keys(REFUSED), ORDER));

  for (const [name, { token, fields = {}, press, marked, member, why }] of Object.entries(REFUSED)) {
    test(`a token is refused as ${name}`, async () => {
      const text = await token();
      await page.write({ ...fresh(), ...fields, token: text });
      if (press) {
        assert.equal((await shown()).said, "Accepted");
        await page.click(press);
      }
      const it = await shown(), index = ORDER.indexOf(name);
      assert.equal(it.said, `Refused: ${name}`);
      assert.match(it.why, why);
      assert.deepEqual(it.states, ORDER.map((_, n) => (n < index ? "passed" : n === index ? "holds" : "later")));
      if (marked) assert.equal(it.marked, marked);
      if (member) {
        assert.deepEqual(it.members, [member]);
        assert.match(decodedAt(text, it.marked), new RegExp(member === "signature" ? "" : `"${member}":`));
      }
      await page.click("forget");
    });
  }

  test("a token of other letters is counted in bytes, and a part that is too long is said to be so", async () => {
    await page.write({ ...fresh(), token: `${"A".repeat(65535)}é` });
    assert.match((await shown()).why, /65,537 bytes/);
    await page.write({ token: `e30.${"A".repeat(65536)}.AA` });
    assert.equal((await shown()).said, "Refused: TooLong");
    assert.equal(await page.text("payload"), "This part is too long to be read.");
  });

  test("a time of any length is told", async () => {
    for (const [change, said, why] of [
      [{ nbf: NOW * 1000 }, "Refused: NotYet", /^It is valid from after the year 9999 on, in [\d,]+ years\.$/],
      [`{"sub":"${SUB}","aud":"ledger","exp":18446744073709551615,"nbf":18446744073709551614}`, "Refused: NotYet", /^It is valid from after the year 9999 on, in [\d,]+ years\.$/],
      [{ exp: NOW * 1000 }, "Accepted", /until after the year 9999, in [\d,]+ years\.$/],
    ]) {
      await page.write({ ...fresh(), token: typeof change === "string" ? await sign(key, header, change) : await signed(change) });
      const it = await shown();
      assert.equal(it.said, said);
      assert.match(it.why, why);
    }
  });

  // What becomes of a token by these bundles.
  async function verdictOf(bundles, token, domain = "") {
    await page.write({ ...fresh(), bundles, domain, token });
    return page.run(() => document.getElementById("verdict-said").textContent);
  }

  const saidOf = (answer) => (answer.startsWith("accepted ") ? "Accepted" : answer.replace("refused ", "Refused: "));

  // Wants each vector of a list to have its verdict: it names all that have another one.
  async function wantVerdicts(vectors, verdict, wanted) {
    const wrong = [];
    for (const it of vectors) {
      const said = await verdict(it);
      if (said !== wanted(it)) wrong.push(`${it.name}: ${said}, and not ${wanted(it)}`);
    }
    assert.deepEqual(wrong, []);
  }

  for (const name of ["keys", "signatures"]) {
    test(`the vectors of ${name}`, async () => {
      const verdict = (it) => verdictOf(`{"example.org":{"keys":[${it.keys.join(",")}]}}`, it.token);
      await wantVerdicts(vectorsOf(name).vectors, verdict, (it) => saidOf(it.answer));
    });
  }

  test("the vectors of bundles", async () => {
    const isFault = (it) => /^(NotObject|Domain|Keys)/.test(it.answer);
    await wantVerdicts(vectorsOf("bundles").vectors, (it) => verdictOf(it.text, it.token, it.domain), (it) => (isFault(it) ? "Not judged" : saidOf(it.answer)));
  });

  // What each `why` of headers.json is in the words of the page.
  const SEND = "send one such field, with Bearer and one token";
  const NO_TOKEN = {
    Scheme: `the header field Authorization has another scheme than Bearer: ${SEND}`,
    Spelling: `in the header field Authorization, Bearer is not followed by one token: ${SEND}`,
  };

  test("the vectors of headers", async () => {
    const { setting, vectors } = vectorsOf("headers");
    const wrong = [];
    for (const { name, values: [value], why, answer } of vectors) {
      await page.write({ ...fresh(), bundles: setting.bundles, own: setting.audience, time: String(setting.now), token: `Authorization: ${value}` });
      const { said } = await shown(), told = await page.text("token-said");
      const isRight = why
        ? said === "Not judged" && told === `This reads as a header field Authorization, and has no bearer token: ${NO_TOKEN[why]}.`
        : (answer === "refused" ? said.startsWith("Refused: ") : said === saidOf(answer)) && told.startsWith("The library took the token out of a header field: ");
      if (!isRight) wrong.push(`${name}: ${said}, ${told}`);
    }
    assert.deepEqual(wrong, []);
  });

  test("a token is taken out of a header field, and marked where it stands", async () => {
    const token = await signed();
    for (const [before, behind, quoted] of [["Bearer ", "", "Bearer"], [" \nAuthorization: Bearer ", "\r\n ", "Authorization: Bearer"], ["authorization:bearer   ", " ", "authorization:bearer"]]) {
      await page.write({ ...fresh(), token: before + token + behind });
      const it = await shown();
      assert.equal(it.said, "Accepted", before);
      assert.equal(await page.text("token-said"), `The library took the token out of a header field: the ${token.length} characters behind "${quoted}".`);
      // (the field has what was put in, and behind it stand the same characters in colours; a line end of a field is one character)
      assert.equal(await page.text("token-shown"), `${before}${token}${behind}\u200b`.replaceAll("\r", ""));
      assert.equal(await page.run(() => document.querySelector("#token-shown .header").textContent), token.split(".")[0]);
      await page.write({ time: String(NOW + 300) });
      const late = await shown();
      assert.deepEqual([late.said, late.members], ["Refused: Expired", ["exp"]]);
      assert.match(decodedAt(token, late.marked), /"exp":/);
    }
    await page.write({ ...fresh(), token });
    assert.deepEqual([(await shown()).said, await page.text("token-said")], ["Accepted", ""]);
  });

  test("a header field without a bearer token is told, and no token is judged", async () => {
    for (const [text, why] of [["Authorization: Basic YTpi", /another scheme than Bearer: send one .*\.$/], [`Bearer ${await signed()} ${await signed()}`, /is not followed by one token: send one .*\.$/], [`Authorization: ${await signed()}`, /another scheme/]]) {
      await page.write({ ...fresh(), token: text });
      const it = await shown();
      assert.deepEqual([it.said, it.why], ["Not judged", "No token can be taken out of the header field."]);
      assert.match(await page.text("token-said"), why);
      assert.ok(it.states.every((state) => state === "later"));
      assert.equal(await page.run(() => document.getElementById("token").getAttribute("aria-invalid")), "true");
      assert.equal(await page.text("token-shown"), `${text}\u200b`);
    }
    await page.write({ token: "Basic YTpi" });
    assert.equal((await shown()).said, "Refused: NotThreeParts");
  });

  test("what is in the field of the token is seen while nothing can be judged", async () => {
    await page.write({ ...fresh(), token: "one", time: "never" });
    await page.write({ token: "another" });
    assert.deepEqual([(await shown()).said, await page.text("token-shown")], ["Not judged", "another\u200b"]);
  });

  test("without an audience no token is accepted, and the other checks are told", async () => {
    const checkOf = (name) => page.run((it) => [...document.getElementById(`check-${it}`).cells].map((cell) => cell.textContent), name);
    const states = (last) => ORDER.map((name, n) => (name === "NotAudience" ? "unasked" : n < last ? "passed" : n === last ? "holds" : "later"));
    await page.write({ ...fresh(), own: " \n", token: await signed({ aud: ["ledger", "b"], jti: "five" }) });
    const it = await shown();
    assert.equal(it.said, "The audience was not looked at");
    assert.match(it.why, /^The token is for "ledger", "b"\. Write the audiences of your service: without one, a service accepts no token\. It passed every other check: spiffe:\/\/example\.org\/billing\/api until/);
    assert.deepEqual(it.states, states(ORDER.length));
    assert.deepEqual(await checkOf("NotAudience"), ["not looked at", "aud names this service", "else NotAudience"]);
    assert.doesNotMatch(await page.text("verdict"), /[Aa]ccepted/);
    assert.equal(await page.run(() => document.getElementById("verdict").dataset.verdict), "none");
    for (const id of ["use", "withdraw"]) assert.equal(await page.run((of) => document.getElementById(of).getAttribute("aria-disabled"), id), "true");
    // A check behind that of the audience may refuse the token all the same.
    await page.write({ time: String(NOW + 300) });
    const late = await shown();
    assert.equal(late.said, "Refused: Expired");
    assert.match(late.why, /^It expired at .*, this very second\. The audience was not looked at, since none is given\.$/);
    assert.deepEqual(late.states, states(ORDER.indexOf("Expired")));
    // So does one before it, and then nothing is said of audiences.
    await page.write({ token: await signed({ aud: [] }), time: String(NOW) });
    const before = await shown();
    assert.equal(before.said, "Refused: Aud");
    assert.doesNotMatch(before.why, /not looked at/);
    // An audience that no line can name.
    await page.write({ token: await signed({ aud: "led\nger" }) });
    const lines = await shown();
    assert.deepEqual([lines.said, lines.why], ["The audience was not looked at", 'The token is for "led\\nger". Write the audiences of your service: without one, a service accepts no token.']);
    assert.deepEqual(lines.states, ORDER.map((_, n) => (n < ORDER.indexOf("NotAudience") ? "passed" : n === ORDER.indexOf("NotAudience") ? "unasked" : "later")));
    // A token that was used is known, and can be withdrawn.
    await page.write({ ...fresh(), token: await signed({ jti: "six" }) });
    await page.click("use");
    await page.write({ own: "" });
    assert.equal((await shown()).said, "Refused: Replayed");
    await page.click("withdraw");
    assert.equal((await shown()).said, "Refused: Withdrawn");
    await page.click("forget");
  });

  test("each reason to pass a key over is told, and each answer of a key", async () => {
    const other = await makeKey("ES256", "key-ES256"), curve = await makeKey("ES384", "key-ES256"), rsa = await makeKey("RS256", "key-ES256");
    const omit = (name) => Object.fromEntries(Object.entries(key.entry).filter(([it]) => it !== name));
    const rows = [
      ["7", /passed over: it is no JSON object/],
      [JSON.stringify(omit("use")), /it has no use, which must be "jwt-svid"/],
      [JSON.stringify({ ...key.entry, use: "x509-svid" }), /it is for X.509-SVIDs/],
      [JSON.stringify({ ...key.entry, use: "sig" }), /its use is not "jwt-svid"/],
      [JSON.stringify(omit("kid")), /its kid is not there, or no text/],
      [JSON.stringify({ ...key.entry, kid: 1 }), /its kid is not there, or no text/],
      [JSON.stringify(omit("kty")), /its kty is neither RSA nor EC/],
      [JSON.stringify({ ...key.entry, kty: "OKP" }), /its kty is neither RSA nor EC/],
      [JSON.stringify(key.entry).replace("{", '{"n":1.5,'), /a number in it is no whole number of 64 bits/],
      [JSON.stringify(key.entry).replace("{", '{"n":18446744073709551616,'), /a number in it is no whole number of 64 bits/],
      [JSON.stringify({ ...key.entry, more: "m".repeat(66000) }), /more than 65,536 bytes/],
      [JSON.stringify(rsa.entry), /its kty is not the algorithm's: RSA for RS and PS, EC for ES/],
      [JSON.stringify({ ...key.entry, kid: "other" }), /its kid is not that of the token, "key-ES256"/],
      [JSON.stringify(other.entry), /^does not verify the signature/],
      [JSON.stringify({ ...key.entry, x: "AA" }), /^can't be used: /],
      [JSON.stringify(key.entry).replace("{", '{"n":18446744073709551615,"z":-9223372036854775808,'), /^verifies the signature/],
      [JSON.stringify(key.entry), /^passed over: only the first 3 keys that fit are tried/],
    ];
    await page.write({ ...fresh(), bundles: `{"example.org":{"keys":[${rows.map(([it]) => it).join(",")}]}}`, token: await signed() });
    const said = async () => page.run(() => [...document.querySelectorAll("#keys summary")].map((it) => it.textContent));
    const rowsSaid = await said();
    assert.equal(rowsSaid.length, rows.length);
    rows.forEach(([, wanted], n) => assert.match(rowsSaid[n], wanted));
    assert.equal((await shown()).said, "Accepted");
    await page.write({ ...fresh(), bundles: `{"example.org":{"keys":[${JSON.stringify(curve.entry)}]}}`, token: await signed() });
    assert.match((await said())[0], /^can't be used: the key's crv is not the algorithm's: P-256 for ES256, /);
  });

  test("a key that is too weak, or is of another algorithm, verifies nothing", async () => {
    const rsa = await makeKey("RS256", "key"), small = await makeKey("RS256", "key", 1024), ec = await makeKey("ES256", "key");
    const number = (bytes) => base64url(Buffer.from(bytes));
    const cases = {
      "RS256": [rsa, [
        [{}, /^verifies the signature/],
        [{ alg: "RS256" }, /^verifies the signature/],
        [{ alg: "RS512" }, /^can't be used: the key's alg is there, and is not the algorithm/],
        [{ alg: null }, /^can't be used: the key's alg is there, and is not the algorithm/],
        [{ n: small.entry.n }, /^can't be used: the key's n has fewer than 2,048 bits, more than 4,096, or more than 16,384$/],
        [{ n: number([0x7f, ...Array(255).fill(255)]) }, /^can't be used: the key's n has fewer than 2,048/],
        [{ n: number([1, ...Array(512).fill(1)]) }, /^can't be used: the key's n has fewer than 2,048/],
        [{ n: number([128, ...Array(511).fill(1)]) }, /^(does not verify the signature|can't be used: (?!the key's n))/],
        [{ n: undefined }, /^can't be used: the key's n is no odd number/],
        [{ e: number([1]) }, /^can't be used: the key's e is no odd number/],
        [{ e: number([2]) }, /^can't be used: the key's e/],
        [{ e: number([1, 0, 0, 0, 1]) }, /^can't be used: the key's e/],
        [{ e: "" }, /^can't be used: the key's e/],
        [{ e: "AQAB==" }, /^can't be used: the key's e is no odd number/],
        [{ e: 65537 }, /^can't be used: the key's e is no odd number/],
        [{ e: number([0, 1, 0, 1]) }, /^can't be used: the key's e is no odd number/],
        [{ n: number([0, 128, ...Array(254).fill(0), 1]) }, /^can't be used: the key's n is no odd number/],
        [{ n: number([128, ...Array(254).fill(0), 2]) }, /^can't be used: the key's n is no odd number/],
      ]],
      "ES256": [ec, [
        [{}, /^verifies the signature/],
        [{ x: base64url(Buffer.concat([Buffer.alloc(1), Buffer.from(ec.entry.x, "base64url")])) }, /^can't be used: the key's x is not base64url of 32, 48 or 66 bytes, as the curve has it/],
        [{ y: `AAAA${ec.entry.y}` }, /^can't be used: the key's y is not base64url of 32, 48 or 66 bytes/],
        [{ x: `${ec.entry.x}\n` }, /^can't be used: the key's x is not/],
        [{ y: ec.entry.y.slice(0, 42) }, /^can't be used: the key's y is not/],
        [{ x: base64url(Buffer.alloc(32)) }, /^can't be used: /],
        [{ crv: "secp256k1" }, /^can't be used: the key's crv is not the algorithm's/],
      ]],
    };
    for (const [alg, [mine, changes]] of Object.entries(cases)) {
      for (const some of inThrees(changes)) {
        await page.write({ ...fresh(), bundles: bundlesOf(...some.map(([change]) => ({ ...mine.entry, ...change }))), token: await sign(mine, { alg, kid: "key" }, GOOD) });
        const said = await page.run(() => [...document.querySelectorAll("#keys summary")].map((it) => it.textContent));
        some.forEach(([change, wanted], n) => assert.match(said[n], wanted, `${alg} ${JSON.stringify(change).slice(0, 60)}`));
      }
    }
    await page.write({ ...fresh(), bundles: bundlesOf(small.entry), token: await sign(small, { alg: "RS256", kid: "key" }, GOOD) });
    assert.equal((await shown()).said, "Refused: BadSignature");
  });

  test("a token that was used can be withdrawn, and one that is refused for another reason can't", async () => {
    const disabled = (id) => page.run((it) => document.getElementById(it).getAttribute("aria-disabled"), id);
    await page.write({ ...fresh(), token: await signed({ jti: "four" }) });
    await page.click("use");
    assert.equal((await shown()).said, "Refused: Replayed");
    assert.deepEqual([await disabled("use"), await disabled("withdraw")], ["true", "false"]);
    await page.click("withdraw");
    assert.equal((await shown()).said, "Refused: Withdrawn");
    assert.deepEqual([await disabled("use"), await disabled("withdraw")], ["true", "true"]);
    assert.match(await page.text("rows"), /this token.*withdrawn/);
    assert.match(await page.text("record-said"), /1 use, 1 withdrawal, 0 keys used twice/);
    await page.click("forget");
  });

  test("a bundle as SPIRE prints it is taken, of the trust domain that stands in the field or in the token", async () => {
    const spire = JSON.stringify({ keys: [{ ...key.entry, use: "x509-svid", kid: undefined, x5c: ["MII"] }, key.entry], spiffe_sequence: 7, spiffe_refresh_hint: 300 }, null, 4);
    await page.write({ ...fresh(), bundles: spire, token: await signed() });
    assert.equal((await shown()).said, "Accepted");
    assert.equal(await page.run(() => document.getElementById("domain-row").hidden), false);
    await page.write({ domain: "other.example" });
    assert.equal((await shown()).said, "Refused: UnknownDomain");
    await page.write({ bundles: bundlesOf(key.entry) });
    assert.equal(await page.run(() => document.getElementById("domain-row").hidden), true);
  });

  const spires = () => JSON.stringify({ keys: [{ ...key.entry, use: "x509-svid", kid: undefined, x5c: ["MII"] }, key.entry], spiffe_sequence: 7, spiffe_refresh_hint: 300 }, null, 4);
  const keysSaid = () => page.run(() => [...document.querySelectorAll("#keys summary")].map((it) => it.textContent));

  test("a bundle as SPIRE prints it is known before any token: its trust domain is asked for, and its keys are shown", async () => {
    const said = async () => [(await shown()).said, await page.text("keys-of"), await page.text("bundles-said"), await page.run(() => document.getElementById("bundles").getAttribute("aria-invalid"))];
    const taken = "A bundle as SPIRE prints it, with 2 entries. ", rows = [/^passed over: it is for X.509-SVIDs$/, /^may sign tokens$/];
    await page.write({ ...fresh(), bundles: spires(), token: "" });
    assert.deepEqual(await said(), ["Paste a token", "of a bundle whose trust domain is not known yet", `${taken}Which trust domain is it of? Write the name below. If you leave it empty, the trust domain of the token is taken.`, "false"]);
    assert.equal(await page.run(() => document.getElementById("domain-row").hidden), false);
    (await keysSaid()).forEach((it, n) => assert.match(it, rows[n]));
    assert.equal((await keysSaid()).length, 2);
    await page.write({ domain: "example.org" });
    assert.deepEqual(await said(), ["Paste a token", "of example.org", `${taken}It is taken as that of example.org, which stands below.`, "false"]);
    assert.equal((await keysSaid()).length, 2);
    await page.write({ domain: "", token: await signed() });
    assert.deepEqual(await said(), ["Accepted", "of example.org", `${taken}It is taken as that of example.org, the trust domain of the token.`, "false"]);
    await page.write({ token: "", domain: "Not A Name" });
    assert.deepEqual([await page.text("bundles-said"), await page.run(() => document.getElementById("bundles").getAttribute("aria-invalid"))], ['A name of the bundles is no trust domain name. It is "Not A Name". Correct that name, or take it out.', "true"]);
    await page.write({ domain: "", bundles: bundlesOf(key.entry) });
    assert.deepEqual([await keysSaid(), await page.text("keys-of")], [["may sign tokens"], "of example.org"]);
    await page.write({ bundles: '{"keys":[]}' });
    assert.match(await page.text("bundles-said"), /with 0 entries/);
    assert.equal(await page.text("keys-none"), "The bundle has no key.");
    await page.write({ bundles: `{"keys":${"[".repeat(126)}${"]".repeat(126)}}` });
    assert.match(await page.text("bundles-said"), /^The bundles are no JSON object\. In line 1/);
  });

  test("a malformed token with a bundle alone: which part is malformed, and where", async () => {
    const [head, payload, signature] = (await signed()).split(".");
    const cases = [
      [`${head.slice(0, 4)}*${head.slice(4)}.${payload}.${signature}`, "HeaderSpelling", 'The header is misspelt at character 5. "*" is no character of base64url.', "*"],
      [`${head}.${payload.slice(0, 9)} ${payload.slice(9)}.${signature}`, "PayloadSpelling", `The payload is misspelt at character 10, which is character ${head.length + 11} of the token. " " is no character of base64url.`, " "],
      [`${head}.${base64url('{"sub" 1}')}.${signature}`, "PayloadNotObject", "The payload is no JSON: at character 8, a colon should stand here.", base64url('{"sub" 1}').slice(9)],
      [`${head}.${payload}`, "NotThreeParts", "It has one period, so it is no token in compact form.", undefined],
      [`${head}.${base64url('{"sub":"example.org"}')}.${signature}`, "Sub", "sub is no SPIFFE ID: the ID does not begin with spiffe://.", undefined],
      [`${head}.${payload}.${signature}=`, "SignatureSpelling", `The signature is misspelt at character ${signature.length + 1}, which is character ${head.length + payload.length + signature.length + 3} of the token. "=" is no character of base64url.`, "="],
    ];
    for (const [token, name, why, marked] of cases) {
      await page.write({ ...fresh(), bundles: spires(), token });
      const it = await shown();
      assert.deepEqual([it.said, it.why], [`Refused: ${name}`, why]);
      if (marked) assert.equal(it.marked, marked);
      assert.equal(it.states[ORDER.indexOf(name)], "holds");
      // (of a part that is no base64url no member is there to be marked)
      assert.deepEqual(it.members, { Sub: ["sub"], SignatureSpelling: ["signature"] }[name] ?? [], name);
      assert.equal((await keysSaid()).length, 2, name);
      assert.equal(await page.run(() => document.getElementById("bundles").getAttribute("aria-invalid")), "false");
    }
  });

  test("bundles that can't be read are told, and where", async () => {
    const wanted = [
      ["{", "The bundles are no JSON object. In line 1, at character 2, a name in quotation marks should stand here. Write one object that has a JWK Set under the name of each trust domain."],
      ["[]", "The bundles are no JSON object. They are JSON of another kind. Write one object that has a JWK Set under the name of each trust domain."],
      ['{"a":{"keys":[]},"B":{"keys":[]}}', 'A name of the bundles is no trust domain name. It is "B". Correct that name, or take it out.'],
      ['{"a":{"keys":1}}', 'A name of the bundles has no list of keys. It is "a". Write a JWK Set under that name, or take it out.'],
    ];
    for (const [bundles, why] of wanted) {
      await page.write({ ...fresh(), bundles, token: await signed() });
      assert.equal((await shown()).said, "Not judged");
      assert.equal(await page.text("bundles-said"), why);
    }
  });

  test("the token is judged at the time of its field, or at that of the record where it is later", async () => {
    await page.write({ ...fresh(), token: await signed({ nbf: NOW - 60 }) });
    for (const [time, said] of [[NOW - 61, "Refused: NotYet"], [NOW - 60, "Accepted"], ["2026-01-01T00:04:59Z", "Accepted"], [NOW + 300, "Refused: Expired"]]) {
      await page.write({ time: String(time) });
      assert.equal((await shown()).said, said, String(time));
    }
    await page.write({ time: String(NOW + 100) });
    await page.click("use");
    await page.write({ time: String(NOW - 1000) });
    const it = await shown();
    assert.equal(it.said, "Refused: Replayed");
    assert.match(it.why, /Judged at .*the time that the record has seen/);
    await page.click("forget");
    await page.write({ time: "yesterday" });
    assert.match(await page.text("time-said"), /Write seconds/);
    assert.deepEqual([(await shown()).said, await page.text("verdict-why")], ["Not judged", "The time can't be read."]);
    await page.write({ time: String(NOW), longest: "9999999999999999999" });
    assert.equal((await shown()).said, "Accepted");
    for (const longest of ["an hour", "-1", "1.5", "18446744073709551616", "99999999999999999999"]) {
      await page.write({ longest });
      assert.deepEqual([(await shown()).said, await page.text("verdict-why")], ["Not judged", "The longest life can't be read."], longest);
      assert.ok((await shown()).states.every((it) => it === "later"));
      // (what could be done with the token before)
      assert.deepEqual(await page.run(() => ["use", "withdraw"].map((id) => document.getElementById(id).getAttribute("aria-disabled"))), ["true", "true"]);
    }
  });

  test("a second check of a token says Replayed, and the slider goes from before the token until after it", async () => {
    await page.write({ ...fresh(), token: await signed({ nbf: NOW, iat: NOW - 5000 }) });
    const slide = (it) => page.run((value) => {
      const slider = document.getElementById("slider");
      slider.value = value;
      slider.dispatchEvent(new InputEvent("input", { bubbles: true }));
    }, it).then(() => page.settled());
    await page.click("live");
    for (const [at, said] of [[0, "Refused: NotYet"], [500, "Accepted"], [1000, "Refused: Expired"]]) {
      await slide(at);
      const it = await shown();
      assert.deepEqual([it.said, it.kind], [said, said === "Accepted" ? "accepted" : "refused"]);
      assert.equal(await page.run(() => document.getElementById("live").getAttribute("aria-pressed")), "false");
    }
    await page.write({ token: await signed({ iat: NOW - 100 }) });
    await slide(0);
    assert.equal(await page.run(() => document.getElementById("time").value), String(NOW - 141)); // (a tenth of its life before it, and a second)
    await page.write({ token: await signed({ nbf: 0 }) });
    await slide(0);
    assert.deepEqual([(await shown()).said, await page.run(() => document.getElementById("time").value)], ["Accepted", "0"]);
    await page.write({ token: await signed({ nbf: NOW }) });
    await slide(500);
    await page.click("use");
    assert.equal((await shown()).said, "Refused: Replayed");
    assert.match(await page.text("rows"), /this token/);
    await page.click("forget");
  });

  test("nothing was asked of a server, and nothing was complained of", async () => {
    assert.deepEqual(await page.requests(), []);
    assert.deepEqual(await page.complaints(), []);
  });
}
