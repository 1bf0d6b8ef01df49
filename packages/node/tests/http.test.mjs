// Middleware over real servers: Express, and node:http alone.

import assert from "node:assert/strict";
import { createServer, request } from "node:http";
import { createRequire } from "node:module";
import { test } from "node:test";
import { format } from "node:util";
import { imported } from "./ending.mjs";
import { issuer, now, token, until, within } from "./making.mjs";

const { MemoryStore, Validator, guard, protect } = await imported();
// (Debian's packages stand where only `require` looks)
const express = createRequire("/usr/share/nodejs/")("express");

const PATHS = ["/healthz", "/static/*"];
const one = issuer(), terms = { audiences: "ledger", bundles: one.bundles, wait: 600 };

const hello = (req, res) => res.end(`hello ${req.svid.spiffeId}`);
const app = (validator, options) => {
  const it = express();
  it.use((req, _res, next) => {
    req.svid = { spiffeId: "spiffe://example.org/forged" };
    next();
  });
  it.use(guard(validator, options));
  it.get("/", hello);
  it.use((_why, _req, res, _next) => res.status(500).end("failed"));
  return it;
};
const SERVERS = { Express: app, "node:http": (validator, options) => protect(validator, hello, options) };

// What a server answers to requests with these headers, each a list of values of Authorization.
async function answers(listener, requests, { path = "/", method = "GET", seen = shortly } = {}) {
  const server = createServer(listener);
  await new Promise((resolve) => server.listen(0, "127.0.0.1", resolve));
  const said = [];
  try {
    for (const values of requests) {
      said.push(await within(`an answer to ${path}`, new Promise((resolve, reject) => {
        const headers = values.length ? { authorization: values.length === 1 ? values[0] : values } : {};
        const sent = request({ port: server.address().port, host: "127.0.0.1", agent: false, headers, path, method }, (res) => {
          let text = "";
          res.setEncoding("utf8");
          res.on("data", (it) => (text += it));
          res.on("end", () => resolve(seen(res, text)));
        });
        sent.on("error", reject);
        sent.end();
      })));
    }
  } finally {
    server.closeAllConnections();
    await new Promise((resolve) => server.close(resolve));
  }
  return said;
}

// The status of an answer, and its challenge or its body.
const shortly = (res, text) => [res.statusCode, res.headers["www-authenticate"] ?? text];
const unavailable = (reason) => [503, `{"reason":"${reason}","result":"unavailable"}\n`];
const UNAVAILABLE = unavailable("NotJudged");

for (const [name, listener] of Object.entries(SERVERS)) {
  test(`${name}: what is not let in is answered as svidd does`, async () => {
    const validator = await Validator.open(terms), reuse = await Validator.open({ ...terms, callers: "spiffe://example.org/other" }), good = token(one);
    const closed = await Validator.open(terms);
    closed.close();
    const seen = ({ statusCode, headers }, body) => [
      statusCode, headers["www-authenticate"], headers["retry-after"], headers["cache-control"], headers["content-type"], headers["content-length"], body.trim(),
    ];
    const due = (status, challenge, reason, result = "refused") => {
      const body = `{"reason":"${reason}","result":"${result}"}`;
      return [status, challenge, status === 503 ? "1" : undefined, "no-store", "application/json", String(body.length + 1), body];
    };
    const said = async (by, values, options) => (await answers(listener(by, { onError: () => {} }), [values], { seen, ...options }))[0];
    const invalid = (why) => `Bearer error="invalid_token", error_description="${why}"`, none = 'Bearer realm="svid"';
    assert.deepEqual(await said(validator, []), due(401, none, "NoToken"));
    assert.deepEqual(await said(validator, ["Basic YTpi"]), due(401, none, "NotBearer"));
    assert.deepEqual(await said(validator, ["Bearer a b"]), due(401, 'Bearer error="invalid_request", error_description="NotBearer"', "NotBearer"));
    assert.deepEqual(await said(validator, [`Bearer ${token(one, { exp: now() - 1 })}`]), due(401, invalid("Expired"), "Expired"));
    assert.deepEqual(await said(reuse, [`Bearer ${good}`]), due(403, 'Bearer error="insufficient_scope", error_description="NotAllowed"', "NotAllowed"));
    assert.deepEqual(await said(closed, [`Bearer ${good}`]), due(503, undefined, "NotJudged", "unavailable"));
    const [status, , , cached] = await said(validator, [`Bearer ${good}`]);
    assert.deepEqual([status, cached], [200, undefined]);
    for (const it of [validator, reuse]) it.close();
  });

  test(`${name}: a path that is open needs no token, and no other one is open`, async () => {
    const validator = await Validator.open(terms), who = (req, res) => res.end(req.svid === undefined ? "nobody" : req.svid.spiffeId);
    const opened = name === "Express" ? express().use((req, _res, next) => ((req.svid = "forged"), next()), guard(validator, { openPaths: PATHS }), who)
      : protect(validator, who, { openPaths: PATHS });
    const said = async (path, values = [], method) => (await answers(opened, [values], { path, method }))[0];
    for (const path of ["/healthz", "/healthz?a=/b", "/static/a", "/static/a/b.css", "/static/a/"]) assert.deepEqual(await said(path), [200, "nobody"], path);
    const shut = ["/", "/healthz/", "/healthz/a", "/Healthz", "/%68ealthz", "/static", "/static/", "/static/../a", "/static/%2e%2e/a", "/static//a", "/static/./a",
      "/static/a;b", "/static/a%00", "//healthz", "/x/healthz", "/staticky/a"];
    for (const path of shut) assert.deepEqual(await said(path), [401, 'Bearer realm="svid"'], path);
    assert.deepEqual(await said("/healthz", [], "POST"), [200, "nobody"]);
    // (a token is not looked at there, and is not used up)
    const text = token(one);
    assert.deepEqual(await said("/healthz", [`Bearer ${text}`]), [200, "nobody"]);
    assert.deepEqual(await said("/", [`Bearer ${text}`]), [200, "spiffe://example.org/billing/api"]);
    const alone = protect(validator, who, { openPaths: "/healthz" });
    for (const [path, status] of [["/healthz", 200], ["/", 401]]) assert.deepEqual(await answers(alone, [[]], { path, seen: ({ statusCode }) => statusCode }), [status]);
    for (const it of ["healthz", "/a/../b", "/a//b", "/*/b", "/a*", "/%41", "/a?b", "", 7]) assert.throws(() => listener(validator, { openPaths: [it] }), RangeError, it);
    validator.close();
  });

  test(`${name}: a hook is told of refusals, and what it throws changes no answer`, async () => {
    const told = [], validator = await Validator.open({ ...terms, callers: "spiffe://example.org/billing/*" });
    const onRefusal = (why, req) => {
      told.push([why.name, typeof req.url]);
      throw new Error("no logger");
    };
    const guarded = listener(validator, { onRefusal }), other = token(one, { sub: "spiffe://example.org/other" });
    const said = (await answers(guarded, [[`Bearer ${other}`], ["Bearer a"], [], [`Bearer ${token(one)}`]])).map(([status]) => status);
    assert.deepEqual(said, [403, 401, 401, 200]);
    assert.deepEqual(told, [["NotAllowed", "string"], ["NotThreeParts", "string"]]);
    for (const it of ["onRefusal", "onError", "caller"]) assert.throws(() => listener(validator, { [it]: 7 }), { name: "TypeError", message: `${it} is a function` });
    validator.close();
  });

  test(`${name}: a good token is let in once, and all else is answered with a challenge`, async () => {
    const validator = await Validator.open(terms), good = token(one), another = token(one);
    const said = await answers(listener(validator), [
      [`Bearer ${good}`], [`bearer  ${good} `], [], ["Basic YTpi"], ["Bearer"], ["Bearer a b"], [`Bearer ${another}`, `Bearer ${another}`],
      [`Bearer ${token(one, { exp: now() - 1 })}`], [`Bearer ${another}`],
    ]);
    const invalid = (why) => [401, `Bearer error="invalid_token", error_description="${why}"`];
    const misspelt = [401, 'Bearer error="invalid_request", error_description="NotBearer"'], none = [401, 'Bearer realm="svid"'];
    const hello = [200, "hello spiffe://example.org/billing/api"];
    assert.deepEqual(said, [hello, invalid("Replayed"), none, none, misspelt, misspelt, misspelt, invalid("Expired"), hello]);
    validator.close();
  });

  test(`${name}: a caller that no pattern allows gets 403, and its token is not used up`, async () => {
    const validator = await Validator.open(terms), good = token(one);
    const closed = listener(validator, { allow: ["spiffe://example.org/other", "spiffe://example.com"] });
    const opened = listener(validator, { allow: ["spiffe://example.com", "spiffe://example.org/billing/*"] });
    const notAllowed = [403, 'Bearer error="insufficient_scope", error_description="NotAllowed"'];
    const spoilt = `${good.slice(0, -6)}AAAAAA`, invalid = (why) => [401, `Bearer error="invalid_token", error_description="${why}"`];
    const all = [good, good, spoilt, "a"].map((it) => [`Bearer ${it}`]);
    assert.deepEqual(await answers(closed, all), [notAllowed, notAllowed, invalid("BadSignature"), invalid("NotThreeParts")]);
    assert.deepEqual(await answers(opened, all.slice(1)), [[200, "hello spiffe://example.org/billing/api"], invalid("BadSignature"), invalid("NotThreeParts")]);
    assert.deepEqual(await answers(closed, all.slice(1, 2)), [invalid("Replayed")]);
    for (const allow of ["example.org", ["spiffe://example.org", "*"]]) assert.throws(() => listener(validator, { allow }), /no pattern of SPIFFE IDs/);
    assert.throws(() => listener(validator, { allow: [] }), { name: "RangeError", message: /leave it out to let all call/ });
    assert.throws(() => validator.allows("spiffe://example.org", "a"), /"a" is no SPIFFE ID \(byte 0\): The ID does not begin with spiffe:/);
    assert.throws(() => validator.allows("spiffe://a//*", "spiffe://a"), /\(byte 11\): The pattern has an empty segment\. Write spiffe:/);
    assert.throws(() => validator.allows(1, "a"), TypeError);
    validator.close();
  });

  test(`${name}: where nothing can be said, the status is 503, and the reason is told`, async () => {
    const told = [], onError = (why, req) => {
      told.push([why.name, typeof req.url]);
      throw new Error("no logger");
    };
    const validator = await Validator.open({ ...terms, verify: () => Promise.reject(new Error("no such key")) });
    assert.deepEqual(await answers(listener(validator, { onError }), [[`Bearer ${token(one)}`]]), [UNAVAILABLE]);
    validator.close();
    assert.deepEqual(await answers(listener(validator, { onError }), [[`Bearer ${token(one)}`]]), [UNAVAILABLE]);
    assert.deepEqual(told, [["Unverifiable", "string"], ["Closed", "string"]]);
    const logged = [], good = token(one), { error } = console;
    console.error = (...it) => logged.push(format(...it));
    try {
      assert.deepEqual(await answers(listener(validator), [[`Bearer ${good}`]]), [UNAVAILABLE]);
    } finally {
      console.error = error;
    }
    assert.match(logged.join(), /^Closed: /);
    assert.ok(!logged.join().includes(good), "the log has no token: while nothing is answered about it, it may still be good");
    let time = now();
    const jumping = await Validator.open({ ...terms, step: 100, now: () => time });
    jumping.tick();
    time += 1000;
    const seen = ({ statusCode }, body) => [statusCode, JSON.parse(body).reason];
    assert.deepEqual(await answers(listener(jumping, { onError: () => {} }), [[`Bearer ${token(one)}`]], { seen }), [[503, "ClockJump"]]);
    jumping.close();
  });

  test(`${name}: who is none of the validator's callers gets 403, and where the store is away the status is 503`, async () => {
    let told;
    const onError = (why) => (told = [why.name, why.cause?.message]);
    const closed = await Validator.open({ ...terms, callers: "spiffe://example.org/other" }), good = token(one);
    assert.deepEqual(await answers(listener(closed, { onError }), [[`Bearer ${good}`]]), [[403, 'Bearer error="insufficient_scope", error_description="NotAllowed"']]);
    const store = new MemoryStore(), validator = await Validator.open({ ...terms, mode: "strict", store, wait: 2 });
    store.put = () => Promise.reject(new Error("the store is away"));
    // (on a busy machine a check may be late before the store was asked: it has no cause)
    await until(async () => {
      assert.deepEqual(await answers(listener(validator, { onError }), [[`Bearer ${good}`]]), [unavailable("NotClaimed")]);
      return told[1];
    });
    assert.deepEqual(told, ["Unavailable", "the store is away"]);
    for (const it of [closed, validator]) it.close();
  });

  test(`${name}: in mode bound a function says who calls`, async () => {
    const validator = await Validator.open({ ...terms, mode: "bound", store: new MemoryStore() }), good = token(one), told = [];
    const of = (who) => listener(validator, { caller: (req) => who ?? req.socket.remoteAddress, onError: (why) => told.push(why.name) });
    const hello = [200, "hello spiffe://example.org/billing/api"], thief = [401, 'Bearer error="invalid_token", error_description="Replayed"'];
    for (const [who, due] of [[undefined, hello], ["10.0.0.7", thief], [undefined, hello], ["127.0.0.1", hello], [7, UNAVAILABLE]]) {
      assert.deepEqual(await answers(of(who), [[`Bearer ${good}`]]), [due]);
    }
    assert.deepEqual(await answers(listener(validator), [[`Bearer ${good}`]]), [UNAVAILABLE]);
    assert.deepEqual(told, ["TypeError"]);
    assert.throws(() => listener(validator, { caller: "10.0.0.7" }), { name: "TypeError", message: "caller is a function" });
    validator.close();
  });

  test(`${name}: a token is let in once, however many send it at once`, async () => {
    const validator = await Validator.open(terms), text = token(one);
    const said = (await Promise.all([1, 2, 3, 4].map(() => answers(listener(validator), [[`Bearer ${text}`]])))).flat();
    assert.deepEqual(said.map(([status]) => status).sort(), [200, 401, 401, 401]);
    validator.close();
  });
}

test("what stood in req.svid is gone where a request is not let in", async () => {
  const validator = await Validator.open(terms), req = { svid: "forged", rawHeaders: [] };
  await guard(validator)(req, { setHeader() {}, end() {} }, () => assert.fail("it was let in"));
  assert.ok(!("svid" in req));
  validator.close();
});

test("a request that was answered while its check waited, and who is told in vain, end no process", async () => {
  const unhandled = [], note = (why) => unhandled.push(why.message);
  process.on("unhandledRejection", note);
  try {
    let fail;
    const validator = await Validator.open({ ...terms, verify: () => new Promise((_resolve, reject) => (fail = reject)) });
    const answered = (req, res) => {
      const later = protect(validator, hello, { onError: () => Promise.reject(new Error("no logger")) })(req, res);
      const wait = () => (fail ? (res.writeHead(504).end("late"), later.catch(note), fail(new Error("no such key"))) : setImmediate(wait));
      wait();
    };
    assert.deepEqual(await answers(answered, [[`Bearer ${token(one)}`]]), [[504, "late"]]);
    await new Promise((resolve) => setImmediate(resolve));
    assert.deepEqual(unhandled, []);
    validator.close();
  } finally {
    process.off("unhandledRejection", note);
  }
});

test("a request that was answered while its check waited does not go on, though its token is good", async () => {
  let verified;
  const validator = await Validator.open({ ...terms, verify: () => new Promise((resolve) => (verified = resolve)) }), went = [], handler = (req) => went.push(req.url);
  for (const lets of [(req, res) => guard(validator)(req, res, () => handler(req)), protect(validator, handler)]) {
    let later;
    const answered = (req, res) => {
      later = lets(req, res);
      const wait = () => (verified ? res.writeHead(504).end("late") : setImmediate(wait));
      wait();
    };
    assert.deepEqual(await answers(answered, [[`Bearer ${token(one)}`]]), [[504, "late"]]);
    verified(true);
    await later;
    verified = undefined;
    assert.deepEqual(went, []);
  }
  validator.close();
});

test("the name of the field may be spelt in any letters, and two fields are refused", async () => {
  const validator = await Validator.open(terms), text = `Bearer ${token(one)}`, names = ["Authorization", "authorization", "AUTHORIZATION"];
  const status = async (...fields) => {
    const res = { setHeader() {}, end() {} };
    await guard(validator)({ rawHeaders: fields.flatMap((name) => [name, text]) }, res, () => (res.statusCode = 200));
    return res.statusCode;
  };
  for (const name of names) for (const other of names) assert.equal(await status(name, other), 401, `${name} ${other}`);
  assert.deepEqual([await status(names[2]), await status(names[0])], [200, 401]);
  validator.close();
});

test("a character that no byte is stands for no other one", async () => {
  const validator = await Validator.open(terms), text = token(one), other = String.fromCharCode(text.charCodeAt(0) + 256) + text.slice(1);
  assert.deepEqual(validator.bearer([`Bearer ${other}`]), { several: false, spelling: true });
  validator.close();
});

test("a fault of the service behind is its own", async () => {
  const validator = await Validator.open(terms), fails = () => {
    throw new Error("of the service");
  };
  const req = { rawHeaders: ["authorization", `Bearer ${token(one)}`] }, res = { setHeader: () => assert.fail("it was answered") };
  await assert.rejects(guard(validator)(req, res, fails), /of the service/);
  await assert.rejects(protect(validator, fails)({ rawHeaders: ["Authorization", `Bearer ${token(one)}`] }, res), /of the service/);
  assert.throws(() => guard({}), TypeError);
  assert.throws(() => protect(undefined, hello), TypeError);
  validator.close();
});
