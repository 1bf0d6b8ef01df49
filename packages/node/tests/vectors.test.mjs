// The vectors of tests/vectors/, which say where their answers come from: those that the Python package reads too.

import assert from "node:assert/strict";
import { mkdtemp, rm, writeFile } from "node:fs/promises";
import { tmpdir } from "node:os";
import { join } from "node:path";
import { test } from "node:test";
import { imported } from "./ending.mjs";
import { bytesOf, hex, listed, read } from "./making.mjs";

const { BadBundles, BadMessages, Bundles, Refusal, SvidError, Validator, guard } = await imported();
const { Library } = await imported("src/library.js");
const { LISTED } = await listed();

const ANY = 2n ** 64n - 1n;
const READER = "python";
const LONG = 600; // seconds for a check: a machine may be busy

function vectorsOf(name) {
  const file = JSON.parse(read(`tests/vectors/${name}.json`));
  const vectors = file.vectors.filter((it) => it.readers.split(" ").includes(READER));
  assert.equal(vectors.length, file.counts[READER]);
  assert.ok(vectors.length > 0);
  return { ...file, vectors };
}

async function verdict(call) {
  try {
    const accepted = await call();
    assert.equal(accepted.spiffeId, `spiffe://${accepted.trustDomain}${accepted.path}`);
    assert.ok(!accepted.trustDomain.includes("/"));
    return `accepted ${accepted.spiffeId} ${accepted.expires}`;
  } catch (why) {
    if (why instanceof Refusal) return `refused ${why.name}`;
    if (why instanceof BadMessages && why.number) return `${why.reason} ${why.number} ${why.offset}`;
    if (why instanceof SvidError) return why.name;
    throw why;
  }
}

async function using(opened, body) {
  const it = await opened;
  try {
    return await body(it);
  } finally {
    await it.close();
  }
}

for (const name of ["keys", "signatures"]) {
  test(name, async () => {
    const file = vectorsOf(name), { now } = file.setting;
    for (const vector of file.vectors) {
      const terms = { audiences: "ledger", bundles: { "example.org": `{"keys":[${vector.keys.join(",")}]}` }, rsaBits: vector.rsa_bits, longest: "unlimited", wait: LONG };
      await using(Validator.open(terms), async (validator) => {
        assert.equal(await verdict(() => validator.judge(vector.token, now)), vector.answer, vector.name);
        assert.equal(await verdict(() => validator.check(Buffer.from(vector.token), now)), vector.answer, vector.name);
      });
      await using(Bundles.open(terms), async (bundles) => {
        assert.equal(await verdict(() => bundles.judge(vector.token, now)), vector.answer, vector.name);
      });
    }
  });
}

test("a signature has its length, whatever WebCrypto takes", async (t) => {
  const { vectors, setting } = vectorsOf("signatures"), asked = [];
  t.mock.method(crypto.subtle, "verify", async (algorithm, key, signature) => asked.push(signature.length) > 0);
  for (const alg of ["RS256", "PS512", "ES256", "ES384", "ES512"]) {
    const { token, keys } = vectors.find((it) => it.name === `${alg}, a good signature`), at = token.lastIndexOf(".") + 1;
    const of = (length) => token.slice(0, at) + Buffer.alloc(length, 7).toString("base64url");
    const due = Buffer.from(token.slice(at), "base64url").length;
    await using(Validator.open({ audiences: "ledger", bundles: { "example.org": `{"keys":[${keys.join(",")}]}` }, longest: "unlimited" }), async (validator) => {
      for (const length of [1, 2, due / 2, due - 2, due - 1, due + 1, due + 2, 2 * due]) {
        assert.equal(await verdict(() => validator.judge(of(length), setting.now)), "refused BadSignature", `${alg}, ${length}`);
      }
      assert.deepEqual(asked, []);
      assert.match(await verdict(() => validator.judge(of(due), setting.now)), /^accepted /, alg);
      assert.equal(asked.pop(), due);
    });
  }
});

// The call of a vector of tokens.json.
async function called(validator, call) {
  const now = call.now === undefined ? undefined : BigInt(call.now);
  switch (call.call) {
    case "check":
    case "judge":
      return verdict(() => validator[call.call](call.token, now));
    case "tell":
      return hex(validator.record());
    default: {
      const calls = {
        withdraw: () => validator.withdrawKey(bytesOf(call.key), BigInt(call.exp), now).then(() => "withdrawn"),
        take: async () => validator.take(bytesOf(call.messages), now) ?? "taken",
        tick: async () => validator.tick(now) ?? "ticked",
      };
      return calls[call.call]().catch((why) => verdict(() => Promise.reject(why)));
    }
  }
}

test("calls of a validator", async () => {
  const file = vectorsOf("tokens");
  for (const vector of file.vectors) {
    const given = { ...file.setting, ...vector.setting };
    const limit = (it) => (it === null ? undefined : BigInt(it));
    const terms = {
      audiences: given.audiences,
      bundles: file.bundles[given.bundles],
      longest: given.longest === null ? "unlimited" : BigInt(given.longest),
      ahead: given.ahead === null ? ANY : BigInt(given.ahead),
      step: limit(given.step),
      validatorId: bytesOf(given.validator_id),
    };
    await using(Validator.open(terms), async (validator) => {
      for (const call of vector.calls) assert.equal(await called(validator, call), call.answer, `${vector.name}: ${call.call}`);
    });
  }
});

test("bundles", async () => {
  const file = vectorsOf("bundles");
  const faults = ["NotObject", "Domain", "Keys", "Unnamed", "BadBundles"];
  let read = 0;
  for (const vector of file.vectors) {
    if (vector.form === "workload") continue; // (this package takes no bundles of that form)
    read += 1;
    const text = "text" in vector ? vector.text : bytesOf(vector.hex);
    const bundles = vector.form === "document" ? { [vector.domain]: text } : text;
    let fault = false;
    try {
      await using(Validator.open({ audiences: "ledger", bundles, longest: "unlimited" }), async (validator) => {
        assert.equal(await verdict(() => validator.check(vector.token, file.setting.now)), vector.answer, vector.name);
      });
      await using(Bundles.open({ audiences: "ledger", bundles, longest: "unlimited" }), async (it) => {
        assert.equal(await verdict(() => it.judge(vector.token, file.setting.now)), vector.answer, vector.name);
      });
    } catch (why) {
      if (!(why instanceof BadBundles)) throw why;
      fault = true;
    }
    assert.equal(fault, faults.includes(vector.answer.split(" ")[0]), vector.name);
  }
  assert.ok(read >= 60, `${read} vectors were read`);
});

test("headers", async () => {
  const file = vectorsOf("headers");
  for (const vector of file.vectors) {
    await using(Validator.open({ audiences: "ledger", bundles: file.setting.bundles, longest: "unlimited" }), async (validator) => {
      const answer = {};
      const res = { setHeader: (name, value) => (answer[name] = value), end: () => (answer.ended = true) };
      const req = { rawHeaders: vector.values.flatMap((it) => ["AuthoriZation", it]) };
      const atOneTime = { bearer: (values) => validator.bearer(values), check: (token) => validator.check(token, file.setting.now) };
      let isLetIn = false;
      await guard(atOneTime)(req, res, () => (isLetIn = true));
      if (vector.answer === "refused") {
        assert.deepEqual([isLetIn, res.statusCode, answer.ended], [false, 401, true], vector.name);
        assert.match(answer["WWW-Authenticate"], /^Bearer \w+=/, vector.name);
        if (vector.challenge) assert.equal(answer["WWW-Authenticate"], vector.challenge, vector.name);
      } else {
        assert.equal(req.svid?.spiffeId, vector.answer.split(" ")[1], vector.name);
        assert.ok(isLetIn);
      }
    });
  }
});

// What is wrong with messages and due there, by the name of the reason, as lists/statuses.toml says it.
const WORDS = new Map(
  [...LISTED.values()].filter((it) => it.due).map(({ name, says, due }) =>
    [name.replace(/([A-Z])([A-Z]*)_?/g, (_, first, rest) => first + rest.toLowerCase()), `${says}, and due is ${due}`]),
);

const empty = () => Validator.open({ audiences: "ledger", bundles: "{}", ahead: ANY });

test("messages", async () => {
  for (const vector of vectorsOf("messages").vectors) {
    await using(empty(), async (validator) => {
      const messages = bytesOf(vector.messages);
      if (vector.fault) {
        const { reason, message, offset } = vector.fault;
        const says = `${reason} in message ${message} at byte ${offset}: ${WORDS.get(reason)}`;
        const error = { name: "BadMessages", reason, number: message, offset, message: says };
        assert.throws(() => validator.take(messages, 0), error, vector.name);
        return;
      }
      validator.take(messages, 0);
      if (vector.now) validator.tick(vector.now);
      assert.equal(hex(validator.record()), vector.record, vector.name);
      assert.equal(validator.report(), vector.report, vector.name);
      assert.equal(hex(Buffer.concat([...validator.parts(82)])).length > 0, true);
    });
  }
});

test("summaries", async () => {
  for (const vector of vectorsOf("summaries").vectors) {
    await using(empty(), async (validator) => {
      validator.take(bytesOf(vector.messages), 0);
      const summary = bytesOf(vector.summary);
      if (vector.call === "summary") assert.equal(hex(validator.summary()), vector.summary, vector.name);
      else if (vector.fault) assert.throws(() => validator.answer(summary, 0), { name: "BadMessages", reason: vector.fault }, vector.name);
      else assert.equal(hex(validator.answer(summary, 0)), vector.answer, vector.name);
    });
  }
});

test("files of a state folder", async () => {
  const library = await Library.start(), ends = ["end", "tear", "damage", "format"], position = "4a534c01";
  for (const vector of vectorsOf("files").vectors) {
    const { messages, status, at, format } = library.framesOf(bytesOf(vector.folder_id), BigInt(vector.journal), bytesOf(vector.content));
    // (before its messages, a payload may say how far a log was read: 28 bytes)
    const due = vector.payloads.map((it) => (it.startsWith(position) ? it.slice(56) : it)).filter((it) => it);
    assert.deepEqual([messages.map(hex), ends[status - 52], at], [due, vector.end, vector.at], vector.name);
    if (vector.end === "format") assert.equal(format, BigInt(vector.format), vector.name);
  }
});

test("state folders", async () => {
  for (const { name, files, record, at, format, ...bad } of vectorsOf("folders").vectors) {
    const state = await mkdtemp(join(tmpdir(), "svid-folder-")), terms = { audiences: "ledger", bundles: "{}", ahead: ANY, now: () => 0 };
    for (const [it, content] of Object.entries(files)) await writeFile(join(state, it), bytesOf(content));
    if (record) {
      await using(Validator.open({ ...terms, state }), (validator) => using(Validator.open(terms), async (same) => {
        same.take(bytesOf(record));
        assert.equal(validator.report(), same.report(), name);
      }));
    } else {
      const message = bad.damaged ? `${join(state, bad.damaged)} is damaged at byte ${at}:` : `${join(state, bad.of_format)} has format ${format},`;
      await assert.rejects(Validator.open({ ...terms, state }), (why) => why.name === "BadFolder" && why.message.startsWith(message), name);
    }
    await rm(state, { recursive: true });
  }
});
