// Holds the module against the library for Linux: every call that the page makes, with inputs that were mutated, must be answered alike.

import assert from "node:assert/strict";
import { spawn } from "node:child_process";
import { once } from "node:events";
import { readFileSync } from "node:fs";
import { test } from "node:test";
import { Library } from "../src/library.js";
import { REFUSALS } from "../src/refusals.js";
import { endOf, within } from "./browser.mjs";
import { base64url, batch, mutated as mutatedBy, random } from "./tokens.mjs";

const CALLS = 100_000, ROUND = 500, SESSION_CALLS = 8;
const examples = new URL("../../../examples/", import.meta.url);
const example = (name) => readFileSync(new URL(name, examples));
const bundles = example("bundles.json"), tokens = example("tokens.txt").toString().split("\n").filter(Boolean);
const messages = [example("two-uses.batch"), example("shared.messages"), Buffer.alloc(0)];
const texts = ["spiffe://example.org/a/b", "spiffe://a/", `spiffe://${"a".repeat(254)}/x`, "spiffe://a.b_c-1/.../%41", `spiffe://a/${"b/".repeat(1020)}`].map((it) => Buffer.from(it));
const NOW = 1767225600n;
const r = random(20260101);
const reached = new Map(); // how often each status was answered, by kind of call
const count = (kind, status) => reached.set(`${kind} ${status}`, (reached.get(`${kind} ${status}`) ?? 0) + 1);

const mutated = (bytes, most = 4) => mutatedBy(bytes, r, most);
const word = (...numbers) => Buffer.from(new BigUint64Array(numbers.map(BigInt)).buffer);

// A record of a few keys and validators, so that records meet.
function stream() {
  if (r.below(4) === 0) return mutated(r.pick(messages));
  const parts = Array.from({ length: r.below(4) }, () => {
    const moment = 1 + r.below(1000), count = r.pick([0, 1, 3, 20]);
    const uses = Array.from({ length: count }, () => ({
      exp: moment + 1 + r.below(500), key: Buffer.alloc(32, r.below(4)), validatorId: Buffer.alloc(16, r.below(3)), at: r.below(moment + 1), withdrawn: r.below(5) ? 0 : 1,
    }));
    return batch(moment, [...new Map(uses.map((it) => [it.exp, it])).values()], r.pick([1, 2, 2]));
  });
  return mutated(Buffer.concat(parts), r.pick([0, 0, 0, 1]));
}

const HEADERS = ['{"alg":"ES256","kid":"ec-1"}', '{"alg":"RS512"}', '{"alg":"ES384","typ":"JWT"}', '{"alg":"PS256","kid":"rsa-1","typ":"JOSE"}'];
const PAYLOADS = ['{"sub":"spiffe://example.org/x","aud":"ledger","exp":4102444800,"jti":"1"}', '{"sub":"spiffe://example.org/x","aud":["a","ledger"],"exp":1767225601,"nbf":1767225600}'];
const RARE = [['{"alg":"ES256","crit":[]}', PAYLOADS[0]], ['{"alg":"ES256","kid":1}', PAYLOADS[0]], [HEADERS[0], '{"sub":"spiffe://a/b","aud":"ledger","exp":4102444800,"jti":1}'], [HEADERS[0], `{"pad":"${"a".repeat(49200)}"}`]];

function token() {
  const kind = r.below(60);
  if (kind === 0) return Buffer.from([...r.pick(RARE), "signature"].map(base64url).join("."));
  if (kind < 20) return mutated(r.pick(tokens), r.pick([0, 1, 3]));
  const parts = [mutated(r.pick(HEADERS), r.pick([0, 0, 1, 2])), mutated(r.pick(PAYLOADS), r.pick([0, 0, 1, 2])), Buffer.from("signature")];
  return Buffer.from(parts.map(base64url).join("."));
}

/** A call by its kind, its time and its inputs. */
function makeCall(library) {
  const kind = r.pick([1, 2, 3, 4, 4]);
  const now = r.pick([0n, 0n, 100n, 2n ** 64n - 1n]);
  if (kind === 1) return { kind, now: 0n, inputs: [mutated(r.pick(texts))] };
  if (kind === 2) return { kind, now, inputs: [stream(), stream()] };
  if (kind === 3) return { kind, now, inputs: [stream()] };
  const inputs = [word(r.pick([2n ** 64n - 1n, 60n])), Buffer.alloc(16, 0xaa), r.pick([Buffer.from("ledger\n"), mutated(Buffer.from("x\nledger"))]), r.below(4) ? bundles : mutated(bundles), r.below(3) ? Buffer.alloc(0) : stream(), token()];
  const { by, withdrawn } = chosenOf(library, inputs);
  return { kind, now: r.pick([NOW, NOW, 1n, 2n ** 63n]), inputs: [...inputs, by, withdrawn] };
}

// The key that is said to have made the signature, one that the library lists, another one, or none; and the key and the expiry of a token that is
// withdrawn, this one where it is accepted, or another.
function chosenOf(library, [, validatorId, own, bundle, , it]) {
  const { value: found } = library.withValidator({ validatorId }, own, bundle, (validator) => {
    const { rows } = validator.ask(it);
    return { rows, judged: validator.judge(NOW, rows[0]?.key, it) };
  });
  const listed = (found?.rows ?? []).map((row) => Buffer.from(row.key));
  const by = r.pick([...listed, ...listed, Buffer.from("{}"), Buffer.alloc(0)]);
  const isOwn = found?.judged.status === 0 && r.below(2);
  const withdrawn = isOwn ? [found.judged.key, word(found.judged.exp)] : [Buffer.alloc(32, r.below(3)), word(r.pick([NOW + 1n, 5n, 2n ** 64n - 1n]))];
  return { by, withdrawn: Buffer.concat(withdrawn) };
}

const toldText = ({ status, length, input, message, offset, bytes }) => Buffer.concat([word(status, length, input, message, offset), bytes ?? Buffer.alloc(0)]);

function verdict({ status, id, exp, at, key }) {
  count("check", status);
  return status === 0 ? Buffer.concat([word(status, exp, at), key, Buffer.from(id)]) : word(status);
}

/** What the module answers to a call, in the bytes that native.py writes. */
function answerOf(library, call) {
  const answer = unnamedAnswerOf(library, call);
  count(["", "id", "join", "report", "session"][call.kind], answer.readBigUInt64LE());
  return answer;
}

function unnamedAnswerOf(library, { kind, now, inputs }) {
  if (kind === 1) {
    const it = library.parseId(inputs[0]);
    return word(it.status, it.offset, it.domainLength, it.pathLength);
  }
  if (kind === 2) return toldText(library.join(...inputs, now));
  if (kind === 3) return toldText(library.report(...inputs, now));
  return sessionOf(library, now, inputs);
}

function sessionOf(library, now, [longest, validatorId, own, bundle, taken, it, by, keyExp]) {
  const maker = by.length ? by : undefined;
  const opened = library.withValidator({ longest: longest.readBigUInt64LE(), validatorId }, own, bundle, (validator) => {
    const took = validator.take(0n, taken);
    return Buffer.concat([
      word(took.status, took.input, took.message, took.offset),
      toldText(validator.asked(it)),
      verdict(validator.judge(now, maker, it)),
      verdict(validator.check(now, maker, it)),
      word(validator.withdraw(now, keyExp.subarray(0, 32), keyExp.readBigUInt64LE(32))),
      verdict(validator.check(now, maker, it)),
      toldText(validator.tell()),
    ]);
  });
  return opened.status === 0 ? opened.value : word(opened.status, opened.offset);
}

function frameOf({ kind, now, inputs }) {
  const lengths = inputs.map((it) => {
    const length = Buffer.alloc(4);
    length.writeUInt32LE(it.length);
    return [length, it];
  });
  return Buffer.concat([Buffer.from([kind]), word(now), Buffer.from([inputs.length]), ...lengths.flat()]);
}

const shortly = (bytes) => bytes.toString("hex").slice(0, 400);
const described = ({ kind, now, inputs }) => `kind ${kind} at ${now} with ${inputs.map(shortly).join(" ")}`;

/** The library for Linux, in a process of its own. */
class Native {
  constructor() {
    this.process = spawn("python3", [new URL("native.py", import.meta.url).pathname, process.env.SVID_SHARED], { stdio: ["pipe", "pipe", "inherit"] });
    this.ended = once(this.process, "exit");
  }

  /** The answers to calls, in their order. */
  async answers(calls) {
    this.process.stdin.write(Buffer.concat([...calls.map(frameOf), Buffer.from([0])]));
    let kept = Buffer.alloc(0);
    const found = [];
    while (found.length < calls.length) {
      const [data] = await within("an answer of native.py", Promise.race([once(this.process.stdout, "data"), this.ended.then(() => assert.fail("native.py ended"))]));
      kept = Buffer.concat([kept, data]);
      while (kept.length >= 4 && kept.length >= 4 + kept.readUInt32LE()) {
        const end = 4 + kept.readUInt32LE();
        found.push(kept.subarray(4, end));
        kept = kept.subarray(end);
      }
    }
    return found;
  }

  async close() {
    this.process.stdin.end();
    await endOf(this.process, this.ended);
  }
}

test("the module answers as the library for Linux does", async (t) => {
  const library = await Library.load(readFileSync(process.env.SVID_MODULE)), native = new Native();
  let made = 0;
  try {
    while (made < CALLS) {
      const calls = Array.from({ length: ROUND }, () => makeCall(library));
      const [ours, theirs] = await Promise.all([calls.map((it) => answerOf(library, it)), native.answers(calls)]);
      calls.forEach((call, n) => {
        assert.ok(ours[n].equals(theirs[n]), `${described(call)}: ${shortly(ours[n])}, and for Linux ${shortly(theirs[n])}`);
        made += call.kind === 4 ? SESSION_CALLS : 1;
      });
    }
  } finally {
    await native.close();
  }
  t.diagnostic(`page: ${made} calls; statuses: ${[...reached].sort().map((it) => it.join(" × ")).join(", ")}`);
  const verdicts = [...reached.keys()].filter((it) => it.startsWith("check ")).length;
  assert.equal(verdicts, REFUSALS.length + 1, "a refusal did not come up"); // (these, and the acceptance)
  assert.ok(reached.size > 60, `${reached.size} statuses are too few for this to mean much`);
});

test("memory that is lent does not overlap, and is given out again", async () => {
  const { calls } = await Library.load(readFileSync(process.env.SVID_MODULE));
  const held = [];
  for (let n = 0; n < 20_000; n++) {
    if (held.length && r.below(2)) {
      const { at, size, mark } = held.splice(r.below(held.length), 1)[0];
      assert.ok(Buffer.from(calls.memory.buffer, at, size).equals(Buffer.alloc(size, mark)), "a block was written by another");
      calls.free_room(BigInt(at));
    } else {
      const size = r.pick([0, 1, 16, 17, 100, 5000, 20_000]), at = Number(calls.room(BigInt(size))), mark = n & 255;
      assert.equal(at % 16, 0);
      assert.notEqual(at, 0);
      new Uint8Array(calls.memory.buffer, at, size).fill(mark);
      held.push({ at, size, mark });
    }
  }
  const before = calls.memory.buffer.byteLength;
  held.forEach((it) => calls.free_room(BigInt(it.at)));
  held.forEach((it) => calls.room(BigInt(it.size)));
  assert.equal(calls.memory.buffer.byteLength, before);
  assert.equal(calls.room(1n << 33n), 0n, "more than there can be");
  assert.equal(calls.room(2n ** 64n - 1n), 0n, "more than can be told");
});
