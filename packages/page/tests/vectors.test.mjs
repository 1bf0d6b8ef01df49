// The vectors of tests/vectors/ that ask the module alone: calls of a validator, IDs and messages. (verdicts.mjs has those of keys, signatures and
// bundles, in each browser.)

import assert from "node:assert/strict";
import { readFileSync } from "node:fs";
import { before, test } from "node:test";
import { Library } from "../src/library.js";
import { MESSAGE_FAULTS } from "../src/record.js";
import { refusalOf } from "../src/refusals.js";
import { answer } from "../src/verify.js";
import { bytesOf, vectorsOf } from "./vectors.mjs";

const ANY = 2n ** 64n - 1n;
const IDS = ["TooLong", "Scheme", "DomainEmpty", "DomainByte", "DomainLong", "SegmentEmpty", "SegmentDots", "PathByte"];
const MESSAGES = ["Magic", "Kind", "Count", "UseKind", "UseExpired", "UseFuture", "UseOrder", "Truncated"];
const hex = (bytes) => Buffer.from(bytes).toString("hex");
const numberOf = (it) => (it === null ? ANY : BigInt(it));

let library;
before(async () => {
  library = await Library.load(readFileSync(process.env.SVID_MODULE));
});

// The key that made the signature of a token, by the cryptography of this program.
async function makerOf(terms, own, bundles, token) {
  const { value } = library.withValidator(terms, own, bundles, (validator) => validator.ask(token));
  const { over, bytes } = library.signature(token);
  const answers = await Promise.all(value.rows.map(async (row) => ({ row, is: (await answer(row, token.slice(0, over), bytes)).is })));
  return answers.find((it) => it.is === "good")?.row.key;
}

function called(validator, call, maker) {
  const now = numberOf(call.now ?? 0);
  if (call.call === "check" || call.call === "judge") {
    const said = validator[call.call](now, maker, call.token);
    return said.status === 0 ? `accepted ${said.id} ${said.exp}` : `refused ${refusalOf(said.status)?.name}`;
  }
  if (call.call === "withdraw") return { 0: "withdrawn", 7: "Gone" }[validator.withdraw(now, bytesOf(call.key), numberOf(call.exp))];
  if (call.call === "tell") return hex(validator.tell().bytes);
  assert.equal(call.call, "take");
  const said = validator.take(now, bytesOf(call.messages));
  return said.status === 0 ? "taken" : `${MESSAGES[said.status - 11]} ${said.message} ${said.offset}`;
}

test("calls of a validator", async () => {
  const file = vectorsOf("tokens");
  for (const vector of file.vectors) {
    const given = { ...file.setting, ...vector.setting };
    const terms = { longest: numberOf(given.longest), validatorId: bytesOf(given.validator_id) }, own = given.audiences.join("\n"), bundles = file.bundles[given.bundles];
    const makers = await Promise.all(vector.calls.map((it) => ("token" in it ? makerOf(terms, own, bundles, it.token) : undefined)));
    const said = library.withValidator(terms, own, bundles, (validator) => vector.calls.map((call, n) => called(validator, call, makers[n])));
    assert.deepEqual(said.value, vector.calls.map((it) => it.answer), vector.name);
  }
});

test("SPIFFE IDs", () => {
  for (const { name, text, domain, path, fault, offset } of vectorsOf("ids").vectors) {
    const said = library.parseId(text);
    if (fault) assert.deepEqual([IDS[said.status - 21], said.offset], [fault, offset ?? 0], name);
    else assert.deepEqual([said.status, said.domainLength, said.pathLength], [0, domain.length, path.length], name);
  }
});

test("messages", () => {
  for (const { name, messages, now, record, report, fault } of vectorsOf("messages").vectors) {
    const said = library.join(bytesOf(messages), new Uint8Array(), BigInt(now));
    if (fault) {
      assert.deepEqual([MESSAGES[said.status - 11], said.input, said.message, said.offset], [fault.reason, 1, fault.message, fault.offset], name);
      assert.ok(MESSAGE_FAULTS[said.status]);
    } else {
      assert.equal(hex(said.bytes), record, name);
      assert.equal(Buffer.from(library.report(bytesOf(messages), BigInt(now)).bytes).toString(), report, name);
    }
  }
});
