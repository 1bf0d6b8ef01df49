// What validators leave that have lived and closed: nothing.

import assert from "node:assert/strict";
import { access, constants, mkdtemp, readdir, rename, rm, writeFile } from "node:fs/promises";
import { tmpdir } from "node:os";
import { join } from "node:path";
import { test } from "node:test";
import { setFlagsFromString } from "node:v8";
import { runInNewContext } from "node:vm";
import { imported } from "./ending.mjs";
import { PATIENCE, issuer, said, token, until } from "./making.mjs";

const { Bundles, Validator } = await imported(), { MemoryStore } = await imported("testing.js");
// (each life starts the module nine times: SVID_TEST_LIVES says how many are to be lived)
const LIVES = Number(process.env.SVID_TEST_LIVES ?? 12), WARMING = Math.ceil(LIVES / 4);
const SHM = "/dev/shm"; // (a disk would be forced ten times in each life)
const MOST = 65_536; // the most bytes that a life may add, since the collector keeps some: a module of WebAssembly alone has more
const away = async () => {
  throw new Error("the store is away");
};

setFlagsFromString("--expose-gc");
const collect = runInNewContext("gc");

// What this process holds, once that is no more than it may be. (What closes on a busy machine ends in its own time.)
async function held(isEnough) {
  let is;
  await until(async () => {
    collect();
    const { heapUsed, external, arrayBuffers } = process.memoryUsage(), timers = process.getActiveResourcesInfo().filter((it) => it === "Timeout").length;
    is = { descriptors: (await readdir("/proc/self/fd")).length, timers, bytes: heapUsed + external + arrayBuffers };
    return isEnough(is);
  }).catch((why) => assert.fail(`${why.message}: ${JSON.stringify(is)}`));
  return is;
}

// Bundles of one issuer, in a folder.
async function written(folder, { bundles }) {
  await writeFile(join(folder, "made"), JSON.stringify(bundles["example.org"]));
  await rename(join(folder, "made"), join(folder, "example.org.json"));
}

// Mode once, over a state folder, with a store that tells of withdrawals, by bundles that it follows.
async function once(room, told) {
  const one = issuer(), hooks = { onTwice: () => told.count++ }, usual = { audiences: "ledger", wait: PATIENCE, ...hooks };
  await written(room, one);
  const state = join(room, "state"), follow = { folder: room, onFault: () => {} };
  const validator = await Validator.open({ ...usual, state, follow, store: new MemoryStore() });
  const [first, second] = [token(one), token(one)], { audience, keyId, claims } = await validator.check(first);
  assert.deepEqual([audience, keyId, claims.aud], ["ledger", "k1", ["ledger"]]);
  assert.equal(await said(validator.check(first)), "Replayed");
  assert.equal(await said(validator.judge(first)), "Replayed");
  for (const [name, text] of Object.entries({ Expired: token(one, { exp: 1 }), NotAudience: token(one, { aud: "other" }), NoKey: token(one, {}, { kid: "none" }), NotThreeParts: "no token" })) {
    assert.equal(await said(validator.check(text)), name);
  }
  await validator.withdraw(second);
  assert.equal(await said(validator.check(second)), "Withdrawn");
  const other = await Validator.open({ ...usual, bundles: one.bundles }), third = token(one), before = told.count;
  await validator.check(third);
  validator.take((await other.check(third)).use.message);
  assert.equal(told.count, before + 1);
  other.take(validator.answer(other.summary()));
  assert.equal(await said(async () => validator.take(new Uint8Array(3))), "BadMessages");
  other.renew(one.bundles);
  assert.equal(await said(async () => other.renew("[]")), "BadBundles");
  assert.ok(other.size().uses > 1 && other.report() && other.record().length);
  assert.equal(await said(Validator.open({ ...usual, state, bundles: one.bundles })), "Held");
  assert.equal(validator.unready(), null);
  await Promise.all([validator.close(), other.close()]);
  assert.equal(await said(() => validator.check(third)), "Closed");
}

// The modes with claims, and a store that fails.
async function claims(room) {
  const one = issuer(), usual = { audiences: "ledger", bundles: one.bundles, wait: PATIENCE }, first = token(one);
  const strict = await Validator.open({ ...usual, mode: "strict", store: new MemoryStore() });
  assert.deepEqual([await said(strict.check(first)), await said(strict.check(first))], ["accepted", "Replayed"]);
  const bound = await Validator.open({ ...usual, mode: "bound", state: join(room, "bound") });
  for (const [caller, name] of [["owner", "accepted"], ["owner", "accepted"], ["thief", "Replayed"]]) assert.equal(await said(bound.check(first, { caller })), name);
  const alone = await Validator.open({ ...usual, mode: "strict", store: { put: away, withdraw: away }, wait: 0.001 });
  assert.equal(await said(alone.check(first)), "Unavailable");
  assert.ok(alone.unready());
  const judges = await Bundles.open(usual);
  assert.equal(await said(judges.judge(first)), "accepted");
  assert.equal(await said(Validator.open({ ...usual, bundles: "[]" })), "BadBundles");
  for (const it of [strict, bound, alone, judges]) await it.close();
}

test("lives of validators leave no descriptor, no timer and no memory", async () => {
  const isThere = await access(SHM, constants.W_OK).then(() => true, () => false), told = { count: 0 };
  const room = await mkdtemp(join(isThere ? SHM : tmpdir(), "svid-leaks-")), warned = [], note = ({ message }) => warned.push(message);
  process.on("warning", note); // (a file that nobody closes is closed with its garbage, and Node says so)
  const live = async (lives) => {
    for (let n = 0; n < lives; n++) {
      await once(room, told);
      await claims(room);
    }
  };
  try {
    await live(WARMING);
    // (two looks alike: nothing of the last life is on its way)
    let last;
    const { descriptors, timers, bytes } = await held((is) => {
      const isAlike = last?.descriptors === is.descriptors && last.timers === is.timers;
      last = is;
      return isAlike;
    });
    await live(LIVES);
    await held((is) => is.descriptors <= descriptors && is.timers <= timers && is.bytes - bytes < MOST * LIVES);
    assert.deepEqual(warned.filter((it) => it.includes("garbage collection")), []);
  } finally {
    process.off("warning", note);
    await rm(room, { recursive: true });
  }
});

test("keys of bundles that were replaced are freed", async () => {
  const { subtle } = globalThis.crypto ?? (await import("node:crypto")).webcrypto, { importKey } = subtle, one = issuer(), keys = [];
  subtle.importKey = async (...given) => {
    const key = await importKey.apply(subtle, given);
    keys.push(new WeakRef(key));
    return key;
  };
  try {
    const validator = await Validator.open({ audiences: "ledger", bundles: one.bundles, mode: "reuse", wait: PATIENCE });
    assert.equal(await said(validator.check(token(one))), "accepted");
    validator.renew(issuer().bundles);
    assert.equal(keys.length, 1);
    await until(() => (collect(), !keys[0].deref()));
    validator.close();
  } finally {
    subtle.importKey = importKey;
  }
});
