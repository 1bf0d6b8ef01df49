// PostgresStore, over real servers. The tests of go/claims/postgres run over it too.

import assert from "node:assert/strict";
import { spawn } from "node:child_process";
import { mkdtemp, rm } from "node:fs/promises";
import { createRequire } from "node:module";
import { createServer } from "node:net";
import { networkInterfaces, tmpdir } from "node:os";
import { join } from "node:path";
import { createInterface } from "node:readline";
import { after, test } from "node:test";
import { TLSSocket } from "node:tls";
import { authority, certificate } from "./certificates.mjs";
import { imported } from "./ending.mjs";
import { PATIENCE, ended, gate, issuer, now, run, said, token, until, within } from "./making.mjs";
import { OfGo, roomy } from "./of-go.mjs";

const pg = createRequire(import.meta.url)("pg");
const { Validator } = await imported();
const { PostgresStore, StoreFault } = await imported("src/postgres.js");
const { Member } = await imported("src/postgres-member.js");

// The tests of go/claims/postgres, in groups that take some time each.
const TESTS = {
  member: "TestAMemberOfAnotherLanguage|TestStore",
  alone: "TestStoreAlone|TestRights|TestAServerThatForgets|TestAPartOfAStore|TestTLS",
  ends: "TestStoreOfAServerThatEnds|TestTrouble|TestFullDisk|TestCloseLeavesNothing|TestQuarantine",
  losses: "TestRowsThatGoByHandEndTheEpoch|TestALookMissesRows|TestAnOlderCopyThatWentOn|TestAnotherClaimOfACall|TestALateAnswerOfAServerThatIsGone|TestAStoreMadeAgain|TestADumpThatIsReadInAgain|" +
    "TestAClockThatIsADayOff|TestASmallStepBack",
  calls: "TestAClaimThatWaitsWhileTheEpochEnds|TestOneOrder|TestWithdrawalsOfAnotherEpoch|TestAnEntryThatIsGoneMeanwhile|TestWhatIsOverGoes|TestATokenThatIsWithdrawnAgain|" +
    "TestALookAtAStoreOfWhichMuchIsOver|TestTimesOfTheLibrary|TestNobodyLooks|TestAClaimThatIsNotCommitted",
  standbys: "TestFailoverToAStandbyThatLacksClaims|TestFailoverToAStandbyThatHasAll|TestFailoverToTheWrongStandby|TestACancelledWait",
  primaries: "TestTwoPrimaries|TestTwoStandbysArePromoted|TestServersOfTwoClusters|TestStandbysAreNotWaitedForAnyMore|TestWhatIsGivenUpEndsAtTheServer",
};
const room = await mkdtemp(join(tmpdir(), "svid-postgres-")), ofGo = new OfGo("postgres", TESTS, room);

// A server of PostgreSQL, which takes `kill`, `start`, `pause`, `resume` and SQL.
const serving = spawn(await ofGo.program(), ["-test.run", "^TestAServerOfAnotherLanguage$"], { env: { ...roomy(), SVID_STORE_SERVER: "1" }, stdio: ["pipe", "pipe", "inherit"] });
after(async () => {
  serving.stdin.end();
  await ended("the server", serving);
  await rm(room, { recursive: true, force: true });
});
const lines = createInterface({ input: serving.stdout })[Symbol.asyncIterator]();
const heard = async () => (await within("an answer of the server", lines.next())).value;
const url = await heard();
const tell = async (what) => {
  serving.stdin.write(`${what}\n`);
  return heard();
};

let groups = 0;
const OWNER = new Uint8Array(32).fill(111), WITHDRAWN = new Uint8Array(32);
const claim = (n, owner = OWNER) => ({ key: new Uint8Array(32).fill(n), owner, expires: BigInt(now() + 3000) });

/** A group of its own, whose store is there. */
async function group() {
  const name = `group${++groups}`;
  assert.equal(await tell(`schema ${name}`), "done");
  return name;
}

/** Does something with stores, and closes them. */
async function withStores(all, act) {
  const stores = await Promise.all(all.map((options) => PostgresStore.open({ servers: url, wait: PATIENCE, onWarning: () => {}, ...options })));
  try {
    return await act(...stores);
  } finally {
    for (const it of stores) it.close();
  }
}

/** What the first claim finds, once it is answered. */
async function put(store, ...claims) {
  let found;
  await until(async () => {
    found = await store.put(claims).catch((why) => assert(why instanceof StoreFault, why));
    return found;
  });
  return found[0];
}

/** Why claims are not put. On a busy machine a server may not be heard in time: then they are put again. */
const faultOf = (store, ...claims) =>
  until(async () => {
    const why = await store.put(claims).then(() => assert.fail("it is answered"), (it) => it);
    return !["silent", "unlooked"].includes(why.reason) && why;
  });

const isOf = async (store, n, owner) => Buffer.compare((await put(store, claim(n))).owner, owner) === 0;

test("go/claims/postgres: a member", () => ofGo.passes("member"));
test("go/claims/postgres: alone with a server", () => ofGo.passes("alone"));
test("go/claims/postgres: a server that ends", () => ofGo.passes("ends"));
test("go/claims/postgres: losses", () => ofGo.passes("losses"));
test("go/claims/postgres: calls", () => ofGo.passes("calls"));
test("go/claims/postgres: standbys", () => ofGo.passes("standbys"));
test("go/claims/postgres: primaries", () => ofGo.passes("primaries"));

test("each test of a store in Go is run", async () => {
  const others = ["TestAServerOfAnotherLanguage", "TestStandbys", "TestOptions", "TestOptionsOfTheEnvironment", "TestTheEpochsRowStays",
    "TestAFewMarksAreKept", "TestAnOldLookDoesNotCount", "TestALookIsAsOldAsItsBeginning", "TestALookEndsWithItsStore", "TestAConnectionThatBeginsEndsWithItsContext",
    "TestALateAnswerAfterASuspension", "TestLooksHavePauses", "TestTheLaterTimelineCounts",
    "TestTwoPrimariesAreNamed", "TestServersThatNobodyLooksAt", "TestEachServerIsLookedAtOnce", "TestAServerThatDoesNotSayWhatItIsLeavesNothing",
    "TestAContextThatEndsWithItsAnswer", "TestASessionThatCantBeginLeavesNothing", "TestEachCallThatIsUnderWayMayBeTheLast", "TestEachClaimThatWasThereIsKept",
    "TestConnectionsThatEndedTakeNoMemory"];
  await ofGo.hasNoMore(others);
});

test("one validator accepts a token", async () => {
  const name = await group(), one = issuer();
  await withStores([{ group: name }, { group: name }], async (first, second) => {
    const terms = { audiences: "ledger", bundles: one.bundles, mode: "strict", wait: PATIENCE };
    const [a, b] = await Promise.all([first, second].map((store) => Validator.open({ ...terms, store })));
    const shown = token(one);
    assert.deepEqual([await said(a.check(shown)), await said(b.check(shown))], ["accepted", "Replayed"]);
    for (const it of [a, b]) it.close();
  });
});

test("a withdrawal wins over a claim", async () => {
  const name = await group();
  await withStores([{ group: name }, { group: name }], async (one, other) => {
    assert(await isOf(one, 1, OWNER));
    assert(await isOf(other, 1, OWNER));
    await one.withdraw(claim(1).key, claim(1).expires);
    assert(await isOf(one, 1, WITHDRAWN));
    await until(() => isOf(other, 1, WITHDRAWN));
    await one.withdraw(claim(2).key, claim(2).expires);
    assert(await isOf(other, 2, WITHDRAWN));
    await withStores([{ group: name }], async (late) => assert(await isOf(late, 1, WITHDRAWN))); // (it has read all before it answers)
    const { these, last } = await other.withdrawals();
    assert.deepEqual(these.map(({ key }) => key[0]), [1, 2]);
    assert.deepEqual(await other.withdrawals(last), { these: [], last });
  });
});

test("who withdraws a token again, with an earlier expiry, does not take that back", async () => {
  const name = await group();
  await withStores([{ group: name }, { group: name }], async (one, other) => {
    for (const n of [1, 2, 3]) assert(await isOf(one, n, OWNER));
    for (const expires of [claim(1).expires, BigInt(now() - 1000)]) await one.withdraw(claim(1).key, expires);
    // (at each look it forgets what is over, and the second one of these is heard by a later look than the first one)
    for (const n of [2, 3]) {
      await other.withdraw(claim(n).key, claim(n).expires);
      await until(() => isOf(one, n, WITHDRAWN));
    }
    assert(await isOf(one, 1, WITHDRAWN));
    assert.deepEqual((await one.withdrawals()).these.map(({ key }) => key[0]), [1, 2, 3]);
  });
});

test("a call ends though the server does not answer", async () => {
  const name = await group();
  await withStores([{ group: name, wait: 1.5 }], async (store) => {
    assert(await isOf(store, 1, OWNER));
    await tell("pause");
    try {
      const calls = [() => store.put([claim(2)]), () => store.put([]), () => store.withdraw(claim(3).key, 1n), () => store.withdrawals(), () => store.state()];
      for (const call of calls) {
        const begun = performance.now();
        await assert.rejects(within(call, call()), StoreFault);
        assert(performance.now() - begun < (PATIENCE * 1000) / 3); // (a busy machine)
      }
    } finally {
      await tell("resume");
    }
    assert(await isOf(store, 2, OWNER));
  });
});

test("a call that waits for a standby ends at the server once it is given up", async () => {
  const name = await group(), waiting = async (count) => (await tell(`DO $$ BEGIN ASSERT (SELECT count(*) FROM pg_stat_activity WHERE wait_event = 'SyncRep') ${count}; END $$`)) === "done";
  const standbys = async (names) => {
    for (const it of [`ALTER SYSTEM SET synchronous_standby_names = '${names}'`, "SELECT pg_reload_conf()"]) assert.equal(await tell(it), "done");
    await until(async () => (await tell(`DO $$ BEGIN ASSERT current_setting('synchronous_standby_names') = '${names}'; END $$`)) === "done");
    assert.equal(await tell("CHECKPOINT"), "done"); // (by then the checkpointer has read the setting too, which tells commits to wait)
  };
  await withStores([{ group: name, wait: 1 }], async (store) => {
    await put(store, claim(0));
    await standbys("*"); // (there is none)
    try {
      // (on a busy machine a call may be late before the server has it; a look may wait at any time, and each of these would for ever)
      let n = 0, came = 0;
      await until(async () => {
        const call = assert.rejects(store.put([claim(++n)]), StoreFault), waits = await waiting("> 0");
        await call;
        if (waits || (await waiting("> 0"))) came++;
        return came === 6;
      });
      await until(() => waiting("< 3"));
    } finally {
      await standbys("");
    }
  });
});

test("an answer does not count that was read when nobody had looked at the servers for long", async () => {
  const name = await group();
  const member = new Member({ servers: [url, url], group: name, replicas: 1 }, { lasts: 7200n, margin: 120n, back: 60n });
  let n = 0;
  await until(async () => (await member.put([claim(++n)], end()))[0].owner);
  await until(async () => {
    const call = member.put([claim(++n)], end());
    for (let turn = 0; turn < 3; turn++) await new Promise(setImmediate); // (it is sent)
    Atomics.wait(new Int32Array(new SharedArrayBuffer(4)), 0, 0, 3500); // (this process has no processor)
    return /not all servers were looked at/.test((await call)[0].message);
  });
  member.close();
});

/** A member that looks at the store only when a test calls `look`. */
function memberOf(group, ...servers) {
  const member = new Member({ servers, group, replicas: 1 }, { lasts: 3660n, margin: 120n, back: 60n });
  after(() => member.close());
  return member;
}

/** Lets each server say what it is, by its name, or throw. Returns the connections that were made. */
function roles(t, of) {
  const made = [];
  t.mock.method(pg.Client.prototype, "connect", async function () { made.push(this); });
  t.mock.method(pg.Client.prototype, "query", async function () {
    const role = of[this.host];
    if (!role) throw new Error("it says nothing");
    return { rows: [role] };
  });
  return made;
}

const end = () => performance.now() + PATIENCE * 1000;
const PRIMARY = [1n, "1", "now", "00000001"], STANDBY = [0n, "1", "now", ""];

/**
 * A member of a primary `a` and a standby `b`, or of `a` alone, that are simulated as the two clocks are. `pass` lets time pass by each of them. `asked` has
 * the statements, each with its host, in the order in which they came: what `before` gives for one is awaited before it is answered. A connection that makes
 * calls asks `again` what its server is. `made` has all connections.
 */
function simulated(t, ...hosts) {
  const it = { asked: [], made: [], before: () => {} }, epoch = "00000000-0000-0000-0000-000000000001", begun = performance.now();
  let up = begun, wall = Date.now();
  t.mock.method(performance, "now", () => up);
  t.mock.method(Date, "now", () => wall);
  it.pass = (upward, more) => {
    up += upward;
    wall += more;
  };
  const head = Buffer.concat([Buffer.alloc(17), Buffer.from(epoch.replaceAll("-", ""), "hex")]);
  const answers = {
    role: (host) => (host === "a" ? PRIMARY : STANDBY), again: () => PRIMARY, session: () => ["on", "1 now"], state: () => [epoch, 0n, 1000n, 0n, 3660n, 120n, 0n, null], put: () => [head],
  };
  t.mock.method(pg.Client.prototype, "connect", async function () { it.made.push(this); });
  t.mock.method(pg.Client.prototype, "query", async function ({ text }) {
    const name = text.includes("set_config") ? "session" : text.includes(".state(") ? "state" : text.includes(".put(") ? "put" : this.isOfCalls ? "again" : "role";
    this.isOfCalls ||= name === "session";
    it.asked.push(`${name} ${this.host}`);
    await it.before(name, this.host);
    return { rows: [answers[name](this.host)] };
  });
  it.member = memberOf("svid", ...hosts.map((host) => `postgres://u@${host}/d`));
  t.after(() => it.member.close()); // (its looks would go on in the next test)
  it.put = async () => (await within("a claim", it.member.put([claim(1)], begun + 1000 * PATIENCE)))[0];
  return it;
}

const HOUR = 3_600_000;

test("the first call of a member may be a withdrawal", async () => {
  const name = await group();
  await withStores([{ group: name }], async (store) => {
    await put(store, claim(2)); // (members have compared by then)
    assert(Buffer.from(await memberOf(name, url).withdraw(claim(1).key, claim(1).expires, end())).equals(WITHDRAWN));
    await until(() => isOf(store, 1, WITHDRAWN));
  });
});

test("two primaries are named by the numbers of their addresses", async (t) => {
  roles(t, { a: STANDBY, b: PRIMARY, c: [1n, "2", "now", "00000001"], d: [1n, "1", "later", "00000001"] });
  for (const [hosts, due] of [["abac", /addresses 2 and 4 are primaries of two database clusters/], ["bad", /addresses 1 and 3 are both primaries/]]) {
    const [why] = await memberOf("svid", ...[...hosts].map((it) => `postgres://u@${it}/d`)).put([claim(1)], end());
    assert.match(why.message, due);
  }
});

test("after a suspension no answer counts until each server was looked at again, by a look that began since", async (t) => {
  // (while the machine is suspended the one clock stands still, and while the process is stopped neither does)
  for (const upward of [0, 10_000]) {
    for (const fails of [false, true]) {
      const it = simulated(t, "a", "b"), looks = gate(), answers = gate();
      let since; // how much was asked before the suspension
      assert((await it.put()).owner);
      it.pass(0, -HOUR); // (a clock may be set back)
      assert((await it.put()).owner);
      it.pass(0, HOUR);
      it.before = (name, host) => {
        if (name === "put") return answers.passed;
        return name === "role" && since === undefined && looks.passed.then(() => fails && host === "b" && Promise.reject(new Error("it says nothing")));
      };
      const from = it.asked.length, call = it.put();
      await until(() => ["put a", "role a", "role b"].every((one) => it.asked.slice(from).includes(one)));
      it.pass(upward, HOUR);
      answers.open();
      assert.match((await call).message, /not all servers were looked at/);
      since = it.asked.length;
      const next = it.put();
      looks.open(); // (what these say was so before the suspension)
      assert((await next).owner);
      const later = it.asked.slice(since), before = later.slice(0, later.indexOf("put a"));
      assert(["role a", "role b"].every((one) => before.includes(one)), `${later}`);
      it.member.close();
      t.mock.restoreAll();
    }
  }
});

test("a connection on which a look fails ends, and the next look makes another one", async (t) => {
  const it = simulated(t, "a", "b"), made = () => it.made.filter(({ host }) => host === "b");
  assert((await it.put()).owner);
  it.before = (_, host) => host === "b" && Promise.reject(new Error("it says nothing"));
  await until(() => made().length > 2);
  assert(made().slice(0, -1).every((one) => one.connection.stream.destroyed));
  assert((await it.put()).owner); // (it is no primary)
});

test("after a suspension a server is looked at by a new connection, since the old one may have ended", async (t) => {
  const it = simulated(t, "a", "b"), made = () => it.made.filter(({ host }) => host === "b");
  assert((await it.put()).owner);
  const from = it.asked.length;
  await until(() => it.asked.slice(from).filter((one) => one === "role b").length > 1);
  assert.equal(made().length, 1);
  it.pass(0, HOUR);
  assert((await it.put()).owner);
  assert.equal(made().length, 2);
  assert(made()[0].connection.stream.destroyed);
});

test("a server whose answer came over a suspension is asked whether it is still there", async (t) => {
  const it = simulated(t, "a");
  assert((await it.put()).owner);
  for (const [upward, more, isLong] of [[0, 0, false], [0, -HOUR, false], [0, 1001, true], [1001, 0, true], [1001, -HOUR, true]]) {
    const hold = gate(), from = it.asked.length;
    it.before = (name) => (name === "put" ? hold.passed : Promise.reject(new Error("it is gone")));
    const call = it.put();
    await until(() => it.asked.length > from);
    it.pass(upward, more);
    hold.open();
    const { owner, message = "" } = await call;
    assert.deepEqual([it.asked.slice(from), Boolean(owner), message.includes("it is gone")], [isLong ? ["put a", "again a"] : ["put a"], !isLong, isLong], `${upward} ${more}`);
    it.before = () => {};
    assert((await it.put()).owner);
  }
});

test("servers that nobody can look at are waited for in time, and each is looked at by one alone", async (t) => {
  let looks = 0;
  t.mock.method(pg.Client.prototype, "connect", () => (looks++, new Promise(() => {})));
  const member = memberOf("svid", "postgres://u@a/d", "postgres://u@b/d"), calls = 50;
  for (let n = 0; n < calls; n++) {
    const [why] = await within("a call", member.put([claim(1)], performance.now() + 10));
    assert.equal(why.reason, n ? why.reason : "silent");
  }
  assert(looks < calls, `${looks} looks`);
});

test("a connection to a server that does not say what it is ends", async (t) => {
  const made = roles(t, {});
  const [why] = await memberOf("svid", "postgres://u@a/d").put([claim(1)], end());
  assert.match(why.message, /address 1: it says nothing/);
  assert(made.length && made.every((it) => it.connection.stream.destroyed));
});

test("closing ends calls", async () => {
  const name = await group();
  await withStores([{ group: name, wait: PATIENCE }], async (store) => {
    await put(store, claim(1));
    await tell("pause");
    try {
      const call = store.put([claim(2)]).catch((why) => why.reason);
      store.close();
      assert.equal(await call, "closed");
    } finally {
      await tell("resume");
    }
    store.close();
    await assert.rejects(store.put([claim(1)]), /closed/);
  });
});

test("warnings of a store", async () => {
  const name = await group(), told = [];
  const count = (text) => told.filter((it) => it.includes(text)).length;
  await withStores([{ group: name, onWarning: (text) => told.push(text) }], async (store) => {
    await put(store, claim(1));
    await tell(`TRUNCATE ${name}.claim`);
    await until(() => count("has ended"));
    await tell("kill");
    await until(() => count("can't be looked at"));
    await tell("start");
    assert((await put(store, claim(1))).deaf >= claim(1).expires);
  });
  assert.equal(count("has ended"), 1);
});

test("a token that lives too long for a number of the server holds up no other one of its call", async () => {
  const name = await group(), forever = { ...claim(1), expires: 2n ** 64n - 1n }, isSilent = (it) => ["silent", "unlooked"].includes(it?.reason); // (on a busy machine)
  await withStores([{ group: name }], async (store) => {
    await put(store, claim(0));
    for (const claims of [[forever], [forever, claim(2)]]) {
      const found = await until(async () => {
        const all = await store.putEach(claims);
        return !all.some(isSilent) && all.map((it) => it.reason ?? "answered");
      });
      assert.deepEqual(found, ["late", "answered"].slice(0, claims.length));
    }
    const why = await until(async () => {
      const fault = await store.withdraw(forever.key, forever.expires).catch((it) => it);
      return !isSilent(fault) && fault;
    });
    assert.equal(why.reason, "late");
  });
});

test("a store that is not there yet", async () => {
  await withStores([{ group: "later" }], async (store) => {
    const { reason, message } = await faultOf(store);
    assert.equal(reason, "missing");
    assert.match(message, /svidd schema/);
    await tell("schema later");
    assert(await isOf(store, 1, OWNER));
  });
});

test("an error that the server alone knows is the cause of the fault", async () => {
  const name = await group();
  await withStores([{ group: name }], async (store) => {
    await put(store, claim(1));
    assert.equal(await tell(`ALTER TABLE ${name}.claim ADD CHECK (false) NOT VALID`), "done");
    const { reason, message, cause } = await faultOf(store, claim(2));
    assert.deepEqual([reason, cause?.code], ["server", "23514"]);
    assert.match(message, /check constraint/);
  });
});

test("terms of a store are those of svidd", async () => {
  const name = await group();
  await withStores([{ group: name, longest: 8000, ahead: 10 }], async (store) => {
    await put(store, claim(1));
    assert.equal(await tell(`DO $$ BEGIN ASSERT (SELECT lasts FROM ${name}.epoch) = 8020; END $$`), "done");
  });
  await withStores([{ group: name, ahead: 61 }], async (store) => assert.match((await faultOf(store)).message, /give all members the same clock tolerance/));
});

test("what is no store in PostgreSQL", async () => {
  for (const options of [
    {}, { servers: [] }, { servers: "redis://u:secret@h" }, { servers: "postgres://u:secret@h1,h2/d" }, { servers: "secret" }, { servers: url, group: 'a"b' },
    { servers: url, group: "pg_x" }, { servers: url, group: "x".repeat(64) }, { servers: url, replicas: 0 }, { servers: url, wait: 0 },
  ]) {
    await assert.rejects(PostgresStore.open(options), (why) => (why instanceof TypeError || why instanceof RangeError) && !why.message.includes("secret"));
  }
});

test("a root certificate is looked at in each mode of TLS", async () => {
  const ours = authority(room, "ours"), others = authority(room, "others"), shown = certificate(ours, "server", "IP:127.0.0.1,IP:::1");
  const hasSix = Object.values(networkInterfaces()).flat().some((it) => it.address === "::1");
  for (const [mode, host] of [["require", "127.0.0.1"], ["verify-ca", "127.0.0.1"], ["verify-full", "127.0.0.1"], ...(hasSix ? [["verify-full", "[::1]"]] : [])]) {
    for (const [root, due] of [[ours, /terminated/], [others, /certificate|issuer/]]) {
      let trusted = 0;
      // (it says that it speaks TLS, and ends each connection on which it was trusted)
      const server = createServer((one) => {
        one.on("error", () => {}).once("data", () => {
          one.write("S");
          const secured = new TLSSocket(one, { isServer: true, ...shown }).on("error", () => {});
          secured.once("data", () => (trusted++, secured.destroy()));
        });
      });
      await new Promise((resolve) => server.listen(0, hasSix ? "::" : "127.0.0.1", resolve));
      try {
        const servers = `postgres://u:p@${host}:${server.address().port}/d?sslmode=${mode}&sslrootcert=${root.cert}`;
        await withStores([{ servers, wait: PATIENCE }], (store) => assert.rejects(store.put([]), due, `${mode} ${root.name}`));
        assert.equal(trusted > 0, root === ours);
      } finally {
        server.close();
      }
    }
  }
});

test("an open store keeps no process", async () => {
  const name = await group();
  const program = `import { PostgresStore } from "${process.env.SVID_PACKAGE}/src/postgres.js";
    const store = await PostgresStore.open({ servers: "${url}", group: "${name}" });
    for (;;) try { await store.put([]); break; } catch {}
    console.log("there");`;
  const { stdout } = await run(process.execPath, ["--input-type=module", "--eval", program]);
  assert.equal(stdout, "there\n");
});
