// State folders: what they keep over restarts, kills, losses of power, and calls that fail.

import assert from "node:assert/strict";
import children, { spawn } from "node:child_process";
import { EventEmitter, once } from "node:events";
import fs, { chmod, mkdir, mkdtemp, open, readFile, readdir, rm, stat, writeFile } from "node:fs/promises";
import { request } from "node:http";
import { syncBuiltinESMExports } from "node:module";
import { tmpdir } from "node:os";
import { basename, dirname, join } from "node:path";
import { after, afterEach, before, beforeEach, test } from "node:test";
import { imported } from "./ending.mjs";
import { PACKAGE, PATIENCE, TOP, built, ended, gate, hex, issuer, now, run, said, token, until, within } from "./making.mjs";

const { Validator } = await imported(), { Library } = await imported("src/library.js");
const { Journal } = await imported("src/journal.js"), { LocalStore } = await imported("src/local.js"), { OutOfMemory } = await imported("src/errors.js");
const NODE = process.execArgv.filter((it) => !it.startsWith("--test"));
const LONG = 600; // seconds that no test waits
const one = issuer(), BEGUN = BigInt(now()), library = await Library.start();
const terms = { audiences: "ledger", bundles: one.bundles, wait: LONG }, opened = (state, more) => Validator.open({ ...terms, state, ...more });
const FILE = Object.getPrototypeOf(await open("/dev/null").then(async (it) => (await it.close(), it)));
const REAL = { ...fs }, SPAWN = spawn, METHODS = Object.fromEntries(["write", "datasync", "sync"].map((it) => [it, FILE[it]]));

let room, state;

before(async () => (room = await mkdtemp(join(tmpdir(), "svid-state-"))));
beforeEach(async () => (state = join(await mkdtemp(join(room, "t-")), "state")));
afterEach(() => {
  children.spawn = SPAWN;
  mended();
});
after(() => rm(room, { recursive: true, force: true }));

// -- Journals, by uses that have numbers

const keyOf = (number) => new Uint8Array(32).fill(number, 31);
const use = (number) => library.messageOf({ withdrawn: false, expires: BEGUN + 3600n, at: BEGUN, key: keyOf(number), validatorId: new Uint8Array(16) });
const range = (count) => Array.from({ length: count }, (_, n) => n);

// The numbers of the uses that a start finds in a folder.
async function found(folder) {
  const journal = await Journal.open(folder), numbers = new Set();
  await journal.begin((messages) => library.uses(messages).forEach(({ key }) => numbers.add(key[31])), function* () {});
  await journal.close();
  return [...numbers].sort((one, other) => one - other);
}

// A journal whose snapshots have what was kept, and that has begun.
async function begun(folder, options, kept = []) {
  const journal = await Journal.open(folder, options);
  await journal.begin(() => {}, () => kept.map(use));
  return journal;
}

// -- The calls of the system, as a test wants

// Those that were opened. (A process that is killed closes none of them.)
const files = [];

// Before each call that changes a disk, `call` may throw, or wait, or do it itself: then it says false. It gets the name, the file and the arguments.
function disturbed(call, after = () => {}) {
  const made = (name, real) => async function (...given) {
    const isFree = name === "open" ? !(given[1] & fs.constants.O_CREAT) || basename(given[0]) === "lock" : name === "write" && (await path(this)) === "lock";
    const isDone = !isFree && (await call(name, this, given)) === false, answer = isDone ? undefined : await real.apply(this, given);
    if (name === "open") files.push(answer);
    if (!isFree) await after(name, this, given);
    return answer;
  };
  for (const it of ["mkdir", "open", "rename", "rmdir", "unlink"]) fs[it] = made(it, REAL[it]);
  for (const it of Object.keys(METHODS)) FILE[it] = made(it, METHODS[it]);
  syncBuiltinESMExports();
}

function mended() {
  Object.assign(fs, REAL);
  Object.assign(FILE, METHODS);
  syncBuiltinESMExports();
}

const path = async (file) => basename(await fs.readlink(`/proc/self/fd/${file.fd}`));

// Forcing bytes to the disk hangs until `open` is called; `count` says how often that was begun.
function hanging() {
  const it = { ...gate(), count: 0 };
  disturbed(async (name) => {
    if (name !== "datasync") return;
    it.count += 1;
    await it.passed;
  });
  return it;
}

// Each lock is free: to ask for one takes longer than all else. (It belongs to the process, and each test has one process.)
function unlocked() {
  children.spawn = () => {
    const it = Object.assign(new EventEmitter(), { stderr: new EventEmitter() });
    setImmediate(() => it.emit("close", 0));
    return it;
  };
  syncBuiltinESMExports();
}

const failed = (code) => Object.assign(new Error(`${code}: it fails`), { code });

// -- Validators

test("a validator goes on with its record", async () => {
  const [used, withdrawn, other] = [token(one), token(one), token(one)];
  let validator = await opened(state);
  const { validatorId } = (await validator.check(used)).use;
  assert.deepEqual((await validator.withdraw(withdrawn)).validatorId, validatorId);
  assert.equal(validator.ready, true);
  await validator.close();
  for (let start = 0; start < 2; start++) {
    validator = await opened(state);
    assert.deepEqual([await said(validator.check(used)), await said(validator.check(withdrawn))], ["Replayed", "Withdrawn"]);
    if (!start) assert.deepEqual((await validator.check(other)).use.validatorId, validatorId);
    assert.equal(validator.size().uses, 3);
    await validator.close();
  }
  assert.equal(await readFile(join(state, "place"), "utf8"), `${hex(validatorId)}\n`);
  for (const it of await readdir(state)) assert.equal((await stat(join(state, it))).mode & 0o777, 0o600);
});

test("of a token that others accepted a validator says nothing, though its folder has their uses", async () => {
  const keys = [], text = token(one), others = await Promise.all([0, 1].map(() => Validator.open(terms)));
  const [first, second] = await Promise.all(others.map(async (it) => (await it.check(text)).use.message)), journal = await begun(state);
  await journal.keep(first);
  await journal.close();
  const validator = await opened(state, { onTwice: (key) => keys.push(key) });
  assert.equal(await said(validator.check(text)), "Replayed");
  validator.take(second);
  assert.deepEqual(keys, []);
  for (const it of [validator, ...others]) await it.close();
});

test("each mode keeps withdrawals", async () => {
  const text = token(one);
  for (let start = 0; start < 2; start++) {
    const validator = await opened(state, { mode: "reuse" });
    assert.equal(await said(validator.check(text)), start ? "Withdrawn" : "accepted");
    if (!start) await validator.withdraw(text);
    await validator.close();
  }
});

test("a withdrawal that the disk does not take says so, and is kept when it is made again", async () => {
  const text = token(one), validator = await opened(state);
  disturbed((name) => {
    if (name === "write") throw failed("ENOSPC");
  });
  await assert.rejects(validator.withdraw(text), ({ name, message, cause }) => name === "Unavailable" && /may not have that: withdraw it again/.test(message) && /ENOSPC/.test(cause.message));
  mended();
  assert.equal(await said(validator.check(text)), "Withdrawn");
  await validator.withdraw(text);
  await validator.close();
  const again = await opened(state);
  assert.equal(await said(again.check(text)), "Withdrawn");
  await again.close();
});

test("a state folder is a path, and has the validator's ID", async () => {
  for (const it of [7, "", null, {}]) await assert.rejects(opened(it), TypeError);
  await assert.rejects(opened(state, { validatorId: new Uint8Array(16) }), { name: "TypeError", message: /leave out validatorId/ });
  await assert.rejects(opened(state, { mode: "strict" }), TypeError);
  const pipe = join(dirname(state), "pipe"), program = `
    const { Validator } = await import("${PACKAGE}/index.js");
    await Validator.open({ audiences: "ledger", bundles: "{}", state: ${JSON.stringify(pipe)} }).catch((why) => console.log(why.code));`;
  await run("mkfifo", [pipe]);
  const { stdout } = await run(process.execPath, [...NODE, "--input-type=module", "--eval", program]);
  assert.equal(stdout, "ENOTDIR\n"); // (to open a pipe may take for ever)
  await assert.rejects(opened(join(state, "none")), { code: "ENOENT" });
  // (one that is not opened lets go of the folder)
  await assert.rejects(opened(state, { bundles: "" }), { name: "BadBundles" });
  const ahead = await opened(state, { now: () => now() + 3600 });
  await ahead.check(token(one, { exp: now() + 7000 }));
  await ahead.close();
  await assert.rejects(opened(state), { name: "TooFar" });
  await (await opened(state, { ahead: 3700 })).close();
});

test("one process holds a folder", async () => {
  const validator = await opened(state), lock = join(state, "lock"), program = `
    const { Validator } = await import("${PACKAGE}/index.js");
    await Validator.open({ audiences: "ledger", bundles: "{}", state: ${JSON.stringify(state)} }).then((it) => it.close(), (why) => console.log(why.name));`;
  const other = async () => (await run(process.execPath, [...NODE, "--input-type=module", "--eval", program])).stdout;
  await assert.rejects(opened(state), { name: "Held", message: new RegExp(`is held by process ${process.pid} on .* since 2.*Z: stop it`) });
  assert.equal(await other(), "Held\n");
  await assert.rejects(run("flock", ["-n", lock, "true"]), { code: 1 });
  const child = spawn("sleep", [String(LONG)]); // (what this process starts holds nothing)
  await validator.close();
  assert.equal(await other().finally(() => child.kill()), "");
  const holder = spawn("flock", [lock, "cat"], { stdio: ["pipe", "pipe", "inherit"] });
  try {
    holder.stdin.write("it is locked\n");
    await within("flock to have the lock", once(holder.stdout, "data"));
    await writeFile(lock, "");
    await assert.rejects(opened(state), { name: "Held", message: /is held by another process/ });
  } finally {
    holder.stdin.end();
    await ended("flock", holder);
  }
});

test("a start that fails lets go of the folder, and of its files", async () => {
  const held = async () => {
    const all = await Promise.all((await readdir("/proc/self/fd")).map((it) => fs.readlink(`/proc/self/fd/${it}`).catch(() => "")));
    return all.filter((it) => it.startsWith(dirname(state))).length;
  };
  FILE.write = async () => {
    throw failed("ENOSPC");
  };
  await assert.rejects(opened(state), { code: "ENOSPC" }); // (it can't write who holds the folder)
  mended();
  assert.equal(await held(), 0);
  const validator = await opened(state), before = await held();
  for (let again = 0; again < 3; again++) await assert.rejects(opened(state), { name: "Held" });
  assert.equal(await held(), before);
  await validator.close();
  await writeFile(join(state, "place"), "no ID\n");
  for (let again = 0; again < 2; again++) await assert.rejects(opened(state), { name: "BadFolder" });
  assert.equal(await held(), 0);
});

test("without the command flock no folder is opened", async () => {
  const { PATH } = process.env;
  try {
    process.env.PATH = room;
    await assert.rejects(opened(state), { message: /which can't be run.*install it \(Debian: util-linux\)/ });
    await writeFile(join(room, "flock"), "#!/bin/sh\necho no locks here >&2\nexit 71\n");
    await chmod(join(room, "flock"), 0o700);
    await assert.rejects(opened(state), { message: "the command flock did not lock the state folder: no locks here" });
  } finally {
    process.env.PATH = PATH;
    await rm(join(room, "flock"), { force: true });
  }
});

test("without descriptors no folder is opened, and the process goes on", async () => {
  const program = `
    import { closeSync, openSync } from "node:fs";
    const { Validator } = await import("${PACKAGE}/index.js"), terms = { audiences: "ledger", bundles: "{}", state: ${JSON.stringify(state)} };
    const said = async () => Validator.open(terms).then((it) => it.close()).then(() => "opened", (why) => (why.cause ?? why).code);
    await said();
    const taken = [], all = new Set();
    const take = () => {
      try {
        for (;;) taken.push(openSync("/dev/null"));
      } catch {
        // (there are no more)
      }
    };
    for (let free = 0; free < 8; free++) {
      take();
      for (let n = 0; n < free; n++) closeSync(taken.pop());
      all.add(await said());
    }
    for (const it of taken) closeSync(it);
    console.log([...all].join(), await said());`;
  const words = ["-c", 'ulimit -n 100; exec "$@"', "sh", process.execPath, ...NODE, "--input-type=module", "--eval", program];
  assert.equal((await run("sh", words)).stdout, "EMFILE,opened opened\n");
});

test("a check is answered once the disk has its use, and those that come meanwhile share a write", async () => {
  const validator = await opened(state), tokens = range(9).map(() => token(one)), disk = hanging(), answers = [];
  const check = (it) => validator.check(it).then(({ use }) => answers.push(use));
  const first = check(tokens[0]);
  await until(() => disk.count === 1);
  const rest = tokens.slice(1).map(check);
  await until(() => validator.size().uses === 9);
  assert.equal(await said(validator.judge(token(one))), "accepted");
  assert.deepEqual([answers.length, disk.count], [0, 1]);
  disk.open();
  await Promise.all([first, ...rest]);
  assert.equal(disk.count, 2);
  await validator.close();
  const again = await opened(state);
  for (const it of tokens) assert.equal(await said(again.check(it)), "Replayed");
  await again.close();
});

test("while the disk hangs a check is late, and the validator is not ready", async () => {
  const validator = await opened(state, { wait: 1 }), [text, other] = [token(one), token(one)], disk = hanging();
  await assert.rejects(validator.check(text), { name: "Unavailable", reason: "NotKept" });
  await assert.rejects(validator.withdraw(other), { name: "Unavailable", message: /the state folder or the group's store may not have that: withdraw it again/ });
  assert.match(validator.unready(), /The state folder takes no acceptance/);
  assert.deepEqual([await said(validator.check(text)), await said(validator.check(other))], ["Replayed", "Withdrawn"]);
  disk.open();
  await until(() => validator.ready);
  await validator.close();
  const again = await opened(state);
  assert.deepEqual([await said(again.check(text)), await said(again.check(other))], ["Replayed", "Withdrawn"]);
  await again.close();
});

test("a full disk is a passing fault: the use is kept once there is room, and the validator is ready again", async () => {
  // (the limit of a process is a disk that is full for it alone)
  const limit = (bytes) => run("prlimit", ["--pid", String(process.pid), `--fsize=${bytes}:`]), heard = () => {};
  process.on("SIGXFSZ", heard);
  const validator = await opened(state), accepted = [], late = token(one);
  try {
    await limit(500);
    let why;
    while (!why) {
      const text = token(one);
      await validator.check(text).then(() => accepted.push(text), (it) => (why = it));
    }
    assert.ok(accepted.length > 0 && accepted.length < 5, `${accepted.length} uses have room`);
    assert.deepEqual([why.name, why.reason, why.cause.cause.code], ["Unavailable", "NotKept", "EFBIG"]);
    assert.match(why.message, /The state folder did not take the acceptance/);
    assert.equal(await said(validator.check(late)), "Unavailable");
    assert.match(validator.unready(), /The state folder takes no acceptance/);
    await limit("unlimited");
    await until(() => validator.ready);
    accepted.push(token(one));
    assert.equal(await said(validator.check(accepted.at(-1))), "accepted");
  } finally {
    await limit("unlimited");
    process.off("SIGXFSZ", heard);
    await validator.close();
  }
  const again = await opened(state);
  for (const it of [late, ...accepted]) assert.equal(await said(again.check(it)), "Replayed");
  await again.close();
});

test("closing waits for the disk, and whoever waits for an answer gets Closed", async () => {
  const validator = await opened(state), text = token(one), disk = hanging(), answer = said(validator.check(text));
  await until(() => disk.count === 1);
  let isClosed = false;
  const closing = Promise.all([validator.close(), validator.close()]).then(() => (isClosed = true));
  assert.equal(await answer, "Closed");
  assert.equal(await said(opened(state)), "Held");
  assert.equal(isClosed, false);
  disk.open();
  await closing;
  assert.equal(await said(validator.check(text)), "Closed");
  const again = await opened(state);
  assert.equal(await said(again.check(text)), "Replayed");
  await again.close();
});

test("`await using` waits for the disk, and what `using` closes loses nothing", async () => {
  for (const symbol of [Symbol.asyncDispose, Symbol.dispose].filter(Boolean)) {
    const validator = await opened(state), text = token(one);
    await validator.check(text);
    const disk = hanging(), disposing = validator[symbol]();
    await until(() => disk.count === 1); // (the journal ends by a mark)
    let isDone = false;
    const ended = Promise.resolve(disposing).then(() => (isDone = true));
    assert.equal(await said(opened(state)), "Held");
    assert.equal(isDone, symbol === Symbol.dispose);
    disk.open();
    await ended;
    mended();
    const open = () => opened(state).catch((why) => assert.equal(why.name, "Held")), again = symbol === Symbol.dispose ? await until(open) : await opened(state);
    assert.equal(await said(again.check(text)), "Replayed");
    await again.close();
  }
});

test("after a sync that failed nothing is kept, until the next start", async () => {
  const validator = await opened(state), texts = range(3).map(() => token(one));
  assert.equal(await said(validator.check(texts[0])), "accepted");
  disturbed((name) => {
    if (name === "datasync") throw failed("EIO");
  });
  assert.equal(await said(validator.check(texts[1])), "Unavailable");
  mended();
  await assert.rejects(validator.check(texts[2]), ({ cause }) => /the disk does not say what it holds \(EIO: it fails\): mend it/.test(cause.message));
  assert.match(validator.unready(), /The state folder takes no acceptance/);
  await validator.close();
  const again = await opened(state);
  assert.equal(await said(again.check(texts[0])), "Replayed");
  assert.equal(await said(again.check(texts[2])), "accepted");
  await again.close();
});

test("a folder that is moved keeps nothing: another process may have begun at its path", async () => {
  const validator = await opened(state), [first, second] = [token(one), token(one)];
  await fs.rename(state, `${state} moved`);
  const other = await opened(state);
  await assert.rejects(validator.check(first), ({ cause }) => /no longer at its path/.test(cause.message));
  await fs.rename(state, `${state} other`);
  await fs.rename(`${state} moved`, state);
  await assert.rejects(validator.check(second), ({ cause }) => /put it back there, and start the service again/.test(cause.message));
  await Promise.all([validator.close(), other.close()]);
  const again = await opened(state);
  assert.equal(await said(again.check(second)), "accepted");
  await again.close();
});

// -- Snapshots

test("a long journal becomes a snapshot, and starts do not fill the folder", async () => {
  const kept = [], journal = await begun(state, { small: 1000 }, kept), journals = async () => (await readdir(state)).filter((it) => it.startsWith("journal"));
  for (const it of range(40)) {
    kept.push(it);
    await journal.keep(use(it));
  }
  await until(async () => (await journals()).length === 1 && (await stat(join(state, "snapshot"))).size > 1000);
  await journal.close();
  assert.deepEqual(await found(state), range(40));
  for (const it of range(20)) await (await begun(state, {}, kept)).close();
  assert.ok((await journals()).length <= 9);
  assert.deepEqual(await found(state), range(40));
});

test("a start with long journals writes a snapshot, and the next one is due once the journals are as long as that", async () => {
  const kept = range(40), first = await begun(state);
  for (const it of kept) await first.keep(use(it));
  await first.close();
  let count = 0;
  disturbed((name, _, [path]) => void (count += Number(name === "open" && basename(path) === "snapshot.new")));
  const journal = await begun(state, { small: 1000 }, kept);
  assert.deepEqual([count, (await readdir(state)).filter((it) => it.startsWith("journal")).length], [1, 1]);
  for (const it of range(20)) await journal.keep(use(it));
  await journal.close();
  assert.equal(count, 1);
});

test("appends go on while a snapshot is written, and a snapshot that fails is told and loses nothing", async () => {
  const held = gate(), warned = [], kept = [], heard = ({ code, message }) => warned.push([code, message]);
  process.on("warning", heard);
  const journal = await begun(state, { small: 1000 }, kept);
  disturbed(async (name, file) => {
    if (name !== "write" || (await path(file)) !== "snapshot.new") return;
    await held.passed;
    throw failed("ENOSPC");
  });
  const keep = async (it) => {
    kept.push(it);
    await journal.keep(use(it));
  };
  for (const it of range(20)) await keep(it);
  held.open();
  await until(() => warned.length);
  assert.deepEqual(warned, [["SVID_STATE", "the snapshot stays as it is: ENOSPC: it fails"]]);
  for (const it of range(30)) await keep(it);
  assert.ok(!(await readdir(state)).includes("snapshot.new"));
  await journal.close();
  process.off("warning", heard);
  assert.deepEqual(await found(state), range(30));
});

test("a folder is held until the snapshot is written that was begun before it is closed", async () => {
  const held = gate(), begins = gate(), kept = [], journal = await begun(state, { small: 1 }, kept);
  disturbed(async (name, file) => {
    if (name !== "write" || (await path(file)) !== "snapshot.new") return;
    begins.open();
    await held.passed;
  });
  for (const it of range(20)) {
    kept.push(it);
    await journal.keep(use(it));
  }
  await begins.passed;
  const closing = journal.close();
  for (let again = 0; again < 4; again++) assert.equal(await said(Journal.open(state)), "Held");
  held.open();
  await closing;
  assert.deepEqual(await found(state), range(20));
});

test("a snapshot that fails is not tried again at each request", async (t) => {
  const journal = await begun(state, { small: 1 }), real = performance.now.bind(performance);
  let count = 0, later = 0;
  t.mock.method(performance, "now", () => real() + later);
  disturbed((name, _, [path]) => {
    if (name !== "open" || basename(path) !== "snapshot.new") return;
    count += 1;
    throw failed("ENOSPC");
  });
  await journal.keep(use(0));
  await until(() => count);
  for (const it of range(30)) await journal.keep(use(it));
  assert.equal(count, 1);
  later = 61_000; // (but a minute later)
  await until(async () => (await journal.keep(use(30)), count === 2));
  await journal.close();
});

test("a snapshot that failed is due again a minute later: the journals before it count too", async (t) => {
  const journal = await begun(state, { small: 1000 }), real = performance.now.bind(performance);
  let count = 0, later = 0;
  t.mock.method(performance, "now", () => real() + later);
  disturbed((name, _, [path]) => {
    if (name !== "open" || basename(path) !== "snapshot.new") return;
    count += 1;
    if (count === 1) throw failed("ENOSPC");
  });
  for (let it = 0; !count; it++) await journal.keep(use(it % 30));
  await journal.keep(use(30));
  later = 61_000;
  await journal.keep(use(31));
  await until(async () => count === 2 && (await readdir(state)).filter((it) => it.startsWith("journal")).length === 1);
  await journal.keep(use(32));
  await journal.close();
  assert.equal(count, 2);
});

test("a mark stands after a burst, and at the end", async () => {
  const journal = await begun(state), sizes = async () => (await readFile(join(state, "journal.2"))).toString("latin1").replace(/\0+$/, "").length;
  await journal.keep(use(1));
  await until(async () => (await sizes()) > 130);
  await journal.keep(use(2));
  await journal.close();
  assert.ok((await sizes()) > 120 + 32 + 120);
  const bytes = await readFile(join(state, "journal.2"));
  bytes[160] ^= 1; // (in the last use)
  await writeFile(join(state, "journal.2"), bytes);
  await assert.rejects(Journal.open(state), { name: "BadFolder", message: /journal\.2 is damaged at byte 152: look for a failing disk/ });
});

test("a journal that another one follows ends by a mark, so that damage of its last use is seen", async (t) => {
  const real = setTimeout, never = { refresh() {}, unref: () => never };
  t.mock.method(globalThis, "setTimeout", (act, wait, ...more) => (wait === 1000 ? never : real(act, wait, ...more))); // (no mark by time)
  const journal = await begun(state, { small: 1 });
  disturbed(async (name, file) => {
    if (name === "write" && (await path(file)) === "snapshot.new") throw failed("ENOSPC"); // (so the journal stays)
  });
  await journal.keep(use(1));
  await until(async () => (await readdir(state)).includes("journal.3"));
  await journal.close();
  const file = join(state, "journal.2"), bytes = await readFile(file);
  bytes[bytes.indexOf(keyOf(1))] ^= 1;
  await writeFile(file, bytes);
  await assert.rejects(Journal.open(state), { name: "BadFolder", message: /journal\.2 is damaged/ });
});

test("a use for which there is no memory is not kept, and says so", async (t) => {
  const folder = Library.prototype.folder, wants = [];
  t.mock.method(Library.prototype, "folder", function (...given) {
    const numbers = folder.apply(this, given);
    return { ...numbers, put: (payload) => {
      if (wants.pop()) throw new OutOfMemory();
      return numbers.put(payload);
    } };
  });
  const journal = await begun(state);
  wants.push(true);
  await assert.rejects(journal.keep(use(1)), OutOfMemory);
  await journal.keep(use(2));
  await journal.close();
  assert.deepEqual(await found(state), [2]);
});

test("what an earlier snapshot left neither hinders the next one nor gets into it", async () => {
  const kept = [], journal = await begun(state, { small: 1 }, kept);
  await writeFile(join(state, "snapshot.new"), "left".repeat(10_000));
  kept.push(1);
  await journal.keep(use(1));
  await until(async () => !(await readdir(state)).includes("snapshot.new"));
  await journal.close();
  assert.deepEqual(await found(state), [1]);
});

test("a disk that does not answer holds so much", async () => {
  const journal = await begun(state), much = new Uint8Array(16_000_000).fill(0x4a);
  await journal.keep(new Uint8Array(16_777_215).fill(0x4a)); // (one write takes so much)
  const disk = hanging();
  const first = journal.keep(use(1));
  await until(() => disk.count === 1);
  const second = journal.keep(much);
  await assert.rejects(journal.keep(much), { name: "Unavailable", message: /too much waits for it/ });
  disk.open();
  await Promise.all([first, second]);
  await journal.close();
  assert.equal(await said(journal.keep(use(2))), "Closed");
});

test("what was kept is handed on in pieces of some megabytes", async () => {
  const journal = await begun(state), some = new Uint8Array(700_000).fill(0x4a), pieces = [];
  for (const it of [1, 2, 3]) await journal.keep(some.map((byte) => byte + it));
  await journal.close();
  const again = await Journal.open(state);
  await again.begin((it) => pieces.push([it.length, it[0], it.at(-1)]), function* () {});
  await again.close();
  assert.deepEqual(pieces, [[1_400_000, 0x4b, 0x4c], [700_000, 0x4d, 0x4d]]);
});

// -- What stands in a folder

test("a folder whose numbers have come to their end says so, and lets go", async () => {
  const validator = await opened(state), text = token(one);
  await validator.check(text);
  await validator.close();
  const last = join(state, `journal.${2n ** 64n - 1n}`);
  await writeFile(last, "");
  for (let again = 0; again < 2; again++) await assert.rejects(opened(state), { name: "Unavailable", message: /^A number of the folder has come to its end\. / });
  await rm(last);
  const again = await opened(state);
  assert.equal(await said(again.check(text)), "Replayed");
  await again.close();
});

test("an ID that is lost or bad, files that are none, and folders of an older version", async () => {
  const journal = await begun(state), idFile = join(state, "place");
  await journal.keep(use(1));
  await journal.close();
  const id = await readFile(idFile, "utf8");
  for (const bad of ["", "abc", "z".repeat(32), ` ${id}`, `${id}\n`]) {
    await writeFile(idFile, bad);
    await assert.rejects(Journal.open(state), { name: "BadFolder", message: /state\/\w+ is not 32 hexadecimal digits: put back a copy/ });
  }
  await rm(idFile);
  const lacks = { name: "BadFolder", message: /the file \w+ is missing in .*state, and .* can't be read without it/ };
  for (let again = 0; again < 2; again++) await assert.rejects(Journal.open(state), lacks);
  await rm(state, { recursive: true });
  await mkdir(state);
  for (const name of ["lock", "place", "snapshot", "journal.1"]) {
    await run("mkfifo", [join(state, name)]);
    await assert.rejects(Journal.open(state), new RegExp(`${name} is no regular file|ENXIO.*${name}`));
    await rm(join(state, name));
  }
  const held = await Promise.all((await readdir("/proc/self/fd")).map((it) => fs.readlink(`/proc/self/fd/${it}`).catch(() => "")));
  assert.deepEqual(held.filter((it) => it.startsWith(state)), []);
  for (const name of ["journal.1", "snapshot"]) {
    await writeFile(join(state, name), use(1));
    await assert.rejects(Journal.open(state), { name: "BadFolder", message: /is of an older svidd: start a newer one in the folder once/ });
    await rm(join(state, name));
  }
  await writeFile(join(state, "frames"), "7\n");
  await assert.rejects(Journal.open(state), { name: "BadFolder", message: /is of an older svidd/ });
});

test("another writer may put a position before the messages", async () => {
  const id = new Uint8Array(16).fill(7), numbers = library.folder(id, 1n, 0n), position = Buffer.concat([Buffer.from("JSL\x01"), Buffer.alloc(24, 3)]), frames = [];
  while (numbers.due().call) numbers.answer(true);
  for (const it of [Buffer.concat([position, use(1)]), position, use(2)]) {
    frames.push(numbers.put(it));
    numbers.synced();
  }
  await mkdir(state);
  await writeFile(join(state, "place"), `${hex(id)}\n`);
  await writeFile(join(state, "journal.1"), Buffer.concat(frames));
  assert.deepEqual(await found(state), [1, 2]);
});

// -- Kills, and a disk call by call

test("a kill at any time loses no acceptance", async () => {
  const program = `
    const { Validator } = await import("${PACKAGE}/index.js"), { Journal } = await import("${PACKAGE}/src/journal.js");
    const { issuer, token } = await import("${TOP}/packages/node/tests/making.mjs"), one = issuer(), real = Journal.open;
    Journal.open = (folder) => real.call(Journal, folder, { small: 3000 });
    const terms = { audiences: "ledger", bundles: one.bundles, verify: () => true, state: ${JSON.stringify(state)}, wait: ${LONG} };
    const validator = await Validator.open(terms);
    const work = async () => {
      for (;;) {
        const text = token(one);
        await validator.check(text);
        process.stdout.write(text + "\\n");
      }
    };
    for (let n = 0; n < 3; n++) work();`;
  const told = [];
  let seed = 7;
  const chance = (most) => (seed = (seed * 48_271) % 2_147_483_647) % most;
  for (let turn = 0; turn < 6; turn++) {
    const env = { ...process.env, SVID_PACKAGE: PACKAGE, SVID_TOP: TOP };
    const ran = spawn(process.execPath, [...NODE, "--input-type=module", "--eval", program], { stdio: ["ignore", "pipe", "inherit"], env });
    let text = "";
    const due = 1 + chance(60);
    ran.stdout.on("data", (it) => {
      text += it;
      if (text.split("\n").length > due) ran.kill("SIGKILL");
    });
    await within("the program that is killed", once(ran, "close")).finally(() => ran.kill("SIGKILL"));
    assert.equal(ran.signalCode, "SIGKILL");
    told.push(...text.split("\n").slice(0, -1));
  }
  assert.ok(told.length > 60);
  const validator = await opened(state, { verify: () => true });
  for (const it of told) assert.equal(await said(validator.check(it)), "Replayed");
  await validator.close();
});

// What a process does with a folder. `kept` gains each number that the journal acknowledges. It makes no call after one of them that throws Killed.
async function work(folder, kept) {
  let journal;
  try {
    journal = await Journal.open(folder, { small: 300 });
  } catch (why) {
    if (/remove this folder/.test(why.message)) await REAL.rm(folder, { recursive: true, force: true });
    return false;
  }
  const have = [];
  try {
    await journal.begin((messages) => library.uses(messages).forEach(({ key }) => have.push(key[31])), () => [...have].map(use));
    for (const it of range(8)) {
      have.push(it);
      await journal.keep(use(it)).then(() => kept.add(it), () => {});
    }
  } catch {
    // (no snapshot was begun)
  }
  await journal.close();
  return true;
}

// A disk that knows what it surely has: the folder itself, the bytes of each file at its last sync, and the names at the last sync of the folder. No
// later sync vouches for a name whose sync failed, until the name changes again.
class Disk {
  isThere = false;
  calls = 0;
  #isStuck = false;
  #synced = new Map(); // by inodes
  #sure = new Map(); // inodes by names
  #stuck = new Set();
  #folder;

  constructor(folder, before) {
    this.#folder = folder;
    disturbed(async (name, file, given) => {
      const number = this.calls++;
      if (name === "sync") await this.#sync(folder, file, () => before(number, name));
      else await before(number, name);
      return !name.endsWith("sync"); // (it knows of each sync, so nothing need go to the disk under the test)
    }, async (name, file, given) => {
      if (name === "mkdir") this.isThere = this.#isStuck = false;
      else if (name === "open" || name === "unlink") this.#stuck.delete(basename(given[0]));
      else if (name === "rename") this.#stuck.delete(basename(given[1]));
      else if (name === "datasync") this.#synced.set((await file.stat()).ino, await readFile(`/proc/self/fd/${file.fd}`));
    });
  }

  async #sync(folder, file, before) {
    const isAbove = (await fs.readlink(`/proc/self/fd/${file.fd}`)) !== folder, names = await readdir(folder).catch(() => []);
    const is = new Map(await Promise.all(names.map(async (it) => [it, (await stat(join(folder, it))).ino])));
    try {
      await before();
    } catch (why) {
      if (isAbove) this.#isStuck = !this.isThere;
      else for (const it of new Set([...is.keys(), ...this.#sure.keys()])) if (is.get(it) !== this.#sure.get(it)) this.#stuck.add(it);
      throw why;
    }
    if (isAbove) this.isThere ||= !this.#isStuck;
    else this.#sure = new Map([...[...this.#sure].filter(([it]) => this.#stuck.has(it)), ...[...is].filter(([it]) => !this.#stuck.has(it))]);
  }

  // Has the folder, with an empty file.
  async has(name) {
    await REAL.mkdir(this.#folder);
    await writeFile(join(this.#folder, name), "");
    this.isThere = true;
    this.#sure.set(name, (await stat(join(this.#folder, name))).ino);
  }

  // A folder with what a loss of power surely leaves, or none.
  async lost(to) {
    if (!this.isThere) return to;
    await REAL.mkdir(to);
    for (const [name, inode] of this.#sure) if (name !== "lock") await writeFile(join(to, name), this.#synced.get(inode) ?? "");
    return to;
  }
}

async function copied(folder, to) {
  const names = await readdir(folder).catch(() => null);
  if (!names) return;
  await REAL.mkdir(to);
  await Promise.all(names.map(async (it) => writeFile(join(to, it), await readFile(join(folder, it)))));
}

test("a kill and a loss of power at each call lose no acceptance", async () => {
  const kept = new Set(), outcomes = [];
  unlocked();
  const disk = new Disk(state, async (number) => {
    outcomes.push([...kept]);
    await disk.lost(join(dirname(state), `lost ${number}`));
    await copied(state, join(dirname(state), `killed ${number}`));
  });
  await work(state, kept);
  mended();
  assert.ok(outcomes.length > 40 && kept.size === 8, `${outcomes.length} calls`);
  for (const [number, due] of outcomes.entries()) {
    for (const how of ["lost", "killed"]) {
      const folder = join(dirname(state), `${how} ${number}`), is = await found(folder);
      assert.deepEqual(due.filter((it) => !is.includes(it)), [], folder);
    }
  }
});

test("no call that fails loses an acceptance", async () => {
  let failing = 0;
  unlocked();
  for (let isOver = false; !isOver; failing++) {
    const kept = new Set(), disk = new Disk(state, (number, name) => {
      if (number === failing) throw failed(`EIO of ${name}`);
    });
    await work(state, kept);
    isOver = disk.calls <= failing;
    await work(state, kept);
    mended();
    assert.equal(kept.size, 8, `call ${failing}`);
    for (const folder of [await disk.lost(join(dirname(state), "lost")), state]) {
      assert.deepEqual(await found(folder), range(8), `call ${failing}, ${folder}`);
      await rm(folder, { recursive: true });
    }
  }
  assert.ok(failing > 40, `${failing} calls`);
});

test("a new folder whose first starts end anywhere keeps its own name, and that of its ID", async () => {
  // Whether a start ends by the call of this number: it fails, or the process is killed, and makes no other call.
  const ends = async (at, isKill) => {
    const before = disk.calls, killed = gate();
    ending = (number) => {
      if (number - before < at) return undefined;
      if (!isKill && number - before === at) throw failed("EIO");
      if (isKill) killed.open();
      return isKill ? new Promise(() => {}) : undefined;
    };
    const opening = Journal.open(state).catch(async (why) => {
      if (/remove this folder/.test(why.message)) await REAL.rm(state, { recursive: true, force: true });
    });
    const journal = await Promise.race([opening, killed.passed]);
    ending = () => {};
    await journal?.close();
    return !journal;
  };
  let disk, ending = () => {};
  unlocked();
  for (const [isKill, isOld] of [[true, false], [false, false], [false, true]]) for (let at = 0, isOver = false; !isOver; at++) {
    for (let nextAt = isKill || isOld ? 99 : 0, isNextOver = false; !isNextOver; nextAt += 1 + (at % 2)) {
      disk = new Disk(state, (number) => ending(number));
      if (isOld) await disk.has("journal.1"); // (as an older version leaves an unused folder)
      isOver = !(await ends(at, isKill));
      isNextOver = !(await ends(nextAt, false));
      const journal = await Journal.open(state);
      await journal.keep(use(1));
      await journal.close();
      mended();
      const lost = await disk.lost(join(dirname(state), "lost"));
      assert.deepEqual(await found(lost), [1], `calls ${at} and ${nextAt}, ${isKill}, ${isOld}`);
      await Promise.all([lost, state].map((it) => rm(it, { recursive: true })));
      await Promise.all(files.splice(0).map((it) => it.close().catch(() => {})));
    }
  }
});

// -- Mode bound without a store

let clock = BEGUN;
const CLAIMS = { longest: 3600n, ahead: 10n, clock: () => clock }, MARGIN = 120n;
const digest = (number) => new Uint8Array(32).fill(number);
const claims = () => LocalStore.open(state, CLAIMS);
const claim = (number, owner, expires = clock + 600n) => ({ key: digest(number), owner: new Uint8Array(32).fill(owner, 5, 20), expires });
// The first byte that is not 0 of the owner that a claim finds.
const owner = async (store, ...given) => (await store.put([claim(...given)]))[0].owner[5];

test("in mode bound without a store a token is bound to its caller, over restarts", async () => {
  const text = token(one), ask = (it, caller) => said(it.check(text, { caller }));
  let validator = await opened(state, { mode: "bound" });
  assert.deepEqual([await ask(validator, "one"), await ask(validator, "two")], ["accepted", "Replayed"]);
  for (let start = 0; start < 2; start++) {
    await validator.close();
    validator = await opened(state, { mode: "bound" });
    assert.deepEqual([await ask(validator, "two"), await ask(validator, "one")], ["Replayed", "accepted"]);
  }
  await validator.withdraw(text);
  await validator.close();
  validator = await opened(state, { mode: "bound" });
  assert.equal(await ask(validator, "one"), "Withdrawn");
  assert.equal(await said(LocalStore.open(join(state, "claims"), CLAIMS)), "Held");
  await validator.close();
  await writeFile(join(state, "claims/place"), "");
  await assert.rejects(opened(state, { mode: "bound" }), { name: "BadFolder", message: /claims\/\w+ is not 32/ });
  await rm(join(state, "claims"), { recursive: true });
  // (a first start whose snapshot fails lets go of both folders)
  disturbed((name, _, [path]) => {
    if (name === "open" && path.endsWith("claims/snapshot.new")) throw failed("ENOSPC");
  });
  await assert.rejects(opened(state, { mode: "bound" }), { code: "ENOSPC" });
  mended();
  // (a token that lives for years)
  const years = token(one, { exp: now() + 1e9 });
  for (const due of ["accepted", "Replayed"]) {
    validator = await opened(state, { mode: "bound", longest: "unlimited" });
    assert.equal(await said(validator.check(years, { caller: due })), due);
    await validator.close();
  }
});

test("a token that is withdrawn again, with a later expiry, stays withdrawn for as long, over restarts", async () => {
  for (const mode of ["once", "bound"]) {
    let time = BEGUN;
    const folder = `${state}-${mode}`, text = token(one), about = mode === "bound" ? { caller: "one" } : undefined, more = { mode, now: () => time };
    let validator = await opened(folder, more);
    const { key, expires } = validator.says(text);
    for (const it of [BEGUN + 10n, expires, BEGUN + 20n]) await validator.withdrawKey(key, it);
    time += 1000n;
    for (let start = 0; start < 2; start++) {
      assert.equal(await said(validator.check(text, about)), "Withdrawn");
      await validator.close();
      validator = await opened(folder, more);
    }
    await validator.close();
  }
});

test("a restart forgets no claim, and what is over is claimed anew", async () => {
  let store = await claims();
  assert.equal(await owner(store, 1, 1), 1);
  await store.withdraw(digest(2), clock + 600n);
  const both = await store.put([claim(3, 1), claim(3, 2)]);
  assert.deepEqual(both.map((it) => it.owner[5]), [1, 1]);
  for (let start = 0; start < 3; start++) {
    await store.close();
    store = await claims();
    assert.deepEqual([await owner(store, 1, 2), await owner(store, 2, 1), await owner(store, 3, 2)], [1, 0, 1]);
    assert.equal((await store.put([]))[0], undefined);
  }
  assert.deepEqual((await store.put([claim(1, 2)]))[0], { owner: claim(1, 1).owner, time: clock, deaf: 0n });
  clock += 600n + MARGIN - 1n;
  assert.equal(await owner(store, 1, 2), 1);
  clock += 1n;
  assert.equal(await owner(store, 1, 2), 2);
  await store.close();
  store = await claims();
  assert.equal(await owner(store, 1, 1), 2);
  assert.equal(await owner(store, 9, 1, clock - MARGIN), 1); // (the answer has one that is over, and nothing keeps it)
  await store.close();
  assert.equal(await said(store.put([claim(1, 1)])), "accepted");
  assert.equal(await said(store.put([claim(10, 1)])), "Closed");
});

test("a clock that goes back lets no claim be made again", async () => {
  for (const again of [async (it) => it, async (it) => (await it.close(), claims())]) {
    const began = clock;
    let store = await claims();
    assert.equal(await owner(store, 1, 1, began + 600n), 1);
    clock += 1000n; // (it is over)
    for (const it of range(4)) await owner(store, 50 + it, 1);
    store = await again(store);
    const latest = clock;
    clock = latest - 60n;
    assert.equal((await store.put([claim(60, 1)]))[0].deaf, 0n);
    clock = began + 1n;
    for (let turn = 0; turn < 3; turn++) {
      const [{ deaf }] = await store.put([claim(1, 2, began + 600n)]);
      assert.equal(deaf, latest + 3620n);
      store = await again(store);
    }
    await store.close();
    await rm(state, { recursive: true });
    clock = began + 10_000n;
  }
  // (nothing but this tells the next start, or the snapshot that replaces it)
  for (const options of [{}, { small: 1 }]) {
    let store = await LocalStore.open(state, CLAIMS, options);
    const latest = clock;
    await store.put([]);
    clock -= 61n;
    for (let start = 0; start < 3; start++) {
      assert.equal((await store.put([claim(1, 1)]))[0].deaf, latest + 3620n);
      await store.close();
      store = await LocalStore.open(state, CLAIMS, options);
    }
    await store.close();
    await rm(state, { recursive: true });
    clock = latest + 10_000n;
  }
  // (a token that was claimed may live for ever)
  const ANY = 2n ** 64n - 1n, store = await LocalStore.open(state, { ...CLAIMS, longest: ANY });
  await store.put([]);
  clock -= 61n;
  assert.equal((await store.put([claim(1, 1)]))[0].deaf, ANY);
  await store.close();
  clock += 10_000n;
});

test("a claim is on the disk before it is answered, and is put again where the disk did not take it", async () => {
  let store = await claims();
  disturbed((name) => {
    if (name === "write") throw failed("ENOSPC");
  });
  assert.equal(await said(store.put([claim(1, 1)])), "Unavailable");
  mended();
  const disk = hanging();
  let isAnswered = false;
  const both = [1, 2].map((it) => owner(store, 1, it).then((is) => (isAnswered = is)));
  await until(() => disk.count);
  assert.equal(isAnswered, false);
  disk.open();
  assert.deepEqual(await Promise.all(both), [1, 1]);
  await store.close();
  store = await claims();
  assert.equal(await owner(store, 1, 2), 1);
  await store.close();
});

test("a folder of claims stays small, and a snapshot forgets no live one", async () => {
  const store = await LocalStore.open(state, CLAIMS, { small: 20_000 }), live = clock + 3600n;
  await store.put([claim(1, 1, live)]);
  for (let round = 0; round < 30; round++) {
    await store.put(range(200).map((it) => ({ ...claim(0, 2, clock + 1n), key: digest(round + 2).fill(it, 0, 1) })));
    clock += 100n;
  }
  const sizeOf = async (name) => (await stat(join(state, name)).catch(() => ({ size: 0 }))).size;
  const size = async () => (await Promise.all((await readdir(state)).map(sizeOf))).reduce((sum, it) => sum + it);
  await until(async () => (await size()) < 400_000);
  assert.ok(store.size < 1000, `${store.size} claims`);
  await store.close();
  const again = await claims();
  assert.ok(again.size < 3000, `${again.size} claims`); // (a journal has those since the last snapshot)
  assert.equal(await owner(again, 1, 3, live), 1);
  await again.close();
});

// -- Others

// What svidd answers over a folder, while `body` asks it: the status of each request with a token, and from a caller.
async function asking(words, body) {
  const svidd = join(room, "svidd"), bundle = join(room, "example.org.json"), socket = join(room, "s");
  await built("build", "-o", svidd, "./cmd/svidd");
  await writeFile(bundle, JSON.stringify(one.bundles["example.org"]));
  const usual = ["--audience", "ledger", "--bundle", `example.org=${bundle}`, "--longest", "3600", "--state", state, "--listen", `unix:${socket}`, "--wait", "60s"];
  const ran = spawn(svidd, ["serve", ...usual, ...words], { stdio: ["ignore", "ignore", "pipe"] });
  let log = "";
  ran.stderr.on("data", (it) => (log += it));
  const get = (path, headers = {}) => new Promise((resolve) => {
    request({ socketPath: socket, path, headers, agent: false, timeout: 1000 * PATIENCE }, (res) => resolve(res.resume().statusCode))
      .on("timeout", function () { this.destroy(); }).on("error", () => resolve(0)).end();
  });
  try {
    await until(async () => {
      assert.equal(ran.exitCode, null, log);
      return (await get("/readyz")) === 200;
    });
    await body((text, caller = "") => get("/check", { Authorization: `Bearer ${text}`, "X-Caller": caller }));
  } finally {
    ran.kill();
    await ended("svidd", ran);
  }
}

test("svidd goes on with a folder of this package, and the other way round", async () => {
  const texts = range(2).map(() => token(one)), validator = await opened(state), { validatorId } = (await validator.check(texts[0])).use;
  await validator.close();
  await asking([], async (ask) => {
    assert.equal(await said(opened(state)), "Held");
    assert.deepEqual([await ask(texts[0]), await ask(texts[1]), await ask(texts[1])], [401, 200, 401]);
  });
  const again = await opened(state);
  for (const it of texts) assert.equal(await said(again.check(it)), "Replayed");
  assert.deepEqual((await again.check(token(one))).use.validatorId, validatorId);
  await again.close();
});

test("svidd goes on with the claims of a folder in mode bound, and the other way round", async () => {
  const texts = range(2).map(() => token(one)), bound = await opened(state, { mode: "bound" });
  const callerOf = (name) => `header\0${name}`; // (svidd says what kind of name it is)
  await bound.check(texts[0], { caller: callerOf("10.0.0.7") });
  await bound.close();
  await asking(["--replay", "bound", "--caller", "header:X-Caller"], async (ask) => {
    assert.deepEqual([await ask(texts[0], "10.0.0.8"), await ask(texts[0], "10.0.0.7"), await ask(texts[1], "10.0.0.9")], [401, 200, 200]);
  });
  const again = await opened(state, { mode: "bound" });
  for (const [n, name, due] of [[0, "10.0.0.7", "accepted"], [1, "10.0.0.9", "accepted"], [1, "10.0.0.7", "Replayed"]]) {
    assert.equal(await said(again.check(texts[n], { caller: callerOf(name) })), due);
  }
  await again.close();
});
