// Runs tests of go/claims over the client of this package.

import assert from "node:assert/strict";
import { readFileSync, statfsSync } from "node:fs";
import { join } from "node:path";
import { TOP, built, run } from "./making.mjs";

// A run of tests by their names has some of them alone.
const IS_PART = process.execArgv.some((it) => it.startsWith("--test-name-pattern"));

/** The environment of servers. Their data are in memory where that has some GB: they force a disk thousands of times. (Folders of this process may be closed to them.) */
export function roomy() {
  const shm = "/dev/shm", mount = readFileSync("/proc/mounts", "utf8").match(/^\S+ \/dev\/shm \S+ (\S+)/m);
  const has = mount && !mount[1].split(",").includes("noexec") && statfsSync(shm);
  return { ...process.env, TMPDIR: has && has.bavail * has.bsize > 2 ** 32 ? shm : "/tmp" };
}

/** The tests of go/claims/SERVER as a program, and groups of them, which are run over the client. `ends` are the ways in which a test may end. */
export class OfGo {
  #server;
  #groups;
  #ends;
  #room;
  #made;
  #all;

  /** The program is made in a folder, by the first test that wants it. */
  constructor(server, groups, room, ends = "PASS") {
    this.#server = server;
    this.#groups = groups;
    this.#room = room;
    this.#ends = ends;
  }

  /** The path of the program. */
  program() {
    const to = join(this.#room, `${this.#server}.test`);
    return (this.#made ??= built("test", "-c", "-o", to, `./claims/${this.#server}`).then(() => to));
  }

  /** Each test of a group passes. One process runs all groups, where all are to be run: each makes data of servers first. */
  async passes(group) {
    const tests = this.#groups[group].split("|"), said = await (IS_PART ? this.#ran(tests) : (this.#all ??= this.#ran(this.#names())));
    for (const it of tests) assert.match(said, new RegExp(`^--- (${this.#ends}): ${it} `, "m"), `${it}: ${partOf(said, it)}`);
  }

  /** Each test of the program is in a group, or one of those that call nothing of a client. */
  async hasNoMore(others) {
    const { stdout } = await run(await this.program(), ["-test.list", "^Test"]);
    assert.deepEqual([...this.#names(), ...others].sort(), stdout.trim().split("\n").sort());
  }

  #names() {
    return Object.values(this.#groups).join("|").split("|");
  }

  async #ran(tests) {
    const env = { ...roomy(), SVID_STORE_CLIENT: `${process.execPath} ${TOP}/packages/node/tests/store-client.mjs ${this.#server}` };
    const words = ["-test.v", "-test.timeout", "25m", "-test.run", `^(${tests.join("|")})$`];
    const ran = await run(await this.program(), words, { cwd: `${TOP}/go/claims/${this.#server}`, env, maxBuffer: 1 << 26, timeout: 1_600_000 }).catch((why) => why);
    return `${ran.stdout}\n${ran.stderr}`;
  }
}

/** What one test said, and the end of all. */
function partOf(said, name) {
  const its = said.split(/^(?==== |--- )/m).filter((it) => new RegExp(`^\\S+ \\S+\\s+${name}\\b`).test(it));
  return `${its.join("").slice(-5000)}\n${said.slice(-2000)}`;
}
