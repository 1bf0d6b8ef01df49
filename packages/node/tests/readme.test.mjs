// README.md: its blocks run one after the other and print what stands below them, and the service runs by itself.

import assert from "node:assert/strict";
import { spawn } from "node:child_process";
import { cp, mkdtemp, mkdir, rm, symlink, writeFile } from "node:fs/promises";
import { get } from "node:http";
import { tmpdir } from "node:os";
import { join } from "node:path";
import { after, before, test } from "node:test";
import { PACKAGE, PATIENCE, TOP, ended, read, run, until, within } from "./making.mjs";

const MOST_LINES = 15;
const text = read("packages/node/README.md");
const blocks = [...text.matchAll(/^```(js|text)\n([^]*?)^```$/gm)].map(([, kind, body]) => ({ kind, body }));
const service = blocks.find((it) => it.body.includes("protect(validator, hello)")).body;

let room;

before(async () => {
  room = await mkdtemp(join(tmpdir(), "svid-readme-"));
  await mkdir(join(room, "node_modules"));
  await cp(PACKAGE, join(room, "node_modules/svid"), { recursive: true });
  await symlink("/usr/share/nodejs/express", join(room, "node_modules/express"));
  await symlink(`${TOP}/examples`, join(room, "examples"));
});

after(() => rm(room, { recursive: true, force: true }));

test("a service that accepts a token once has at most 15 lines", async () => {
  const lines = service.split("\n").filter((it) => it.trim());
  assert.ok(lines.length <= MOST_LINES, `${lines.length} lines`);
  await writeFile(join(room, "service.mjs"), service);
  const ran = spawn(process.execPath, [...process.execArgv.filter((it) => !it.startsWith("--test")), "service.mjs"], {
    cwd: room,
    env: { ...process.env, PORT: "0" },
    stdio: ["ignore", "pipe", "inherit"],
  });
  try {
    const port = await within("a service that begins", new Promise((resolve, reject) => {
      ran.stdout.once("data", (it) => resolve(Number(it)));
      ran.once("exit", () => reject(new Error("the service has ended")));
    }));
    const token = read("examples/token.txt").trim();
    const said = [];
    for (const authorization of [`Bearer ${token}`, `Bearer ${token}`, "Bearer"]) {
      let is; // (on a busy machine a check may be late: it uses up nothing)
      await until(async () => (is = await answer(port, authorization))[0] !== 503);
      said.push(is);
    }
    assert.deepEqual(said, [
      [200, "hello spiffe://example.org/billing/api\n"],
      [401, 'Bearer error="invalid_token", error_description="Replayed"'],
      [401, 'Bearer error="invalid_request", error_description="NotBearer"'],
    ]);
  } finally {
    ran.kill();
    await ended("the service", ran);
  }
});

function answer(port, authorization) {
  return new Promise((resolve, reject) => {
    const asked = get({ port, host: "127.0.0.1", agent: false, headers: { authorization }, timeout: 1000 * PATIENCE }, (res) => {
      let body = "";
      res.on("data", (it) => (body += it));
      res.on("end", () => resolve([res.statusCode, res.headers["www-authenticate"] ?? body]));
    });
    asked.on("timeout", () => asked.destroy(new Error("the service does not answer"))).on("error", reject);
  });
}

test("its blocks print what stands below them", async () => {
  const parts = blocks.filter((it) => it.kind === "js" && it.body !== service).map((it) => it.body);
  await writeFile(join(room, "all.mjs"), parts.join("\n"));
  const words = [...process.execArgv.filter((it) => !it.startsWith("--test")), "all.mjs"];
  const { stdout } = await run(process.execPath, words, { cwd: room });
  assert.equal(stdout, blocks.filter((it) => it.kind === "text").map((it) => it.body).join(""));
});
