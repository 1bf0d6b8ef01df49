// The archive by itself, and the types.

import assert from "node:assert/strict";
import { readFileSync } from "node:fs";
import { copyFile, mkdir, mkdtemp, readFile, readdir, rm, writeFile } from "node:fs/promises";
import { tmpdir } from "node:os";
import { join } from "node:path";
import { after, before, test } from "node:test";
import { fileURLToPath } from "node:url";
import { PACKAGE, TOP, digest, imported, read, run } from "./making.mjs";

// The sources of the package that is tested.
const SOURCES = fileURLToPath(new URL("..", import.meta.url));
const NODE = process.execArgv.filter((it) => !it.startsWith("--test"));
const sourceOf = (name) => readFileSync(join(SOURCES, name), "utf8");
let room;

before(async () => {
  room = await mkdtemp(join(tmpdir(), "svid-package-"));
});

after(() => rm(room, { recursive: true, force: true }));

test("the archive is the same each time, and works by itself where it is unpacked", async () => {
  const { name, version } = JSON.parse(await readFile(join(SOURCES, "package.json"), "utf8"));
  const archives = [];
  for (const it of ["first", "second"]) {
    await run("bash", [join(SOURCES, "build"), join(room, it)]);
    archives.push(join(room, it, `${name}-${version}.tgz`));
  }
  const [first, second] = await Promise.all(archives.map(async (it) => digest(await readFile(it))));
  assert.equal(first, second);
  const elsewhere = join(room, "elsewhere");
  await mkdir(elsewhere);
  const quiet = ["--offline", "--silent", "--no-audit", "--no-fund", "--no-update-notifier", "--cache", join(room, "cache")];
  await run("npm", ["install", ...quiet, archives[0]], { cwd: elsewhere });
  const files = (await run("tar", ["-tzf", archives[0]])).stdout.trim().split("\n").map((it) => it.replace("package/", "")).sort();
  const src = (await readdir(join(SOURCES, "src"))).map((it) => `src/${it}`);
  const types = ["index", "testing"].flatMap((it) => [`${it}.d.cts`, `${it}.d.ts`]);
  assert.deepEqual(files, ["README.md", "index.cjs", "index.js", "package.json", "testing.js", ...types, ...src, "svid.wasm"].sort());
  await Promise.all(["bundles.json", "token.txt"].map((it) => copyFile(`${TOP}/examples/${it}`, join(elsewhere, it))));
  const program = `import { readFileSync } from "node:fs";
    import { Validator } from "svid";
    const validator = await Validator.open({ audiences: "ledger", bundles: readFileSync("bundles.json"), longest: "unlimited" });
    const token = readFileSync("token.txt", "utf8").trim();
    for (let n = 0; n < 2; n++) console.log(await validator.check(token).then((it) => it.spiffeId, (why) => why.name));
    console.log(typeof require);`;
  const words = [...NODE, "--input-type=module", "--eval", program];
  const { stdout } = await run(process.execPath, words, { cwd: elsewhere });
  assert.equal(stdout, "spiffe://example.org/billing/api\nReplayed\nundefined\n");
  const required = `const { Issuer } = require("svid/testing"), { Refusal, Validator } = require("svid");
    import("svid").then((it) => console.log(it.Validator === Validator && it.Refusal === Refusal, new Issuer().token().split(".").length));`;
  const ran = await run(process.execPath, [...NODE, "--input-type=commonjs", "--eval", required], { cwd: elsewhere }).catch((why) => why);
  // (a Node that can't says what to do)
  if (process.features.require_module) assert.deepEqual([ran.stdout, ran.stderr], ["true 3\n", ""]);
  else assert.match(ran.stderr, /this Node can't require this package, as Node 20\.19, 22\.12 and later can: write `await import/);
});

test("package.json says which Node and which clients it runs with, as README does", async () => {
  const { engines, peerDependencies, peerDependenciesMeta } = JSON.parse(await readFile(`${PACKAGE}/package.json`, "utf8")), readme = read("packages/node/README.md");
  assert.equal(engines.node, `>=${readme.match(/^Node (\d+) or later/m)[1]}`);
  assert.deepEqual(peerDependencies, { pg: ">=8.8", redis: `>=4.5 <${Number(readme.match(/`redis@(\d+)`/)[1]) + 1}` });
  assert.deepEqual(peerDependenciesMeta, { pg: { optional: true }, redis: { optional: true } }); // (most services need neither)
});

test("the types compile under strict, and say what is wrong", async () => {
  const folder = join(room, "types");
  await mkdir(join(folder, "node_modules/svid/src"), { recursive: true });
  const types = (await readdir(PACKAGE)).filter((it) => /\.d\.c?ts$/.test(it));
  for (const it of ["package.json", ...types]) await copyFile(`${PACKAGE}/${it}`, join(folder, "node_modules/svid", it));
  await copyFile(`${TOP}/packages/node/tests/types.ts`, join(folder, "types.mts"));
  await copyFile(`${TOP}/packages/node/tests/required.ts`, join(folder, "required.cts"));
  const compilerOptions = {
    strict: true, noEmit: true, target: "es2022", module: "nodenext", moduleResolution: "nodenext", lib: ["es2022", "dom"], types: [],
    exactOptionalPropertyTypes: true, noUnusedLocals: true,
  };
  await writeFile(join(folder, "tsconfig.json"), JSON.stringify({ compilerOptions, files: ["types.mts", "required.cts"] }));
  const ran = await run("tsc", [], { cwd: folder }).catch((why) => why);
  assert.equal(ran.stdout, "");
  assert.equal(ran.code, undefined);
});

test("no name in the package is unknown or unused", async () => {
  const options = ["--allowJs", "--checkJs", "--noEmit", "--target", "es2022", "--module", "nodenext", "--moduleResolution", "nodenext", "--lib",
    "es2022,dom", "--noUnusedLocals", "--noUnusedParameters"];
  const ran = await run("tsc", [...options, "index.js"], { cwd: PACKAGE }).catch((why) => why);
  // (2304: there is no such name; 2305: a module exports no such name; 6133, 6138, 6192 and 6196: it is never used)
  const found = ran.stdout.split("\n").filter((it) => /error TS(2304|2305|2552|6133|6138|6192|6196)/.test(it) && !/'(Buffer|process)'/.test(it));
  assert.deepEqual(found, []);
});

test("the types have what the package has", async () => {
  const types = sourceOf("index.d.ts"), svid = await imported();
  for (const it of ["index", "testing"]) {
    const declared = [...sourceOf(`${it}.d.ts`).matchAll(/^export (?:(?:class|function|const) (\w+)|\{ (\w+) \})/gm)].map(([, name, other]) => name ?? other);
    assert.deepEqual(declared.sort(), Object.keys(await imported(`${it}.js`)).sort());
  }
  for (const name of ["Validator", "Bundles"]) {
    const body = types.match(new RegExp(`^export class ${name}\\b[^]*?^}`, "m"))[0];
    const said = [...body.matchAll(/^ {2}(?:static |readonly )?(\w+)[(:]/gm)].map(([, it]) => it).filter((it) => it !== "constructor");
    const { constructor: _, ...own } = Object.getOwnPropertyDescriptors(svid[name].prototype);
    const has = [...Object.keys(own), ...Object.keys(Object.getOwnPropertyDescriptors(svid[name]))];
    const missing = said.filter((it) => !(it in svid[name].prototype) && !(it in svid[name]));
    assert.deepEqual(missing, [], name);
    const more = has.filter((it) => !it.startsWith("_") && !["length", "name", "prototype"].includes(it) && !said.includes(it));
    assert.deepEqual(more, [], name);
  }
});

for (const file of ["index.d.ts", "testing.d.ts"]) test(`everything public in ${file} is documented`, () => {
  const lines = sourceOf(file).split("\n");
  for (const [n, line] of lines.entries()) {
    if (!/^export (class|interface|type|function|const) |^ {2}(static |readonly )?\w+\??[(:]/.test(line) || /constructor|\boff: /.test(line)) continue;
    const isOfOutgoing = /^ {2}(statusCode|setHeader|end)\b/.test(line);
    const isParameter = /^ {2}(validator|options\?|handler): /.test(line);
    const before = lines[n - 1] ?? "";
    const isListed = before.includes("lists:begin");
    assert.ok(isOfOutgoing || isParameter || isListed || before.trim().endsWith("*/"), `${file}:${n + 1}: ${line}`);
  }
});
