// What the tests share: the package, keys, tokens and bundles.

import { execFile } from "node:child_process";
import { createHash, createPrivateKey, createPublicKey, generateKeyPairSync, randomUUID, sign } from "node:crypto";
import { readFileSync } from "node:fs";
import { pathToFileURL } from "node:url";
import { promisify } from "node:util";

/** The folder of the package that is tested. */
export const PACKAGE = process.env.SVID_PACKAGE;
/** The checkout. */
export const TOP = process.env.SVID_TOP ?? new URL("../../..", import.meta.url).pathname;
/** What a module of the package exports. */
export const imported = (name = "index.js") => import(pathToFileURL(`${PACKAGE}/${name}`));

export const read = (name) => readFileSync(`${TOP}/${name}`, "utf8");
export const hex = (bytes) => Buffer.from(bytes).toString("hex");
export const bytesOf = (text) => Uint8Array.from(Buffer.from(text, "hex"));
/** What lists/statuses.toml says. */
export const listed = () => import(pathToFileURL(`${TOP}/lists/listed.mjs`));
/** The time by the clock. */
export const now = () => Math.floor(Date.now() / 1000);

// The parts of a new key. (They are read again, since Node 20 hangs for ever if its collector comes while it writes a key as JWK that it has just made:
// what made it has the same lock.)
export function made(type, options) {
  const der = (it) => ({ type: it, format: "der" });
  const { privateKey, publicKey } = generateKeyPairSync(type, { ...options, publicKeyEncoding: der("spki"), privateKeyEncoding: der("pkcs8") });
  return { privateKey: createPrivateKey({ key: privateKey, ...der("pkcs8") }), publicKey: createPublicKey({ key: publicKey, ...der("spki") }) };
}

/** A key with its bundle. */
export function issuer(kid = "k1", curve = "P-256", domain = "example.org") {
  const { privateKey, publicKey } = made("ec", { namedCurve: curve });
  const entry = { use: "jwt-svid", kid, ...publicKey.export({ format: "jwk" }) };
  return { privateKey, entry, kid, domain, bundles: { [domain]: { keys: [entry] } } };
}

/** A token of this issuer. */
export function token({ privateKey, kid, domain }, claims = {}, header = {}) {
  const part = (it) => Buffer.from(JSON.stringify(it)).toString("base64url");
  const id = `spiffe://${domain}/billing/api`;
  const signed = `${part({ alg: "ES256", kid, ...header })}.${part({ sub: id, aud: ["ledger"], exp: now() + 3000, jti: randomUUID(), ...claims })}`;
  return `${signed}.${sign("SHA256", Buffer.from(signed), { key: privateKey, dsaEncoding: "ieee-p1363" }).toString("base64url")}`;
}

/** What a call answers, in one word: "accepted", or the name of the error that it throws. */
export async function said(call) {
  try {
    await (typeof call === "function" ? call() : call);
    return "accepted";
  } catch (why) {
    return why.name;
  }
}

/** How often each answer stands in a list. */
export function counted(list) {
  const found = {};
  for (const it of list) found[it] = (found[it] ?? 0) + 1;
  return found;
}

export const digest = (bytes) => createHash("sha256").update(bytes).digest("hex");

/** What a call opens, and the exports of the instance that it started last. */
export async function seen(open) {
  const before = WebAssembly.instantiate;
  let calls;
  WebAssembly.instantiate = async (...given) => {
    const instance = await before(...given);
    calls = instance.exports;
    return instance;
  };
  try {
    return [await open(), calls];
  } finally {
    WebAssembly.instantiate = before;
  }
}

/** Takes all memory that an instance may ever have, and gives the blocks of it that a call needs, to be freed. */
export function exhausted(calls) {
  const taken = (size) => calls.room(BigInt(size));
  const spare = Array.from({ length: 32 }, () => Array.from({ length: 12 }, (_, n) => taken(16 * 2 ** n))).flat();
  for (let size = 2 ** 31; size >= 16; size /= 2) while (taken(size) !== 0n);
  return spare;
}

/** For how many seconds a test waits for what does not come. */
export const PATIENCE = Number(process.env.SVID_TEST_PATIENCE ?? 180);

// (a test may have a clock of its own)
const clock = performance.now.bind(performance);

/** What a promise gives, or an error that says what did not end. */
export async function within(what, promise) {
  let timer;
  const late = new Promise((_, reject) => (timer = setTimeout(() => reject(new Error(`${what} does not end within ${PATIENCE} seconds`)), PATIENCE * 1000)));
  return Promise.race([promise, late]).finally(() => clearTimeout(timer));
}

/** Awaits a condition, which may be asynchronous, and returns what it is. */
export async function until(holds) {
  for (const end = clock() + PATIENCE * 1000; ; ) {
    const is = await within(holds, holds());
    if (is) return is;
    if (clock() > end) throw new Error(`it does not come: ${holds}`);
    await new Promise((resolve) => setTimeout(resolve, 2));
  }
}

/** Runs a program to its end. */
export const run = (program, words, options) => promisify(execFile)(program, words, { timeout: PATIENCE * 1000, killSignal: "SIGKILL", ...options });

/** Makes a program of Go. (On a busy machine that takes long, where little of it was compiled before.) */
export const built = (...words) => run("go", words, { cwd: `${TOP}/go`, maxBuffer: 1 << 26, timeout: 1_500_000 });

/** Waits until a child process has ended. One that does not is killed. */
export async function ended(what, child) {
  const isOver = () => child.exitCode !== null || child.signalCode !== null;
  const end = new Promise((resolve) => (isOver() ? resolve() : child.once("exit", resolve)));
  await within(what, end).finally(() => isOver() || child.kill("SIGKILL"));
}

/** A promise that is kept once `open` is called. */
export function gate() {
  const it = {};
  it.passed = new Promise((resolve) => (it.open = resolve));
  return it;
}
