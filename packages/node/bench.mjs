// Times a check beside `jwtVerify` of jose with a Set of used `jti`s, and beside `crypto.verify` alone.
//
//     node packages/node/bench.mjs [TOKENS [ROUNDS]]
//
// SVID_PACKAGE names the folder of the package (`packages/node/build --folder FOLDER` makes FOLDER/svid). jose is found by NODE_PATH: `packages/node/clients FOLDER jose`
// gets it, and NODE_PATH=/usr/share/nodejs:FOLDER/usr/share/nodejs names both its places. All sides get the same tokens, in turns, and each
// has a round's least time: of the clock, and of the processor with all threads, in microseconds a token. jose is handed the right key at once, so
// it looks for none. Without signatures, `check` is given a verifier that says yes, and jose decodes without verifying.

import { createPublicKey, generateKeyPairSync, randomUUID, sign, verify } from "node:crypto";
import { createRequire } from "node:module";
import { pathToFileURL } from "node:url";

const { Validator } = await import(pathToFileURL(`${process.env.SVID_PACKAGE}/index.js`));
const jose = createRequire(import.meta.url)("jose"); // (Debian's package node-jose)
const [COUNT, ROUNDS] = [process.argv[2] ?? 4000, process.argv[3] ?? 7].map(Number);
const audience = "ledger", now = Math.floor(Date.now() / 1000);
const KEYS = {
  ES256: generateKeyPairSync("ec", { namedCurve: "P-256" }),
  RS256: generateKeyPairSync("rsa", { modulusLength: 2048 }),
};

function tokenOf(alg, { privateKey }) {
  const part = (it) => Buffer.from(JSON.stringify(it)).toString("base64url");
  const claims = { sub: "spiffe://example.org/billing/api", aud: [audience], exp: now + 3000, jti: randomUUID() };
  const signed = `${part({ alg, kid: alg, typ: "JWT" })}.${part(claims)}`;
  return `${signed}.${sign("SHA256", Buffer.from(signed), { key: privateKey, dsaEncoding: "ieee-p1363" }).toString("base64url")}`;
}

const bundles = { "example.org": { keys: Object.entries(KEYS).map(([kid, it]) => ({ use: "jwt-svid", kid, ...it.publicKey.export({ format: "jwk" }) })) } };

async function svid(tokens, options) {
  const validator = await Validator.open({ audiences: audience, bundles, wait: 600, ...options }); // (a machine may be busy)
  return { run: async () => { for (const it of tokens) await validator.check(it); }, end: () => validator.close() };
}

async function ofJose(tokens, claimsOf) {
  const used = new Set();
  return { run: async () => {
    for (const it of tokens) {
      const { jti } = await claimsOf(it);
      if (used.has(jti)) throw new Error("used");
      used.add(jti);
    }
  }, end: () => {} };
}

async function least(sides) {
  const found = sides.map(() => [Infinity, Infinity]);
  for (let round = 0; round < ROUNDS; round++) {
    for (const [n, side] of sides.entries()) {
      const { run, end } = await side();
      const before = process.cpuUsage(), begun = performance.now();
      await run();
      const clock = (performance.now() - begun) * 1000, { user, system } = process.cpuUsage(before);
      end();
      found[n] = [Math.min(found[n][0], clock / COUNT), Math.min(found[n][1], (user + system) / COUNT)];
    }
  }
  return found;
}

console.log("tokens  signatures    side           clock  processor");
for (const [alg, pair] of Object.entries(KEYS)) {
  const tokens = Array.from({ length: COUNT }, () => tokenOf(alg, pair)), key = createPublicKey(pair.privateKey);
  const alone = async () => ({ run: async () => {
    for (const it of tokens) {
      const period = it.lastIndexOf(".");
      const isGood = verify("SHA256", Buffer.from(it.slice(0, period)), { key, dsaEncoding: "ieee-p1363" }, Buffer.from(it.slice(period + 1), "base64url"));
      if (!isGood) throw new Error("bad");
    }
  }, end: () => {} });
  const sets = {
    "not verified": { svid: () => svid(tokens, { verify: () => true }), jose: () => ofJose(tokens, (it) => jose.decodeJwt(it)) },
    verified: {
      svid: () => svid(tokens),
      jose: () => ofJose(tokens, async (it) => (await jose.jwtVerify(it, key, { audience, algorithms: [alg] })).payload),
      "crypto.verify": alone,
    },
  };
  for (const [what, sides] of Object.entries(sets)) {
    for (const [n, it] of (await least(Object.values(sides))).entries()) {
      console.log([alg.padEnd(7), what.padEnd(13), Object.keys(sides)[n].padEnd(13), ...it.map((time) => time.toFixed(1).padStart(6))].join(" "));
    }
  }
}
