// Judges tokens as the page does, with its module and its check of signatures: six_page.mjs MODULE BUNDLES AUDIENCES LONGEST < FRAMES.
// BUNDLES is a file, an object of bundles as a person pastes them. A frame is a time in 8 bytes, the length of the token in 4, that of the name
// of its bundles in 4, each the least first, the name and the token.

import { readFileSync } from "node:fs";
import { examine, readRecord } from "../packages/page/src/examine.js";
import { Library } from "../packages/page/src/library.js";

const [module, bundlesPath, audiencesPath, longest] = process.argv.slice(2);
const library = await Library.load(readFileSync(module));
const own = readFileSync(audiencesPath, "utf8").split("\n").filter(Boolean);
const record = readRecord(library, new Uint8Array());
const all = JSON.parse(readFileSync(bundlesPath, "utf8"));
const frames = readFileSync(0);
const decoder = new TextDecoder("utf-8", { ignoreBOM: true });
const said = [];
for (let at = 0; at < frames.length; ) {
  const now = frames.readBigUInt64LE(at), length = frames.readUInt32LE(at + 8), named = frames.readUInt32LE(at + 12);
  const domain = decoder.decode(frames.subarray(at + 16, at + 16 + named)), from = at + 16 + named;
  at = from + length;
  const input = { token: decoder.decode(frames.subarray(from, at)), bundles: all[domain], domain: "", own, now, longest: BigInt(longest), validatorId: new Uint8Array(16), record };
  const { fault, verdict } = await examine(library, input);
  said.push(fault ? `bundles ${fault.status}` : verdict.status === 0 ? `accepted ${verdict.id} ${verdict.exp}` : `refused ${verdict.refusal}`);
}
process.stdout.write(said.map((it) => `${it}\n`).join(""));
