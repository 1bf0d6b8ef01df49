// The files of tests/vectors/, which the tests of every language read (tests/vectors/README.md).

import assert from "node:assert/strict";
import { readFileSync } from "node:fs";

/** A file, with the vectors that are for the page. There are as many as it says. */
export function vectorsOf(name) {
  const file = JSON.parse(readFileSync(new URL(`../../../tests/vectors/${name}.json`, import.meta.url)));
  const vectors = file.vectors.filter((it) => it.readers.split(" ").includes("page"));
  assert.equal(vectors.length, file.counts.page);
  return { ...file, vectors };
}

export const bytesOf = (hex) => Uint8Array.from(Buffer.from(hex, "hex"));
