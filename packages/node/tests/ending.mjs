// A file of tests ends by itself, also where one of them failed: what they opened is closed after the last one.

import { after } from "node:test";
import * as making from "./making.mjs";

const ends = [], noted = new Set();

// (nobody waits for a disk that a test lets hang)
after(() => ends.map(async (end) => end()).forEach((it) => it.catch(() => {})));

/** Does something after the last test. */
export const atEnd = (end) => ends.push(end);

/** What a module of the package exports. What its classes open is closed after the last test. */
export async function imported(name) {
  const all = await making.imported(name);
  for (const kind of Object.values(all)) if (typeof kind?.open === "function" && !noted.has(kind)) notes(kind);
  return all;
}

function notes(kind) {
  const { open } = kind;
  noted.add(kind);
  kind.open = async function (...given) {
    const it = await open.apply(this, given), dropped = new WeakRef(it); // (whoever keeps the process is kept)
    atEnd(() => dropped.deref()?.close());
    return it;
  };
}
