// Makes calls of a member of a store for the tests of go/claims, which run over each client. Its argument is the store's server: postgres or redis.
//
// A line of standard input is a call: its number, the name, the store, and what it takes. A line of standard output is the answer: the number, and
// what it returns, or `fault REASON TEXT`.

import { createInterface } from "node:readline";

const [, , server] = process.argv;
const { Member } = await import(`${process.env.SVID_PACKAGE}/src/${server}-member.js`);
const { StoreFault } = await import(`${process.env.SVID_PACKAGE}/src/answers.js`);
const stores = new Map();
const hex = (it) => Buffer.from(it).toString("hex");
const faultOf = (why) => [why.reason ?? "error", hex(String(why.message ?? why)) || "-"];
const pause = (ms) => new Promise((resolve) => setTimeout(resolve, ms));

function claimOf(word) {
  const [key, owner, expires] = word.split(":");
  return { key: Buffer.from(key, "hex"), owner: Buffer.from(owner, "hex"), expires: BigInt(expires) };
}

async function opened(store, end) {
  for (;;) {
    const is = await store.look(end);
    if (!is.wait) return is;
    if (performance.now() + is.wait > end) throw new StoreFault("run");
    await pause(is.wait);
  }
}

const stateOf = ({ epoch, deaf, time }) => [epoch, deaf, time];
const CALLS = {
  open: async (store, end) => stateOf(await opened(store, end)),
  state: async (store, end) => stateOf(await store.look(end)),
  put: async (store, end, ...words) =>
    (await store.put(words.map(claimOf), end)).map((it) => (it instanceof Error ? faultOf(it).join(":") : `${hex(it.owner)}:${it.time}:${it.deaf}`)),
  withdraw: async (store, end, key, expires) => [hex(await store.withdraw(Buffer.from(key, "hex"), BigInt(expires), end))],
  withdrawals: async (store, end, after) => {
    const { these, last } = await store.withdrawals(Buffer.from(after.slice(1), "hex").toString(), end);
    return [last, ...these.map(({ key, expires }) => `${hex(key)}:${expires}`)];
  },
  close: async (store) => store.close() ?? [],
};

async function answer(name, id, ...words) {
  if (name !== "new") return CALLS[name](stores.get(id), performance.now() + Number(words[0] ?? 0) * 1000, ...words.slice(1));
  const [group, lasts, margin, back, replicas, ...servers] = words;
  const more = server === "redis" ? [Number(servers.shift())] : []; // (for how long members compare)
  stores.set(id, new Member({ servers, group, replicas: Number(replicas) }, { lasts: BigInt(lasts), margin: BigInt(margin), back: BigInt(back) }, ...more));
  return [];
}

createInterface({ input: process.stdin }).on("line", async (line) => {
  const [number, ...words] = line.split(" ");
  let said;
  try {
    said = await answer(...words);
  } catch (why) {
    said = ["fault", ...faultOf(why)];
  }
  process.stdout.write(`${[number, ...said].join(" ")}\n`);
}).on("close", () => process.exit());
