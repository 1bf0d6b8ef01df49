// Reads a token a line, and prints what becomes of it: service.mjs once FOLDER, or service.mjs MODE URL.

import { createInterface } from "node:readline";
import { Refusal, Validator } from "svid";

const [mode, where] = process.argv.slice(2);
const options = { audiences: "ledger", follow: { sources: { "example.org": "example.org.json" } }, mode, wait: 60 };
if (mode === "once") {
  options.state = where;
} else if (where.startsWith("postgres")) {
  const { PostgresStore } = await import("svid/postgres");
  options.store = await PostgresStore.open({ servers: where, wait: 60 });
} else {
  const { RedisStore } = await import("svid/redis");
  options.store = await RedisStore.open({ servers: where, wait: 60 });
}
const validator = await Validator.open(options);
for await (const token of createInterface({ input: process.stdin })) {
  try {
    console.log("accepted", (await validator.check(token)).spiffeId);
  } catch (why) {
    if (!(why instanceof Refusal)) console.error(why);
    console.log(why instanceof Refusal ? why.name : "unavailable");
  }
}
