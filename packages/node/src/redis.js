// The store of a group in Redis. What it does stands in redis.d.ts.

import { StoreFault } from "./answers.js";
import { GroupStore } from "./group-store.js";
import { Member } from "./redis-member.js";

export { StoreFault };

/** The store of a group in Redis, which svidd has by `--store redis://..`. */
export class RedisStore extends GroupStore {
  /** Connects in the background. */
  static open(options) {
    return new RedisStore().begin((...given) => new Member(...given), options);
  }
}
