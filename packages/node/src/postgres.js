// The store of a group in PostgreSQL. What it does stands in postgres.d.ts.

import { StoreFault } from "./answers.js";
import { GroupStore } from "./group-store.js";
import { Member } from "./postgres-member.js";

export { StoreFault };

/** The store of a group in PostgreSQL, which svidd has by `--store postgres://..`. */
export class PostgresStore extends GroupStore {
  /** Connects in the background. */
  static open(options) {
    return new PostgresStore().begin((...given) => new Member(...given), options);
  }
}
