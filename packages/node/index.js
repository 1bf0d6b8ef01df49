// svid: checks SPIFFE JWT-SVIDs, and accepts each of them once. What everything does stands in index.d.ts.

export {
  BadBundles, BadFolder, BadMessages, Closed, Gone, Held, Jump, NotAllowed, OutOfMemory, REFUSALS, Refusal, Stopped, SvidError, TooFar, Unavailable, Unverifiable,
} from "./src/errors.js";
export { guard, protect } from "./src/http.js";
export { MemoryStore } from "./src/stores.js";
export { Bundles, Validator } from "./src/validator.js";
