// What TypeScript makes of the package where a program requires it: tests/package.test.mjs compiles this as CommonJS.

import { Validator } from "svid";
import type { Accepted } from "svid";
import { Clock, Issuer } from "svid/testing";

const clock = new Clock(), issuer = new Issuer({ audience: "ledger", now: clock.now });

export async function accepted(): Promise<Accepted> {
  const validator = await Validator.open({ audiences: "ledger", bundles: issuer.bundles, now: clock.now });
  return validator.check(issuer.token({ sub: "spiffe://example.org/web" }));
}
