// What the page says of tokens, in Firefox, and that this, too, lets it fetch nothing.

import assert from "node:assert/strict";
import { test } from "node:test";
import { setTimeout } from "node:timers/promises";
import { Firefox } from "./firefox.mjs";
import { testVerdicts } from "./verdicts.mjs";

let browser;

testVerdicts(async () => (browser = await Firefox.start()));

test("its policy lets it fetch nothing, and an error would be seen", async () => {
  const page = await browser.open(process.env.SVID_PAGE);
  assert.equal(await page.run(() => fetch("http://127.0.0.1:9/").then(() => "went out", (error) => error.name)), "TypeError");
  await page.run(() => document.getElementById("own").remove());
  await page.click("example");
  // (an error is noted some time after it was thrown)
  for (const due of [/Content-Security-Policy.*blocked/, /is null/]) {
    const until = Date.now() + 180_000;
    while (!due.test((await page.complaints()).join("\n"))) {
      assert.ok(Date.now() < until, `${due} is not complained of`);
      await setTimeout(20);
    }
  }
  assert.deepEqual(await page.requests(), []);
});
