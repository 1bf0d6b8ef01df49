// Times for the eye, and times as a person writes them.

import assert from "node:assert/strict";
import { test } from "node:test";
import { agoOf, dateOf, readTime, spanOf } from "../src/time.js";

test("a time is told as a date of this computer", () => {
  for (const [zone, time, want] of [
    ["UTC", 0n, "1970-01-01 00:00:00"],
    ["UTC", 951786061n, "2000-02-29 01:01:01"],
    ["UTC", 1767225599n, "2025-12-31 23:59:59"],
    ["UTC", 1767225600n, "2026-01-01 00:00:00"],
    ["UTC", 253402300799n, "9999-12-31 23:59:59"],
    ["UTC", 253402300800n, "after the year 9999"],
    ["UTC", 2n ** 64n - 1n, "after the year 9999"],
    ["Asia/Kolkata", 0n, "1970-01-01 05:30:00"],
  ]) {
    process.env.TZ = zone;
    assert.equal(dateOf(time), want, `${time} in ${zone}`);
  }
});

test("a span has its greatest unit", () => {
  const rows = [[0n, "0 s"], [1n, "1 s"], [59n, "59 s"], [60n, "1 min"], [3599n, "59 min"], [3600n, "1 h"], [86399n, "23 h"], [86400n, "1 day"], [172800n, "2 days"],
    [2629746n, "1 month"], [31556952n, "1 year"], [63113904n, "2 years"], [-60n, "1 min"]];
  for (const [seconds, want] of rows) assert.equal(spanOf(seconds), want);
  assert.deepEqual([agoOf(10n, 10n), agoOf(70n, 10n), agoOf(10n, 70n)], ["now", "in 1 min", "1 min ago"]);
});

test("a time is read as a person writes it", () => {
  const rows = { 0: 0n, " 12 ": 12n, "18446744073709551615": 2n ** 64n - 1n, "18446744073709551616": undefined, "99999999999999999999": undefined, "": undefined, "1.5": undefined, "-1": undefined,
    "2026-01-01T00:00:00Z": 1767225600n, "2026-01-01T00:00:00.999Z": 1767225600n, "2026-01-01": 1767225600n, "2026-01-01T01:00+01:00": 1767225600n,
    "1969-12-31T23:59:59Z": undefined, "2026-13-01": undefined, yesterday: undefined,
    "2026-02-28": 1772236800n, "2028-02-29T00:00Z": 1835395200n, "2026-02-29": undefined, "2026-02-31T12:00Z": undefined, "2026-04-31T12:00+01:00": undefined,
    "2026-01-31 12:00 PST": undefined, "2026-01-31T12:00Z (noon)": undefined, "2026-01-01 00:00:00Z": 1767225600n, "2026-01-01T02:00:00-02:00": 1767240000n, "Thu, 01 Jan 2026 00:00:00 GMT": undefined };
  for (const [text, want] of Object.entries(rows)) assert.equal(readTime(text), want, JSON.stringify(text));
});
