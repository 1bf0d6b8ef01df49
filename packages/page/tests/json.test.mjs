// JSON as the page reads it: what counts of it, and where it is none.

import assert from "node:assert/strict";
import { test } from "node:test";
import { JsonFault, member, parse, stringAt } from "../src/json.js";

test("of members of one name the last one counts", () => {
  const node = parse('{"a":1,"b":"y","a":"x","b":2}');
  assert.equal(member(node, "a").value.value, "x");
  assert.equal(stringAt(node, "a"), "x");
  assert.equal(stringAt(node, "b"), undefined);
});

test("the depth of a text has its bound", () => {
  const deep = (levels) => "[".repeat(levels) + "]".repeat(levels);
  assert.equal(parse(deep(127)).kind, "array");
  assert.throws(() => parse(deep(128)), (fault) => fault instanceof JsonFault && fault.at === 127 && /127 levels/.test(fault.message));
});

test("what is no JSON is told, and where", () => {
  const rows = [
    ["", 0, /ends where a value/], ['{"a" 1}', 5, /a colon/], ['{"a":1,}', 7, /a name in quotation marks/], ["[1 2]", 3, /a comma or \]/], ['{"a":1 2}', 7, /a comma or \}/],
    ['"a\nb"', 2, /a control character/], ['"a\tb"', 2, /a control character/], ['"a\u001fb"', 2, /a control character/], ['"a', 0, /a quotation mark is missing/],
    ['"\\x"', 1, /this escape is unknown/], ['"\\u12"', 3, /four hexadecimal digits/], ["1 2", 2, /something stands behind/], ["tru", 0, /a value should stand here/],
    ["-", 0, /this is no number/], [" 1e400", 1, /too large/],
    ...["\\ud800", "\\udc00", "\\udc00\\ud800", "\\ud800\\ud800\\udc00"].map((it) => [`"${it}"`, 0, /half of a surrogate pair/]),
    ...["\f", "\v", "\u00a0", "\u2028", "\ufeff"].map((it) => [`[${it}1]`, 1, /a value should stand here/]), ["01", 1, /something stands behind/],
  ];
  for (const [text, at, why] of rows) assert.throws(() => parse(text), (fault) => fault instanceof JsonFault && fault.at === at && why.test(fault.message), JSON.stringify(text));
});
