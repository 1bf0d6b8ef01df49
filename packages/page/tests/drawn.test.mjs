// What the page draws of a record and of a token's claims, in Chromium.

import assert from "node:assert/strict";
import { after, before, test } from "node:test";
import { dateOf } from "../src/time.js";
import { Browser } from "./browser.mjs";
import { base64url, batch, makeKey, sign } from "./tokens.mjs";

const NOW = 1767225600;
let browser, page;

before(async () => {
  browser = await Browser.start();
  page = await browser.open(process.env.SVID_PAGE);
  await page.size(1440, 900);
});
after(() => browser?.close());

const use = (key, validator, at, exp, withdrawn = 0) => ({ key: Buffer.alloc(32, key), validatorId: Buffer.alloc(16, validator), at: NOW + at, exp: NOW + exp, withdrawn });

/** Drops a file on the page, whose record is empty then. */
async function dropFile(name, content) {
  await page.click("forget");
  await dropMore(name, content);
}

/** Drops a file on the page, and waits until it says what it took. */
async function dropMore(name, content) {
  await page.run((name, encoded) => {
    const content = Uint8Array.from(atob(encoded), (it) => it.charCodeAt(0)), files = new DataTransfer(), told = document.getElementById("record-change");
    files.items.add(new File([content], name));
    const taken = new Promise((resolve) => new MutationObserver(() => told.textContent && !told.textContent.startsWith("The empty record") && resolve()).observe(told, { childList: true }));
    document.body.dispatchEvent(new DragEvent("drop", { bubbles: true, cancelable: true, dataTransfer: files }));
    return taken;
  }, name, content.toString("base64"));
  await page.settled();
}

const drop = (...uses) => dropFile("some", batch(NOW, uses));

// What stands in the timeline: of each row its label and its marks, and of each thing in a lane its kind and where it stands.
const drawn = () => page.run(() => [...document.querySelectorAll("#rows .row")].map((row) => ({
  label: row.getAttribute("aria-label"),
  marks: [...row.querySelectorAll("b")].map((it) => it.textContent),
  position: ["aria-posinset", "aria-setsize"].map((it) => row.getAttribute(it)).join(" of "),
  isChosen: row.getAttribute("aria-selected") === "true",
  lane: [...row.querySelectorAll(".lane i")].map((it) => [it.classList[0], it.style.left, it.style.width]),
  colours: [...row.querySelectorAll(".lane .dot, .lane .cross")].map((it) => [...it.classList].find((name) => name.startsWith("validator-"))),
})));
const chosen = () => page.run(() => [...document.querySelectorAll("#chosen li")].map((it) => it.textContent));

async function press(key) {
  await page.run(() => document.getElementById("rows").focus());
  await page.press(key);
}

test("the row of the token is marked, and no other one", async () => {
  const key = await makeKey("ES256"), bundles = JSON.stringify({ "example.org": { keys: [key.entry] } });
  const token = await sign(key, { alg: "ES256", kid: key.kid }, { sub: "spiffe://example.org/a", aud: "ledger", exp: NOW + 300, jti: "one" });
  await page.write({ token: "", bundles, own: "ledger", time: String(NOW) });
  await drop(use(1, 1, -10, 100), use(2, 1, -10, 500), use(3, 1, -10, 900));
  await page.write({ token });
  await page.click("use");
  assert.deepEqual((await drawn()).map((it) => it.position), ["1 of 4", "2 of 4", "3 of 4", "4 of 4"]);
  const marked = (rows) => rows.filter((it) => it.marks.includes("this token")).map((it) => it.label);
  const [label, ...more] = marked(await drawn());
  assert.deepEqual(more, []);
  assert.ok(label.includes(`this token, 1 entry, expires at ${dateOf(BigInt(NOW + 300))}`), label);
  for (const to of ["ArrowDown", "Home", "ArrowUp"]) {
    await press(to);
    const rows = await drawn();
    assert.deepEqual(marked(rows), [label], to);
    assert.deepEqual(rows.filter((it) => it.label.includes("this token")).map((it) => it.label), [label], to);
  }
  await page.write({ token: "" });
  assert.deepEqual(marked(await drawn()), []);
});

test("a key is shown by its answer, and each line of the audiences is one", async () => {
  const key = await makeKey("ES256", "k1"), other = await makeKey("ES256", "k1"), bundles = JSON.stringify({ "example.org": { keys: [other.entry, key.entry] } });
  const token = await sign(key, { alg: "ES256", kid: "k1" }, { sub: "spiffe://example.org/a", aud: "ledger", exp: NOW + 300 });
  await page.write({ token, bundles, own: "other\n\n  ledger \nthird", time: String(NOW) });
  assert.equal(await page.text("verdict-said"), "Accepted");
  assert.deepEqual(await page.run(() => [...document.querySelectorAll("#keys tr")].map((it) => it.dataset.state)), ["bad", "good"]);
  await page.write({ token: "", own: "ledger" });
});

test("blanks around what is in a field are no part of it", async () => {
  const key = await makeKey("ES256"), token = await sign(key, { alg: "ES256", kid: key.kid }, { sub: "spiffe://example.org/a", aud: "ledger", exp: NOW + 300 });
  await page.write({ token: ` ${token} `, bundles: ` ${JSON.stringify({ keys: [key.entry] })} `, domain: " example.org ", own: " ledger ", time: ` ${NOW} `, longest: " 600 " });
  assert.deepEqual([await page.text("verdict-said"), await page.text("keys-of")], ["Accepted", "of example.org"]);
  await page.write({ token: "", bundles: "", domain: "", own: "ledger", time: String(NOW), longest: "" });
});

test("where nothing can be judged, a token is neither used nor withdrawn", async () => {
  const key = await makeKey("ES256"), token = await sign(key, { alg: "ES256", kid: key.kid }, { sub: "spiffe://example.org/a", aud: "ledger", exp: NOW + 300 });
  const good = { token, bundles: JSON.stringify({ "example.org": { keys: [key.entry] } }), own: "ledger", time: String(NOW), longest: "" };
  const barred = () => page.run(() => ["use", "withdraw"].map((it) => document.getElementById(it).getAttribute("aria-disabled")).join());
  for (const bad of [{ time: "soon" }, { longest: "an hour" }]) {
    await page.write(good);
    assert.equal(await barred(), "false,false");
    await page.write(bad);
    assert.equal(await barred(), "true,true");
  }
  await page.write({ ...good, token: "", bundles: "" });
});

test("a withdrawal is no use", async () => {
  await drop(use(1, 1, -10, 100), use(2, 1, -10, 200, 1));
  const rows = await drawn();
  assert.deepEqual(rows.map((it) => [it.marks, it.lane.map(([kind]) => kind)]), [[[], ["clock", "bar", "dot"]], [["withdrawn"], ["clock", "bar", "cross"]]]);
  await press("Home");
  assert.match((await chosen()).join(), /^used at/);
  await press("End");
  assert.match((await chosen()).join(), /^withdrawn at/);
});

test("each thing stands at its time", async () => {
  await drop(use(1, 1, -100, 300), use(1, 2, -20, 300));
  assert.deepEqual((await drawn()).map((it) => it.lane), [[["clock", "25%", ""], ["bar", "0%", "100%"], ["dot", "0%", ""], ["dot", "20%", ""]]]);
  const told = [-100, -20].map((it) => `used at ${dateOf(BigInt(NOW + it))}`), axis = () => page.run(() => [...document.querySelectorAll("#axis span")].map((it) => it.textContent));
  assert.deepEqual(await axis(), [-100, 0, 100, 200, 300].map((it) => dateOf(BigInt(NOW + it)).slice(5, 16)));
  assert.ok((await chosen()).every((it) => it.endsWith("new")));
  assert.deepEqual((await chosen()).map((it) => it.slice(0, 27)), told);
  // (by their validators the later one comes first)
  await drop(use(1, 2, -100, 300), use(1, 1, -20, 300));
  assert.deepEqual((await chosen()).map((it) => it.slice(0, 27)), told);
  await drop(use(1, 1, -100, 300), use(2, 1, -20, 180));
  assert.deepEqual((await drawn()).map((it) => it.lane.find(([kind]) => kind === "bar")), [["bar", "20%", "50%"], ["bar", "0%", "100%"]]);
  await drop(use(1, 1, 0, 400_000));
  assert.deepEqual(await axis(), [0, 1, 2, 3, 4].map((it) => dateOf(BigInt(NOW + 100_000 * it)).slice(0, 10)));
});

test("a key that expires long after all others leaves them their width", async () => {
  const keys = Array.from({ length: 40 }, (_, n) => use(n + 1, 1, -10, n ? 310 : 1e8));
  await drop(...keys);
  const bars = (await drawn()).map((it) => it.lane.find(([kind]) => kind === "bar")), beyond = () => page.run(() => [...document.querySelectorAll(".beyond-scale")].map((it) => it.closest(".row").id));
  assert.deepEqual(bars[0], ["bar", "0%", "80%"]);
  assert.deepEqual(await beyond(), []);
  await press("End");
  assert.deepEqual((await drawn()).at(-1).lane.find(([kind]) => kind === "bar"), ["bar", "0%", "100%"]);
  assert.deepEqual(await beyond(), ["row-39"]);
  assert.match(await page.text("chosen"), /Expires at/);
});

test("a row is chosen by a click on it, or in the picture of all rows, and by the keys of pages", async () => {
  await drop(...Array.from({ length: 45 }, (_, n) => use(n + 1, 1, -10, 100 + n)));
  const isChosen = async (id, n) => {
    const { is, inSight } = await page.run(() => {
      const [list, row] = ["#rows", "#rows [aria-selected=true]"].map((it) => document.querySelector(it));
      const [around, its] = [list, row].map((it) => it?.getBoundingClientRect());
      return { is: row?.id, inSight: row !== null && its.top >= around.top && its.bottom <= around.bottom };
    });
    assert.deepEqual([is, inSight], [id, true]);
    assert.equal(await page.run(() => document.querySelector("#chosen code").textContent), Buffer.alloc(32, n + 1).toString("hex"));
  };
  await page.run(() => document.querySelector("#row-3 .key code").click());
  await isChosen("row-3", 3);
  await page.run(() => {
    const it = document.getElementById("picture"), { left, top, height } = it.getBoundingClientRect();
    it.dispatchEvent(new MouseEvent("click", { bubbles: true, clientX: left + 1, clientY: top + height / 2 }));
  });
  await isChosen("row-22", 22);
  await press("PageUp");
  await isChosen("row-13", 13);
  for (const [key, n] of [["End", 44], ["ArrowUp", 43], ["Home", 0], ["ArrowDown", 1]]) {
    await press(key);
    await isChosen(`row-${n}`, n);
  }
});

test("the slider stands at the time, between the times of the token", async () => {
  const token = ["{}", `{"nbf":${NOW},"exp":${NOW + 300}}`, "s"].map((it) => base64url(it)).join(".");
  const seen = () => page.run(() => {
    const { disabled, value, ariaValueText } = document.getElementById("slider");
    return { disabled, value, ariaValueText, marks: [...document.querySelectorAll("#slider-marks span")].map((it) => [it.textContent, it.style.left]) };
  });
  await page.write({ token, time: String(NOW + 100) });
  // (from a tenth of its life and a second before it until as long after it)
  assert.deepEqual(await seen(), { disabled: false, value: "361", ariaValueText: dateOf(BigInt(NOW + 100)), marks: [["nbf", "8.5%"], ["exp", "91.4%"]] });
  await page.write({ time: String(NOW + 5000) });
  assert.equal((await seen()).value, "1000");
  // (of one that does not say when it begins, from an hour before it expires on)
  await page.write({ token: ["{}", `{"exp":${NOW + 300}}`, "s"].map((it) => base64url(it)).join("."), time: String(NOW + 100) });
  assert.deepEqual([(await seen()).value, (await seen()).marks], ["870", [["exp", "91.6%"]]]);
  await page.write({ token: "" });
  assert.deepEqual([(await seen()).disabled, (await seen()).marks], [true, []]);
});

test("what a part of a token is, is said in words where it has no members", async () => {
  const parts = (...all) => page.write({ token: all.join(".") }).then(() => page.run(() => ["header", "payload", "signature"].map((id) => document.getElementById(id).textContent)));
  assert.deepEqual(await parts("e3*", base64url("[1]"), "c2ln"), ["This part is no base64url, so nothing can be read.", "JSON, but no object:[1]", "3 bytes"]);
  assert.deepEqual(await parts(base64url("{}"), base64url('{"a" 1}'), "cw"), ["An empty object.", 'No JSON: at character 6, a colon should stand here.{"a" 1}', "1 byte"]);
  assert.equal(await page.run(() => document.querySelector("#payload mark").textContent), "1}");
  assert.deepEqual((await parts("e30", "e30", "")).at(-1), "empty");
  assert.deepEqual((await parts("e30", "e30", "*")).at(-1), "no base64url");
  assert.equal(await page.run(() => document.getElementById("parts").hidden), false);
  await page.write({ token: "e30.e30" });
  assert.equal(await page.run(() => document.getElementById("parts").hidden), true);
});

test("where no keys are shown, it says why, and of bundles which they are", async () => {
  const key = await makeKey("ES256"), said = () => Promise.all(["keys-of", "keys-none", "bundles-said"].map((it) => page.text(it)));
  const many = (...domains) => JSON.stringify(Object.fromEntries(domains.map((it) => [it, { keys: it === "a" ? [key.entry] : [] }])));
  const token = [`{"alg":"ES256"}`, '{"sub":"spiffe://example.org/a","aud":"x","exp":1}', "s"].map((it) => base64url(it)).join(".");
  await page.write({ token: "", bundles: "" });
  assert.deepEqual(await said(), ["", "No token yet: the keys of its trust domain stand here.", "As SPIRE prints a bundle, or an object of many."]);
  await page.write({ token: "e30.e30.AA", bundles: many("d", "b", "c", "a") });
  assert.deepEqual(await said(), ["", "No trust domain can be read in the token.", "4 trust domains: a, b, c, …"]);
  await page.write({ token });
  assert.deepEqual(await said(), ["of example.org", "The bundles have no key of this trust domain.", "4 trust domains: a, b, c, …"]);
  await page.write({ token: "e30.e30.AA", bundles: many("a") });
  assert.deepEqual(await said(), ["of a", "", "1 trust domain: a"]);
  assert.deepEqual(await page.run(() => [...document.querySelectorAll("#keys summary")].map((it) => it.textContent)), ["not asked, since the token is refused before"]);
});

test("a field that can't be read is marked as that, until it can", async () => {
  const isInvalid = async () => (await page.run(() => [...document.querySelectorAll("[aria-invalid=true]")].map((it) => it.id))).join();
  for (const [id, bad] of [["token", "Authorization: Basic YTpi"], ["bundles", "{"], ["time", "soon"], ["longest", "an hour"]]) {
    const before = await page.run((it) => document.getElementById(it).value, id);
    await page.write({ [id]: bad });
    assert.equal(await isInvalid(), id);
    assert.deepEqual(await page.run((it) => [document.getElementById(`${it}-said`).textContent !== "", document.getElementById(`${it}-said`).classList.contains("bad")], id), [true, true]);
    await page.write({ [id]: before });
    assert.equal(await isInvalid(), "");
  }
});

test("each validator has its colour, and how many entries it made", async () => {
  await drop(use(1, 1, -10, 100), use(2, 2, -10, 200), use(3, 1, -10, 300));
  assert.deepEqual((await drawn()).map((it) => it.colours), [["validator-0"], ["validator-1"], ["validator-0"]]);
  const validators = await page.run(() => [...document.querySelectorAll("#validators li")].map((it) => [it.textContent, it.querySelector("i").classList[1]]));
  assert.deepEqual(validators, [["01010101 2", "validator-0"], ["02020202 1", "validator-1"]]);
  // (there are eight colours)
  await drop(...Array.from({ length: 9 }, (_, n) => use(n + 1, n + 1, -10, 100 * (n + 1))));
  assert.deepEqual((await drawn()).map((it) => it.colours.join()), [0, 1, 2, 3, 4, 5, 6, 7, 0].map((it) => `validator-${it}`));
  assert.deepEqual(await page.run(() => [...document.querySelectorAll("#validators li")].slice(7).map((it) => it.textContent)), ["08080808 1", "and 1 more validator"]);
  await page.click("forget");
});

// What the page says of each member of a payload.
async function members(payload) {
  await page.write({ token: [`{"alg":"ES256"}`, payload, "s"].map((it) => base64url(it)).join(".") });
  return page.run(() => [...document.querySelectorAll("#payload dl")].map((it) => [it.querySelector("dt").textContent, it.querySelector(".time")?.textContent ?? "", it.querySelector(".meaning").textContent]));
}

test("a claim has its meaning, and a time its date", async () => {
  await page.write({ time: String(NOW) });
  assert.deepEqual(await members(`{"exp":${NOW + 60},"nbf":"soon","iat":1.5,"jti":5,"count":5}`), [
    ["exp", `${dateOf(BigInt(NOW + 60))}, in 1 min`, "when it expires"], ["nbf", "", "when it begins to be valid"], ["iat", "", "when it was issued; svid does not read it"],
    ["jti", "", "its own name, by which it is known again"], ["count", "", "svid does not read it"],
  ]);
});

test("of doubled members the last one counts", async () => {
  assert.deepEqual((await members('{"aud":"other","x":1,"aud":"ledger"}')).map(([name, , meaning]) => [name, meaning]), [
    ["aud", "ignored, since a later member has its name"], ["x", "svid does not read it"], ["aud", "whom it is for"],
  ]);
});

test("an entry of a bundle is shown by its short texts, as it names them", async () => {
  const key = await makeKey("ES256"), other = { use: "jwt-svid", kid: "k2", long: "x".repeat(17), short: "x".repeat(15), count: 5, ...Object.fromEntries([..."abcdefg"].map((it) => [it, it])) };
  await page.write({ token: "", bundles: JSON.stringify({ "example.org": { keys: [key.entry, other, 7, {}, { kid: "" }] } }) });
  assert.deepEqual(await page.run(() => [...document.querySelectorAll("#keys tr")].map((it) => [it.dataset.state, it.querySelector("th").textContent])), [
    ["over", JSON.stringify(key.kid)], ["over", '"k2"'], ["over", "no kid"], ["over", "no kid"], ["over", '""'],
  ]);
  assert.deepEqual(await page.run(() => [...document.querySelectorAll("#keys tr")].map((it) => it.querySelector("td").textContent)), [
    Object.entries(key.entry).filter(([name, value]) => name !== "kid" && value.length < 20).map((it) => it.join(" ")).join(", "),
    `use jwt-svid, short ${"x".repeat(15)}, a a, b b, c c, d d`, "–", "–", "–",
  ]);
});

test("text that looks like markup stays text", async () => {
  const text = "<img src=x onerror=alert(1)>";
  await dropFile(text, batch(NOW, [use(1, 1, -10, 100)]));
  assert.match(await page.text("record-change"), /^<img src=x onerror=alert\(1\)> \(1 entry\): 1 new/);
  await dropFile(text, Buffer.from([1, 2]));
  assert.match(await page.text("record-change"), /^<img src=x onerror=alert\(1\)> was not taken/);
  assert.deepEqual((await members(`{"${text}":"${text}"}`)).map(([name]) => name), [text]);
  await page.write({ token: [`{"alg":"${text}","kid":"${text}"}`, `{"sub":"${text}"}`, "s"].map((it) => base64url(it)).join(".") });
  assert.match(await page.text("header"), /<img src=x/);
  assert.equal(await page.run(() => document.querySelector("img")), null);
});

test("of files that are taken one after the other the last one is told of", async () => {
  await drop(use(1, 1, -10, 100));
  await dropMore("other", batch(NOW, [use(2, 1, -10, 100)]));
  assert.match(await page.text("record-change"), /^other \(1 entry\): 1 new, 1 known\b/);
});

test("an entry that is open stays so while its row says the same, and no longer", async () => {
  const [one, other] = await Promise.all([makeKey("ES256", "k1"), makeKey("ES256", "k2")]), opened = () => page.run(() => [...document.querySelectorAll("#keys details")].map((it) => it.open));
  const bundles = (...keys) => JSON.stringify({ "example.org": { keys: keys.map((it) => it.entry) } });
  await page.write({ token: "", bundles: bundles(one, other), own: "ledger", time: String(NOW) });
  await page.run(() => (document.querySelector("#keys details").open = true));
  for (const [keys, due] of [[[one, other], [true, false]], [[one], [true]], [[other, one], [false, false]]]) {
    await page.write({ bundles: bundles(...keys) });
    assert.deepEqual(await opened(), due);
  }
  await page.write({ bundles: "" });
});

test("the picture of all rows has the colours of the scheme, also when that changes", async () => {
  await page.scheme("light");
  await drop(...Array.from({ length: 50 }, (_, n) => use(n + 1, 1, -10, 100)));
  const changed = (before) => page.run(async (before) => {
    const picture = document.getElementById("picture");
    while (picture.toDataURL() === before) await new Promise((resolve) => setTimeout(resolve, 5));
    return picture.toDataURL();
  }, before);
  const light = await changed("");
  await page.scheme("dark");
  const dark = await changed(light);
  await page.scheme("light");
  assert.equal(await changed(dark), light);
});

test("the picture of all rows has a point for each one of the screen, also when that changes", async () => {
  await drop(...Array.from({ length: 50 }, (_, n) => use(n + 1, 1, -10, 100)));
  const widths = [];
  for (const width of [1440, 700, 1440]) {
    await page.size(width, 900);
    widths.push(await page.run(async (before) => {
      const picture = document.getElementById("picture");
      while (picture.clientWidth === before || picture.width !== picture.clientWidth * devicePixelRatio) await new Promise((resolve) => setTimeout(resolve, 5));
      return picture.clientWidth;
    }, widths.at(-1) ?? 0));
  }
  assert.equal(widths[0], widths[2]);
});

test("nothing was complained of", async () => assert.deepEqual(await page.complaints(), []));
