// The page itself, in Chromium: that it asks for nothing, is used by keyboard alone, can be read by everybody, and is quick.

import assert from "node:assert/strict";
import { mkdtemp, readFile, rm, writeFile } from "node:fs/promises";
import { tmpdir } from "node:os";
import { join } from "node:path";
import { after, before, test } from "node:test";
import { REFUSALS } from "../src/refusals.js";
import { Browser } from "./browser.mjs";
import { batch, random } from "./tokens.mjs";
import { vectorsOf } from "./vectors.mjs";

const EXAMPLES = new URL("../../../examples/", import.meta.url).pathname;
const WIDTHS = { wide: 1440, middle: 900, narrow: 390, less: 360, least: 320 };
const NOW = 1767225600;
let browser, page, room;

before(async () => {
  room = await mkdtemp(join(tmpdir(), "svid-files-"));
  browser = await Browser.start();
  page = await browser.open(process.env.SVID_PAGE);
  await page.size(WIDTHS.wide, 900);
});
after(async () => {
  await browser.close();
  await rm(room, { recursive: true });
});

/** Opens files by the page's own field for them, and waits until it told of each. */
async function openFiles(...files) {
  await page.run(() => document.getElementById("record-change").replaceChildren());
  const { root } = await page.send("DOM.getDocument");
  const { nodeId } = await page.send("DOM.querySelector", { nodeId: root.nodeId, selector: "#files" });
  await page.send("DOM.setFileInputFiles", { nodeId, files });
  await page.run((count) => new Promise((resolve) => {
    const told = document.getElementById("record-change");
    const look = () => told.children.length >= count && (watch.disconnect(), resolve());
    const watch = new MutationObserver(look);
    watch.observe(told, { childList: true });
    look();
  }), files.length);
  await page.settled();
}

async function fileOf(name, content) {
  await writeFile(join(room, name), content);
  return join(room, name);
}

test("it opens with nothing in it, and says what to do", async () => {
  assert.equal(await page.text("verdict-said"), "Paste a token");
  assert.match(await page.text("about"), /^svid \d+\.\d+\.\d+; the module has [\d,]+ bytes and asks its host for nothing\.$/);
  assert.equal(await page.run(() => document.querySelectorAll("#checks [data-state=later]").length), REFUSALS.length);
});

test("its policy lets it fetch nothing", async () => {
  const policy = await page.run(() => document.querySelector("meta[http-equiv]").content);
  assert.match(policy, /^default-src 'none'; script-src 'sha256-\S+' 'wasm-unsafe-eval'; style-src 'sha256-\S+'; /);
  const tried = await browser.open(process.env.SVID_PAGE);
  const failed = await tried.run(() => fetch("http://127.0.0.1:9/").then(() => "went out", (error) => error.name));
  assert.equal(failed, "TypeError");
  assert.match((await tried.complaints()).join("\n"), /Content Security Policy/);
  const markup = await tried.run(() => {
    try {
      document.body.innerHTML = "<b>x</b>";
      return "taken";
    } catch (error) {
      return error.name;
    }
  });
  assert.equal(markup, "TypeError");
  await tried.close();
});

test("the example is accepted, used, and then replayed", async () => {
  await page.click("example");
  assert.equal(await page.text("verdict-said"), "Accepted");
  await page.click("use");
  assert.equal(await page.text("verdict-said"), "Refused: Replayed");
  assert.match(await page.text("record-change"), /1 new, 0 known/);
  await page.click("forget");
  await page.click("withdraw");
  assert.equal(await page.text("verdict-said"), "Refused: Withdrawn");
  await page.click("forget");
});

test("an example is made here, and is good for five minutes from now on", async () => {
  const tokens = [];
  for (let n = 0; n < 2; n++) {
    await page.write({ time: String(NOW) });
    const from = Math.floor(Date.now() / 1000);
    await page.click("example");
    tokens.push(await page.run(() => document.getElementById("token").value));
    const [, payload] = tokens[n].split(".").map((it) => Buffer.from(it, "base64url").toString());
    const { iat, exp, aud } = JSON.parse(payload), bundles = JSON.parse(await page.run(() => document.getElementById("bundles").value));
    assert.deepEqual(bundles["example.org"].keys.map((it) => it.kid), ["example", "example-next"]);
    assert.ok(iat >= from && iat <= Date.now() / 1000 && exp - iat === 300, payload);
    assert.deepEqual(aud, ["ledger"]);
    assert.equal(await page.run(() => document.getElementById("live").getAttribute("aria-pressed")), "true");
    assert.equal(await page.text("verdict-said"), "Accepted");
    await page.write({ time: String(exp - 1) });
    assert.equal(await page.text("verdict-said"), "Accepted");
    await page.write({ time: String(exp) });
    assert.equal(await page.text("verdict-said"), "Refused: Expired");
  }
  assert.notEqual(tokens[0], tokens[1]);
  await page.click("example");
});

test("nothing of another token stands beside a new one while that is judged", async () => {
  await page.click("example");
  const seen = () => page.run(() => ({
    token: document.getElementById("token-shown").textContent.replace("\u200b", ""),
    others: [...document.querySelectorAll("#results h2, #results p, #results td, #results th, #results dd, #results button")].filter((it) => it.textContent && getComputedStyle(it).visibility === "visible" && it.checkVisibility()).length,
    height: document.getElementById("results").offsetHeight,
  }));
  const before = await seen();
  assert.ok(before.others > 30, `only ${before.others} texts are looked at`);
  // (The browser's answers about signatures are held back.)
  await page.run(() => {
    const verify = SubtleCrypto.prototype.verify;
    const held = new Promise((resolve) => (window.goOn = resolve));
    SubtleCrypto.prototype.verify = async function (...words) {
      await held;
      return verify.apply(this, words);
    };
    window.asItWas = () => (SubtleCrypto.prototype.verify = verify);
  });
  const other = before.token.slice(0, -2) + (before.token.endsWith("AA") ? "BA" : "AA");
  try {
    await page.run((text) => {
      document.getElementById("token").value = text;
      document.getElementById("token").dispatchEvent(new InputEvent("input", { bubbles: true }));
    }, other);
    assert.deepEqual(await seen(), { token: other, others: 0, height: before.height });
  } finally {
    await page.run(() => (window.goOn(), window.asItWas()));
  }
  await page.settled();
  assert.equal(await page.text("verdict-said"), "Refused: BadSignature");
  assert.ok((await seen()).others > 30);
  await page.click("example");
});

test("a check has one line from 390 pixels on, and two at the most at 320", async () => {
  for (const [width, most] of [[320, 2], [390, 1], [640, 1], [900, 1], [1200, 1], [1440, 1]]) {
    await page.size(width, 900);
    await page.click("example");
    const rows = await page.run(() => [...document.querySelectorAll("#checks [data-state]")].map(({ cells: [, says, name] }) => {
      const range = document.createRange();
      range.selectNodeContents(says);
      const lines = new Set([...range.getClientRects()].map((it) => Math.round(it.top))).size;
      return { says: says.textContent, lines, from: Math.round(says.getClientRects()[0].left), name: Math.round(name.getBoundingClientRect().left) };
    }));
    assert.deepEqual(rows.filter((it) => it.lines > most), [], `at ${width}`);
    assert.equal(new Set(rows.map((it) => it.from)).size, 1, `at ${width} the texts do not stand under each other`);
    if (width > 640) assert.equal(new Set(rows.map((it) => it.name)).size, 1, `at ${width} the names do not stand under each other`);
  }
  await page.size(WIDTHS.wide, 900);
});

test("a file that can't be read is named, and the others are taken", async () => {
  await page.click("forget");
  await openFiles(join(room, "gone"), room, join(EXAMPLES, "shared.messages"));
  const said = await page.text("record-change");
  assert.match(said, /gone was not taken: .+svid-files-\w+ was not taken: .+shared\.messages \(/s);
});

test("files of both versions are joined, and what changed is told", async () => {
  await page.click("forget");
  await openFiles(join(EXAMPLES, "shared.messages"));
  assert.match(await page.text("record-change"), /shared\.messages \(\d+ entries\): 12 new, 0 known\. Its clock went to/);
  assert.match(await page.text("record-said"), /11 uses, 1 withdrawal, 1 key used twice\./);
  const rows = await page.run(() => [...document.querySelectorAll("#rows .row")].map((it) => it.getAttribute("aria-label")));
  assert.match(rows[0], /used twice, 2 entries/);
  assert.equal(rows.filter((it) => it.includes("withdrawn")).length, 1);
  assert.equal(await page.run(() => document.querySelectorAll("#rows .gained").length), 12);
  // (a field that keeps its file says nothing where the same one is opened again)
  assert.equal(await page.run(() => document.getElementById("files").value), "");
  await openFiles(join(EXAMPLES, "shared.messages"));
  assert.match(await page.text("record-change"), /0 new, 12 known/);
  await openFiles(join(EXAMPLES, "two-uses.batch"), await fileOf("later.messages", batch(NOW + 120, [{ exp: NOW + 999, key: Buffer.alloc(32, 1), validatorId: Buffer.alloc(16, 2), at: NOW + 110 }], 1)));
  assert.match(await page.text("record-change"), /two-uses\.batch \(2 entries\): 0 new, 12 known.*later\.messages \(1 entry\): 1 new, \d+ known, \d+ expired and dropped\. Its clock went from/);
});

test("what is saved is the record, and an empty one is not saved", async () => {
  await openFiles(join(EXAMPLES, "shared.messages"));
  await page.run(() => {
    const { createObjectURL, revokeObjectURL } = URL, { click } = HTMLAnchorElement.prototype;
    window.saved = [];
    window.kept = new Set(); // (what has an address keeps its bytes)
    URL.createObjectURL = (it) => {
      const url = createObjectURL(it);
      window.saved.push(it);
      window.kept.add(url);
      return url;
    };
    URL.revokeObjectURL = (url) => (window.kept.delete(url), revokeObjectURL(url));
    HTMLAnchorElement.prototype.click = function () {
      window.saved.push(this.download);
    };
    window.asItWas = () => (Object.assign(URL, { createObjectURL, revokeObjectURL }), Object.assign(HTMLAnchorElement.prototype, { click }));
  });
  const isOff = () => page.run(() => ["save", "forget"].map((id) => document.getElementById(id).getAttribute("aria-disabled")));
  const before = await page.text("record-said");
  assert.deepEqual(await isOff(), ["false", "false"]);
  await page.click("save");
  const [name, encoded] = await page.run(async () => {
    const [blob, name] = window.saved.splice(0);
    return [name, btoa(String.fromCharCode(...new Uint8Array(await blob.arrayBuffer())))];
  });
  assert.equal(name, "record.messages");
  assert.equal(await page.run(() => window.kept.size), 0);
  await page.click("forget");
  assert.deepEqual(await isOff(), ["true", "true"]);
  await page.click("save");
  assert.deepEqual(await page.run(() => (window.asItWas(), window.saved)), []);
  await openFiles(await fileOf(name, Buffer.from(encoded, "base64")));
  assert.equal(await page.text("record-said"), before);
});

test("a file that is no row of messages is not taken, and told with its offset", async () => {
  const whole = await readFile(join(EXAMPLES, "shared.messages"));
  const before = await page.text("record-said");
  await openFiles(await fileOf("cut", whole.subarray(0, whole.length - 1)), await fileOf("other", Buffer.from([0, 1, 2, 3])));
  const told = () => page.run(() => [...document.getElementById("record-change").children].map((it) => it.textContent));
  assert.deepEqual(await told(), [
    `cut was not taken: the bytes end before the message does. The file ends at byte ${whole.length - 1} of the file, which is byte 341 of message 3. Due there: the rest of the message.`,
    "other was not taken: the first four bytes are those of no version. What is wrong begins at byte 0 of the file, which is byte 0 of message 1. There stand 00 01 02 03. Due there: 4A 53 52, which is JSR, and then 02 or 01.",
  ]);
  assert.equal(await page.text("record-said"), before);
});

test("each vector of bytes that are no messages is told: what is wrong, where in the file, and what is due there", async () => {
  const WORDS = {
    Magic: ["the first four bytes are those of no version", "4A 53 52, which is JSR, and then 02 or 01"],
    Kind: ["the fifth byte is that of no kind of message of the version", "01 for a batch, or 02 for a summary, which only version 2 has"],
    Count: ["a batch tells of too many uses", "a number of at most 65,536 uses, or of 4,096 in version 1"],
    UseKind: ["the last byte of a use is neither 0 nor 1", "a use whose last byte is 00 or 01"],
    UseExpired: ["a use expires at its batch's moment or before it", "a use that expires after the batch's moment"],
    UseFuture: ["a use was made after its batch's moment", "a use that was made at the batch's moment or before it"],
    UseOrder: ["a use is not greater than the one before it", "a use that is greater than the one before it"],
    Truncated: ["the bytes end before the message does", "the rest of the message"],
  };
  const seen = new Set();
  // (one batch without a use, and behind it what is wrong)
  const first = batch(NOW, []);
  for (const { name, messages, fault } of vectorsOf("messages").vectors.filter((it) => it.fault && it.fault.message === 1)) {
    for (const before of [Buffer.alloc(0), first]) {
      const content = Buffer.concat([before, Buffer.from(messages, "hex")]);
      // (a file of a few letters is taken for a token)
      if (/^[\w.-]*$/.test(content.toString("latin1").trim())) continue;
      const at = before.length + fault.offset, [says, due] = WORDS[fault.reason];
      const stands = [...content.subarray(at, at + 8)].map((it) => it.toString(16).toUpperCase().padStart(2, "0"));
      const there = stands.length ? ` There ${stands.length === 1 ? "stands" : "stand"} ${stands.join(" ")}${at + 8 < content.length ? " …" : ""}.` : "", begins = at === content.length ? "The file ends" : "What is wrong begins";
      await openFiles(await fileOf("some", content));
      const told = await page.text("record-change");
      assert.equal(told, `some was not taken: ${says}. ${begins} at byte ${at} of the file, which is byte ${fault.offset} of message ${before.length ? 2 : 1}.${there} Due there: ${due}.`, name);
    }
    seen.add(fault.reason);
  }
  assert.deepEqual([...seen].sort(), Object.keys(WORDS).sort());
});

test("a check says in words whether the token passed it, at every width", async () => {
  const seen = (name) => page.run((it) => [...document.getElementById(`check-${it}`).cells].filter((cell) => cell.checkVisibility() && (cell.firstElementChild ?? cell).getBoundingClientRect().width > 8).map((cell) => cell.innerText), name);
  for (const width of [360, 390, 640, 900, 1200, 1440]) {
    await page.size(width, 900);
    await page.click("example");
    assert.deepEqual(await seen("Expired"), ["passed", "It has not expired", "else Expired"], `at ${width}`);
    assert.deepEqual(await seen("Replayed"), ["passed", "It was not used before", "else Replayed"], `at ${width}`);
    await page.write({ time: "99999999999" });
    const [state, name, why] = await seen("Expired");
    assert.deepEqual([state, name], ["refused", "Expired"], `at ${width}`);
    assert.match(why, /^It expired at /);
    assert.deepEqual(await seen("NotYet"), ["not reached", "It is valid already", "else NotYet"], `at ${width}`);
    await page.write({ own: "", time: String(NOW) });
    assert.deepEqual(await seen("NotAudience"), ["not looked at", "aud names this service", "else NotAudience"], `at ${width}`);
    const apart = await page.run(() => [...document.querySelectorAll("#checks [data-state]")].map(({ cells: [state, says] }) => says.getClientRects()[0].left - state.firstElementChild.getBoundingClientRect().right));
    assert.ok(apart.length === REFUSALS.length && Math.min(...apart) >= 8, `at ${width} a word is ${Math.min(...apart)} pixels from what follows it`);
    const wide = await page.run(() => document.documentElement.scrollWidth - innerWidth);
    assert.ok(wide <= 0, `at ${width} the page is ${wide} pixels too wide`);
    await page.click("live");
  }
  await page.click("example");
  await page.size(WIDTHS.wide, 900);
});

test("a file of a header field fills the field of the token", async () => {
  const token = (await readFile(join(EXAMPLES, "token.txt"), "utf8")).trim();
  await page.write({ token: "" });
  await page.run((text) => {
    const files = new DataTransfer();
    files.items.add(new File([`Authorization: Bearer ${text}\n`], "header"));
    document.body.dispatchEvent(new DragEvent("drop", { bubbles: true, cancelable: true, dataTransfer: files }));
    const told = document.getElementById("token-said");
    return new Promise((resolve) => new MutationObserver(() => told.textContent && resolve()).observe(told, { childList: true }));
  }, token);
  await page.settled();
  assert.equal(await page.text("token-said"), `The library took the token out of a header field: the ${token.length} characters behind "Authorization: Bearer".`);
});

test("a browser does not open what is dropped on the page", async () => {
  const isOpened = (kind) => page.run((it) => document.body.dispatchEvent(new DragEvent(it, { bubbles: true, cancelable: true, dataTransfer: new DataTransfer() })), kind);
  const isShown = () => page.run(() => !document.getElementById("drop").hidden);
  assert.deepEqual([await isOpened("dragover"), await isShown()], [false, true]);
  await isOpened("dragleave"); // (it leads out of the window)
  assert.equal(await isShown(), false);
  await isOpened("dragover");
  assert.deepEqual([await isOpened("drop"), await isShown()], [false, false]);
});

test("a clock that is ahead of this computer's is told", async () => {
  const far = Math.floor(Date.now() / 1000) + 7200;
  await openFiles(await fileOf("far", batch(far, [])));
  assert.match(await page.text("record-change"), /ahead of this computer's clock: a validator that allows 10 seconds refuses such a message/);
  await page.click("forget");
});

test("a file of a token and one of bundles fill their fields, and text that looks like markup stays text", async () => {
  await page.write({ token: "", bundles: "" });
  await openFiles(join(EXAMPLES, "two-uses.batch"));
  const { root } = await page.send("DOM.getDocument");
  const { nodeId } = await page.send("DOM.querySelector", { nodeId: root.nodeId, selector: "#files" });
  await page.send("DOM.setFileInputFiles", { nodeId, files: [join(EXAMPLES, "bundles.json"), join(EXAMPLES, "token.txt")] });
  await page.run(() => new Promise((resolve) => {
    const said = document.getElementById("verdict-said");
    const look = () => said.textContent === "Accepted" && (watch.disconnect(), resolve());
    const watch = new MutationObserver(look);
    watch.observe(said, { childList: true, characterData: true, subtree: true });
    look();
  }));
  await page.write({ token: `${Buffer.from('{"alg":"<img src=x onerror=alert(1)>"}').toString("base64url")}.e30.AA` });
  assert.match(await page.text("header"), /<img src=x/);
  assert.equal(await page.run(() => document.querySelector("img")), null);
  await page.click("forget");
});

test("messages that come while nothing can be judged are drawn all the same", async () => {
  await page.write({ time: "no time" });
  await openFiles(join(EXAMPLES, "shared.messages"));
  assert.equal(await page.run(() => document.querySelectorAll("#rows .row").length), 10);
  await page.click("forget");
  assert.equal(await page.run(() => document.getElementById("timeline").hidden), true);
  await page.click("live");
});

test("10,000 uses are drawn in less than a second", async (t) => {
  const r = random(7);
  const uses = Array.from({ length: 10_000 }, (_, n) => {
    const key = Buffer.alloc(32, 7);
    key.writeUInt32BE(n < 9_990 ? n : n - 5_000);
    return { exp: NOW + 1 + r.below(900), key, validatorId: Buffer.alloc(16, r.below(5)), at: NOW - r.below(900), withdrawn: r.below(50) ? 0 : 1 };
  });
  await page.click("example");
  const text = batch(NOW, uses).toString("base64");
  // From the drop of the file until the picture of it stands on the screen. Where other work runs beside, a second of the processors counts: the
  // least of up to five times.
  const drop = () => page.run(async (encoded) => {
    const content = Uint8Array.from(atob(encoded), (it) => it.charCodeAt(0)), files = new DataTransfer();
    files.items.add(new File([content], "many"));
    const told = new Promise((resolve) => new MutationObserver(() => document.getElementById("record-change").textContent && resolve()).observe(document.getElementById("record-change"), { childList: true }));
    const from = performance.now();
    document.body.dispatchEvent(new DragEvent("drop", { bubbles: true, cancelable: true, dataTransfer: files }));
    await told;
    const root = document.documentElement;
    await new Promise((resolve) => {
      const look = () => root.dataset.busy === undefined && resolve();
      new MutationObserver(look).observe(root, { attributes: true });
      look();
    });
    await new Promise((resolve) => requestAnimationFrame(() => requestAnimationFrame(resolve)));
    return performance.now() - from;
  }, text);
  const times = [];
  while (!times.length || (times.at(-1) >= 1000 && times.length < 5)) {
    await page.click("forget");
    const before = browser.processorTime(), waited = await drop();
    times.push(Math.min(waited, browser.processorTime() - before));
    assert.match(await page.text("record-change"), /many .*: 10,000 new, 0 known/);
  }
  const took = Math.min(...times);
  assert.ok(took < 1000, `it took ${times.join(", ")} ms`);
  const painted = await page.run(() => {
    const canvas = document.getElementById("picture"), { data } = canvas.getContext("2d").getImageData(0, 0, canvas.width, canvas.height);
    return { hidden: canvas.hidden, filled: data.filter((_, n) => n % 4 === 3 && data[n] > 0).length / (data.length / 4) };
  });
  assert.equal(painted.hidden, false);
  assert.ok(painted.filled > 0.2, "the picture of all rows is empty");
  const { near, height } = await page.run(() => ({ near: document.querySelectorAll("#rows .row").length, height: document.querySelector("#rows .inside").offsetHeight }));
  assert.ok(near < 60 && height > 9_000 * 30, `${near} rows are elements, and ${height} pixels are high`);
  const slid = await page.run(async () => {
    const from = performance.now();
    for (let n = 0; n < 10; n++) {
      document.getElementById("time").value = String(1767225600 + n);
      document.getElementById("time").dispatchEvent(new InputEvent("input"));
      await new Promise((resolve) => new MutationObserver((_, watch) => document.documentElement.dataset.busy ?? (watch.disconnect(), resolve())).observe(document.documentElement, { attributes: true }));
    }
    return (performance.now() - from) / 10;
  });
  t.diagnostic(`page: 10,000 uses: ${Math.round(took)} ms until they are drawn, and ${Math.round(slid)} ms for a verdict over them`);
});

test("the timeline is walked by keys, and the chosen key is told", async () => {
  await page.run(() => (window.isInSight = () => {
    const [list, row] = ["#rows", "#rows [aria-selected=true]"].map((it) => document.querySelector(it)?.getBoundingClientRect());
    return row !== undefined && row.top >= list.top && row.bottom <= list.bottom;
  }));
  await page.run(() => document.getElementById("rows").focus());
  const chosen = () => page.run(() => ({ id: document.getElementById("rows").getAttribute("aria-activedescendant"), inSight: isInSight(), said: document.getElementById("chosen").textContent }));
  await page.press("Home");
  for (const [key, id] of [["ArrowDown", "row-1"], ["ArrowDown", "row-2"], ["ArrowUp", "row-1"], ["PageDown", "row-10"], ["Home", "row-0"]]) {
    await page.press(key);
    const it = await chosen();
    assert.deepEqual([it.id, it.inSight], [id, true], key);
    assert.match(it.said, /^[0-9a-f]{64}/);
  }
  const drawn = await page.run((n) => new Promise((resolve) => {
    document.getElementById("rows").scrollTop = n * 30;
    requestAnimationFrame(() => requestAnimationFrame(() => resolve([0, 9].map((more) => !!document.getElementById(`row-${n + more}`)))));
  }), 5000);
  assert.deepEqual(drawn, [true, true], "rows that are scrolled to are not drawn");
  await page.press("End");
  await page.run(() => new Promise((resolve) => requestAnimationFrame(() => requestAnimationFrame(resolve))));
  const last = await chosen();
  assert.ok(last.inSight && Number(last.id.slice(4)) > 9_000);
  await page.click("forget");
});

test("everything is reached by the Tab key, in the order of the page, and shows that it has the focus", async () => {
  await page.click("example");
  await openFiles(join(EXAMPLES, "shared.messages"));
  // (where the Tab key goes on from is the start of the page, as behind its loading)
  await page.run(() => {
    const start = document.createElement("span");
    start.tabIndex = -1;
    document.body.prepend(start);
    start.focus();
    start.remove();
    scrollTo(0, 0);
  });
  const reached = [];
  for (let n = 0; n < 40; n++) {
    await page.press("Tab");
    const it = await page.run(() => {
      const { activeElement: on } = document, style = getComputedStyle(on), box = on.closest(".token") ?? on;
      const outline = getComputedStyle(box);
      const { left, right, top, bottom } = on.getBoundingClientRect(), isInSight = right > 0 && bottom > 0 && left < innerWidth && top < innerHeight;
      return { name: on === document.body ? "" : on.id || on.className || on.textContent, isInSight, isShown: on !== document.body && (style.outlineStyle !== "none" || outline.outlineStyle !== "none") };
    });
    if (!it.name || reached.includes(it.name)) break;
    assert.ok(it.isShown && it.isInSight, `${it.name} does not show the focus, or is out of sight`);
    reached.push(it.name);
  }
  assert.deepEqual(reached, ["skip", "example", "open", "token", "bundles", "own", "time", "longest", "live", "slider", "use", "withdraw", "verifies the signature", 'passed over: its kid is not that of the token, "example"', "save", "forget", "rows", "What this page rests on"]);
});

test("a token is used by keys alone", async () => {
  await page.click("forget");
  await page.run(() => document.getElementById("slider").focus());
  await page.press("Tab");
  await page.press("Enter");
  await page.settled();
  assert.equal(await page.text("verdict-said"), "Refused: Replayed");
  assert.equal(await page.run(() => document.activeElement.id), "use");
  await page.press("Enter");
  await page.settled();
  assert.match(await page.text("record-said"), /1 use,/);
  await page.run(() => document.querySelector("#keys summary").focus());
  await page.press("Enter");
  assert.equal(await page.run(() => document.querySelector("#keys details").open), true);
  await page.press("Enter");
});

// The contrast of each text against what is behind it (WCAG 2.2, 1.4.3).
function contrasts() {
  const canvas = new OffscreenCanvas(1, 1).getContext("2d", { willReadFrequently: true });
  const over = (colours) => {
    canvas.clearRect(0, 0, 1, 1);
    for (const it of colours) Object.assign(canvas, { fillStyle: it }).fillRect(0, 0, 1, 1);
    return [...canvas.getImageData(0, 0, 1, 1).data];
  };
  const light = ([r, g, b]) => [r, g, b].map((it) => it / 255).map((it) => (it <= 0.04045 ? it / 12.92 : ((it + 0.055) / 1.055) ** 2.4)).reduce((sum, it, n) => sum + it * [0.2126, 0.7152, 0.0722][n], 0);
  const found = [];
  const walker = document.createTreeWalker(document.body, NodeFilter.SHOW_TEXT);
  while (walker.nextNode()) {
    const node = walker.currentNode, element = node.parentElement;
    if (!node.textContent.trim() || !element.checkVisibility() || element.closest(".unseen, script, textarea, .skip")) continue;
    const behind = [];
    for (let it = element; it; it = it.parentElement) behind.unshift(getComputedStyle(it).backgroundColor);
    const style = getComputedStyle(element), ground = over(behind), text = over([...behind, style.color]);
    const [high, low] = [light(ground), light(text)].sort((a, b) => b - a);
    const size = parseFloat(style.fontSize), isLarge = size >= 24 || (size >= 18.66 && Number(style.fontWeight) >= 700);
    found.push({ text: node.textContent.trim().slice(0, 40), ratio: (high + 0.05) / (low + 0.05), wanted: isLarge ? 3 : 4.5 });
  }
  return found;
}

// The contrast of parts that are no text but are seen to be operated or read: the edges of fields and buttons, bars and dots (WCAG 2.2, 1.4.11).
function edges() {
  const canvas = new OffscreenCanvas(1, 1).getContext("2d", { willReadFrequently: true });
  const over = (colours) => {
    canvas.clearRect(0, 0, 1, 1);
    for (const it of colours) Object.assign(canvas, { fillStyle: it }).fillRect(0, 0, 1, 1);
    return [...canvas.getImageData(0, 0, 1, 1).data];
  };
  const light = ([r, g, b]) => [r, g, b].map((it) => it / 255).map((it) => (it <= 0.04045 ? it / 12.92 : ((it + 0.055) / 1.055) ** 2.4)).reduce((sum, it, n) => sum + it * [0.2126, 0.7152, 0.0722][n], 0);
  const behind = (element) => {
    const grounds = [];
    for (let it = element; it; it = it.parentElement) grounds.unshift(getComputedStyle(it).backgroundColor);
    return over(grounds);
  };
  const wanted = [["main input:not([type])", "borderTopColor"], ["main textarea:not(#token)", "borderTopColor"], [".token", "borderTopColor"], ["button", "borderTopColor"], [".bar", "backgroundColor"], [".lane .dot, .lane .cross, #validators .dot", "backgroundColor"]];
  return wanted.flatMap(([selector, property]) => [...document.querySelectorAll(selector)].filter((it) => it.checkVisibility()).map((it) => {
    const ground = behind(it.parentElement), [high, low] = [light(ground), light(over([`rgb(${ground.slice(0, 3)})`, getComputedStyle(it)[property]]))].sort((a, b) => b - a);
    return { text: `${selector} ${it.id || it.className}`, ratio: (high + 0.05) / (low + 0.05), wanted: 3 };
  }));
}

async function findings(name) {
  const found = [...await page.run(contrasts), ...await page.run(edges)];
  const low = found.filter((it) => it.ratio < it.wanted);
  assert.deepEqual(low, [], name);
  return found.length;
}

test("every text stands out from what is behind it, in light and dark, accepted and refused", async () => {
  await page.click("example");
  await page.run(() => (document.getElementById("trust").open = true));
  let texts = 0;
  for (const scheme of ["light", "dark"]) {
    await page.scheme(scheme);
    await page.click("forget");
    texts += await findings(`${scheme}, accepted`);
    await page.click("use");
    texts += await findings(`${scheme}, refused`);
    await openFiles(join(EXAMPLES, "shared.messages"), await fileOf("bad", Buffer.from([1, 0])));
    await page.write({ longest: "x", bundles: "{" });
    texts += await findings(`${scheme}, with faults`);
    await page.click("example");
    await page.write({ longest: "" });
  }
  assert.ok(texts > 600, `only ${texts} texts were looked at`);
  await page.run(() => (document.getElementById("trust").open = false));
});

test("nothing is cut off or laid over at any width, in light and dark", async () => {
  await page.click("forget");
  await openFiles(join(EXAMPLES, "shared.messages"));
  for (const [name, width] of Object.entries(WIDTHS)) {
    await page.size(width, 900);
    for (const scheme of ["light", "dark"]) {
      await page.scheme(scheme);
      const { wide, out } = await page.run(() => ({
        wide: document.documentElement.scrollWidth - innerWidth,
        out: [...document.querySelectorAll("main *")].filter((it) => it.checkVisibility() && !it.closest("#rows, .wide, #axis, .unseen") && it.getBoundingClientRect().right > innerWidth + 1).map((it) => it.id || it.className || it.tagName),
      }));
      assert.ok(wide <= 0, `${name}: the page is ${wide} pixels too wide`);
      assert.deepEqual(out, [], name);
      if (process.env.SVID_PICTURES) await writeFile(join(process.env.SVID_PICTURES, `${name}-${scheme}.png`), await page.picture());
    }
  }
  await page.size(WIDTHS.wide, 900);
});

/** Waits until the time of the field is that of another second, and the page shows it. */
async function tick() {
  const time = await page.run(() => document.getElementById("time").value);
  await page.run((old) => new Promise((resolve) => {
    const said = document.getElementById("time-said");
    new MutationObserver((_, watch) => document.getElementById("time").value !== old && (watch.disconnect(), resolve())).observe(said, { childList: true, characterData: true, subtree: true });
  }), time);
  await page.settled();
}

test("of two tokens the later one is shown, whichever answer comes first", async () => {
  for (const fails of [false, true]) {
    await page.click("example");
    const { token, time } = await page.run(() => ({ token: document.getElementById("token").value, time: document.getElementById("time").value }));
    await page.write({ time }); // (a tick would show the later one again)
    await page.run((fails) => {
      const verify = SubtleCrypto.prototype.verify, held = new Promise((resolve) => (window.goOn = resolve));
      window.ended = new Promise((resolve) => {
        SubtleCrypto.prototype.verify = async function (...words) {
          SubtleCrypto.prototype.verify = verify;
          await held;
          const answer = await verify.apply(this, words);
          setTimeout(resolve);
          if (fails) throw new Error("it is not to be seen");
          return answer;
        };
      });
      const field = document.getElementById("token"), end = field.value.slice(-2) === "AA" ? "BA" : "AA"; // (what was asked before is not asked again)
      field.value = field.value.slice(0, -2) + end;
      field.dispatchEvent(new InputEvent("input", { bubbles: true }));
    }, fails);
    await page.write({ token: "no token" });
    assert.equal(await page.text("verdict-said"), "Refused: NotThreeParts");
    await page.run(() => (window.goOn(), window.ended));
    await page.settled();
    assert.deepEqual([await page.text("verdict-said"), await page.text("token-shown")], ["Refused: NotThreeParts", "no token\u200b"]);
    await page.write({ token });
    assert.equal(await page.text("verdict-said"), "Accepted");
  }
});

test("a tick of the clock replaces nothing that says the same, and what is open stays open", async () => {
  await page.click("example");
  await page.run(() => {
    document.querySelector("#keys details").open = true;
    const all = [...document.querySelectorAll("#results *, #record *, #token-shown *")].filter((it) => !it.closest("dl:has(.time)"));
    window.kept = [...all, document.getElementById("verdict-said").firstChild]; // (which would be said aloud again)
  });
  await tick();
  const replaced = await page.run(() => window.kept.filter((it) => !it.isConnected).map((it) => (it.outerHTML ?? it.data).slice(0, 80)));
  assert.deepEqual(replaced, []);
  assert.equal(await page.run(() => document.querySelector("#keys details").open), true);
  await page.run(() => (document.querySelector("#keys details").open = false));
});

test("each field has a name, no browser keeps or checks what is in it, and what changes is said aloud", async () => {
  const fields = await page.run(() => [...document.querySelectorAll("input, textarea")].map(({ id, labels, form, spellcheck, autocomplete, ariaLabel, type }) => {
    const isText = ["text", "textarea"].includes(type);
    return { id, isNamed: labels.length > 0 || Boolean(ariaLabel), isKept: isText && (autocomplete || form?.autocomplete) !== "off", isChecked: isText && ["token", "bundles", "domain", "own"].includes(id) && spellcheck };
  }));
  assert.deepEqual(fields.map((it) => it.id), ["files", "token", "bundles", "domain", "own", "time", "longest", "slider"]);
  assert.deepEqual(fields.filter((it) => !it.isNamed || it.isKept || it.isChecked), []);
  const silent = await page.run(() => ["verdict-said", "verdict-why", "token-said", "bundles-said", "record-change", "chosen"].filter((id) => !document.getElementById(id).closest("[role=status]")));
  assert.deepEqual(silent, []);
});

test("after the module stopped, a new one judges, and the record is as it was", async () => {
  const tab = await browser.open(process.env.SVID_PAGE, (it) => it.send("Page.addScriptToEvaluateOnNewDocument", { source: `(${() => {
    const { Instance } = WebAssembly, { setInterval: ticks } = window;
    let made = 0;
    WebAssembly.Instance = class {
      constructor(...words) {
        const { exports } = new Instance(...words), isFirst = ++made === 1;
        const svid_validator_open = (...given) => {
          if (window.stops && isFirst) throw new WebAssembly.RuntimeError("unreachable");
          return exports.svid_validator_open(...given);
        };
        this.exports = { ...exports, svid_validator_open };
      }
    };
    window.setInterval = (body, time) => ((window.ticking = time), ticks(body, time));
  }})()` }));
  await tab.click("example");
  await tab.click("use");
  await tab.run(() => {
    const texts = () => ["verdict-said", "verdict-why"].map((id) => document.getElementById(id).textContent);
    window.said = [];
    new MutationObserver(() => window.said.push(texts().join(": ").slice(0, 45))).observe(document.body, { childList: true, subtree: true, characterData: true });
    window.stops = true;
  });
  await tab.write({ longest: "3600" });
  // (or a look at the time came first, and a new module judges by now)
  assert.ok((await tab.run(() => window.said)).includes("Not judged: The library stopped: unreachable."), "the module did not stop");
  await tab.write({ longest: "" });
  assert.equal(await tab.text("verdict-said"), "Refused: Replayed");
  // (how often the time is looked at, while *Now* is pressed)
  assert.ok((await tab.run(() => window.ticking)) <= 1000);
  await tab.close();
});

test("where a browser has no cryptography, the page says why no key can be used", async () => {
  const tab = await browser.open(process.env.SVID_PAGE, (it) => it.send("Page.addScriptToEvaluateOnNewDocument", { source: "Object.defineProperty(Crypto.prototype, 'subtle', { value: undefined })" }));
  const none = "No signature can be verified here, and no example made: WebCrypto works only on https, localhost and files.";
  for (const press of [() => {}, () => tab.click("example")]) {
    await press();
    assert.equal(await tab.text("verdict-why"), none);
    assert.equal(await tab.run(() => document.getElementById("example").getAttribute("aria-disabled")), "true");
  }
  assert.deepEqual(await tab.complaints(), []);
  const [bundles, token] = await Promise.all(["bundles.json", "token.txt"].map((it) => readFile(join(EXAMPLES, it), "utf8")));
  await tab.write({ bundles, token: token.trim(), own: "ledger", time: String(NOW) });
  assert.equal(await tab.text("verdict-said"), "Refused: BadSignature");
  assert.match(await tab.text("keys"), /can't be used: WebCrypto works only on https, localhost and files/);
  await tab.close();
});

test("the clock moves what is said and nothing else", async () => {
  await page.click("forget");
  await page.click("example");
  const boxes = () => page.run(() => [...document.querySelectorAll("section, form, h2, tr, button, #time-said")].map((it) => { const { x, y, width, height } = it.getBoundingClientRect(); return [x, y, width, height]; }));
  const before = await boxes();
  await tick();
  assert.deepEqual(await boxes(), before);
});

test("nothing was asked of a server, and nothing was complained of", async () => {
  assert.deepEqual(await page.requests(), []);
  assert.deepEqual(await page.complaints(), []);
});
