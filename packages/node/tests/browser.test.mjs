// The package in a browser: the same files, from a server.

import assert from "node:assert/strict";
import { readFile } from "node:fs/promises";
import { createServer } from "node:http";
import { test } from "node:test";
import { atEnd } from "./ending.mjs";
import { PACKAGE, TOP, issuer, token } from "./making.mjs";

const { Browser } = await import(`${TOP}/packages/page/tests/browser.mjs`);
const TYPES = { js: "text/javascript", wasm: "application/wasm" };

test("a token is accepted once, in Chromium too", async () => {
  const one = issuer(), given = JSON.stringify({ bundles: one.bundles, tokens: [token(one), token(one)], other: token(issuer()) });
  const page = `<!doctype html><title>svid</title><script type="module">
    import { Validator } from "./index.js";
    const { bundles, tokens, other } = ${given};
    const name = (call) => call.then((it) => it.spiffeId, (why) => why.name);
    const said = [await Validator.open({ audiences: "ledger", bundles }).catch((why) => why.message)];
    const validator = await Validator.open({ audiences: "ledger", bundles, wait: 600 });
    for (const it of [tokens[0], tokens[0], other, "a.b"]) said.push(await name(validator.check(it)));
    said.push((await Promise.all([1, 2, 3].map(() => name(validator.check(tokens[1]))))).sort().join());
    validator.close();
    document.title = said.join(" ");
  </script>`;
  let isAway = true; // (the module, once)
  const server = createServer(async (req, res) => {
    if (req.url === "/") return res.setHeader("Content-Type", "text/html").end(page);
    const content = await readFile(`${PACKAGE}${req.url}`).catch(() => null);
    const isLacking = !content || (isAway && req.url === "/svid.wasm");
    if (req.url === "/svid.wasm") isAway = false;
    if (isLacking) return res.writeHead(404).end();
    res.setHeader("Content-Type", TYPES[req.url.split(".").at(-1)] ?? "text/plain").end(content);
  });
  await new Promise((resolve) => server.listen(0, "127.0.0.1", resolve));
  atEnd(() => server.close());
  const browser = await Browser.start();
  try {
    const { targetId } = await browser.send("Target.createTarget", { url: "about:blank" });
    const { sessionId } = await browser.send("Target.attachToTarget", { targetId, flatten: true });
    const problems = [];
    browser.listeners.push(({ method, params }) => {
      if (method === "Runtime.exceptionThrown") problems.push(params.exceptionDetails.exception?.description ?? params.exceptionDetails.text);
    });
    await browser.send("Runtime.enable", {}, sessionId);
    const url = `http://127.0.0.1:${server.address().port}/`;
    await browser.send("Page.navigate", { url }, sessionId);
    const expression = "new Promise((done) => { const look = () => document.title.includes(' ') ? done(document.title) : setTimeout(look, 5); look(); })";
    const failed = new Promise((_, reject) => {
      const look = setInterval(() => problems.length && (clearInterval(look), reject(new Error(problems[0]))), 20);
      look.unref();
    });
    const read = browser.send("Runtime.evaluate", { expression, awaitPromise: true, returnByValue: true }, sessionId);
    const { result } = await Promise.race([read, failed]);
    const id = "spiffe://example.org/billing/api";
    assert.equal(result.value, [`${url}svid.wasm can't be fetched: status 404`, id, "Replayed", "BadSignature", "NotThreeParts", `Replayed,Replayed,${id}`].join(" "));
  } finally {
    await browser.close();
  }
});
