// Firefox without a window, driven by Marionette, the protocol that it speaks itself: nothing is installed beside it.

import { spawn } from "node:child_process";
import { once } from "node:events";
import { existsSync, readFileSync, watch } from "node:fs";
import { mkdtemp, rm, writeFile } from "node:fs/promises";
import { connect } from "node:net";
import { tmpdir } from "node:os";
import { join } from "node:path";
import { FieldsAndButtons, endOf, within } from "./browser.mjs";

// What Firefox asks of its maker's servers goes to a proxy that is not there. Port 0 is any that is free, and stands in the file PORT then.
// It begins with an empty page, and prepares no process for a page that nobody opens.
const PREFERENCES = {
  "browser.startup.page": 0,
  "browser.newtab.preload": false,
  "dom.ipc.processPrelaunch.enabled": false,
  "marionette.port": 0,
  "network.proxy.type": 1,
  "network.proxy.http": "127.0.0.1",
  "network.proxy.http_port": 9,
  "network.proxy.ssl": "127.0.0.1",
  "network.proxy.ssl_port": 9,
  "network.captive-portal-service.enabled": false,
  "network.connectivity-service.enabled": false,
};
const PORT = "MarionetteActivePort";
const FLAGS = ["--headless", "--marionette", "--remote-allow-system-access", "--no-remote", "--new-instance", "--profile"];

/** A running Firefox. */
export class Firefox {
  static async start() {
    const profile = await mkdtemp(join(tmpdir(), "svid-firefox-"));
    const lines = Object.entries(PREFERENCES).map(([name, value]) => `user_pref(${JSON.stringify(name)}, ${JSON.stringify(value)});\n`);
    await writeFile(join(profile, "user.js"), lines.join(""));
    const started = new Firefox(profile);
    await started.connected();
    return started;
  }

  constructor(profile) {
    this.profile = profile;
    this.process = spawn("firefox-esr", [...FLAGS, profile], { stdio: "ignore" });
    this.ended = once(this.process, "exit");
    this.waiting = new Map();
    this.last = 0;
  }

  async connected() {
    this.socket = connect(await this.port(), "127.0.0.1");
    await within("a connection to Firefox", once(this.socket, "connect"));
    let kept = Buffer.alloc(0);
    this.socket.on("data", (data) => {
      kept = Buffer.concat([kept, data]);
      for (let colon = kept.indexOf(":"); colon > 0; colon = kept.indexOf(":")) {
        const end = colon + 1 + Number(kept.subarray(0, colon));
        if (kept.length < end) return;
        this.heard(JSON.parse(kept.subarray(colon + 1, end)));
        kept = kept.subarray(end);
      }
    });
    await this.send("WebDriver:NewSession", {});
    await this.send("WebDriver:SetTimeouts", { script: 600_000 });
  }

  // The port that it listens at, once it does.
  async port() {
    const path = join(this.profile, PORT), read = () => existsSync(path) && Number(readFileSync(path, "utf8"));
    const watched = watch(this.profile);
    try {
      const gone = this.ended.then(() => Promise.reject(new Error("firefox-esr ended before it listened")));
      while (!read()) await within("Firefox to listen", Promise.race([once(watched, "change"), gone]));
    } finally {
      watched.close();
    }
    return read();
  }

  heard(message) {
    if (!Array.isArray(message)) return; // what it says of itself at first
    const [, id, error, result] = message, { resolve, reject } = this.waiting.get(id);
    this.waiting.delete(id);
    if (error) reject(new Error(`${error.error}: ${error.message}`));
    else resolve(result);
  }

  /** Sends a command of the protocol, and waits for its answer. */
  send(name, words = {}) {
    const id = ++this.last, text = JSON.stringify([0, id, name, words]);
    return within(`${name} ${words.script ?? ""}`, new Promise((resolve, reject) => {
      this.waiting.set(id, { resolve, reject });
      this.socket.write(`${Buffer.byteLength(text)}:${text}`);
    }));
  }

  /** Calls a function with arguments that JSON can carry, in the page or in the browser itself, and waits for its result. */
  async call(context, body, words) {
    await this.send("Marionette:SetContext", { value: context });
    const script = `const [words, done] = arguments;
      Promise.resolve().then(() => (${body})(...words)).then((it) => done({ it }), (error) => done({ error: String(error) }));`;
    // (in the browser itself all calls share what they keep in globalThis; in the page they are as its own scripts)
    const sandbox = context === "chrome" ? "svid" : null;
    const { value } = await this.send("WebDriver:ExecuteAsyncScript", { script, args: [words], sandbox, newSandbox: false });
    if (value.error !== undefined) throw new Error(value.error);
    return value.it;
  }

  /** Opens a page. */
  async open(url) {
    await this.call("chrome", noteAll, []);
    await this.send("Marionette:SetContext", { value: "content" });
    await this.send("WebDriver:Navigate", { url });
    const page = new FirefoxPage(this, url);
    await page.settled();
    return page;
  }

  async close() {
    this.socket.end();
    this.process.kill();
    await endOf(this.process, this.ended);
    await rm(this.profile, { recursive: true, force: true, maxRetries: 5 });
  }
}

// Notes each request that a page makes, in the browser itself.
function noteAll() {
  globalThis.svidAsked = [];
  const observe = (channel) => {
    const { loadInfo, URI } = channel.QueryInterface(Ci.nsIHttpChannel);
    if (loadInfo.browsingContextID) globalThis.svidAsked.push(URI.spec); // (else it is the browser that asks)
  };
  Services.obs.addObserver({ observe }, "http-on-opening-request");
  Services.console.reset();
}

/** The page that is open. */
class FirefoxPage extends FieldsAndButtons {
  constructor(browser, url) {
    super();
    this.browser = browser;
    this.url = url;
  }

  run(body, ...words) {
    return this.browser.call("content", body, words);
  }

  /** The requests over a network that it made. */
  requests() {
    return this.browser.call("chrome", () => globalThis.svidAsked, []);
  }

  /** The errors and warnings that the console has of it. */
  complaints() {
    const said = (url) => Services.console.getMessageArray().filter((it) => it instanceof Ci.nsIScriptError && it.sourceName.startsWith(url)).map((it) => it.errorMessage);
    return this.browser.call("chrome", said, [this.url]);
  }

  async picture() {
    await this.browser.send("Marionette:SetContext", { value: "content" });
    const { value } = await this.browser.send("WebDriver:TakeScreenshot", { full: true, hash: false });
    return Buffer.from(value, "base64");
  }
}
