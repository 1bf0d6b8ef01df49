// Chromium without a window, driven over a pipe by the DevTools protocol: no port is opened, and nothing is installed beside it.

import { spawn } from "node:child_process";
import { readFileSync, readdirSync } from "node:fs";
import { mkdtemp, rm } from "node:fs/promises";
import { tmpdir } from "node:os";
import { join } from "node:path";

const FLAGS = ["--headless", "--no-sandbox", "--remote-debugging-pipe", "--no-first-run", "--disable-gpu", "--disable-dev-shm-usage", "--disable-background-networking", "--disable-component-update",
  "--disable-sync", "--disable-default-apps", "--mute-audio", "--hide-scrollbars"];

// How many seconds an answer of a browser may take.
const PATIENCE = Number(process.env.SVID_TEST_PATIENCE || 180);

/** What a promise gives, or an error that says what did not come. */
export function within(what, promise) {
  let timer;
  const late = new Promise((_, reject) => (timer = setTimeout(() => reject(new Error(`nothing within ${PATIENCE} seconds: ${what.slice(0, 300)}`)), PATIENCE * 1000)));
  return Promise.race([promise, late]).finally(() => clearTimeout(timer));
}

/** Waits for the end of a process, whose promise `ended` is. One that does not end is killed. */
export const endOf = (process, ended) => within(`the end of ${process.spawnfile}`, ended).finally(() => process.kill("SIGKILL"));

/** A running Chromium. */
export class Browser {
  static async start() {
    const profile = await mkdtemp(join(tmpdir(), "svid-page-"));
    return new Browser(profile);
  }

  constructor(profile) {
    this.profile = profile;
    this.process = spawn("chromium", [...FLAGS, `--user-data-dir=${profile}`], { stdio: ["ignore", "ignore", "ignore", "pipe", "pipe"] });
    this.ended = new Promise((resolve) => this.process.once("exit", resolve));
    this.waiting = new Map();
    this.listeners = [];
    this.last = 0;
    let kept = "";
    const answers = this.process.stdio[4];
    answers.setEncoding("utf8");
    answers.on("data", (text) => {
      const messages = (kept + text).split("\0");
      kept = messages.pop();
      messages.forEach((it) => this.heard(JSON.parse(it)));
    });
  }

  heard({ id, result, error, method, params, sessionId }) {
    if (id === undefined) return this.listeners.forEach((it) => it({ method, params, sessionId }));
    const { resolve, reject } = this.waiting.get(id);
    this.waiting.delete(id);
    return error ? reject(new Error(error.message)) : resolve(result);
  }

  /** Sends a command of the protocol, and waits for its answer. */
  send(method, params = {}, sessionId) {
    const id = ++this.last;
    return within(`${method} ${params.expression ?? ""}`, new Promise((resolve, reject) => {
      this.waiting.set(id, { resolve, reject });
      this.process.stdio[3].write(`${JSON.stringify({ id, method, params, sessionId })}\0`);
    }));
  }

  /** How many milliseconds it has taken of the processors, with the processes that it started. */
  processorTime() {
    const parents = new Map(), took = new Map();
    for (const pid of readdirSync("/proc").filter((it) => /^\d+$/.test(it))) {
      try {
        const stat = readFileSync(`/proc/${pid}/stat`, "utf8"), fields = stat.slice(stat.lastIndexOf(")") + 2).split(" ");
        parents.set(Number(pid), Number(fields[1]));
        took.set(Number(pid), 10 * (Number(fields[11]) + Number(fields[12])));
      } catch {
        // (it has ended meanwhile)
      }
    }
    const isOurs = (pid) => pid === this.process.pid || (parents.has(pid) && isOurs(parents.get(pid)));
    return [...took].filter(([pid]) => isOurs(pid)).reduce((sum, [, it]) => sum + it, 0);
  }

  /** Opens a page in a tab of its own. */
  async open(url, setup = async () => {}) {
    const { targetId } = await this.send("Target.createTarget", { url: "about:blank" });
    const { sessionId } = await this.send("Target.attachToTarget", { targetId, flatten: true });
    const page = new Page(this, sessionId, targetId);
    for (const it of ["Page", "Runtime", "Log", "Network", "DOM"]) await page.send(`${it}.enable`);
    await setup(page);
    const loaded = page.once("Page.loadEventFired");
    await page.send("Page.navigate", { url });
    await within(`${url} to be loaded`, loaded);
    await page.settled();
    return page;
  }

  async close() {
    await this.send("Browser.close").catch(() => this.process.kill());
    await endOf(this.process, this.ended);
    await rm(this.profile, { recursive: true, force: true, maxRetries: 5 });
  }
}

/** What a test does in the page of any browser; `run` is the browser's own. */
export class FieldsAndButtons {
  /** Waits until the page shows what is in its fields. */
  settled() {
    return this.run(() => new Promise((resolve) => {
      const root = document.documentElement;
      const isDone = () => root.dataset.busy === undefined && document.querySelector("#checks tr");
      if (isDone()) return resolve();
      const watch = new MutationObserver(() => isDone() && (watch.disconnect(), resolve()));
      watch.observe(root, { attributes: true, subtree: true, childList: true });
    }));
  }

  /** Writes into fields, as a person does, and waits for the page. */
  async write(fields) {
    await this.run((all) => {
      for (const [id, text] of Object.entries(all)) {
        document.getElementById(id).value = text;
        document.getElementById(id).dispatchEvent(new InputEvent("input", { bubbles: true }));
      }
    }, fields);
    await this.settled();
  }

  async click(id) {
    await this.run((it) => document.getElementById(it).click(), id);
    await this.settled();
  }

  text(id) {
    return this.run((it) => document.getElementById(it).textContent, id);
  }
}

/** A tab, with what it asked for and what it complained of. */
class Page extends FieldsAndButtons {
  constructor(browser, sessionId, targetId) {
    super();
    this.browser = browser;
    this.sessionId = sessionId;
    this.targetId = targetId;
    this.requested = [];
    this.complained = [];
    browser.listeners.push((it) => it.sessionId === sessionId && this.noted(it));
  }

  noted({ method, params }) {
    if (method === "Network.requestWillBeSent") this.requested.push(params.request.url);
    if (method === "Runtime.exceptionThrown") this.complained.push(params.exceptionDetails.exception?.description ?? params.exceptionDetails.text);
    if (method === "Runtime.consoleAPICalled") this.complained.push(params.args.map((it) => it.value ?? it.description).join(" "));
    if (method === "Log.entryAdded") this.complained.push(params.entry.text);
  }

  /** Closes the tab, so that the one before is in sight again: only what is in sight is drawn. */
  close() {
    return this.browser.send("Target.closeTarget", { targetId: this.targetId });
  }

  /** The requests that it made beside the one for itself. */
  async requests() {
    return this.requested.slice(1);
  }

  /** What its console has. */
  async complaints() {
    return this.complained;
  }

  send(method, params) {
    return this.browser.send(method, params, this.sessionId);
  }

  once(method) {
    return new Promise((resolve) => {
      const listener = (it) => {
        if (it.method !== method || it.sessionId !== this.sessionId) return;
        this.browser.listeners.splice(this.browser.listeners.indexOf(listener), 1);
        resolve(it.params);
      };
      this.browser.listeners.push(listener);
    });
  }

  /** Calls a function in the page with arguments that JSON can carry, and waits for its result. */
  async run(body, ...words) {
    const expression = `(${body})(...${JSON.stringify(words)})`;
    const { result, exceptionDetails } = await this.send("Runtime.evaluate", { expression, awaitPromise: true, returnByValue: true });
    if (exceptionDetails) throw new Error(exceptionDetails.exception?.description ?? exceptionDetails.text);
    return result.value;
  }

  async press(key, modifiers = 0) {
    const words = { key, code: key, modifiers, windowsVirtualKeyCode: { Tab: 9, Enter: 13, " ": 32, End: 35, Home: 36, ArrowUp: 38, ArrowDown: 40, PageDown: 34, ArrowRight: 39 }[key], text: { Enter: "\r", " ": " " }[key] };
    await this.send("Input.dispatchKeyEvent", { type: words.text ? "keyDown" : "rawKeyDown", ...words });
    await this.send("Input.dispatchKeyEvent", { type: "keyUp", ...words, text: undefined });
  }

  size(width, height) {
    return this.send("Emulation.setDeviceMetricsOverride", { width, height, deviceScaleFactor: 1, mobile: false });
  }

  scheme(name) {
    return this.send("Emulation.setEmulatedMedia", { features: [{ name: "prefers-color-scheme", value: name }] });
  }

  /** A picture of the whole page, as bytes of PNG. */
  async picture() {
    const { cssContentSize } = await this.send("Page.getLayoutMetrics");
    const clip = { x: 0, y: 0, width: cssContentSize.width, height: cssContentSize.height, scale: 1 };
    const { data } = await this.send("Page.captureScreenshot", { format: "png", captureBeyondViewport: true, clip });
    return Buffer.from(data, "base64");
  }
}
