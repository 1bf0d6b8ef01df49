// Bundles that follow their sources: of each trust domain a file, or an address as SPIFFE federation has it, and a folder of files.
//
// Whether a text is a bundle, and what its keys are good for, says the library. This module gets the texts. It is loaded where a validator follows
// sources, since browsers have neither files nor sockets.

import { X509Certificate } from "node:crypto";
import { constants } from "node:fs";
import { open, readdir } from "node:fs/promises";
import { get } from "node:https";
import { join } from "node:path";

import { atMost, tell } from "./given.js";
import { Library, utf8 } from "./library.js";

const MOST_BYTES = 1_048_576;
const MOST_BRACKETS = 32_768; // (to read a bundle takes up to a kilobyte of memory for each object and list in it)
const MOST_HEADER = 65_536, MOST_REDIRECTS = 5, MOST_SAID = 1000;
const NO_KEYS = utf8('{"keys":[]}');
const TAKEN = "the bundles together";
// The object identifier of a certificate's key usage, and its bits keyCertSign and cRLSign (RFC 5280, section 4.2.1.3).
const KEY_USAGE = Buffer.from("0603551d0f", "hex"), MAY_CERTIFY = 0x06;

/**
 * Times in seconds: between two looks at files, for one answer of an address, until an address is asked again (by the refresh hint of its bundle
 * within bounds, or as usual), and after a fault, first and at most.
 */
const TIMES = { every: 1, limit: 15, least: 10, usual: 300, most: 86_400, again: 1, longest: 60 };

/** The sources of a validator's bundles. They are looked at until `close`. */
export class Sources {
  #specs;
  #folder;
  #told;
  #times;
  #take;
  #held = new Map(); // the last good bundle of each trust domain: its text, where that came from, and whether that is the folder
  #isChanged = true;
  #faults = new Map(); // what was last wrong with each source
  #timers = new Set();
  #ending = new AbortController();

  /** Reads what a caller gives. Throws TypeError, RangeError and BadBundles for what is no source. */
  static async open({ sources = {}, folder, onFault = warn }, times = {}) {
    if (typeof onFault !== "function") throw new TypeError("onFault is a function");
    if (folder !== undefined && (typeof folder !== "string" || !folder)) throw new TypeError("folder is the path of a folder");
    if (typeof sources !== "object" || sources === null) throw new TypeError("sources is an object from trust domains to where their bundles come from");
    const specs = new Map(Object.entries(sources).map(([domain, it]) => [domain, specOf(domain, it)]));
    if (!specs.size && folder === undefined) throw new TypeError("follow names no source: give sources, or a folder");
    const library = await Library.start();
    try {
      for (const it of specs.values()) known(library, it);
    } finally {
      library.close();
    }
    return new Sources(specs, folder, onFault, { ...TIMES, ...times });
  }

  /** Takes what `open` has read: call that instead. */
  constructor(specs, folder, told, times) {
    this.#specs = specs;
    this.#folder = folder;
    this.#told = told;
    this.#times = times;
  }

  /**
   * Begins to look. `take` is given all bundles whenever they have changed, each a trust domain and a text, and may throw. Waits until each source
   * was looked at, but at most so many seconds.
   */
  async begin(take, wait) {
    this.#take = take;
    await atMost(wait, this.#begin());
  }

  /** Looks no more: no timer, file or connection stays. */
  close() {
    this.#ending.abort();
    for (const it of this.#timers) clearTimeout(it);
    this.#timers.clear();
  }

  /** Whether a source of this trust domain's bundle is named, and has given none yet. */
  awaits(domain) {
    return this.#specs.has(domain) && !this.#held.has(domain);
  }

  async #begin() {
    await this.#look();
    await Promise.all([...this.#specs.values()].filter((it) => it.isAddress).map((it) => this.#ask(it, 0)));
  }

  // -- Files

  // Reads all files, again and again.
  async #look() {
    for (const it of this.#specs.values()) if (!it.isAddress) await this.#judge(it.domain, it.source, () => textOfFile(it.source));
    if (this.#folder !== undefined) await this.#lookInto(this.#folder);
    this.#tell();
    this.#later(this.#times.every, LOOK);
  }

  /** Looks at the files again. */
  lookAgain() {
    return this.#look();
  }

  // Reads each file DOMAIN.json of a folder, and drops the trust domains whose file is gone.
  async #lookInto(folder) {
    let names;
    try {
      names = (await readdir(folder)).filter((it) => it.endsWith(".json")).sort();
    } catch (why) {
      return this.#fault(folder, why);
    }
    this.#fault(folder, null);
    const there = new Set(names.map((it) => join(folder, it)));
    for (const name of names) await this.#judgeOfFolder(name.slice(0, -".json".length), join(folder, name));
    for (const [domain, { source, isOfFolder }] of this.#held) if (isOfFolder && !there.has(source)) this.#drop(domain);
    for (const it of this.#faults.keys()) if (it.startsWith(join(folder, "/")) && !there.has(it) && !this.#isNamed(it)) this.#faults.delete(it);
  }

  #judgeOfFolder(domain, source) {
    const named = this.#specs.get(domain);
    if (named) return this.#fault(source, new Error(`the bundle of ${domain} comes from ${named.source}`));
    return this.#judge(domain, source, () => textOfFile(source), true);
  }

  #isNamed(source) {
    return [...this.#specs.values()].some((it) => it.source === source);
  }

  #drop(domain) {
    this.#held.delete(domain);
    this.#isChanged = true;
  }

  // -- Addresses

  // Asks an address, again and again: when its bundle's refresh hint says so, and after a fault after a pause that doubles.
  async #ask(spec, faults) {
    const text = await this.#judge(spec.domain, spec.source, () => this.#fetch(spec));
    this.#tell();
    const { again, longest } = this.#times;
    this.#later(text ? hintOf(text, this.#times) : Math.min(again * 2 ** faults, longest), askAgain(spec, text ? 0 : faults + 1));
  }

  /** Asks an address again, after so many faults. */
  askAgain(spec, faults) {
    return this.#ask(spec, faults);
  }

  async #fetch(spec) {
    const how = await this.#tlsOf(spec);
    return within(this.#times.limit, this.#ending.signal, (signal) => fetched(new URL(spec.source), { ...how, signal }, MOST_REDIRECTS));
  }

  // How the server of an address is known: options of a connection. (`rejectUnauthorized` is said, since a variable of the environment has another
  // default.)
  async #tlsOf({ domain, id, idDomain, authorities }) {
    const file = authorities === undefined ? undefined : await textOfFile(authorities);
    if (id === undefined) return { rejectUnauthorized: true, ...(file && { ca: certificatesOf(file, authorities) }) };
    const held = this.#held.get(idDomain);
    const isHeld = held && (file === undefined || idDomain === domain);
    if (!isHeld && file === undefined) throw new Error(`the bundle of ${idDomain}, by which its server is known, was not read yet`);
    const ca = isHeld ? authoritiesIn(held.text, `the bundle of ${idDomain}`) : authoritiesIn(file, authorities);
    return { rejectUnauthorized: true, ca, allowPartialTrustChain: true, checkServerIdentity: (_host, shown) => faultOf(shown, id) };
  }

  // -- Bundles

  // Puts what a source gives in the place of its last good bundle, if it is one: its text, or undefined.
  async #judge(domain, source, reading, isOfFolder = false) {
    try {
      const text = await reading(), held = this.#held.get(domain);
      if (!held?.text.equals(text)) {
        await readable(domain, text);
        if (this.#ending.signal.aborted) return undefined;
        this.#held.set(domain, { text, source, isOfFolder });
        this.#isChanged = true;
      }
      this.#fault(source, null);
      return text;
    } catch (why) {
      this.#fault(source, why, domain);
      return undefined;
    }
  }

  // Hands on all bundles, if they have changed.
  #tell() {
    if (!this.#isChanged || this.#ending.signal.aborted) return;
    try {
      this.#take([...this.#held].map(([domain, { text }]) => [domain, text]));
      this.#isChanged = false;
      this.#fault(TAKEN, null);
    } catch (why) {
      this.#fault(TAKEN, why);
    }
  }

  // Tells what is wrong with a source where that is another thing than before, and once that it is well again.
  #fault(source, why, domain) {
    if (this.#ending.signal.aborted) return;
    const last = this.#faults.get(source), says = why && String(why.message).slice(0, MOST_SAID);
    if ((last ?? null) === says) return;
    if (says === null) this.#faults.delete(source);
    else this.#faults.set(source, says);
    const rest = this.#held.has(domain) ? "; the last good bundle stays" : "";
    tell(this.#told, why && new Error(`${source}: ${says}${rest}`, { cause: why }), source);
  }

  // Does something later, unless all has ended. It keeps neither the process nor a validator that was dropped.
  #later(seconds, does) {
    if (this.#ending.signal.aborted) return;
    const self = new WeakRef(this), timer = setTimeout(() => {
      const it = self.deref();
      it?.#timers.delete(timer);
      if (it) does(it);
    }, seconds * 1000);
    timer.unref();
    this.#timers.add(timer);
  }
}

// What is due later. (Each is made where nothing else is in reach: what a timer does keeps all that it may name.)
const LOOK = (sources) => sources.lookAgain();
const askAgain = (spec, faults) => (sources) => sources.askAgain(spec, faults);

// What is wrong with a source goes to the warnings of the process.
function warn(why) {
  if (why) process.emitWarning(why.message, { type: "SvidWarning", code: "SVID_BUNDLE" });
}

// -- What a caller gives

// A source of one trust domain's bundle.
function specOf(domain, given) {
  const { url, id, authorities, ...rest } = typeof given === "string" ? { url: given } : given ?? {};
  const at = JSON.stringify(domain), unknown = Object.keys(rest)[0];
  if (typeof url !== "string" || !url) throw new TypeError(`${at}: a source is the path of a file, an address as https://HOST/PATH, or an object with an url`);
  if (unknown !== undefined) throw new TypeError(`${at}: a source has url, id and authorities, and no ${unknown}`);
  for (const it of [id, authorities]) if (it !== undefined && (typeof it !== "string" || !it)) throw new TypeError(`${at}: id and authorities are texts`);
  if (/^http:/i.test(url)) throw new RangeError(`${at}: a bundle comes over https, and not over http`);
  const isAddress = /^https:/i.test(url);
  if (!isAddress && typeof given !== "string") throw new RangeError(`${at}: url is an address as https://HOST/PATH`);
  if (isAddress) checkAddress(at, url);
  return { domain, source: url, id, authorities, isAddress };
}

function checkAddress(at, url) {
  let parsed;
  try {
    parsed = new URL(url);
  } catch {
    parsed = null;
  }
  // (an error with such an address would have the password)
  if (parsed ? parsed.username || parsed.password : url.includes("@")) throw new RangeError(`${at}: an address has no name of a user, and no password`);
  if (!parsed) throw new RangeError(`${at}: ${JSON.stringify(url)} is no address as https://HOST/PATH`);
}

// Lets the library judge the names of a source. Throws BadBundles and RangeError.
function known(library, spec) {
  if (spec.domain.includes("/")) throw new RangeError(`${JSON.stringify(spec.domain)}: write the name of the trust domain alone, as example.org`);
  library.readBundle(spec.domain, NO_KEYS);
  if (spec.id === undefined) return;
  const { trustDomain, path } = library.partsOf(spec.id);
  if (!path) throw new RangeError(`${JSON.stringify(spec.domain)}: ${JSON.stringify(spec.id)} is no SPIFFE ID of a server, which has a path`);
  if (trustDomain === spec.domain && spec.authorities === undefined) {
    throw new RangeError(`${JSON.stringify(spec.domain)}: its server is known by its own bundle, so a first one must be there as a file: give authorities`);
  }
  spec.idDomain = trustDomain;
}

// -- Texts

// Throws where a text is no bundle of this trust domain, or takes too much memory to read.
async function readable(domain, text) {
  let brackets = 0;
  for (const it of text) if (it === 0x7b || it === 0x5b) brackets += 1;
  if (brackets > MOST_BRACKETS) throw new Error(`it has more than ${MOST_BRACKETS} of the brackets { and [`);
  const library = await Library.start();
  try {
    library.readBundle(domain, text);
  } finally {
    library.close();
  }
}

// All bytes of a stream, which ends there.
async function textOf(stream) {
  const pieces = [];
  let size = 0;
  for await (const it of stream) {
    size += it.length;
    if (size > MOST_BYTES) throw new Error(`it has more than ${MOST_BYTES} bytes`);
    pieces.push(it);
  }
  return Buffer.concat(pieces);
}

// All bytes of a regular file. (To open a pipe, or to read one, may take for ever.)
async function textOfFile(name) {
  const file = await open(name, constants.O_RDONLY | constants.O_NONBLOCK);
  try {
    if (!(await file.stat()).isFile()) throw new Error("it is no regular file");
    return await textOf(file.createReadStream({ autoClose: false, end: MOST_BYTES }));
  } finally {
    await file.close();
  }
}

// For how many seconds a bundle is good before it is asked for again.
function hintOf(text, { least, usual, most }) {
  let hint;
  try {
    hint = JSON.parse(text).spiffe_refresh_hint;
  } catch {
    // (a hint that JavaScript does not read is as good as none)
  }
  return Number.isInteger(hint) && hint > 0 ? Math.min(Math.max(hint, least), most) : usual;
}

// -- Servers

// Gives a call a signal that is aborted at the end of all, and when its time is over.
async function within(seconds, ending, call) {
  const ours = new AbortController(), stop = () => ours.abort();
  let isLate = false;
  const timer = setTimeout(() => {
    isLate = true;
    stop();
  }, seconds * 1000);
  timer.unref();
  ending.addEventListener("abort", stop, { once: true });
  try {
    return await call(ours.signal);
  } catch (why) {
    throw isLate ? new Error(`it did not answer within ${seconds} seconds`) : why;
  } finally {
    clearTimeout(timer);
    ending.removeEventListener("abort", stop);
  }
}

// What a server answers.
async function fetched(address, how, redirects) {
  const answer = await new Promise((resolve, reject) => {
    const request = get(address, { ...how, agent: false, minVersion: "TLSv1.2", maxHeaderSize: MOST_HEADER }, resolve);
    request.on("error", reject);
    request.on("socket", (it) => it.unref());
  });
  const { statusCode, headers } = answer;
  if (statusCode === 200) return textOf(answer);
  answer.destroy();
  if (![301, 302, 303, 307, 308].includes(statusCode) || !headers.location) throw new Error(`it answers with status ${statusCode}`);
  // (only the server of that ID is known)
  if (how.checkServerIdentity) throw new Error("it leads elsewhere, which the profile https_spiffe does not allow");
  const next = new URL(headers.location, address);
  if (next.protocol !== "https:" || redirects === 0) throw new Error(`it leads to ${next.href}`);
  return fetched(next, how, redirects - 1);
}

// The certificates of a file.
function certificatesOf(file, name) {
  if (!file.includes("-----BEGIN CERTIFICATE-----")) throw new Error(`${name} has no certificate as PEM`);
  return file;
}

// The certificates of a bundle that sign X.509-SVIDs (SPIFFE Trust Domain and Bundle, section 4.2.2), as PEM.
function authoritiesIn(text, where) {
  const { keys } = JSON.parse(text), found = [];
  for (const it of keys ?? []) {
    if (it?.use !== "x509-svid" || it.x5c?.length !== 1) continue;
    try {
      found.push(new X509Certificate(Buffer.from(it.x5c[0], "base64")).toString());
    } catch {
      // (one that can't be read vouches for nobody)
    }
  }
  if (!found.length) throw new Error(`${where} has no entry with the use "x509-svid" and one certificate`);
  return found;
}

// Why a server's certificate, which those authorities have signed, is not the X.509-SVID of this ID (X.509-SVID, sections 2 and 5.2). (A name that
// has a comma stands in quotes there, so none begins in the midst of another one.)
function faultOf({ raw }, id) {
  const leaf = new X509Certificate(raw), uris = (leaf.subjectAltName ?? "").split(", ").filter((it) => it.startsWith("URI:"));
  if (uris.length !== 1) return new Error("its certificate has not exactly one URI, so it is no X.509-SVID");
  if (uris[0] !== `URI:${id}`) return new Error(`its certificate is that of ${JSON.stringify(uris[0].slice(4))}, and not of ${id}`);
  if (leaf.ca || mayCertify(raw)) return new Error("its certificate may sign others, so it is no X.509-SVID of a server");
  return undefined;
}

// Whether the key usage of a certificate lets it sign others. (Where its name stands by chance, the certificate is refused at worst.)
function mayCertify(der) {
  for (let at = der.indexOf(KEY_USAGE); at >= 0; at = der.indexOf(KEY_USAGE, at + 1)) {
    let rest = der.subarray(at + KEY_USAGE.length);
    if (rest[0] === 0x01) rest = rest.subarray(3); // that it is critical
    if (rest[5] & MAY_CERTIFY) return true;
  }
  return false;
}
