// A member of a group's store in Redis, over node-redis. Each call ends at a moment that its caller says, by the clock of `performance`.

import { createHash, randomBytes } from "node:crypto";
import { readFileSync } from "node:fs";
import { createRequire } from "node:module";
import { CELL, Gate, Shared, StoreFault, brief, bytesOf, foundOf, now, until, withdrawalsOf } from "./answers.js";
import { isOver, momentOf } from "./moments.js";
import * as said from "./scripts.js";
import { DIAL_WAIT, MOST_AGE, MOST_CALLS, MOST_MARKS, STATE_WAIT } from "./statements.js";

const redis = createRequire(import.meta.url)("redis");
const NAME = /^[A-Za-z0-9_-]{1,64}$/;
const MOST_REPLICAS = 64;
const SETTINGS = ["appendonly", "appendfsync", "no-appendfsync-on-rewrite", "maxmemory-policy"];
const SCRIPTS = new Map(
  Object.entries(said.SCRIPTS).map(([name, text]) => {
    const whole = `${said.SCRIPTS.common}\n${text}`;
    return [name, { text: whole, digest: createHash("sha1").update(whole).digest("hex") }];
  }),
);
const SHARDS = 16; // of a Cluster
const LOST = ["replica", "cluster"]; // (then the next call looks where the server is)
// What a member knows of a shard: scripts write it, and read it. (`marks` are of each call that may have put this member's last entry.)
const KNOWN = Object.freeze({ record: "", epoch: "", deaf: 0n, latest: 0n, life: [0, 0n], marks: [] });

/** The run of the server whose entries were compared. */
const runOf = ({ record }) => String(record).split(" ")[7];

/** The slot of a Cluster that has keys with a hash tag: CRC-16 of the tag, by the polynomial 0x1021. */
function slotOf(tag) {
  let sum = 0;
  for (const byte of Buffer.from(tag)) {
    sum ^= byte << 8;
    for (let bit = 0; bit < 8; bit++) sum = ((sum << 1) ^ (sum & 0x8000 ? 0x1021 : 0)) & 0xffff;
  }
  return sum % 16384;
}

/** What a map has under a key: this, if there was nothing. */
function grouped(map, key, first) {
  if (!map.has(key)) map.set(key, first);
  return map.get(key);
}

/** What one server has at a time: all of the store, or, in a Cluster, what has one hash tag. */
class Shard {
  turn = new Gate(1); // who looks at it
  count = 0; // (it never goes back: an older copy must not have a greater one)
  seen = 0; // the greatest one whose look was answered
  checked = ""; // the run of the server whose settings were seen
  agreed = ""; // the name of the server that has what this member knows
  known = KNOWN;

  constructor(tag) {
    this.key = `svid:{${tag}}:epoch`;
    this.slot = slotOf(tag);
  }
}

/** What a URL says. */
class Server {
  #words;

  constructor(name, words) {
    this.name = name;
    this.#words = words;
    for (const it of ["service", "isUnchecked", "replicas", "host"]) this[it] = words[it];
    this.isPlain = !words.path && !Number(words.database); // (a Cluster has no sockets, and one database)
    this.options();
  }

  /** The server at another address that is spoken to in the same way. */
  at(host, port) {
    return new Server(`${host}:${port}`, { ...this.#words, host, port, service: undefined });
  }

  /** The server without a database, which no server of a Cluster lets a connection choose. */
  whole() {
    return new Server(this.name, { ...this.#words, database: "" });
  }

  /** What node-redis takes. Files are read for each connection. */
  options() {
    const { host, port, path, service, files, user, password, passwordFile, sentinelPasswordFile, database, isSecure } = this.#words;
    const socket = { connectTimeout: DIAL_WAIT, reconnectStrategy: () => new Error("the connection is lost"), ...(path ? { path } : { host, port }) };
    if (isSecure) {
      const { ssl_ca_certs: ca, ssl_certfile: cert, ssl_keyfile: key } = files;
      const read = (file) => (file === undefined ? undefined : readFileSync(file));
      Object.assign(socket, { tls: true, ca: read(ca), cert: read(cert), key: read(key), servername: /^[\d.]+$|:/.test(host) ? undefined : host });
    }
    const file = service ? sentinelPasswordFile : passwordFile;
    const secret = file ? readFileSync(file, "utf8").split(/\r?\n/)[0] : service ? "" : password || process.env.REDISCLI_AUTH;
    const shown = secret ? { password: secret, username: (!service && user) || undefined } : {};
    return { socket, disableOfflineQueue: true, ...shown, ...(service || !database ? {} : { database: Number(database) }) };
  }
}

/** Reads an address. An error has no part of it that may be secret. */
function serverOf(text, number) {
  const need = (it, why) => {
    if (!it) throw new TypeError(`address ${number}: ${why}`);
  };
  const like = "it is not like redis://HOST:PORT, rediss://HOST:PORT for TLS, unix:///PATH, or redis+sentinel://HOST:PORT?service=NAME";
  let url, user, password;
  try {
    url = new URL(text);
    [user, password] = [url.username, url.password].map(decodeURIComponent);
  } catch {
    need(false, like);
  }
  const scheme = url.protocol.slice(0, -1), isSocket = scheme === "unix", isSecure = scheme.startsWith("rediss"), isSentinel = scheme.endsWith("+sentinel");
  need(["redis", "rediss", "unix", "redis+sentinel", "rediss+sentinel"].includes(scheme), like);
  need(isSocket ? !url.hostname && url.pathname : url.hostname, like);
  const given = Object.fromEntries(url.searchParams);
  const { service, password_file: passwordFile, sentinel_password_file: sentinelPasswordFile, db, settings, replicas = "1", ...files } = given;
  const names = ["ssl_ca_certs", "ssl_certfile", "ssl_keyfile"];
  const known = ["service", "password_file", "sentinel_password_file", "db", ...names, "replicas", "settings"];
  need(Object.keys(files).every((it) => names.includes(it)), `what stands after its ? is none of ${known.join(", ")}`);
  need(settings === undefined || settings === "unchecked", "settings can only be unchecked");
  need(/^[1-9][0-9]?$/.test(replicas) && replicas <= MOST_REPLICAS, `replicas can be from 1 to ${MOST_REPLICAS}`);
  const database = db ?? (isSocket ? "" : url.pathname.slice(1));
  need(/^(|0|[1-9][0-9]{0,8})$/.test(database), "its db is not the number of a database");
  need(isSentinel === Boolean(service), "a Sentinel's address has ?service=NAME");
  need(isSecure || !Object.keys(files).length, "certificates are of use with rediss:// alone");
  need(!files.ssl_certfile === !files.ssl_keyfile, "ssl_certfile and ssl_keyfile are only of use together");
  const host = url.hostname.replace(/^\[|\]$/g, ""), port = Number(url.port || (isSentinel ? 26379 : 6379)), path = isSocket ? url.pathname : undefined;
  const words = { host, port, path, service, files, user, password, passwordFile, sentinelPasswordFile, database, isSecure };
  return new Server(path ?? `${host}:${port}`, { ...words, isUnchecked: settings !== undefined, replicas: Number(replicas) });
}

/** A connection, for one call at a time. It is never made again: node-redis would do so by itself, and nobody has looked at what it then leads to. */
class Connection {
  isBroken = false;
  used; // when it was asked last which server is the primary
  #client;
  #isMade = false;
  #why; // it is broken
  #secret = "";

  constructor(at) {
    this.at = at;
  }

  async connect(end) {
    try {
      const options = this.at.options();
      this.#secret = options.password;
      this.#client = redis.createClient(options);
      this.#client.on("error", (why) => {
        this.#why ??= why;
        this.close();
      });
      this.#client.on("connect", () => {
        this.#isMade = true;
        if (this.isBroken) queueMicrotask(() => this.close()); // (node-redis logs in first, and says nothing of a command that it can't send)
      });
      await until(end, this.#client.connect(), () => this.close());
      this.#client.unref(); // (a call that waits keeps the process by its timer)
    } catch (why) {
      this.close();
      throw this.fault(why);
    }
    return this;
  }

  close() {
    this.isBroken = true;
    // (node-redis does not close what is still being connected)
    if (this.#isMade) this.#client.disconnect().catch(() => {}); // (it may be closed)
  }

  /** Sends commands in one go, and returns an answer for each, which may be an error. */
  async call(commands, end) {
    const sent = commands.map((words) =>
      this.#client.sendCommand(words.map((it) => (Buffer.isBuffer(it) ? it : String(it))), { returnBuffers: true }).catch((why) => {
        if (why instanceof redis.ErrorReply) return why;
        this.isBroken = true;
        throw why;
      }),
    );
    try {
      return await until(end, Promise.all(sent), () => this.close());
    } catch (why) {
      throw this.fault(why);
    }
  }

  /** Answers without an error. */
  good(answers) {
    for (const it of answers) if (it instanceof Error) throw this.fault(it);
    return answers;
  }

  async checked(commands, end) {
    return this.good(await this.call(commands, end));
  }

  /** What the script `state` takes of the server's settings. */
  async settings(end) {
    if (this.at.isUnchecked) return ["unchecked"];
    const [answer] = await this.call([["CONFIG", "GET", ...SETTINGS]], end);
    return answer instanceof Error ? [brief(answer.message)] : [`it tells ${answer.length / 2} of ${SETTINGS.length}`, ...answer];
  }

  fault(why) {
    if (why instanceof StoreFault) return why;
    const cause = why instanceof redis.ErrorReply ? why : (this.#why ?? why), name = said.OF_CODES[String(cause.message).split(" ")[0]];
    if (this.#secret) cause.message = String(cause.message).replaceAll(this.#secret, "***"); // (a server that does not know AUTH says what it was given)
    const more = `${this.at.name}: ${brief(String(cause.message))}`;
    return new StoreFault(name ?? "server", name ? `: ${more}` : more, { cause });
  }
}

/**
 * All addresses. Where there are several, or Sentinels, all are asked at each look: so a member does not go on with a primary whose place another server
 * has taken, and accepts nothing where two say that they are it. Of a Cluster any of them says where the slots are.
 */
class Servers {
  #all;
  #kept = new Map();
  #primary;
  #looked; // when the look began that found it
  #looking = new Shared();
  #ranges; // where the slots of a Cluster are
  #locating = new Shared();
  #first = 0; // which server of a Cluster is asked first
  #ended = false;

  constructor(urls) {
    this.#all = urls.map((it, n) => serverOf(it, n + 1));
    if (new Set(this.#all.map((it) => !it.service)).size > 1) throw new TypeError("either all addresses are those of Sentinels, or none is");
    this.replicas = Math.max(...this.#all.map((it) => it.replicas));
  }

  end() {
    this.#ended = true;
    for (const one of this.#kept.values()) one.close();
  }

  /** Lets the next call look where the servers are. */
  lost() {
    this.#primary = this.#ranges = undefined;
  }

  /** Asks a server whether it is one of a Cluster. */
  async isCluster(end) {
    if (this.#all[0].service) return false; // (a server that is one all the same is found unfit)
    const is = await this.#any(this.#all.map((it) => it.whole()), ["INFO", "server"], end, (text) => /redis_mode:cluster/.test(text));
    if (is && !this.#all.every((it) => it.isPlain)) throw new StoreFault("unfit", said.FAULTS.named);
    return is;
  }

  /** The server that has a slot of a Cluster. */
  async holder(slot, end) {
    const locate = (last) => this.#any(this.#all, ["CLUSTER", "SLOTS"], last, (answer, at) => this.#rangesOf(answer, at));
    const ranges = (this.#ranges ??= await this.#locating.within(end, () => end, locate));
    const found = ranges.find(({ first, last }) => first <= slot && slot <= last);
    if (found) return found.at;
    this.lost();
    throw new StoreFault("slot");
  }

  /** Reads an answer to CLUSTER SLOTS. */
  #rangesOf(answer, asked) {
    const servers = new Map();
    return answer.map(([first, last, [host, port]]) => {
      const named = String(host ?? "") || asked.host, name = `${named}:${port}`; // (a server that does not know its own name says none)
      if (!servers.has(name)) servers.set(name, this.#all[0].at(named, Number(port)));
      return { first, last, at: servers.get(name) };
    });
  }

  /** What the first server says that answers. The next time that one is asked first. */
  async #any(servers, command, end, read) {
    const faults = [];
    for (let n = 0; n < servers.length; n++) {
      const at = servers[(this.#first + n) % servers.length], soon = servers.length === 1 ? end : Math.min(end, now() + said.ASK_WAIT);
      try {
        const found = read(await this.#once(at, command, soon), at);
        this.#first += n;
        return found;
      } catch (why) {
        if (this.#ended) throw new StoreFault("closed");
        faults.push(why instanceof StoreFault ? why : new StoreFault(why instanceof TypeError ? "answer" : "server", brief(String(why.message))));
        if (now() < end) continue;
        this.#first += n + 1; // (so that a call whose time is over leaves the next one a server that answers)
        break;
      }
    }
    throw faults.length === 1 ? faults[0] : new StoreFault("server", faults.map((it) => it.message).join("; "));
  }

  /** What a server answers to one command. */
  async #once(at, command, end) {
    const one = new Connection(at);
    this.#kept.set(one, one);
    try {
      const [answer] = await (await one.connect(end)).checked([command], end);
      return answer;
    } finally {
      this.#kept.delete(one);
      one.close();
    }
  }

  /** The primary, by the last look: if that is not too old, since another server that has taken over compares until then. */
  async primary(end) {
    return this.#primary && (this.#isAlone || !isOver(MOST_AGE, this.#looked)) ? this.#primary : this.look(end);
  }

  /** Asks all servers which one is the primary. */
  async look(end) {
    if (this.#isAlone) return (this.#primary = this.#all[0]);
    return this.#looking.within(end, () => Math.min(end, now() + said.ASK_WAIT, (now() + end) / 2), (last) => this.#find(last));
  }

  get #isAlone() {
    return this.#all.length === 1 && !this.#all[0].service;
  }

  async #find(end) {
    this.#primary = undefined;
    const begun = momentOf(), answers = await Promise.all(this.#all.map((it) => this.#asked(it, end).catch((why) => why)));
    const found = new Map(answers.filter((it) => it instanceof Server).map((it) => [it.name, it]));
    if (found.size > 1) throw new StoreFault(this.#all[0].service ? "sentinels" : "primaries", `: ${[...found.keys()].join(" and ")}`);
    if (!found.size) throw new StoreFault("server", answers.map((it) => brief(String(it.message))).join("; "));
    const hadTime = isOver(said.ASK_WAIT / 2, begun);
    if (!hadTime && answers.some((it) => it.reason === "silent")) throw new StoreFault("silent"); // (who does not answer may be the primary)
    [this.#primary] = found.values();
    this.#looked = begun;
    return this.#primary;
  }

  async #asked(at, end) {
    let one = this.#kept.get(at);
    try {
      if (!one || one.isBroken || isOver(MOST_AGE, one.used)) {
        one?.close(); // (it may have ended while the machine was suspended, which says nothing of the server)
        one = await new Connection(at).connect(end);
        if (this.#ended) throw new StoreFault("closed");
        this.#kept.set(at, one);
      }
      one.used = momentOf();
      const [answer] = await one.checked([at.service ? ["SENTINEL", "GET-MASTER-ADDR-BY-NAME", at.service] : ["ROLE"]], end);
      if (!at.service) {
        if (String(answer[0]) !== "master") throw new StoreFault("replica", `: ${at.name}`);
        return at;
      }
      if (!answer) throw new StoreFault("server", `${at.name} knows no primary of the name ${JSON.stringify(at.service)}: see its line sentinel monitor`);
      return at.at(String(answer[0]), Number(answer[1]));
    } catch (why) {
      if (this.#ended) one?.close();
      throw why;
    }
  }
}

/** A member. It is to look at the store once a second, by `look`. */
export class Member {
  #group;
  #terms;
  #compare;
  #replicas;
  #servers;
  #shards = []; // none before it is known if there is a Cluster
  #life = randomBytes(8).toString("hex");
  #open = new Set();
  #pools = new Map(); // by the names of servers: the connections that wait for a call, and the calls
  #ended = false;
  /** The epoch that the last look found. */
  epoch;

  /** @param terms `lasts`, `margin` and `back`, in seconds @param compare for how many milliseconds members compare */
  constructor({ servers, group, replicas }, terms, compare = said.COMPARE_WAIT) {
    if (!NAME.test(group)) throw new TypeError("group is letters, digits, - and _ alone, at most 64 of them");
    this.#group = group;
    this.#terms = terms;
    this.#compare = compare;
    this.#servers = new Servers(servers);
    this.#replicas = Math.max(replicas, this.#servers.replicas) - 1;
    if (this.#replicas >= MOST_REPLICAS) throw new RangeError(`replicas is from 1 to ${MOST_REPLICAS}`);
  }

  close() {
    this.#ended = true;
    this.#servers.end();
    for (const one of this.#open) one.close();
    this.#pools.clear();
  }

  /** Looks at the store: `epoch`, `deaf`, `time`, and `wait`, which is 0. */
  async look(end) {
    const all = await this.#all(end);
    if (!this.#isCluster) await this.#servers.look(end);
    const parts = await this.#parts(new Map(all.map((it) => [it])), end);
    const looked = await Promise.allSettled(parts.map((part) => this.#with(part, end, (one) => this.#agree(one, [...part.keys()], end))));
    for (const { reason } of looked) if (reason) throw reason;
    const known = all.map((it) => it.known), greatest = (these) => these.reduce((one, other) => (one > other ? one : other));
    const epoch = known.map((it) => it.epoch).join();
    this.epoch = this.#isCluster ? createHash("sha256").update(epoch).digest("hex").slice(0, 32) : epoch;
    return { epoch: this.epoch, deaf: greatest(known.map((it) => it.deaf)), time: greatest(known.map((it) => it.life[1])), wait: 0 };
  }

  /** Puts claims. Each has an answer of its own, or a StoreFault. */
  async put(claims, end) {
    const found = new Map(), of = new Map();
    let parts;
    try {
      await this.#all(end);
      for (const claim of claims) grouped(of, this.#shardOf(claim.key), []).push(claim);
      parts = await this.#parts(of, end);
    } catch (why) {
      return claims.map(() => why);
    }
    await Promise.all(parts.map(async (part) => {
      const answers = await this.#decide("put", part, end).catch((why) => why);
      [...part.values()].forEach((all, k) => all.forEach((claim, n) => found.set(claim, Array.isArray(answers) ? foundOf(answers[k], claim, n) : answers)));
    }));
    return claims.map((it) => found.get(it));
  }

  /** Withdraws a token, and returns the owner that is there: zeros if nobody claimed it. */
  async withdraw(key, expires, end) {
    const one = { key, owner: Buffer.alloc(CELL - 1), expires }, [first] = await this.#all(end), its = this.#shardOf(key);
    const [answer] = await this.#decide(its === first ? "withdraw" : "put", new Map([[its, [one]]]), end), found = foundOf(answer, one, 0);
    if (found instanceof StoreFault) throw found;
    if (its !== first) await this.#decide("tell", new Map([[first, [one]]]), end); // (it has the list of withdrawals)
    return found.owner;
  }

  /** The withdrawals after a position, and the position up to which these are read. */
  async withdrawals(after, end) {
    const [first] = await this.#all(end), [{ answer }] = await this.#call("withdrawals", new Map([[first, [after]]]), end);
    return { these: withdrawalsOf(answer[2]), last: String(answer[1]) };
  }

  #stays() {
    if (this.#ended) throw new StoreFault("closed");
  }

  get #isCluster() {
    return this.#shards.length > 1;
  }

  /** All shards. Looks at first whether there is a Cluster. */
  async #all(end) {
    this.#stays();
    if (!this.#shards.length) {
      const tags = (await this.#servers.isCluster(end)) ? Array.from({ length: SHARDS }, (_, n) => `${this.#group}:0${n.toString(16)}`) : [this.#group];
      if (!this.#shards.length) this.#shards = tags.map((tag) => new Shard(tag)); // (another call may have looked meanwhile)
    }
    return this.#shards;
  }

  #shardOf(key) {
    return this.#shards[this.#isCluster ? key[0] >> 4 : 0];
  }

  /** Shards, with what is theirs: those of one server together. */
  async #parts(these, end) {
    const parts = new Map();
    for (const [it, what] of these) {
      const name = this.#isCluster ? (await this.#servers.holder(it.slot, end)).name : ""; // (the primary is looked for by who makes a connection)
      grouped(parts, name, new Map()).set(it, what);
    }
    return [...parts.values()];
  }

  /** Looks at shards of a server, one call at a time, until claims may be put. */
  async #agree(one, shards, end) {
    for (;;) {
      let seeing;
      // (a slow server is waited for until the end, but who waits must not hinder the next look)
      await this.#turns(shards, end, () => until(now() + STATE_WAIT, (seeing = this.#see(one, shards, end))).catch(() => {}));
      const { left, pause } = await seeing;
      if (!left.length) return;
      if (now() + pause > end) throw new StoreFault("run");
      await new Promise((resolve) => setTimeout(resolve, pause));
      this.#stays();
      shards = left;
    }
  }

  /** Does something while nobody else looks at some shards. (In one order, so that no two calls wait for each other.) */
  #turns(shards, end, act) {
    const inOrder = [...shards].sort((one, other) => (one.key < other.key ? -1 : 1));
    return inOrder.reduceRight((next, it) => () => it.turn.within(end, next), act)();
  }

  /** Looks at shards once: those that members compare, and for how many milliseconds to wait. */
  async #see(one, shards, end) {
    const { lasts, margin, back } = this.#terms, settings = await one.settings(end);
    const calls = new Map(shards.map((it) => {
      const { known } = it, count = ++it.count, asked = [count, randomBytes(16).toString("hex"), lasts, margin, back, this.#compare, ...known.life, Buffer.concat(known.marks), it.checked];
      return [it, { known, count, values: [...asked, ...settings] }];
    }));
    const answers = await this.#run(one, "state", calls, end), left = [];
    let pause = 0, fault;
    for (const [n, it] of shards.entries()) {
      const [what, more, checked, ...rest] = answers[n], { count, known } = calls.get(it);
      if (count < it.seen) { // (a later look was answered first)
        left.push(it);
        continue;
      }
      [it.seen, it.checked] = [count, checked];
      if (String(what) === "ok") {
        const [record, epoch, deaf, time, latest] = [rest[0], String(rest[1]), ...rest.slice(2).map(BigInt)];
        const is = it.known, same = epoch === is.epoch, isSameRun = runOf({ record }) === runOf(is);
        if (same && !isSameRun && !is.marks.every((mark) => known.marks.includes(mark))) { // (an answer of the earlier run came meanwhile: nobody has compared what that put)
          left.push(it);
          continue;
        }
        it.known = { record, epoch, deaf, latest: same && is.latest > latest ? is.latest : latest, life: [count, time], marks: same ? is.marks : [] };
        it.agreed = one.at.name;
        continue;
      }
      it.agreed = "";
      if (String(what) === "wait") {
        left.push(it);
        pause = Math.max(pause, Math.min(more, said.PAUSE));
      } else fault = new StoreFault(String(what), String(more));
    }
    if (fault) throw fault;
    return { left, pause };
  }

  /** Calls a script that answers as put does, for the claims of shards of one server. */
  async #decide(name, claims, end) {
    const values = new Map([...claims].map(([it, these]) => [it, these.flatMap(({ key, owner, expires }) => [bytesOf(key), bytesOf(owner), expires])]));
    const { calls } = this.#pool(await this.#serverOf(claims, end));
    const answers = await calls.within(end, () => this.#call(name, values, end));
    return [...claims].map(([it, these], n) => this.#decided(it, these.length, answers[n]));
  }

  /** What is answered to so many claims of a shard, if it counts. */
  #decided(it, count, { known, answer }) {
    const [, time, deaf, , least, own, cells, isNew] = answer, is = it.known;
    if (cells.length && cells.length !== count * CELL) throw new StoreFault("answer");
    if (is.epoch !== known.epoch || BigInt(least) < is.latest) {
      it.agreed = "";
      throw new StoreFault("epoch");
    }
    if (runOf(is) !== runOf(known)) throw new StoreFault("run"); // (what a later run has was compared without this answer)
    let { marks } = is;
    for (let n = 0; n < own.length; n += said.MARK) {
      const mark = own.subarray(n, n + said.MARK);
      if (marks.some((one) => one.equals(mark))) continue;
      const left = isNew ? marks.filter((one) => !known.marks.includes(one)) : marks;
      marks = (isNew ? [...left, mark] : [mark, ...left]).slice(-MOST_MARKS); // (one that was found takes no room from others)
    }
    it.known = { ...is, marks, latest: BigInt(time) > is.latest ? BigInt(time) : is.latest };
    return { time: BigInt(time), deaf: BigInt(deaf), cells };
  }

  /** Calls a script for shards of one server, once these were looked at. Says what was known then, too. */
  #call(name, values, end) {
    this.#stays();
    const begun = momentOf();
    return this.#with(values, end, async (one) => {
      for (;;) {
        const others = [...values.keys()].filter((it) => it.agreed !== one.at.name);
        if (others.length) {
          await this.#agree(one, others, end);
          continue;
        }
        const calls = new Map([...values].map(([it, its]) => [it, { known: it.known, values: its }])), answers = await this.#run(one, name, calls, end);
        if (isOver(this.#compare / 3, begun)) { // (the server may be gone, or another one the primary: who was away would see that later than its answer)
          await one.checked([["TIME"]], end);
          if ((await this.#serverOf(values, end)).name !== one.at.name) throw new StoreFault("run");
        }
        const what = answers.map((it) => String(it[0]));
        [...values.keys()].forEach((it, n) => what[n] !== "ok" && (it.agreed = ""));
        const fault = what.find((it) => it !== "ok" && it !== "look");
        if (fault) throw new StoreFault(fault);
        if (!what.includes("look")) return [...calls.values()].map(({ known }, n) => ({ known, answer: answers[n] }));
      }
    });
  }

  /** Runs a script for shards of one server. What it writes counts once enough replicas have it. */
  async #run(one, name, calls, end) {
    const reads = name === "withdrawals", replicas = reads ? 0 : this.#replicas, { text, digest } = SCRIPTS.get(name);
    const commands = [...calls].map(([it, { known, values }]) => {
      const all = reads ? values : [known.record, known.latest, this.#life, replicas, ...values];
      return ["EVALSHA", digest, 1, it.key, ...all];
    });
    // (the server looks at it ten times a second)
    if (replicas) commands.push(["WAIT", replicas, Math.round(Math.max(1, Math.min((end - now()) / 2, said.WAIT_MOST)))]);
    let answers = await one.call(commands, end);
    if (answers.some((it) => it instanceof Error && it.message.startsWith("NOSCRIPT"))) {
      await one.checked([["SCRIPT", "LOAD", text]], end);
      answers = await one.call(commands, end);
    }
    const these = one.good(answers).slice(0, calls.size), kept = answers[calls.size];
    if (!these.every((it) => Array.isArray(it) && it.length)) throw new StoreFault("answer");
    if (replicas && !(kept >= replicas)) throw new StoreFault("alone", `: ${kept} replicas have it, and ${replicas} must`);
    return these;
  }

  /** Does something on a connection to the server of these shards. After an error it ends, with all that wait. */
  async #with(shards, end, act) {
    const one = await this.#taken(shards, end);
    let is;
    try {
      is = await act(one);
    } catch (why) {
      this.#give(one, !one.isBroken && !LOST.includes(why.reason));
      throw this.#ended ? new StoreFault("closed") : why;
    }
    this.#give(one, true);
    return is;
  }

  /** The server of these shards. */
  #serverOf(shards, end) {
    const [first] = shards.keys();
    return this.#isCluster ? this.#servers.holder(first.slot, end) : this.#servers.primary(end);
  }

  #pool({ name }) {
    return grouped(this.#pools, name, { idle: [], calls: new Gate(MOST_CALLS) });
  }

  async #taken(shards, end) {
    const at = await this.#serverOf(shards, end), { idle } = this.#pool(at);
    if (!this.#isCluster) for (const [name, it] of this.#pools) if (name !== at.name) this.#empty(it.idle); // (those to another primary are of no use)
    for (let one; (one = idle.pop()); ) {
      if (!one.isBroken) return one;
      this.#forget(one);
    }
    const one = await new Connection(at).connect(Math.min(end, now() + DIAL_WAIT)).catch((why) => {
      this.#servers.lost(); // (a connection that breaks while it is idle is gone by now, so this is the first to see that another may be the primary)
      throw why;
    });
    this.#open.add(one);
    for (const it of this.#shards) if (it.agreed === at.name) it.agreed = ""; // (a connection that is new may lead to a server that is)
    if (this.#ended) {
      this.#forget(one);
      throw new StoreFault("closed");
    }
    return one;
  }

  #forget(one) {
    this.#open.delete(one);
    one.close();
  }

  #empty(idle) {
    for (const it of idle.splice(0)) this.#forget(it);
  }

  #give(one, keep) {
    const { idle } = this.#pool(one.at);
    if (keep && !this.#ended && idle.length <= MOST_CALLS) {
      idle.push(one);
      return;
    }
    this.#forget(one);
    if (keep) return;
    this.#empty(idle);
    this.#servers.lost();
  }
}
