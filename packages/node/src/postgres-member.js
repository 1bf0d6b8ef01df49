// A member of a group's store in PostgreSQL, over node-pg. Each call ends at a moment that its caller says, by the clock of `performance`.

import { createRequire } from "node:module";
import { readFileSync } from "node:fs";
import * as tls from "node:tls";
import { CELL, Gate, StoreFault, brief, bytesOf, foundOf, now, until, withdrawalsOf } from "./answers.js";
import { isOver, later, momentOf } from "./moments.js";
import * as said from "./statements.js";

const HEAD = 33, OWNER = 32; // bytes of an answer's head, and of an owner
const INT8 = 20;
const NAME = /^(?!pg_)[A-Za-z0-9_-]{1,63}$/;
const pg = createRequire(import.meta.url)("pg");
const types = { getTypeParser: (oid, format) => (oid === INT8 ? BigInt : pg.types.getTypeParser(oid, format)) };

const expiryOf = (expires) => (expires < said.MOST_EXPIRY ? expires : said.MOST_EXPIRY);

/** One of the addresses, and what the last look at it saw where there are several. */
class Server {
  role;
  fault = "";
  at;
  #url;

  constructor(number, url) {
    this.number = number;
    this.#url = url;
    this.options();
  }

  /** What node-pg takes. An error has no part of the address, which may be secret. */
  options() {
    let url;
    try {
      url = new URL(this.#url);
    } catch {
      // (it says what it read)
    }
    if (url?.protocol !== "postgres:" && url?.protocol !== "postgresql:") {
      throw new TypeError(`address ${this.number} is no URL like postgres://USER@HOST/DATABASE`);
    }
    if (url.host.includes(",")) throw new TypeError(`address ${this.number} names several servers: give each its own`);
    const of = (name, variable) => url.searchParams.get(name) ?? process.env[variable];
    const given = { mode: of("sslmode", "PGSSLMODE") ?? "require", ca: of("sslrootcert", "PGSSLROOTCERT"), cert: of("sslcert", "PGSSLCERT"), key: of("sslkey", "PGSSLKEY") };
    for (const name of ["sslmode", "sslrootcert", "sslcert", "sslkey", "target_session_attrs"]) url.searchParams.delete(name);
    return { connectionString: url.href, ssl: tlsOf(given, url.hostname.replace(/^\[|\]$/g, "")), types };
  }
}

/** How libpq speaks TLS in a mode. Files are read for each connection. */
function tlsOf({ mode, ca, cert, key }, host) {
  if (mode === "disable") return false;
  const isFull = mode === "verify-full", isChecked = isFull || mode === "verify-ca" || ca !== undefined;
  const read = (file) => (file === undefined ? undefined : readFileSync(file));
  return {
    ca: read(ca), cert: read(cert), key: read(key), rejectUnauthorized: isChecked,
    checkServerIdentity: (_, shown) => (isFull ? tls.checkServerIdentity(host, shown) : undefined),
  };
}

/** A connection, for one call at a time. */
class Connection {
  session;
  #client;
  #names = new Map();
  #warned = "";

  constructor(at) {
    this.at = at;
    this.#client = new pg.Client(at.options());
    this.#client.on("error", () => {}); // (the next call hears it)
    this.#client.on("notice", ({ code = "", message }) => {
      if (!code.startsWith("00")) this.#warned = message; // (the class of notices that are no warnings)
    });
  }

  async connect(end) {
    try {
      await until(end, this.#client.connect());
      this.#client.unref(); // (a call that waits keeps the process by its timer)
    } catch (why) {
      this.close();
      throw why;
    }
    return this;
  }

  close() {
    this.#client.connection.stream.destroy();
  }

  /** The rows that a statement answers, which the connection prepares once. */
  async call(text, values, end) {
    this.#warned = "";
    if (!this.#names.has(text)) this.#names.set(text, `s${this.#names.size}`);
    const asked = { name: this.#names.get(text), text, values, rowMode: "array" };
    const { rows } = await until(end, this.#client.query(asked), () => this.close());
    if (this.#warned) throw new StoreFault("server", `the server warns: ${brief(this.#warned)}`); // (a commit that did not wait for standbys is no error for it)
    return rows;
  }
}

/** What a server is. */
async function roleOf(connection, ask, end) {
  const [[primary, system, started, line]] = await connection.call(ask, [], end);
  return { primary: primary === 1n, system, started, line };
}

const same = (one, other) => one.primary === other.primary && one.system === other.system && one.started === other.started && one.line === other.line;

/** A connection to a server, and what that is. */
async function reach(at, ask, end) {
  const one = await new Connection(at).connect(end);
  try {
    return [one, await roleOf(one, ask, end)];
  } catch (why) {
    one.close();
    throw why;
  }
}

/**
 * All addresses. Where there are several, each one is looked at all the time: so a member does not go on with a primary whose place another server
 * has taken.
 */
class Servers {
  role; // the statement that asks what a server is
  #all;
  #watching = false;
  #ended = false;
  #heard = [];

  constructor(urls, role) {
    this.#all = urls.map((url, n) => new Server(n + 1, url));
    this.role = role;
  }

  end() {
    this.#ended = true;
    this.#tell();
  }

  /** The primary, once each server was looked at. */
  async primary(end) {
    if (this.#all.length === 1) return this.#all[0];
    if (!this.#watching) {
      this.#watching = true;
      for (const one of this.#all) this.#watch(one);
    }
    while (!this.#isLookedAt()) {
      if (this.#ended) throw new StoreFault("closed");
      await until(end, new Promise((resolve) => this.#heard.push(resolve)));
    }
    return this.#first();
  }

  /** Throws if what a server answers does not count. */
  counts(at) {
    if (this.#all.length === 1) return;
    if (!this.#isLookedAt()) throw new StoreFault("server", "not all servers were looked at");
    const first = this.#first();
    if (first !== at && !(at.role && same(first.role, at.role))) throw new StoreFault("stale");
  }

  #tell() {
    for (const resolve of this.#heard.splice(0)) resolve();
  }

  #isLookedAt() {
    return this.#all.every((it) => it.at !== undefined && !isOver(said.MOST_AGE, it.at));
  }

  /** The primary by the last looks. */
  #first() {
    let first;
    const faults = [];
    for (const one of this.#all) {
      if (!one.role?.primary) faults.push(`address ${one.number}: ${one.fault || said.FAULTS.standby}`);
      else if (!first) first = one;
      else if (same(first.role, one.role)) continue; // (one server may have two addresses)
      else if (first.role.system !== one.role.system) {
        throw new StoreFault("server", `addresses ${first.number} and ${one.number} are primaries of two database clusters: name the servers of one`);
      } else if (first.role.line === one.role.line) {
        throw new StoreFault("server", `addresses ${first.number} and ${one.number} are both primaries: stop the wrong one`);
      } else if (first.role.line < one.role.line) first = one; // It was promoted later.
    }
    if (!first) throw new StoreFault("server", faults.join("; "));
    return first;
  }

  /** Looks at a server until the end. */
  async #watch(at, connection) {
    if (this.#ended) return connection?.close();
    const begun = momentOf(), end = begun.up + said.LOOK_WAIT;
    let role, fault = "", when = begun;
    if (connection && isOver(said.MOST_AGE, at.at, begun)) {
      connection.close(); // (it may have ended while the machine was suspended, which says nothing of the server)
      connection = undefined;
    }
    try {
      if (connection) role = await roleOf(connection, this.role, end);
      else [connection, role] = await reach(at, this.role, end);
    } catch (why) {
      fault = brief(String(why.message));
      connection?.close();
      connection = undefined;
      when = later(begun, Math.min(now() - begun.up, said.LOOK_WAIT)); // (it answered nobody until then)
    }
    Object.assign(at, { role, fault, at: when });
    this.#tell();
    if (this.#ended) connection?.close();
    else setTimeout(() => this.#watch(at, connection), Math.max(0, begun.up + said.LOOK_EVERY - now())).unref();
  }
}

/** A member. It is to look at the store once a second, by `look`. */
export class Member {
  #statements = {};
  #terms;
  #group;
  #replicas;
  #servers;
  #turn = new Gate(1); // who looks at the store
  #calls = new Gate(said.MOST_CALLS);
  #open = new Set();
  #idle = [];
  #left = []; // sessions that may do yet what was given up
  #marks = [];
  #unfit; // why nothing is accepted
  #ended = false;
  /** The epoch that this member knows. */
  epoch;

  /** @param terms `lasts`, `margin` and `back`, in seconds */
  constructor({ servers, group, replicas }, terms) {
    if (!NAME.test(group)) throw new TypeError("group is letters, digits, - and _ alone, at most 63 of them, and does not begin with pg_");
    for (const [name, text] of Object.entries(said.STATEMENTS)) this.#statements[name] = text.replaceAll("{S}", `"${group}"`);
    this.#terms = terms;
    this.#group = group;
    this.#replicas = replicas;
    this.#servers = new Servers(servers, this.#statements.role);
  }

  close() {
    this.#ended = true;
    this.#servers.end();
    for (const one of this.#open) one.close();
    this.#idle = [];
  }

  /** Looks at the store, and removes what is over: `epoch`, `deaf`, `time`, and `wait`, for how many milliseconds no claim has an answer yet. */
  look(given) {
    const end = this.epoch === undefined ? given : Math.min(given, now() + said.STATE_WAIT); // (who hangs here must not hinder the next look)
    return this.#turn.within(end, async () => {
      await this.#endLeft(end);
      const { due, ...is } = await this.#see(end);
      const half = now() + Math.min(1000, (end - now()) / 2);
      for (let more = due; more && now() < half; ) {
        const [[count]] = await this.#call("expire", [], end);
        more = count === BigInt(said.PIECES);
      }
      return is;
    });
  }

  /** Asks what the store is, and keeps what of that matters to a claim. */
  async #see(end) {
    const { lasts, margin, back } = this.#terms;
    const asked = [this.epoch ?? null, ...arraysOf(this.#marks), this.#replicas, margin, back];
    const [[epoch, deaf, time, wait, itsLasts, itsMargin, due, unfit]] = await this.#call("state", asked, end);
    this.#unfit = unfit === null ? undefined : new StoreFault("unfit", unfit);
    if (this.#unfit) throw this.#unfit;
    if (this.epoch !== epoch) [this.epoch, this.#marks] = [epoch, []];
    this.#marks = this.#marks.filter((it) => it.expires + itsMargin >= time);
    if (itsLasts < lasts) await this.#call("agree", [lasts], end);
    return { epoch, deaf, time, wait: Number(wait), due: due === 1n };
  }

  /** Ends what was given up: a call that waits for a standby does so for ever. */
  async #endLeft(end) {
    const left = this.#left.splice(0);
    if (!left.length) return;
    try {
      await this.#call("terminate", [left.join(",")], end);
    } catch (why) {
      this.#left.unshift(...left);
      throw why;
    }
  }

  /** Puts claims. Each has an answer of its own, or a StoreFault. */
  async put(claims, end) {
    if (!claims.length) return [];
    let answer;
    try {
      const [{ key, owner, expires }] = claims;
      answer =
        claims.length === 1
          ? await this.#decide("put one", [bytesOf(key), bytesOf(owner), expiryOf(expires)], 1, end)
          : await this.#decide("put", arraysOf(claims), claims.length, end);
    } catch (why) {
      if (why.reason !== "held" || claims.length === 1) return claims.map(() => why);
      const half = claims.length >> 1; // (one of them may hold up all)
      return (await Promise.all([this.put(claims.slice(0, half), end), this.put(claims.slice(half), end)])).flat();
    }
    const found = claims.map((claim, n) => foundOf(answer, claim, n));
    this.#keep(claims, found, answer);
    return found;
  }

  /** Withdraws a token, and returns the owner that is there: zeros if nobody claimed it. */
  async withdraw(key, expires, end) {
    const answer = await this.#decide("withdraw", [bytesOf(key), expiryOf(expires)], 1, end);
    const one = { key, owner: Buffer.alloc(OWNER), expires };
    const found = foundOf(answer, one, 0);
    if (found instanceof StoreFault) throw found;
    if (isStored(answer, 0)) this.#keep([one], [found], answer); // (a withdrawal that was there may end earlier)
    return found.owner;
  }

  /** The withdrawals after a position, and the position up to which these are read. */
  async withdrawals(after, end) {
    const [[last, bytes]] = await this.#call("withdrawals", [after.replaceAll("\0", " ")], end);
    return { these: withdrawalsOf(bytes), last };
  }

  /** Keeps the claim in mind that lives longest of those that a call stored, and each that was there: each look asks whether they are there. */
  #keep(claims, found, answer) {
    if (this.epoch !== answer.epoch) return;
    let stored;
    for (const [n, it] of claims.entries()) {
      if (found[n] instanceof StoreFault || !bytesOf(it.owner).equals(found[n].owner)) continue;
      if (!isStored(answer, n)) this.#marks = markedLate(this.#marks, it);
      else if (!stored || it.expires > stored.expires) stored = it;
    }
    if (stored) this.#marks = marked(this.#marks, stored);
  }

  /** Calls a function that answers as put does for so many claims. Where the answer does not count, looks at the store, so that the next one may. */
  async #decide(name, values, count, end) {
    if (this.epoch === undefined) await this.look(end);
    const epoch = this.epoch;
    if (this.#unfit) throw this.#unfit;
    let rows;
    try {
      rows = await this.#calls.within(end, () => this.#call(name, values, end, true));
    } catch (why) {
      if (why.reason === "missing" || why.reason === "alone") await this.look(end);
      throw why;
    }
    const answer = answerOf(rows, count);
    if (!answer.status && answer.epoch === epoch) return answer;
    if (answer.status !== said.QUARANTINE || answer.epoch !== epoch) await this.look(end);
    throw new StoreFault(answer.status ? said.OF_STATUS[answer.status] ?? "answer" : "epoch");
  }

  /** Makes a call on a connection to the primary, whose answer counts. `confirm`: other servers must have what it commits. */
  async #call(name, values, end, confirm = false) {
    const one = await this.#taken(end), begun = momentOf();
    let rows;
    try {
      rows = await one.call(this.#statements[name], values, end);
      if (confirm && this.#replicas > 1) {
        const [[kept]] = await one.call(this.#statements.kept, [this.#replicas], end);
        if (kept !== 1n) throw new StoreFault("alone");
      }
      if (confirm && isOver(said.SOON, begun)) await one.call(this.#statements.role, [], end); // (it may be gone, and who was away would see that later than its answer)
    } catch (why) {
      throw await this.#failed(one, why, name, end);
    }
    this.#give(one, true);
    this.#servers.counts(one.at);
    return rows;
  }

  /** What an error means, after which the connection ends, with all that wait. */
  async #failed(one, why, name, end) {
    const code = why.severity === undefined ? "" : why.code ?? "";
    const reason = said.OF_CODES[code];
    this.#give(one, reason === "held");
    if (!code && this.#left.length < said.MOST_LEFT) this.#left.push(one.session);
    if (this.#ended) return new StoreFault("closed");
    if (why instanceof StoreFault) return why;
    if (reason === undefined) return new StoreFault("server", brief(String(why.message)), { cause: why });
    return new StoreFault(reason, reason === "rights" && name !== "lacking" ? await this.#lacking(end) : "");
  }

  /** The rights that are missing, as SQL. */
  async #lacking(end) {
    try {
      const [[found]] = await this.#call("lacking", [this.#group], end);
      return found ? `: ${found}` : "";
    } catch {
      return ""; // (it is unknown)
    }
  }

  async #taken(end) {
    if (this.#ended) throw new StoreFault("closed");
    for (let one; (one = this.#idle.pop()); ) {
      try {
        this.#servers.counts(one.at);
        return one;
      } catch {
        this.#forget(one);
      }
    }
    const at = await this.#servers.primary(end), dial = Math.min(end, now() + said.DIAL_WAIT);
    let one;
    try {
      let role;
      [one, role] = await reach(at, this.#servers.role, dial);
      if (!role.primary) throw new StoreFault("standby");
      const [row] = await one.call(this.#statements.session, [], dial);
      one.session = row.at(-1);
      if (this.#ended) throw new StoreFault("closed");
    } catch (why) {
      one?.close();
      if (why instanceof StoreFault) throw why;
      throw new StoreFault("server", `address ${at.number}: ${brief(String(why.message))}`, { cause: why });
    }
    this.#open.add(one);
    return one;
  }

  #forget(one) {
    this.#open.delete(one);
    one.close();
  }

  #give(one, keep) {
    if (keep && !this.#ended && this.#idle.length <= said.MOST_CALLS) {
      this.#idle.push(one);
      return;
    }
    this.#forget(one);
    if (!keep) for (const it of this.#idle.splice(0)) this.#forget(it);
  }
}

/** Reads an answer for so many claims. */
function answerOf(rows, count) {
  const bytes = rows[0]?.[0];
  if (!Buffer.isBuffer(bytes) || (bytes.length !== HEAD && bytes.length !== HEAD + count * CELL)) throw new StoreFault("answer");
  const epoch = bytes.toString("hex", 17, HEAD).replace(/^(.{8})(.{4})(.{4})(.{4})/, "$1-$2-$3-$4-");
  return { status: bytes[0], time: bytes.readBigUInt64BE(1), deaf: bytes.readBigUInt64BE(9), epoch, cells: bytes.subarray(HEAD) };
}

/** Whether the call stored the claim with a number, where it is there. */
const isStored = ({ cells }, n) => !cells.length || cells[n * CELL] === said.STORED;

/** Marks with one more, which an earlier call had stored, whose answer may not have come. Its order at the server is not known. */
function markedLate(marks, one) {
  if (marks.some((it) => bytesOf(it.key).equals(bytesOf(one.key)))) return marks;
  const older = marks.slice(0, -said.RECENT_MARKS), last = marks.slice(-said.RECENT_MARKS);
  if (older.length === said.MOST_MARKS - said.RECENT_MARKS) older.pop();
  const at = older.findIndex((it) => it.expires < one.expires);
  older.splice(at < 0 ? older.length : at, 0, one);
  return [...older, ...last];
}

/**
 * Marks with one more: the last ones that a call stored, and before them those that outlive all that came later. What a store loses at its end is the last
 * claim, or some of the last. So one of the marks is lost too, while it has not expired.
 */
function marked(marks, one) {
  const all = [...marks, one], older = all.slice(0, -said.RECENT_MARKS), last = all.slice(-said.RECENT_MARKS);
  const newest = older.pop();
  if (newest) {
    while (older.length && older.at(-1).expires <= newest.expires) older.pop();
    if (older.length === said.MOST_MARKS - said.RECENT_MARKS) older.pop(); // (the one before it in time says nearly as much)
    older.push(newest);
  }
  return [...older, ...last];
}

/** The arguments of put. */
const arraysOf = (claims) => [claims.map((it) => bytesOf(it.key)), claims.map((it) => bytesOf(it.owner)), claims.map((it) => expiryOf(it.expires))];
