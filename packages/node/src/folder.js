// The calls of the system on a state folder, by the names of its files (docs/FORMATS.md, "Files of a state folder").

import { spawn } from "node:child_process";
import { once } from "node:events";
import { constants } from "node:fs";
import { mkdir, open, readdir, rename, rmdir, stat, unlink } from "node:fs/promises";
import { hostname } from "node:os";
import { dirname, join, resolve } from "node:path";

import { BadFolder, Held } from "./errors.js";

export const ID_FILE = "place", SNAPSHOT = "snapshot", UNFINISHED = ".new";
/** It is there while a folder of an older svidd has no snapshot of frames yet. */
export const FRAMES = "frames";
const LOCK = "lock", HOLDER = 200; // (bytes that the name of who holds it has at most)
const JOURNAL = /^journal\.([1-9][0-9]{0,19})$/, ID_TEXT = /^[0-9A-Fa-f]{32}\n?$/;
const { O_CREAT, O_DIRECTORY, O_EXCL, O_NONBLOCK, O_RDONLY, O_RDWR, O_WRONLY } = constants;
const IS_HELD = 1; // the status of the command flock

const identityOf = ({ dev, ino }) => `${dev} ${ino}`;

/** The name of the journal of this number. */
export const journalName = (number) => `journal.${number}`;

/** A folder that this process holds. Each call may throw what the system says. */
export class Folder {
  #self;
  #lock;
  #is;

  /** Makes the folder where it is not there, and locks it. Throws Held. */
  static async open(path) {
    const folder = new Folder();
    folder.path = resolve(path);
    await folder.#make();
    try {
      folder.#self = await open(folder.path, O_RDONLY | O_DIRECTORY);
      folder.#lock = await folder.#held();
      folder.#is = await Promise.all([folder.#self, folder.#lock].map(async (it) => identityOf(await it.stat({ bigint: true }))));
    } catch (why) {
      await folder.close();
      throw why;
    }
    return folder;
  }

  /** Lets go of the folder. */
  async close() {
    await this.#lock?.close();
    await this.#self?.close();
  }

  /** The path of a file. */
  at(name) {
    return join(this.path, name);
  }

  /** The numbers of the journals, in rising order, and whether a file has this name. */
  async journals() {
    const found = (await readdir(this.path)).map((it) => BigInt(JOURNAL.exec(it)?.[1] ?? 0));
    return found.filter((it) => it > 0n && it < 2n ** 64n).sort((one, other) => (one < other ? -1 : 1));
  }

  /** All bytes of a file; null where it is not there. */
  async read(name) {
    const file = await regular(this.at(name), O_RDONLY).catch((why) => orNull(why, "ENOENT"));
    try {
      return (await file?.readFile()) ?? null;
    } finally {
      await file?.close();
    }
  }

  /** Opens a new file, instead of one that has the name. */
  async create(name) {
    await this.remove(name);
    return open(this.at(name), O_WRONLY | O_CREAT | O_EXCL, 0o600);
  }

  /** Gives a file that is finished its name. */
  async finish(name) {
    await rename(this.at(name + UNFINISHED), this.at(name));
  }

  /** Removes a file. One that is not there is removed. */
  async remove(name) {
    await unlink(this.at(name)).catch((why) => orNull(why, "ENOENT"));
  }

  /** Forces the names of the folder to the disk. */
  async sync() {
    await this.#self.sync();
  }

  /**
   * Throws unless the path leads to this folder, with the lock that is held. Somebody may have removed or moved it, or mounted another one over
   * it: the lock keeps no other process from what is there now. It reads no disk.
   */
  async stand() {
    const now = await Promise.all([this.path, this.at(LOCK)].map(async (it) => identityOf(await stat(it, { bigint: true }))));
    if (now.join() !== this.#is.join()) throw new Error(`${this.path} is another folder than the one that was opened`);
  }

  /** The ID of the folder; null where it has none. Throws BadFolder. */
  async id() {
    const text = (await this.read(ID_FILE))?.toString("latin1");
    if (text === undefined) return null;
    if (ID_TEXT.test(text)) return new Uint8Array(Buffer.from(text.trim(), "hex"));
    throw new BadFolder(`${this.at(ID_FILE)} is not 32 hexadecimal digits: put back a copy: no file of the folder can be read without it`);
  }

  /**
   * Keeps the ID, before anything is kept that can't be read without it. A start that failed or was killed may have left a file that has it, and an
   * empty folder itself: no later sync vouches for a name whose sync failed. So the file is made again.
   */
  async keepId(id, isEmpty) {
    // (Who may not read the folder above has not made this one. Where that folder is only read, it may have no sync.)
    if (isEmpty) await syncFolder(dirname(this.path)).catch((why) => orNull(why, "EACCES", "EPERM", "EINVAL")).catch((why) => this.#unsure(why));
    const file = await this.create(ID_FILE + UNFINISHED);
    try {
      await write(file, Buffer.from(`${Buffer.from(id).toString("hex")}\n`), 0);
      await file.datasync();
    } finally {
      await file.close();
    }
    await this.finish(ID_FILE);
    await this.sync();
  }

  // Makes the folder where it is not there, so that its name lasts. Where the sync of the folder above fails, no later sync vouches for the name. So
  // the folder is removed, and the next start makes it again.
  async #make() {
    const isThere = await mkdir(this.path, 0o700).catch((why) => orNull(why, "EEXIST"));
    if (isThere === null) return;
    try {
      await syncFolder(dirname(this.path));
    } catch (why) {
      await rmdir(this.path).catch(() => this.#unsure(why));
      throw why;
    }
  }

  #unsure(why) {
    const advice = "mend the disk, remove this folder, which keeps nothing yet, and start again";
    throw new Error(`the name of ${this.path} may not last (${why.message}): ${advice}`, { cause: why });
  }

  // The lock file, locked, with the name of this process.
  async #held() {
    const file = await regular(this.at(LOCK), O_RDWR | O_CREAT);
    try {
      if (!(await isLocked(file))) {
        const { buffer, bytesRead } = await file.read(Buffer.alloc(HOLDER), 0, HOLDER, 0);
        throw new Held(this.path, buffer.toString("utf8", 0, bytesRead).trim() || "another process");
      }
      await file.truncate();
      await write(file, Buffer.from(`process ${process.pid} on ${hostname()} since ${new Date().toISOString().replace(/\..*/, "Z")}\n`), 0);
      return file;
    } catch (why) {
      await file.close();
      throw why;
    }
  }
}

/** Writes all of it at an offset of a file. */
export async function write(file, bytes, at) {
  for (let done = 0; done < bytes.length; ) done += (await file.write(bytes, done, bytes.length - done, at + done)).bytesWritten;
}

// Nothing, for one of these errors of the system. Throws any other one.
function orNull(why, ...codes) {
  if (codes.includes(why.code)) return null;
  throw why;
}

// Takes the lock of a file, if nobody has it. It belongs to the open file, and not to the command that takes it: so it stays until the file is closed.
// (Node has no call for it.)
async function isLocked(file) {
  const ran = spawn("flock", ["-x", "-n", "3"], { stdio: ["ignore", "ignore", "pipe", file.fd] }), said = [], ends = once(ran, "close");
  ran.stderr?.on("data", (it) => said.push(it)); // (there is none where this process may open nothing more)
  const [status] = await ends.catch((why) => {
    throw new Error(`a state folder is locked by the command flock, which can't be run (${why.message}): install it (Debian: util-linux)`, { cause: why });
  });
  if (status === 0 || status === IS_HELD) return status === 0;
  throw new Error(`the command flock did not lock the state folder: ${Buffer.concat(said).toString().trim() || "it was killed"}`);
}

// Opens a regular file. (To open a pipe, or to read one, may take for ever.)
async function regular(path, how) {
  const file = await open(path, how | O_NONBLOCK, 0o600);
  if ((await file.stat()).isFile()) return file;
  await file.close();
  throw new Error(`${path} is no regular file`);
}

async function syncFolder(path) {
  const folder = await open(path, O_RDONLY | O_DIRECTORY);
  try {
    await folder.sync();
  } finally {
    await folder.close();
  }
}
