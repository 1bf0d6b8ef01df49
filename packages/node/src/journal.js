// A state folder: what a validator accepted, kept over restarts and crashes.
//
// The library decides what the bytes of a file are, which call of the system comes next, and what is read of a file that a crash left (include/svid.h,
// "A state folder"). This module makes the calls, and tells the library how they went. It is for Node alone: browsers have no files.

import { BadFolder, Closed, Unavailable } from "./errors.js";
import { FRAMES, Folder, ID_FILE, SNAPSHOT, UNFINISHED, journalName, write } from "./folder.js";
import { random } from "./given.js";
import { FILE_END, FILE_OTHER, FILE_TEAR, Library, MOST_PAYLOAD, joined } from "./library.js";

// The calls of the system (enum svid_call).
const NOTHING = 0n, CREATE_JOURNAL = 1n, SYNC_FOLDER = 2n, WRITE_SNAPSHOT = 3n, SYNC_SNAPSHOT = 4n, RENAME_SNAPSHOT = 5n, REMOVE_JOURNAL = 6n;

/** What a journal grows by: to force a new length to the disk takes longer than the bytes. */
const GROWTH = new Uint8Array(262_144);
/** So many journals of starts are worth a snapshot, and journals of fewer bytes are worth none. `PAUSE` is for one that failed. */
const MANY_JOURNALS = 8, SMALL = 8_388_608, PAUSE = 60_000;
/** For how many milliseconds nobody appends until a mark is worth its write. */
const QUIET = 1000;
/** How many bytes of messages are taken at once. */
const PIECE = 1_048_576;
const MARK = new Uint8Array();

const warn = (text) => process.emitWarning(text, { code: "SVID_STATE" });

/** An open state folder. */
export class Journal {
  #folder;
  #library;
  #numbers; // what the library says is due
  #found = []; // messages
  #parts; // gives what a snapshot is to have
  #small;
  #last = Promise.resolve(); // the last write that was begun, or is to begin
  #next; // the messages that the next write takes
  #file; // the journal that grows
  #room = 0; // its length
  #isMarked = true; // its last frame is a mark, or it has none
  #timer;
  #new; // the journal that is to grow
  #beside; // the snapshot that is written
  #older = 0; // how many bytes of frames older journals have
  #kept = 0; // how many bytes the snapshot has
  #wants = false; // a snapshot is due anyway
  #pause = 0; // until when none is due
  #switching; // a snapshot that is being written
  #broken; // why nothing is kept any more
  #closing;
  /** 16 bytes that were made with the folder, for the validator to have as its ID. */
  id;

  /** Opens the folder, and begins a new journal in it. Makes it where its parent is there. Throws Held, BadFolder, and what the system says. */
  static async open(path, { small = SMALL } = {}) {
    const folder = await Folder.open(path), journal = new Journal();
    journal.#folder = folder;
    journal.#small = small;
    try {
      await journal.#read();
      await journal.#makeCalls();
    } catch (why) {
      await journal.#file?.close();
      await folder.close();
      throw why;
    }
    return journal;
  }

  /** Gives all messages that were found to `take`. From now on `parts` gives what a snapshot is to have, and one is written when it is due. */
  async begin(take, parts) {
    const found = this.#found;
    this.#found = [];
    for (let from = 0, to = 0, length = 0; from < found.length; from = to, length = 0) {
      while (to < found.length && length < PIECE) length += found[to++].length;
      take(joined(found.slice(from, to)));
    }
    this.#parts = parts;
    if (this.#isDue()) await this.#snapshot();
  }

  /** Returns once the messages are on the disk. Those that come meanwhile share a write. Throws Unavailable and Closed. */
  async keep(messages) {
    if (this.#closing) throw new Closed();
    const next = (this.#next ??= this.#commit());
    if (next.length + messages.length > MOST_PAYLOAD) throw new Unavailable("the disk does not answer, and too much waits for it");
    next.parts.push(messages);
    next.length += messages.length;
    await next.kept;
    if (this.#isDue()) this.#switching ??= this.#snapshotBeside();
  }

  /** Waits for what is under way, and lets go of the folder. Closing twice does nothing. */
  close() {
    return (this.#closing ??= this.#close());
  }

  async #close() {
    await this.#switching;
    await this.#alone(async () => {
      await this.#mark();
      clearTimeout(this.#timer);
      this.#library.close();
      await this.#file.close();
      await this.#folder.close();
    });
  }

  // Reads the folder, as a start does.
  async #read() {
    const folder = this.#folder;
    for (const it of [SNAPSHOT, ID_FILE, FRAMES]) await folder.remove(it + UNFINISHED);
    if ((await folder.read(FRAMES)) !== null) throw new BadFolder(`${folder.path} is of an older svidd: start a newer one in it once`);
    const known = await folder.id(), journals = await folder.journals(), library = await Library.start();
    try {
      const hasSnapshot = await this.#take(library, known, 0n);
      for (const number of journals) await this.#take(library, known, number);
      this.#wants = journals.length >= MANY_JOURNALS || !this.#kept;
      this.id = known ?? (await random());
      if (!known || !hasSnapshot) await folder.keepId(this.id, !journals.length); // (an older svidd may have left an empty journal)
    } finally {
      library.close(); // (with the memory that files took)
    }
    this.#library = await Library.start();
    this.#numbers = this.#library.folder(this.id, journals[0] ?? 1n, journals.at(-1) ?? 0n);
  }

  // Reads a file: a journal, or the snapshot as number 0. Says whether it is there.
  async #take(library, known, number) {
    const folder = this.#folder, name = number ? journalName(number) : SNAPSHOT, bytes = await folder.read(name), path = folder.at(name);
    if (bytes === null) return false;
    const { status, at, format, messages } = library.framesOf(known ?? new Uint8Array(16), number, bytes);
    if (status !== FILE_END && status !== FILE_OTHER && !at && library.beginsAsMessages(bytes)) {
      throw new BadFolder(`${path} is of an older svidd: start a newer one in the folder once`);
    }
    if (!known && bytes.some((it) => it !== 0)) {
      throw new BadFolder(`the file ${ID_FILE} is missing in ${folder.path}, and ${path} can't be read without it: put back a copy`);
    }
    if (status === FILE_OTHER) throw new BadFolder(`${path} has format ${format}, and this version reads format 2: run the version that wrote it`);
    if (status === FILE_TEAR) warn(`a crash cut off a write at the end of ${path}: nobody had an answer`);
    else if (status !== FILE_END) throw new BadFolder(`${path} is damaged at byte ${at}: look for a failing disk, and put back a copy of the file of the same day`);
    for (const it of messages) this.#found.push(it);
    if (number) this.#older += at;
    else this.#kept = at;
    return true;
  }

  // -- Writes, one after the other

  // Does something once nothing else writes.
  #alone(body) {
    const ended = this.#last.then(body);
    this.#last = ended.catch(() => {});
    return ended;
  }

  // The messages that the next write takes.
  #commit() {
    const commit = { parts: [], length: 0 };
    commit.kept = this.#alone(() => {
      this.#next = undefined;
      return commit.parts.length ? this.#put(joined(commit.parts)) : undefined;
    });
    commit.kept.catch(() => {}); // (where what came first is too long, nobody waits for it)
    return commit;
  }

  // Takes a payload to the disk.
  async #put(payload) {
    if (this.#broken) throw this.#broken;
    const numbers = this.#numbers, at = Number(numbers.end()), frame = numbers.put(payload);
    try {
      await this.#write(frame, at);
    } catch (why) {
      numbers.unwritten();
      throw new Unavailable(`the use is not kept: ${why.message}`, why);
    }
    await this.#file.datasync().catch((why) => this.#end(why));
    await this.#stay();
    numbers.synced();
    this.#isMarked = !payload.length;
    if (this.#isMarked || this.#closing) return;
    this.#timer ??= setTimeout(() => this.#alone(() => this.#mark()), QUIET).unref();
    this.#timer.refresh();
  }

  // Writes a frame. Where the file is too short it grows, if there is room for that.
  async #write(frame, at) {
    const end = at + frame.length;
    if (end > this.#room) {
      try {
        await write(this.#file, joined([frame, GROWTH]), at);
        this.#room = end + GROWTH.length;
        return;
      } catch {
        // (the frame alone may have room)
      }
    }
    await write(this.#file, frame, at);
  }

  // Ends the journal by a mark, by which damage before it is seen. Nobody waits for it: where that fails, there is none.
  async #mark() {
    if (!this.#broken && !this.#isMarked) await this.#put(MARK).catch(() => {});
  }

  // From now on nothing is kept.
  #end(why, says = "the disk does not say what it holds", advice = "mend it") {
    if (!this.#numbers.isEnded()) this.#numbers.failed();
    this.#broken ??= new Unavailable(`${says} (${why.message}): ${advice}, and start the service again`, why);
    throw this.#broken;
  }

  // Throws, from now on, unless the path still leads to the folder: what is there now may be the folder of another process.
  async #stay() {
    await this.#folder.stand().catch((why) => this.#end(why, "the state folder is no longer at its path", "put it back there"));
  }

  // -- Snapshots

  // Whether a snapshot is due: there is none, or the journals are many or long.
  #isDue() {
    if (!this.#parts || this.#closing || performance.now() < this.#pause) return false;
    return this.#wants || this.#older + Number(this.#numbers.end()) > Math.max(this.#kept, this.#small);
  }

  // Replaces the snapshot, and drops the journals before it. Where it throws, nothing is lost.
  async #snapshot() {
    this.#numbers.begin();
    this.#pause = performance.now() + PAUSE;
    await this.#makeCalls();
    this.#wants = false;
    this.#older = this.#pause = 0;
  }

  // Does that beside what is appended.
  async #snapshotBeside() {
    try {
      await this.#snapshot();
    } catch (why) {
      if (!this.#closing) warn(`the snapshot stays as it is: ${why.message}`);
    } finally {
      this.#switching = undefined;
    }
  }

  // Makes the calls of the system that are due, until one throws.
  async #makeCalls() {
    try {
      for (let due = this.#numbers.due(); due.call !== NOTHING; due = this.#numbers.due()) {
        await this.#stay();
        try {
          await this.#make(due);
        } catch (why) {
          await this.#answer(due.call, why);
          if (this.#beside) await this.#folder.remove(SNAPSHOT + UNFINISHED).catch(() => {}); // (its room may be needed)
          throw why;
        }
        await this.#answer(due.call);
      }
    } finally {
      await this.#beside?.close();
      await this.#new?.close();
      this.#beside = this.#new = undefined;
    }
  }

  async #make({ call, journal }) {
    const folder = this.#folder;
    if (call === CREATE_JOURNAL) this.#new = await folder.create(journalName(journal));
    else if (call === SYNC_FOLDER) await folder.sync();
    else if (call === WRITE_SNAPSHOT) await this.#writeParts();
    else if (call === SYNC_SNAPSHOT) await this.#beside.datasync();
    else if (call === RENAME_SNAPSHOT) await folder.finish(SNAPSHOT);
    else if (call === REMOVE_JOURNAL) await folder.remove(journalName(journal));
    else throw new Error(`svid.wasm wants call ${call}, which is not known here`);
  }

  // Writes a snapshot: each part, and a mark.
  async #writeParts() {
    this.#beside = await this.#folder.create(SNAPSHOT + UNFINISHED);
    let at = 0;
    const put = async (part) => {
      const frame = this.#numbers.piece(part);
      await write(this.#beside, frame, at);
      at += frame.length;
    };
    for (const it of this.#parts()) if (it.length) await put(it);
    await put(MARK);
    this.#kept = at;
  }

  // Tells how a call went, and lets the next journal grow where that comes then.
  #answer(call, why) {
    return this.#alone(async () => {
      if (!why && call === SYNC_FOLDER && this.#new) await this.#mark(); // (the journal is closed)
      const numbers = this.#numbers, before = numbers.newest(), end = Number(numbers.end());
      numbers.answer(!why);
      if (numbers.isEnded()) this.#end(why);
      if (numbers.newest() === before) return;
      this.#older += end;
      await this.#file?.close(); // (all of it is on the disk)
      this.#file = this.#new;
      this.#new = undefined;
      this.#room = 0;
      this.#isMarked = true;
    });
  }
}
