// The library svid as a WebAssembly module: the calls of include/svid.h that the page makes. A length, a time and an address in memory are
// BigInts here, as they have 64 bits; a status is a number.

const TOLD = 40, ID = 24, TERMS = 40, USE = 64, VALIDATOR = 16, BUNDLES = 16, TOKEN = 16, DIGEST = 32, BEARER = 16, SAID = 48, DOCUMENT = 24;
const ID_ROOM = 2048, SIGNATURE_ROOM = 49150, BATCH_OF_LEN = 82;
const ANY = 2n ** 64n - 1n;
const OK = 0, TOO_SHORT = 1, BUNDLES_UNNAMED = 37;

/** How many keys are tried for a token. */
export const MOST_CANDIDATES = 3n;
/** How many bits an RSA key may have. */
export const MOST_RSA_BITS = 4096n;

const encoder = new TextEncoder();
const decoder = new TextDecoder("utf-8", { ignoreBOM: true });
const bytesOf = (it) => (typeof it === "string" ? encoder.encode(it) : it);

/** The calls of one instance of the module. */
export class Library {
  /** @param {WebAssembly.Module} module */
  constructor(module) {
    const asked = WebAssembly.Module.imports(module);
    if (asked.length) throw new Error(`the module asks its host for ${asked.map((it) => it.name).join(", ")}`);
    this.calls = new WebAssembly.Instance(module, {}).exports;
  }

  /** Compiles and starts a module. */
  static async load(bytes) {
    return new Library(await WebAssembly.compile(bytes));
  }

  /** The version of the library, as "1.0.0". */
  version() {
    const number = this.calls.svid_version();
    return [Math.floor(number / 10000), Math.floor(number / 100) % 100, number % 100].join(".");
  }

  /** Reads a SPIFFE ID: `{ status, offset, domainLength, pathLength }`, in bytes. */
  parseId(text) {
    return this.within((memory) => {
      const out = memory.room(ID);
      const status = this.calls.svid_id_parse(...memory.lend(text), out);
      const [offset, domainLength, pathLength] = memory.words(out, 3).map(Number);
      return { status, offset, domainLength, pathLength };
    });
  }

  /** Whether a text is the bundle of one trust domain, as SPIRE prints it, and so wants the name of that. */
  isOneBundle(text) {
    return this.within((memory) => {
      const [bytes, length] = memory.lend(text), document = memory.zeroed(DOCUMENT);
      memory.setWords(document, [0n, length, 0n]);
      return this.calls.svid_bundles_join(bytes, length, document, 1n, 0n, 0n, memory.zeroed(TOLD)) === BUNDLES_UNNAMED;
    });
  }

  /** Finds the bearer token in the value of a header field Authorization: `{ status, at, length }`, in bytes. */
  bearerToken(value) {
    return this.within((memory) => {
      const out = memory.zeroed(BEARER);
      const status = this.calls.svid_bearer_token(1n, ...memory.lend(value), out);
      const [at, length] = memory.words(out, 2).map(Number);
      return { status, at, length };
    });
  }

  /**
   * What a token says: `{ status }`, and where that is 0 `{ status, exp, alg, id, domain, kid, audiences }`; `kid` is undefined where it has none.
   * Nobody has vouched for it.
   */
  says(token) {
    for (let texts = 0, size = 0; ; ) {
      const it = this.within((memory) => {
        const said = memory.zeroed(SAID), lens = memory.room(8 * texts), out = memory.room(size), told = memory.zeroed(TOLD);
        const status = this.calls.svid_token_says(...memory.lend(token), said, lens, BigInt(texts), out, BigInt(size), told);
        if (status !== OK) return { status, texts: Number(memory.words(said, 6)[5]), size: Number(memory.words(told, 1)[0]) };
        const [alg, id, domain, kid, ...audiences] = textsOf(memory.seen(out, size), memory.words(lens, texts).map(Number));
        return { status, exp: memory.words(said, 5)[4], alg, id, domain, kid: kid || undefined, audiences };
      });
      if (it.status !== TOO_SHORT) return it;
      ({ texts, size } = it);
    }
  }

  /** The signature of a token: `{ status, over, bytes }`, and how many bytes of the token it is made over. */
  signature(token) {
    return this.within((memory) => {
      const over = memory.zeroed(8), out = memory.room(SIGNATURE_ROOM), told = memory.zeroed(TOLD);
      const status = this.calls.svid_token_signature(...memory.lend(token), over, out, BigInt(SIGNATURE_ROOM), told);
      if (status !== OK) return { status };
      return { status, over: Number(memory.words(over, 1)[0]), bytes: memory.seen(out, memory.words(told, 1)[0]) };
    });
  }

  /** The bytes of one part of a token: `{ status, bytes }`. All are spelled alike, and the library reads of a token the last one. */
  part(text) {
    return text ? this.signature(`..${text}`) : { status: OK, bytes: new Uint8Array() };
  }

  /** How many entries messages have: `{ status, count }`, or why they are none, as `join`. */
  entries(messages) {
    return this.within((memory) => {
      const told = memory.zeroed(TOLD), status = this.calls.svid_entries_read(...memory.lend(messages), 0n, 0n, told);
      const [count, , message, offset] = memory.words(told, 4).map(Number);
      return { status: status === TOO_SHORT ? OK : status, count, message, offset };
    });
  }

  /** A key, which is JSON, as SubjectPublicKeyInfo for an algorithm: `{ status, bytes }`, or the status that says why it can't be used. */
  spki(key, alg) {
    return this.text((memory, ...out) => this.calls.svid_key_spki(...memory.lend(key), ...memory.lend(alg), MOST_RSA_BITS, ...out));
  }

  /** The key for JWT-SVIDs that an entry of a bundle is, which is JSON, as `candidates` lists it: `{ status, bytes }`, or the status that says why it is none. */
  keyText(entry) {
    return this.text((memory, ...out) => this.calls.svid_key_text(...memory.lend(entry), ...out));
  }

  /** All keys that may have signed a token, as JSON: none where the token is refused before, or the bundles can't be read. */
  candidates(bundles, token) {
    return this.within((memory) => {
      const handle = memory.zeroed(BUNDLES);
      if (this.calls.svid_bundles_open(handle, ...memory.lend(bundles), memory.zeroed(TOLD)) !== OK) return [];
      try {
        const said = this.text((room, ...out) => this.calls.svid_bundles_ask(handle, ...room.lend(token), ANY, ...out));
        return said.status === OK ? rowsOf(said.bytes).map((it) => it.key) : [];
      } finally {
        this.calls.svid_bundles_close(handle);
      }
    });
  }

  /** What both inputs tell, as messages: `{ status, input, message, offset, bytes }`. */
  join(a, b, now = 0n) {
    return this.text((memory, ...out) => this.calls.svid_join(...memory.lend(a), ...memory.lend(b), now, ...out));
  }

  /** What messages tell, for people to read: as `join`. */
  report(messages, now = 0n) {
    return this.text((memory, ...out) => this.calls.svid_report(...memory.lend(messages), now, ...out));
  }

  /**
   * Opens a validator, passes it to `body`, and closes it.
   * @returns `{ status, offset }` where the bundles or audiences are refused, and else `{ status: 0, value }` with what `body` returned
   */
  withValidator({ longest = ANY, validatorId }, own, bundles, body) {
    return this.within((memory) => {
      const handle = memory.zeroed(VALIDATOR);
      const terms = memory.room(TERMS);
      memory.setWords(terms, [longest, ANY, ANY]);
      memory.set(terms + 24n, validatorId);
      const told = memory.zeroed(TOLD);
      const status = this.calls.svid_validator_open(handle, terms, ...memory.lend(own), ...memory.lend(bundles), told);
      if (status !== OK) return { status, offset: Number(memory.words(told, 4)[3]) };
      try {
        return { status, value: body(new Validator(this, handle)) };
      } finally {
        this.calls.svid_validator_close(handle);
      }
    });
  }

  /** Makes a call that writes text, and makes it again where its room was too short. */
  text(call) {
    for (let size = 0; ; ) {
      const said = this.within((memory) => {
        const out = memory.room(size), told = memory.zeroed(TOLD);
        const status = call(memory, out, BigInt(size), told);
        const [length, input, message, offset, more] = memory.words(told, 5).map(Number);
        return { status, length, input, message, offset, more, bytes: status === OK ? memory.seen(out, length) : null };
      });
      if (said.status !== TOO_SHORT) return said;
      size = said.length;
    }
  }

  /** Lends memory to a call, and takes it back. */
  within(body) {
    const memory = new Lent(this.calls);
    const result = body(memory);
    // (not where the call trapped: this instance makes no other call then)
    memory.freeAll();
    return result;
  }
}

/** A validator that is open, within `Library.withValidator`. */
class Validator {
  constructor(library, handle) {
    this.library = library;
    this.calls = library.calls;
    this.handle = handle;
  }

  /**
   * The first keys that may have signed a token.
   * @returns `{ status, rows }`: a row has `alg`, `key`, the key as JSON, and `spki`, what `Library.spki` says of it
   */
  ask(token) {
    const said = this.asked(token);
    // (the keys stand behind the number of bytes that are signed, and the signature)
    const rows = said.status === OK ? rowsOf(said.bytes.subarray(8 + numberAt(said.bytes, 4))) : [];
    return { status: said.status, rows: rows.map((it) => ({ ...it, spki: this.library.spki(it.key, it.alg) })) };
  }

  /** What a verifier needs of a token, as the library writes it: as `Library.text`. */
  asked(token) {
    const asked = (read) => this.library.text((_, ...out) => this.calls.svid_validator_ask_token(this.handle, read, MOST_CANDIDATES, ...out));
    return this.read(token, asked, (status) => ({ status, length: 0, input: 0, message: 0, offset: 0, more: 0 }));
  }

  /**
   * Judges a token at a time; the record gains nothing. `by` is the key that made its signature, as JSON, and undefined where none did.
   * @returns `{ status }`, and where that is 0 `{ status, id, exp, at, key }`, the key as 32 bytes
   */
  judge(now, by, token) {
    return this.judged(now, by, token).said;
  }

  /** As `judge`, and the record gains the use of a token that is accepted. */
  check(now, by, token) {
    const { said, message } = this.judged(now, by, token);
    if (said.status !== OK) return said;
    const { status } = this.take(now, message);
    return status === OK ? said : { status };
  }

  judged(now, by, token) {
    const judged = (read, memory) => {
      const made = this.library.signature(token), shown = by === undefined ? ["", "", ""] : [by, bytesOf(token).subarray(0, made.over), made.bytes];
      const out = memory.room(ID_ROOM), used = memory.zeroed(USE), told = memory.zeroed(TOLD), message = memory.room(BATCH_OF_LEN);
      const lent = shown.flatMap((it) => memory.lend(it));
      const status = this.calls.svid_validator_judge_token(this.handle, now, ...lent, read, out, BigInt(ID_ROOM), used, told);
      if (status !== OK) return { said: { status } };
      this.calls.svid_batch_of(used, message);
      const [exp, at] = memory.words(used, 2), id = textOf(memory.seen(out, memory.words(told, 1)[0]));
      return { said: { status, id, exp, at, key: memory.seen(used + 16n, DIGEST) }, message: memory.seen(message, BATCH_OF_LEN) };
    };
    return this.read(token, judged, (status) => ({ said: { status } }));
  }

  // Reads a token, and gives its handle to `body`, or the status to `refused`.
  read(token, body, refused) {
    return this.library.within((memory) => {
      const read = memory.zeroed(TOKEN);
      const status = this.calls.svid_token_open(read, ...memory.lend(token), memory.zeroed(TOLD));
      if (status !== OK) return refused(status);
      const said = body(read, memory);
      this.calls.svid_token_close(read);
      return said;
    });
  }

  /** Withdraws the token of a key: its status. */
  withdraw(now, key, exp) {
    return this.library.within((memory) => {
      const lent = memory.room(DIGEST);
      memory.set(lent, key);
      return this.calls.svid_validator_withdraw(this.handle, now, lent, exp, memory.zeroed(USE), memory.zeroed(TOLD));
    });
  }

  /** Takes messages: `{ status, input, message, offset }`. */
  take(now, messages) {
    return this.library.within((memory) => {
      const told = memory.zeroed(TOLD);
      const status = this.calls.svid_validator_take(this.handle, now, ...memory.lend(messages), told);
      const [, input, message, offset] = memory.words(told, 4).map(Number);
      return { status, input, message, offset };
    });
  }

  /** The whole record as messages: `{ status, bytes }`. */
  tell() {
    return this.library.text((_, ...out) => this.calls.svid_validator_tell(this.handle, ...out));
  }
}

/** Memory of the module that is lent to a call. */
class Lent {
  constructor(calls) {
    this.calls = calls;
    this.rooms = [];
  }

  room(size) {
    const at = this.calls.room(BigInt(size));
    if (at === 0n) throw new Error("the module has no more memory");
    this.rooms.push(at);
    return at;
  }

  zeroed(size) {
    const at = this.room(size);
    this.view(at, size).fill(0);
    return at;
  }

  /** A pointer and a length, as a call takes an input. */
  lend(input) {
    const bytes = bytesOf(input), at = this.room(bytes.length);
    this.set(at, bytes);
    return [at, BigInt(bytes.length)];
  }

  // (made again each time, since a call may make the memory grow, which takes away its buffer)
  view(at, length) {
    return new Uint8Array(this.calls.memory.buffer, Number(at), Number(length));
  }

  set(at, bytes) {
    this.view(at, bytes.length).set(bytes);
  }

  seen(at, length) {
    return this.view(at, length).slice();
  }

  words(at, count) {
    return [...new BigUint64Array(this.calls.memory.buffer, Number(at), count)];
  }

  setWords(at, words) {
    new BigUint64Array(this.calls.memory.buffer, Number(at), words.length).set(words);
  }

  freeAll() {
    for (const it of this.rooms) this.calls.free_room(it);
  }
}

// Texts that stand one directly after the other.
function textsOf(bytes, lengths) {
  let to = 0;
  return lengths.map((length) => textOf(bytes.subarray(to, (to += length))));
}

const numberAt = (bytes, at) => new DataView(bytes.buffer, bytes.byteOffset, bytes.length).getUint32(at);

// Rows of algorithms and keys.
function rowsOf(bytes) {
  const rows = [];
  let at = 0;
  const field = () => {
    const length = numberAt(bytes, at);
    at += 4 + length;
    return textOf(bytes.subarray(at - length, at));
  };
  while (at < bytes.length) rows.push({ alg: field(), key: field() });
  return rows;
}

/** The text that bytes are. */
export function textOf(bytes) {
  return decoder.decode(bytes);
}

/** Bytes as hexadecimal digits. */
export function hexOf(bytes) {
  return Array.from(bytes, (it) => it.toString(16).padStart(2, "0")).join("");
}
