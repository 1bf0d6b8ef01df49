// JSON, and where each value stands, so that the page can mark what the library judged. (JSON.parse does not tell that, and rounds numbers.)
// The bounds are those of docs/FORMATS.md: 127 levels, and no half of a surrogate pair. What the library says counts; this explains it.

const DEEPEST = 127;
const ESCAPES = { '"': '"', "\\": "\\", "/": "/", b: "\b", f: "\f", n: "\n", r: "\r", t: "\t" };
const NUMBER = /-?(?:0|[1-9]\d*)(?:\.\d+)?(?:[eE][+-]?\d+)?/y;
const LITERALS = { true: true, false: false, null: null };
const HALF_PAIR = /[\uD800-\uDBFF](?![\uDC00-\uDFFF])|(?<![\uD800-\uDBFF])[\uDC00-\uDFFF]/;

/** Why a text is no JSON, and where in it. */
export class JsonFault extends Error {
  constructor(at, message) {
    super(message);
    this.at = at;
  }
}

/**
 * Reads a text.
 * @returns {Node} `{ kind, from, to }`, where the value stands from `from` up to `to`; a string, `true`, `false` and `null` have `value`, a
 * number has `text`, an array has `items`, an object has `members`, which are `{ name, from, to, value }` in the order of the text
 * @throws {JsonFault}
 */
export function parse(text) {
  const reader = new Reader(text);
  const node = reader.value(0);
  reader.blanks();
  if (reader.at < text.length) reader.fail("something stands behind the end");
  return node;
}

/** The member of an object that counts: the last of its name. */
export function member(node, name) {
  return node?.kind === "object" ? node.members.findLast((it) => it.name === name) : undefined;
}

/** The value of a member if it is a string. */
export function stringAt(node, name) {
  const value = member(node, name)?.value;
  return value?.kind === "string" ? value.value : undefined;
}

class Reader {
  constructor(text) {
    this.text = text;
    this.at = 0;
  }

  fail(message, at = this.at) {
    throw new JsonFault(at, message);
  }

  blanks() {
    while (" \t\n\r".includes(this.text[this.at] ?? "x")) this.at++;
  }

  // Whether this character comes next, behind blanks; it is taken then.
  takes(character) {
    this.blanks();
    if (this.text[this.at] !== character) return false;
    this.at++;
    return true;
  }

  value(depth) {
    this.blanks();
    const from = this.at;
    const node = this.node(this.text[from], depth);
    return { ...node, from, to: this.at };
  }

  node(first, depth) {
    if (first === undefined) this.fail("the text ends where a value should stand");
    if (first === "{" || first === "[") {
      if (depth === DEEPEST) this.fail(`it is more than ${DEEPEST} levels deep`);
      this.at++;
      return first === "{" ? { kind: "object", members: this.members(depth + 1) } : { kind: "array", items: this.items(depth + 1) };
    }
    if (first === '"') return { kind: "string", value: this.string() };
    if (first === "-" || /\d/.test(first)) return { kind: "number", text: this.number() };
    return { kind: "literal", value: this.literal() };
  }

  members(depth) {
    const members = [];
    if (this.takes("}")) return members;
    do {
      this.blanks();
      const from = this.at;
      if (this.text[from] !== '"') this.fail("a name in quotation marks should stand here");
      const name = this.string();
      if (!this.takes(":")) this.fail("a colon should stand here");
      const value = this.value(depth);
      members.push({ name, from, to: value.to, value });
    } while (this.takes(","));
    if (!this.takes("}")) this.fail("a comma or } should stand here");
    return members;
  }

  items(depth) {
    const items = [];
    if (this.takes("]")) return items;
    do items.push(this.value(depth));
    while (this.takes(","));
    if (!this.takes("]")) this.fail("a comma or ] should stand here");
    return items;
  }

  number() {
    NUMBER.lastIndex = this.at;
    const [found] = NUMBER.exec(this.text) ?? this.fail("this is no number");
    if (!Number.isFinite(Number(found))) this.fail("this number is too large");
    this.at += found.length;
    return found;
  }

  literal() {
    const [word] = /^\w*/.exec(this.text.slice(this.at, this.at + 8));
    if (!Object.hasOwn(LITERALS, word)) this.fail("a value should stand here");
    this.at += word.length;
    return LITERALS[word];
  }

  string() {
    const from = this.at++;
    let out = "";
    for (;;) {
      const it = this.text[this.at];
      if (it === undefined) this.fail("a quotation mark is missing", from);
      if (it < " ") this.fail("a control character stands in a string");
      this.at++;
      if (it === '"') break;
      out += it === "\\" ? this.escape() : it;
    }
    if (HALF_PAIR.test(out)) this.fail("half of a surrogate pair stands in a string", from);
    return out;
  }

  escape() {
    const at = this.at - 1;
    const it = this.text[this.at++];
    if (it !== "u") return ESCAPES[it] ?? this.fail("this escape is unknown", at);
    const digits = this.text.slice(this.at, this.at + 4);
    if (!/^[0-9a-fA-F]{4}$/.test(digits)) this.fail("four hexadecimal digits should stand here");
    this.at += 4;
    return String.fromCharCode(parseInt(digits, 16));
  }
}
