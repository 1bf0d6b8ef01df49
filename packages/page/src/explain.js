// Draws what is said of a token: its colours and marks, its claims, the refusals and the keys.

import { stringAt } from "./json.js";
import { byId, fill, make } from "./dom.js";
import { GROUPS, REFUSALS } from "./refusals.js";
import { agoOf, dateOf } from "./time.js";

const PARTS = ["header", "payload", "signature"];
// How many short texts of a key are shown, and how many characters each has with its name.
const MOST_WORDS = 6, LONGEST_WORD = 20;
const TIMES = new Set(["exp", "nbf", "iat"]);
const MEANINGS = [
  {
    alg: "how it is signed",
    kid: "which key signed it",
    typ: "what it is",
    crit: "what a validator must understand",
  },
  {
    sub: "whom it is about",
    aud: "whom it is for",
    exp: "when it expires",
    nbf: "when it begins to be valid",
    iat: "when it was issued; svid does not read it",
    jti: "its own name, by which it is known again",
    iss: "who issued it; svid does not read it",
  },
];

/**
 * Colours the parts of the token behind its field, and marks what the refusal is about. What stands around the token has a quiet colour.
 * @param token the whole text of the field, in which the parts and the marks stand
 */
export function drawToken({ token, parts, marks }) {
  const pieces = cut(token, 0, parts[0].from, marks, "beyond");
  parts.forEach((part, n) => {
    if (n) pieces.push(...cut(token, part.from - 1, part.from, marks, "period"));
    pieces.push(...cut(token, part.from, part.to, marks, PARTS[n] ?? "beyond"));
  });
  pieces.push(...cut(token, parts.at(-1).to, token.length, marks, "beyond"));
  // (a character behind the end, so that a last empty line has its height)
  fill(byId("token-shown"), pieces, "\u200b");
}

// The characters from one index up to another, in pieces that are marked or not.
function cut(token, from, to, marks, kind) {
  const edges = [...new Set([from, to, ...marks.flat().filter((it) => it > from && it < to)])].sort((a, b) => a - b);
  return edges.slice(1).map((end, n) => {
    const isMarked = marks.some(([begin, beyond]) => begin <= edges[n] && end <= beyond);
    return make(isMarked ? "mark" : "span", { class: kind }, token.slice(edges[n], end));
  });
}

/** Shows the three parts: the members of the header and the payload with what they mean, and the length of the signature. */
export function drawParts({ parts, marks, now }) {
  byId("parts").hidden = parts.length !== 3;
  if (parts.length !== 3) return;
  for (const n of [0, 1]) fill(byId(PARTS[n]), membersOf(parts[n], MEANINGS[n], marks, now));
  const { bytes, from, to } = parts[2];
  fill(byId("signature"), make("span", { class: marks.some((it) => it[0] >= from && it[1] <= to) ? "marked" : undefined }, bytes?.length ? `${bytes.length} ${bytes.length === 1 ? "byte" : "bytes"}` : bytes ? "empty" : "no base64url"));
}

function membersOf(part, meanings, marks, now) {
  const { node, fault } = part.json;
  if (!part.bytes) return make("p", { class: "none" }, part.badAt === undefined ? "This part is too long to be read." : "This part is no base64url, so nothing can be read.");
  if (fault) return [make("p", { class: "none" }, `No JSON: at character ${fault.at + 1}, ${fault.message}.`), raw(part.decoded, fault.at)];
  if (node.kind !== "object") return [make("p", { class: "none" }, "JSON, but no object:"), raw(part.decoded)];
  if (!node.members.length) return make("p", { class: "none" }, "An empty object.");
  return node.members.map((it) => memberRow(it, node, part, meanings, marks, now));
}

function raw(text, at = text.length) {
  return make("pre", {}, text.slice(0, at), at < text.length && make("mark", {}, text.slice(at)));
}

function memberRow(it, object, part, meanings, marks, now) {
  const [from, to] = part.charactersOf(it.from, it.to);
  const isMarked = marks.some((mark) => mark[0] === from && mark[1] === to);
  const isReplaced = object.members.some((other) => other.name === it.name && other.from > it.from);
  const text = part.decoded.slice(it.value.from, it.value.to);
  const isTime = TIMES.has(it.name) && it.value.kind === "number" && /^\d{1,20}$/.test(it.value.text);
  const meaning = isReplaced ? "ignored, since a later member has its name" : Object.hasOwn(meanings, it.name) ? meanings[it.name] : "svid does not read it";
  const time = isTime && BigInt(it.value.text);
  return make("dl", { class: isMarked ? "member marked" : "member" },
    make("dt", {}, it.name),
    make("dd", {}, make("code", {}, text), isTime && make("span", { class: "time" }, `${dateOf(time)}, ${agoOf(time, now)}`), make("span", { class: "meaning" }, meaning)));
}

const STATES = { passed: "passed", holds: "refused", later: "not reached", unasked: "not looked at" };

/** Makes the table of the refusals, before anything is judged. */
export function makeChecks() {
  for (const { name } of REFUSALS) {
    if (GROUPS[name]) byId("checks").append(make("tbody", {}, make("tr", { class: "group" }, make("th", { colspan: 3, scope: "rowgroup" }, GROUPS[name]))));
    byId("checks").lastChild.append(make("tr", { id: `check-${name}` }, make("td", { class: "state" }), make("th", { scope: "row" }), make("td", { class: "name" })));
  }
}

/**
 * Says of each check, in words, that the token passed it, that it did not and why, that it was not reached, or that it was not looked at.
 * `passed` is how many it passed, and undefined where nothing is judged.
 */
export function drawChecks({ passed, why, isUnasked = false }) {
  REFUSALS.forEach(({ name, asks }, n) => {
    const isHere = isUnasked && name === "NotAudience" && n <= passed;
    const state = isHere ? "unasked" : passed === undefined || n > passed ? "later" : n < passed ? "passed" : "holds";
    const row = byId(`check-${name}`);
    row.dataset.state = state;
    fill(row.cells[0], make("span", { class: passed === undefined && "unseen" }, STATES[state]));
    fill(row.cells[1], state === "holds" ? name : asks);
    fill(row.cells[2], state === "holds" ? why : `else ${name}`);
  });
}

/** Shows each entry of the bundle of the token's trust domain, or of the only bundle. */
export function drawKeys({ token, keys, names, domain, isUnnamed }) {
  const rows = keys.map((it) => keyRow(it, token));
  const unknown = token ? "No trust domain can be read in the token." : "No token yet: the keys of its trust domain stand here.";
  const none = names.domain === undefined && domain === undefined && !isUnnamed ? unknown : isUnnamed ? "The bundle has no key." : "The bundles have no key of this trust domain.";
  fill(byId("keys-of"), isUnnamed ? "of a bundle whose trust domain is not known yet" : domain === undefined ? "" : `of ${domain}`);
  fill(byId("keys-none"), keys.length ? "" : none);
  byId("keys-table").hidden = !keys.length;
  // (an entry that is open stays so, while its row says the same)
  rows.forEach((it, n) => (it.querySelector("details").open = isOpenAs(byId("keys").rows[n], it)));
  fill(byId("keys"), rows);
}

function isOpenAs(old, row) {
  return old !== undefined && old.textContent === row.textContent && old.querySelector("details").open;
}

const ANSWERS = { good: "verifies the signature", bad: "does not verify the signature", unusable: "can't be used" };

function keyRow({ entry, text, reason, row }, token) {
  const kid = stringAt(entry, "kid");
  return make("tr", { "data-state": row ? row.answer.is : "over" },
    make("th", { scope: "row" }, make("code", {}, kid === undefined ? "no kid" : JSON.stringify(kid))),
    make("td", {}, wordsOf(entry) || "–"),
    make("td", {}, make("details", {}, make("summary", {}, answerText(reason, row, token)), make("pre", {}, text))));
}

// Which key an entry is, for people: its short texts, as it names them.
function wordsOf(entry) {
  const words = (entry.members ?? []).filter((it) => it.name !== "kid" && it.value.kind === "string" && it.name.length + it.value.value.length <= LONGEST_WORD);
  return words.slice(0, MOST_WORDS).map((it) => `${it.name} ${it.value.value}`).join(", ");
}

function answerText(reason, row, token) {
  if (row) return row.answer.why ? `${ANSWERS[row.answer.is]}: ${row.answer.why}` : ANSWERS[row.answer.is];
  if (reason !== undefined) return `passed over: ${reason}`;
  return token ? "not asked, since the token is refused before" : "may sign tokens";
}
