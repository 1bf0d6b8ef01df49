// What the library says of a token. Everything here is a function of its input: the page draws what comes out.

import { bundlesOf, domainsOf, entriesOf, keyOf } from "./bundles.js";
import { parse } from "./json.js";
import { MOST_CANDIDATES, textOf } from "./library.js";
import { refusalOf, REFUSALS } from "./refusals.js";
import { recordOf } from "./record.js";
import { partsOf } from "./token.js";
import { answer } from "./verify.js";

const OK = 0;
const OF_RECORD = new Set(["Withdrawn", "Replayed"]);
const UNNAMED = "bundle";

/**
 * Judges a token, and gathers why.
 *
 * @param {Library} library
 * @param input `token`, `bundles` and `domain` (of a bundle that stands alone), `own` (audiences), `now`, `longest` (or undefined),
 *   `validatorId` (of this one), and `record`, of `readRecord`
 * @returns `{ parts, names, bundles, isUnnamed, fault, domain, keys, maker, judgedAt, verdict }`: `isUnnamed` says that nobody knows yet which
 *   trust domain the bundle is of; `fault` is that of the bundles, and then nothing is judged; `domain` is the one that has the `keys`;
 *   `verdict` is `{ status, refusal, passed, isUnasked, why, marks, id, exp, key }`, where `passed` counts the refusals that do not hold,
 *   `isUnasked` says that no audience is given, so that none was looked at, and `exp` and `key` are there for a token that is accepted or
 *   that only the record refuses
 */
export async function examine(library, input) {
  const parts = partsOf(input.token, library);
  const names = library.says(input.token);
  const given = input.bundles.trim() ? input.bundles : "{}", named = input.domain || names.domain;
  const isUnnamed = named === undefined && library.isOneBundle(given), shown = bundlesOf(library, given, named ?? UNNAMED);
  // (a bundle without a name judges no token: the library only says whether it can be read)
  const bundles = isUnnamed ? "{}" : shown;
  const read = isUnnamed ? withValidator(library, input, shown, () => undefined) : { status: OK };
  const asked = read.status === OK ? withValidator(library, input, bundles, (validator) => validator.ask(input.token)) : read;
  if (asked.status !== OK) return { parts, names, bundles: shown, isUnnamed, fault: asked };
  const rows = await answered(asked.value.rows, input.token, library);
  const maker = rows.find((it) => it.answer.is === "good")?.key;
  const judgedAt = input.now > input.record.moment ? input.now : input.record.moment;
  const { judged, isUnasked, by } = judge(library, input, names, bundles, maker);
  const verdict = { ...explained(judged, { ...input, parts, names, library, now: judgedAt }), isUnasked };
  if (OF_RECORD.has(verdict.refusal)) {
    // (its use is the one that a validator without a record would add)
    const { key, exp } = withValidator(library, by, bundles, (it) => it.judge(judgedAt, maker, input.token)).value;
    Object.assign(verdict, { key, exp });
  }
  const domain = names.domain ?? onlyOf(domainsOf(shown));
  const keys = keysOf(library, rows, shown, { ...names, domain }, input.token);
  return { parts, names, bundles, isUnnamed, domain: isUnnamed ? undefined : domain, keys, maker, judgedAt, verdict };
}

// What the library says of a token. Where no audience is given, it looks at the other checks by the audiences that the token says itself.
function judge(library, input, names, bundles, maker) {
  const judgedBy = (by) => withRecord(library, by, bundles, (validator) => validator.judge(by.now, maker, by.token)).value;
  const judged = judgedBy(input), isUnasked = !input.own.length && refusalOf(judged.status)?.name === "NotAudience";
  if (!isUnasked) return { judged, isUnasked, by: input };
  const by = { ...input, own: names.audiences };
  return { judged: judgedBy(by), isUnasked, by };
}

const onlyOf = (list) => (list.length === 1 ? list[0] : undefined);

/** Checks a token that `examine` accepted: the record with its use, as messages. */
export function use(library, input, { bundles, maker }) {
  return changed(library, input, bundles, (validator) => validator.check(input.now, maker, input.token).status);
}

/** Withdraws a token that `examine` accepted, or found to be used: the record with the withdrawal, as messages. */
export function withdraw(library, input, { bundles, verdict }) {
  return changed(library, input, bundles, (validator) => validator.withdraw(input.now, verdict.key, verdict.exp));
}

/** The record that messages make: as `recordOf`, and `messages`. They must be messages. */
export function readRecord(library, messages) {
  return { messages, ...recordOf(textOf(library.report(messages).bytes)) };
}

function withValidator(library, { own, longest, validatorId }, bundles, body) {
  return library.withValidator({ longest, validatorId }, own.join("\n"), bundles, body);
}

function withRecord(library, input, bundles, body) {
  return withValidator(library, input, bundles, (validator) => {
    expectOk(validator.take(0n, input.record.messages).status);
    return body(validator);
  });
}

function changed(library, input, bundles, body) {
  return withRecord(library, input, bundles, (validator) => {
    expectOk(body(validator));
    const told = validator.tell();
    expectOk(told.status);
    return told.bytes;
  }).value;
}

function expectOk(status) {
  if (status !== OK) throw new Error(`the library answered ${status}`);
}

async function answered(rows, token, library) {
  const { over, bytes } = library.signature(token), signed = token.slice(0, over);
  return Promise.all(rows.map(async (row) => ({ ...row, answer: await answer(row, signed, bytes) })));
}

function explained(judged, known) {
  const refusal = refusalOf(judged.status);
  if (judged.status === OK) return { ...judged, passed: REFUSALS.length, why: "", marks: [] };
  if (!refusal) throw new Error(`the library answered ${judged.status}`);
  return { status: judged.status, refusal: refusal.name, passed: REFUSALS.indexOf(refusal), ...refusal.holds(known) };
}

// Each entry of the bundle: its answer where it is a candidate, or why it was passed over. A candidate is known by its text as the library
// lists it. One that no entry is would be shown by itself.
function keysOf(library, rows, bundles, names, token) {
  const fitting = new Set(library.candidates(bundles, token)), left = [...rows];
  const entries = entriesOf(bundles, names.domain).map((entry) => {
    const text = bundles.slice(entry.from, entry.to), { key, reason } = keyOf(library, text, names, fitting);
    if (reason !== undefined) return { entry, text, reason };
    const found = left.findIndex((it) => it.key === key);
    if (found !== -1) return { entry, text, row: left.splice(found, 1)[0] };
    return { entry, text, reason: fitting.has(key) ? `only the first ${MOST_CANDIDATES} keys that fit are tried` : undefined };
  });
  return [...entries, ...left.map((row) => ({ entry: parse(row.key), text: row.key, row }))];
}
