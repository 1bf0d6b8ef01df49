// The record of used tokens, as the page shows it: read from what svid_report writes, and told apart from the record before.

const OK = 0, TRUNCATED = 18;
// How many bytes are shown from where a fault is.
const SHOWN = 8;

// lists:begin messages (written by tools/lists from lists/statuses.toml)
/** Why messages are refused, by status (include/svid.h), and what is due where they are at fault. */
export const MESSAGE_FAULTS = {
  3: ["bundles, a table or messages have more than 67,108,864 bytes: give less at once", ""],
  11: ["the first four bytes are those of no version", "4A 53 52, which is JSR, and then 02 or 01"],
  12: ["the fifth byte is that of no kind of message of the version", "01 for a batch, or 02 for a summary, which only version 2 has"],
  13: ["a batch tells of too many uses", "a number of at most 65,536 uses, or of 4,096 in version 1"],
  14: ["the last byte of a use is neither 0 nor 1", "a use whose last byte is 00 or 01"],
  15: ["a use expires at its batch's moment or before it", "a use that expires after the batch's moment"],
  16: ["a use was made after its batch's moment", "a use that was made at the batch's moment or before it"],
  17: ["a use is not greater than the one before it", "a use that is greater than the one before it"],
  18: ["the bytes end before the message does", "the rest of the message"],
};
// lists:end

/**
 * The record that a report tells (docs/FORMATS.md, "svid report").
 * @returns `{ moment, rows, uses }`: a row a key, those used twice first, then by expiry; a row is `{ key, from, exp, isTwice, uses }`, and a
 * use `{ exp, key, validatorId, at, isWithdrawal }`
 */
export function recordOf(report) {
  const lines = report.split("\n");
  const count = Number(lines[1].slice(5));
  const uses = lines.slice(2, 2 + count).map((line) => {
    const [exp, key, validatorId, at, withdrawn] = line.split(" ");
    return { exp: BigInt(exp), key, validatorId, at: BigInt(at), isWithdrawal: withdrawn !== undefined };
  });
  const twice = new Set(lines.slice(3 + count).map((line) => line.slice(0, 64)));
  return { moment: BigInt(lines[0].slice(7)), uses, rows: rowsOf(uses, twice) };
}

function rowsOf(uses, twice) {
  const rows = new Map();
  for (const use of uses) {
    const row = rows.get(use.key) ?? { key: use.key, from: use.at, exp: use.exp, isTwice: twice.has(use.key), uses: [] };
    if (use.at < row.from) row.from = use.at;
    if (use.exp > row.exp) row.exp = use.exp;
    row.uses.push(use);
    rows.set(use.key, row);
  }
  // (the report has the uses by rising expiry, and a sort leaves equal rows in their order)
  return [...rows.values()].sort((a, b) => Number(b.isTwice) - Number(a.isTwice));
}

/** What tells a use from every other. */
export function useName({ exp, key, validatorId, at, isWithdrawal }) {
  return [exp, key, validatorId, at, isWithdrawal].join(" ");
}

/** What a record gained and lost against the one before: `{ gained, lost, known }`, the names of uses and two counts. */
export function changesOf(before, after) {
  const old = new Set(before.uses.map(useName)), now = new Set(after.uses.map(useName));
  const gained = new Set([...now].filter((it) => !old.has(it)));
  return { gained, known: now.size - gained.size, lost: [...old].filter((it) => !now.has(it)).length };
}

/** What is wrong with a file that holds no messages, where, and what is due there; `status`, `message` and `offset` are of `Library.join`. */
export function faultOfMessages(library, bytes, { status, message, offset }) {
  const [says, due] = MESSAGE_FAULTS[status] ?? [`the library answered ${status}`];
  if (!due) return `${says}.`;
  const at = startOf(library, bytes, message) + offset, stands = [...bytes.subarray(at, at + SHOWN)].map(hexOfByte);
  const begins = at === bytes.length ? "The file ends at" : "What is wrong begins at";
  const there = stands.length ? ` There ${stands.length === 1 ? "stands" : "stand"} ${stands.join(" ")}${at + SHOWN < bytes.length ? " …" : ""}.` : "";
  return `${says}. ${begins} byte ${at} of the file, which is byte ${offset} of message ${message}.${there} Due there: ${due}.`;
}

const hexOfByte = (it) => it.toString(16).padStart(2, "0").toUpperCase();

/**
 * Where the message at fault begins, counted from 1. Of a file that ends within it, the library says how many of its bytes are there: so
 * such an end is looked for.
 */
export function startOf(library, bytes, message) {
  for (let least = 0, most = bytes.length, cut = most; ; cut = Math.floor((least + most) / 2)) {
    const it = library.entries(bytes.subarray(0, cut));
    if (it.status === OK || it.message < message) least = cut + 1;
    else if (it.status === TRUNCATED) return cut - it.offset;
    else most = cut - 1;
  }
}
