// statuses.toml as tests in JavaScript read it, which look whether a text is that of the list.

import { readFileSync } from "node:fs";

const text = readFileSync(new URL("statuses.toml", import.meta.url), "utf8");
const fields = (row) => Object.fromEntries([...row.matchAll(/^(\w+) = (?:"(.*)"|(\d+))$/gm)].map(([, name, said, number]) => [name, said ?? Number(number)]));

/** What the list has of each status, by its name behind `SVID_`. What a group advises, each status of it advises that has no advice of its own. */
export const LISTED = new Map(
  text.split("[[group]]").slice(1).flatMap((group) => {
    const [of, ...rows] = group.split("[[group.status]]").map(fields);
    return rows.map((row) => [`${of.prefix ?? ""}${row.name}`, { advice: of.advice ?? "", ...row }]);
  }),
);

const capital = (it) => it.slice(0, 1).toUpperCase() + it.slice(1);

/** What a status says, as sentences without marks: what is wrong, where that is, and what to do. */
export function sentences(name, where = "") {
  const { says, words = `${capital(says)}.`, advice } = LISTED.get(name);
  return [words.replaceAll("`", ""), where, advice && `${capital(advice)}.`].filter(Boolean).join(" ");
}

/** What is wrong, as a part of a sentence: without marks, without a capital, and without a period. */
export function clause(name) {
  const { says, words = says } = LISTED.get(name), plain = words.replaceAll("`", "").replace(/\.$/, "");
  return plain.slice(0, 1).toLowerCase() + plain.slice(1);
}

/** That, and what to do. */
export function wholeClause(name) {
  return [clause(name), LISTED.get(name).advice].filter(Boolean).join(": ");
}
