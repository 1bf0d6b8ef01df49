// Times for the eye. A time is a BigInt of whole seconds since 1970, as in a token; it may lie beyond every calendar.

const LAST_DATE = 253402300799n; // the end of the year 9999
const UNITS = [["year", 31556952n], ["month", 2629746n], ["day", 86400n], ["h", 3600n], ["min", 60n], ["s", 1n]];
const WORDS = new Set(["year", "month", "day"]); // the others are signs, which have no plural
// What is no such date some browsers read all the same, each as another one.
const DATE = /^\d{4}-\d\d-\d\d(?=([T ]\d\d:\d\d(:\d\d(\.\d+)?)?(Z|[+-]\d\d:\d\d)?)?$)/i;
const two = (it) => String(it).padStart(2, "0");

/** A local date and time, as "2026-11-25 19:40:12". */
export function dateOf(time) {
  if (time > LAST_DATE) return "after the year 9999";
  const it = new Date(Number(time) * 1000);
  const day = [String(it.getFullYear()).padStart(4, "0"), two(it.getMonth() + 1), two(it.getDate())].join("-");
  return `${day} ${two(it.getHours())}:${two(it.getMinutes())}:${two(it.getSeconds())}`;
}

/** A length of time by its greatest unit, as "4 min". */
export function spanOf(seconds) {
  const length = seconds < 0n ? -seconds : seconds;
  const [name, size] = UNITS.find(([, it]) => length >= it) ?? UNITS.at(-1);
  const count = length / size;
  return `${count.toLocaleString("en")} ${name}${WORDS.has(name) && count !== 1n ? "s" : ""}`;
}

/** How a time stands to now: "in 4 min", "4 min ago", "now". */
export function agoOf(time, now) {
  if (time === now) return "now";
  return time > now ? `in ${spanOf(time - now)}` : `${spanOf(now - time)} ago`;
}

/** Now, by the clock of this computer. */
export function clock() {
  return BigInt(Math.floor(Date.now() / 1000));
}

/** Reads what a person wrote as a time: seconds since 1970, or a date as RFC 3339 has it. Undefined where it is neither. */
export function readTime(text) {
  const trimmed = text.trim();
  if (/^\d{1,20}$/.test(trimmed)) {
    const time = BigInt(trimmed);
    return time < 2n ** 64n ? time : undefined;
  }
  const [day] = DATE.exec(trimmed) ?? [], isDay = day && new Date(day).toJSON()?.startsWith(day), parsed = isDay ? Date.parse(trimmed) : NaN;
  return Number.isNaN(parsed) || parsed < 0 ? undefined : BigInt(Math.floor(parsed / 1000));
}
