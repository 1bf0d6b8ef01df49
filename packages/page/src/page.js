// The page: what is in its fields, what the library says of it, and what a person does.

import { BUNDLE_FAULTS, countOf, domainsOf } from "./bundles.js";
import { byId, fill, make } from "./dom.js";
import { examine, readRecord, use, withdraw } from "./examine.js";
import { makeExample } from "./example.js";
import { drawChecks, drawKeys, drawParts, drawToken, makeChecks } from "./explain.js";
import { parse } from "./json.js";
import { hexOf, Library } from "./library.js";
import { changesOf, faultOfMessages } from "./record.js";
import { timeOf } from "./refusals.js";
import { BEARER_FAULTS, partsOf, tokenIn } from "./token.js";
import { agoOf, clock, dateOf, readTime, spanOf } from "./time.js";
import { Timeline } from "./timeline.js";
import { lacking } from "./verify.js";

const TICK = 1000, STEPS = 1000n, AHEAD = 10n;
const BUNDLES_NOT_OBJECT = 31, BUNDLES_DOMAIN = 32, BUNDLES_KEYS = 33;
const NOTHING = new Uint8Array();
const fields = ["token", "bundles", "domain", "own", "time", "longest"];
const value = (id) => byId(id).value;

const bytes = Uint8Array.from(atob(byId("module").textContent.trim()), (it) => it.charCodeAt(0));
let library = await Library.load(bytes);
const validatorId = crypto.getRandomValues(new Uint8Array(16));
const timeline = new Timeline();
let record = readRecord(library, NOTHING);
let shown; // what was examined last: `{ input, result }`
let asked = 0;
let gained = new Set(); // the names of the uses that the record gained last
let recordShown, keyShown;

// ---- What is in the fields ----

const isLive = () => byId("live").getAttribute("aria-pressed") === "true";

function says(id, text, isBad = false) {
  const hint = byId(`${id}-said`);
  if (hint.textContent !== text) hint.textContent = text;
  hint.classList.toggle("bad", isBad);
  byId(id).setAttribute("aria-invalid", String(isBad));
}

// The time in its field, or that of the clock; undefined where it is none.
function readNow() {
  const now = isLive() ? clock() : readTime(value("time"));
  if (isLive() && document.activeElement !== byId("time")) byId("time").value = String(now);
  says("time", now === undefined ? "Write seconds since 1970, or a date as 2026-01-31T12:00Z." : dateOf(now) + (isLive() ? "" : `, ${agoOf(now, clock())}`), now === undefined);
  return now;
}

// The longest life, undefined for any; NaN where the field has no number.
function readLongest() {
  const text = value("longest").trim(), isFine = text === "" || /^\d{1,19}$/.test(text);
  says("longest", isFine ? "" : "Write digits, or nothing.", !isFine);
  if (!isFine) return NaN;
  return text ? BigInt(text) : undefined;
}

// Why nothing can be judged by an input, if so.
function faultOfInput({ now, longest }) {
  if (now === undefined) return "The time can't be read.";
  return Number.isNaN(longest) ? "The longest life can't be read." : undefined;
}

// The token, which may stand in a header field; none where that has none.
function readToken() {
  const text = value("token"), { from, to, isField, fault } = tokenIn(text, library);
  const why = fault && `This reads as a header field Authorization, and has no bearer token: ${BEARER_FAULTS[fault]}.`;
  const taken = isField ? `The library took the token out of a header field: the ${to - from} characters behind "${text.slice(0, from).trim()}".` : "";
  says("token", why ?? taken, Boolean(fault));
  return { token: fault ? "" : text.slice(from, to), from: fault ? 0 : from, tokenFault: why };
}

function readInput() {
  return {
    ...readToken(),
    bundles: value("bundles"),
    domain: value("domain").trim(),
    own: value("own").split("\n").map((it) => it.trim()).filter(Boolean),
    now: readNow(),
    longest: readLongest(),
    validatorId,
    record,
  };
}

// ---- What is shown ----

/** Examines what is in the fields, and shows it. A later call takes the place of an earlier one that has not ended. */
async function refresh() {
  const mine = ++asked;
  document.documentElement.dataset.busy = "true";
  try {
    const input = readInput(), why = faultOfInput(input);
    if (isOther(input)) byId("results").dataset.old = "true"; // What is shown of another token goes before this one is judged.
    if (why || isOther(input)) drawField(input, []);
    const result = why ? undefined : await examine(library, input);
    if (mine !== asked) return;
    shown = { input, result };
    if (why) drawNothing(why);
    else draw(shown);
    delete byId("results").dataset.old;
  } catch (error) {
    if (mine !== asked) return;
    await restart(error);
  }
  if (mine === asked) delete document.documentElement.dataset.busy;
}

// Whether another token than this one is shown, or none, or its place is empty.
const isOther = (input) => !shown || tokenOf(shown.input) !== tokenOf(input) || byId("results").dataset.old !== undefined;
const tokenOf = ({ token, tokenFault }) => tokenFault ?? token;

// A module that stopped is not called again: a new one takes its place. The record is not in the module.
async function restart(error) {
  library = await Library.load(bytes);
  shown = undefined;
  delete byId("results").dataset.old;
  drawField({ token: "", from: 0 }, []);
  drawNothing(`The library stopped: ${error.message}. What is in the fields may be too large; change it to try again.`);
}

function drawNothing(why) {
  drawRecord("");
  for (const id of ["use", "withdraw"]) byId(id).setAttribute("aria-disabled", "true");
  drawVerdict("none", "Not judged", why);
  drawChecks({});
}

// The text of the token's field, which can't be seen in the field itself.
function drawField({ token, from }, marks) {
  const parts = partsOf(token, library).map((it) => ({ from: it.from + from, to: it.to + from }));
  drawToken({ token: value("token"), parts, marks: marks.map(([a, b]) => [a + from, Math.min(b, token.length) + from]) });
}

function draw({ input, result }) {
  const { parts, names, domain, isUnnamed, keys = [], fault, verdict, judgedAt = input.now } = result;
  const marks = input.token && verdict ? verdict.marks : [];
  drawField(input, marks);
  drawParts({ parts, marks, now: judgedAt });
  drawBundles(input, result);
  drawSlider(parts, input.now);
  drawKeys({ token: input.token, keys, names, domain, isUnnamed });
  drawChecks(input.token && !fault ? verdict : {});
  drawResult(input, result);
  drawRecord(input.token ? hexOf(verdict?.key ?? NOTHING) : "");
}

function drawResult({ token, now, tokenFault }, { names, fault, verdict, judgedAt }) {
  const isAccepted = verdict?.status === 0 && !verdict.isUnasked;
  byId("use").setAttribute("aria-disabled", String(!isAccepted));
  byId("withdraw").setAttribute("aria-disabled", String(!isAccepted && verdict?.refusal !== "Replayed"));
  if (tokenFault) return drawVerdict("none", "Not judged", "No token can be taken out of the header field.");
  if (!token) {
    const why = lacking() ? `No signature can be verified here, and no example made: ${lacking()}.` : "Its parts, the verdict and the reason appear here.";
    return drawVerdict("none", "Paste a token", why);
  }
  if (fault) return drawVerdict("none", "Not judged", "The trust bundles can't be read.");
  const late = judgedAt > now ? ` Judged at ${dateOf(judgedAt)}, the time that the record has seen.` : "";
  const holder = `${verdict.id} until ${dateOf(verdict.exp ?? 0n)}, ${agoOf(verdict.exp ?? 0n, judgedAt)}.${late}`;
  if (isAccepted) return drawVerdict("accepted", "Accepted", holder);
  if (!verdict.isUnasked) return drawVerdict("refused", `Refused: ${verdict.refusal}`, verdict.why + late);
  if (verdict.refusal && verdict.refusal !== "NotAudience") {
    return drawVerdict("refused", `Refused: ${verdict.refusal}`, `${verdict.why}${late} The audience was not looked at, since none is given.`);
  }
  const wanted = `The token is for ${names.audiences.map((it) => JSON.stringify(it)).join(", ")}. Write the audiences of your service: without one, a service accepts no token.`;
  return drawVerdict("none", "The audience was not looked at", verdict.refusal ? wanted : `${wanted} It passed every other check: ${holder}`);
}

function drawVerdict(kind, said, why) {
  byId("verdict").dataset.verdict = kind;
  if (byId("verdict-said").textContent !== said) byId("verdict-said").textContent = said;
  byId("verdict-why").textContent = why;
}

function drawBundles({ bundles }, result) {
  const isOne = library.isOneBundle(bundles);
  byId("domain-row").hidden = !isOne;
  byId("domain").placeholder = result.names.domain ?? "example.org";
  if (result.fault) return says("bundles", faultOf(result), true);
  const domains = domainsOf(result.bundles);
  if (isOne) return says("bundles", `A bundle as SPIRE prints it, with ${counted(countOf(bundles), "entry", "entries")}. ${ofDomain(result, domains[0])}`);
  return says("bundles", bundles.trim() ? `${domains.length} trust ${domains.length === 1 ? "domain" : "domains"}: ${domains.slice(0, 3).join(", ")}${domains.length > 3 ? ", …" : ""}` : "As SPIRE prints a bundle, or an object of many.");
}

function ofDomain({ isUnnamed }, domain) {
  if (isUnnamed) return "Which trust domain is it of? Write the name below. If you leave it empty, the trust domain of the token is taken.";
  return `It is taken as that of ${domain}, ${value("domain").trim() ? "which stands below" : "the trust domain of the token"}.`;
}

function counted(n, one, many) {
  return `${n.toLocaleString("en")} ${n === 1 ? one : many}`;
}

// What is wrong with bundles, where, and what to do.
function faultOf({ fault, bundles }) {
  const [says, advice] = BUNDLE_FAULTS[fault.status] ?? [`The library answered ${fault.status}.`, ""];
  return [says, whereOf(fault, bundles), advice].filter(Boolean).join(" ");
}

function whereOf({ status, offset }, bundles) {
  if (status === BUNDLES_DOMAIN || status === BUNDLES_KEYS) return `It is ${JSON.stringify(domainsOf(bundles)[offset] ?? "")}.`;
  if (status !== BUNDLES_NOT_OBJECT) return "";
  try {
    parse(bundles);
    return "They are JSON of another kind.";
  } catch ({ at, message }) {
    const line = bundles.slice(0, at).split("\n");
    return `In line ${line.length}, at character ${line.at(-1).length + 1}, ${message}.`;
  }
}

// ---- The slider around the times of the token ----

// From a tenth of the token's life before it to a tenth after it.
function spanOfLife(parts) {
  const exp = timeOf(parts, "exp"), begin = timeOf(parts, "nbf") ?? timeOf(parts, "iat");
  if (exp === undefined) return undefined;
  const from = begin !== undefined && begin < exp ? begin : exp > 3600n ? exp - 3600n : 0n;
  const margin = (exp - from) / 10n + 1n;
  return { low: from > margin ? from - margin : 0n, high: exp + margin };
}

function drawSlider(parts, now) {
  const life = spanOfLife(parts), slider = byId("slider");
  slider.disabled = !life;
  const at = (time) => Number(((time - life.low) * STEPS) / (life.high - life.low));
  if (life && document.activeElement !== slider) slider.value = String(Math.min(Math.max(at(now), 0), Number(STEPS)));
  if (life) slider.setAttribute("aria-valuetext", dateOf(now));
  const marks = ["nbf", "exp"].map((name) => [name, life && timeOf(parts, name)]).filter(([, time]) => time !== undefined && time >= life.low && time <= life.high);
  fill(byId("slider-marks"), marks.map(([name, time]) => {
    const it = make("span", {}, name);
    it.style.left = `${at(time) / 10}%`;
    return it;
  }));
}

function slides() {
  const life = spanOfLife(partsOf(readToken().token, library));
  setLive(false);
  byId("time").value = String(life.low + ((life.high - life.low) * BigInt(value("slider"))) / STEPS);
  refresh();
}

function setLive(isOn) {
  byId("live").setAttribute("aria-pressed", String(isOn));
}

// ---- The record ----

// Draws the record where it or the row of the token is another than before.
function drawRecord(key) {
  if (record === recordShown && key === keyShown) return;
  recordShown = record;
  keyShown = key;
  const { uses, rows, moment } = record;
  const withdrawals = uses.filter((it) => it.isWithdrawal).length, twice = rows.filter((it) => it.isTwice).length;
  const counts = [counted(uses.length - withdrawals, "use", "uses"), counted(withdrawals, "withdrawal", "withdrawals"), counted(twice, "key used twice", "keys used twice")];
  byId("record-said").textContent = moment ? `It has seen ${dateOf(moment)}. ${counts.join(", ")}.` : "It has seen no time yet.";
  for (const id of ["save", "forget"]) byId(id).setAttribute("aria-disabled", String(!moment && !uses.length));
  timeline.show(record, gained, key);
}

function setRecord(messages, words) {
  const before = record;
  record = readRecord(library, messages);
  const change = changesOf(before, record), { known, lost } = change;
  gained = change.gained;
  const clockText = record.moment > before.moment ? ` Its clock went ${before.moment ? `from ${dateOf(before.moment)} ` : ""}to ${dateOf(record.moment)}.` : "";
  const [fresh, old, gone] = [gained.size, known, lost].map((it) => it.toLocaleString("en"));
  tellChange(`${words}: ${fresh} new, ${old} known${lost ? `, ${gone} expired and dropped` : ""}.${clockText}${aheadText()}`);
  return refresh();
}

// What a validator with a usual setting says of a time that it should not have seen yet.
function aheadText() {
  const ahead = record.moment - clock();
  return ahead > AHEAD ? ` That is ${spanOf(ahead)} ahead of this computer's clock: a validator that allows ${AHEAD} seconds refuses such a message.` : "";
}

function tellChange(text, isBad = false) {
  byId("record-change").append(make("p", { class: isBad ? "bad" : undefined }, text));
}

function takeMessages(name, content, joined) {
  if (joined.status !== 0) return tellChange(`${name} was not taken: ${faultOfMessages(library, content, joined)}`, true);
  return setRecord(joined.bytes, `${name} (${counted(library.entries(content).count, "entry", "entries")})`);
}

// ---- What a person does ----

async function takeFile(file) {
  const content = new Uint8Array(await file.arrayBuffer());
  const joined = library.join(record.messages, content);
  if (joined.status === 0) return takeMessages(file.name, content, joined);
  const text = new TextDecoder().decode(content).trim();
  if (text.startsWith("{")) return put("bundles", text);
  if (/^[\w.-]*$/.test(text) || tokenIn(text, library).isField) return put("token", text);
  return takeMessages(file.name, content, joined);
}

async function takeFiles(files) {
  fill(byId("record-change"));
  for (const it of files) {
    try {
      await takeFile(it);
    } catch (error) {
      tellChange(`${it.name} was not taken: ${error.message}`, true); // (one that is a folder, or gone)
    }
  }
}

function put(id, text) {
  byId(id).value = text;
  return refresh();
}

// Fills the fields with a token that is good now, for minutes.
async function loadExample() {
  document.documentElement.dataset.busy = "true";
  try {
    const example = await makeExample(clock());
    setLive(true);
    for (const id of ["token", "bundles", "own"]) byId(id).value = example[id];
  } finally {
    delete document.documentElement.dataset.busy;
  }
  return refresh();
}

function changes(make, words) {
  fill(byId("record-change"));
  return setRecord(make(), words);
}

function save() {
  const link = make("a", { href: URL.createObjectURL(new Blob([record.messages])), download: "record.messages" });
  link.click();
  URL.revokeObjectURL(link.href);
}

// A button that is not to be pressed now keeps the focus, and does nothing.
function press(id, action) {
  byId(id).addEventListener("click", () => byId(id).getAttribute("aria-disabled") === "true" || action());
}

function listen() {
  for (const id of fields) byId(id).addEventListener("input", () => (id === "time" && setLive(false), refresh()));
  byId("inputs").addEventListener("submit", (event) => event.preventDefault());
  byId("slider").addEventListener("input", slides);
  press("live", () => (setLive(!isLive()), refresh()));
  byId("example").setAttribute("aria-disabled", String(lacking() !== undefined));
  press("example", loadExample);
  press("open", () => byId("files").click());
  press("use", () => changes(() => use(library, shown.input, shown.result), "The use of this token"));
  press("withdraw", () => changes(() => withdraw(library, shown.input, shown.result), "The withdrawal of this token"));
  press("save", save);
  press("forget", () => changes(() => NOTHING, "The empty record"));
  byId("files").addEventListener("change", async () => {
    await takeFiles(byId("files").files);
    byId("files").value = "";
  });
  addEventListener("dragover", (event) => (event.preventDefault(), (byId("drop").hidden = false)));
  addEventListener("dragleave", (event) => event.relatedTarget || (byId("drop").hidden = true));
  addEventListener("drop", (event) => {
    event.preventDefault();
    byId("drop").hidden = true;
    takeFiles(event.dataTransfer.files);
  });
  setInterval(() => isLive() && document.documentElement.dataset.busy === undefined && refresh(), TICK);
}

makeChecks();
listen();
byId("about").textContent = `svid ${library.version()}; the module has ${bytes.length.toLocaleString("en")} bytes and asks its host for nothing.`;
await refresh();
