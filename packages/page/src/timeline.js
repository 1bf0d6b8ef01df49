// The record as a timeline: a row a key, a bar from its first use to its expiry, a dot a use. Only the rows in sight are elements, so a
// record of many thousands is as quick as a small one; above them, a small picture shows all.

import { byId, fill, make } from "./dom.js";
import { useName } from "./record.js";
import { agoOf, dateOf } from "./time.js";

const ROW = 30, MOST_ROWS = 10, BEYOND = 6, COLOURS = 8, PICTURE_FROM = 40, PICTURE = 72, TICKS = 5;

/** The timeline in the page, which keeps what it shows and which row is chosen. */
export class Timeline {
  constructor() {
    this.list = byId("rows");
    this.picture = byId("picture");
    this.record = { moment: 0n, rows: [], uses: [] };
    this.gained = new Set();
    this.chosen = 0;
    this.own = -1; // the row of the token
    this.list.addEventListener("scroll", () => this.drawRows());
    this.list.addEventListener("keydown", (event) => this.moves(event));
    this.list.addEventListener("click", (event) => this.clicked(event));
    this.picture.addEventListener("click", (event) => this.jumps(event));
    new ResizeObserver(() => this.draw()).observe(this.list);
    matchMedia("(prefers-color-scheme: dark)").addEventListener("change", () => this.drawPicture());
  }

  /** Shows a record, with the uses that it has just gained; `key` is that of the token, whose row is chosen. */
  show(record, gained, key) {
    this.record = record;
    this.gained = gained;
    this.validators = validatorsOf(record.uses);
    this.scale = scaleOf(record);
    this.own = record.rows.findIndex((it) => it.key === key);
    this.chosen = Math.max(this.own, 0);
    this.list.style.height = `${Math.min(record.rows.length, MOST_ROWS) * ROW + 2}px`;
    byId("timeline").hidden = !record.rows.length;
    byId("timeline-none").hidden = record.rows.length > 0;
    this.drawAxis();
    this.drawValidators();
    this.draw();
    this.reveal();
    this.drawChosen();
  }

  draw() {
    this.drawRows();
    this.drawPicture();
  }

  drawAxis() {
    const { from, span } = this.scale;
    const ticks = Array.from({ length: TICKS }, (_, n) => from + (span * BigInt(n)) / BigInt(TICKS - 1));
    // (the record's clock, above, has the year)
    fill(byId("axis"), ticks.map((it) => make("span", {}, span < 172800n ? dateOf(it).slice(5, 16) : dateOf(it).slice(0, 10))));
  }

  drawValidators() {
    const shown = [...this.validators].slice(0, COLOURS), more = this.validators.size - shown.length;
    fill(byId("validators"), shown.map(([id, { colour, count }]) =>
      make("li", {}, make("i", { class: `dot validator-${colour}`, "aria-hidden": "true" }), make("code", {}, id.slice(0, 8)), ` ${count.toLocaleString("en")}`)),
      more > 0 && make("li", {}, `and ${more} more ${more === 1 ? "validator" : "validators"}`));
  }

  // The rows in sight, and some beyond, at their height in the whole list.
  drawRows() {
    const { rows } = this.record;
    const first = Math.max(Math.floor(this.list.scrollTop / ROW) - BEYOND, 0);
    const last = Math.min(first + Math.ceil(this.list.clientHeight / ROW) + 2 * BEYOND, rows.length);
    const inside = make("div", { class: "inside", role: "presentation" });
    inside.style.height = `${rows.length * ROW}px`;
    for (let n = first; n < last; n++) inside.append(this.row(rows[n], n));
    fill(this.list, inside);
    if (rows.length) this.list.setAttribute("aria-activedescendant", `row-${this.chosen}`);
    else this.list.removeAttribute("aria-activedescendant");
  }

  row(row, n) {
    const bar = this.placed("bar", row.from, row.exp);
    if (row.exp > this.scale.from + this.scale.span) bar.classList.add("beyond-scale");
    const lane = make("span", { class: "lane" }, this.placed("clock", this.record.moment), bar, row.uses.map((use) => this.dot(use)));
    const it = make("div", { class: "row", role: "option", id: `row-${n}`, "aria-selected": String(n === this.chosen), "aria-setsize": this.record.rows.length, "aria-posinset": n + 1, "aria-label": rowText(row, n === this.own) },
      make("span", { class: "key" }, make("code", {}, row.key.slice(0, 12)), marksOf(row, n === this.own).map((mark) => make("b", {}, mark))), lane);
    if (row.isTwice) it.classList.add("twice");
    it.style.top = `${n * ROW}px`;
    return it;
  }

  placed(kind, from, to = from) {
    const it = make("i", { class: kind });
    it.style.left = `${this.percent(from)}%`;
    if (to !== from) it.style.width = `${this.percent(to) - this.percent(from)}%`;
    return it;
  }

  dot(use) {
    const it = this.placed(use.isWithdrawal ? "cross" : "dot", use.at);
    it.classList.add(`validator-${this.validators.get(use.validatorId).colour}`);
    if (this.gained.has(useName(use))) it.classList.add("gained");
    return it;
  }

  percent(time) {
    return Math.min(Number(((time - this.scale.from) * 10000n) / this.scale.span) / 100, 100);
  }

  // Each row as one line, in as many pixels as there are.
  drawPicture() {
    const { rows } = this.record;
    this.picture.hidden = rows.length < PICTURE_FROM;
    if (this.picture.hidden) return;
    const width = this.picture.clientWidth * devicePixelRatio, height = PICTURE * devicePixelRatio;
    Object.assign(this.picture, { width, height });
    const context = this.picture.getContext("2d"), style = getComputedStyle(this.picture);
    const colours = Array.from({ length: COLOURS }, (_, n) => style.getPropertyValue(`--validator-${n}`)), bad = style.getPropertyValue("--bad");
    const thick = Math.max(height / rows.length, devicePixelRatio);
    context.globalAlpha = 0.8;
    rows.forEach((row, n) => {
      context.fillStyle = row.isTwice || isWithdrawn(row) ? bad : colours[this.validators.get(row.uses[0].validatorId).colour];
      const from = (this.percent(row.from) / 100) * width, to = (this.percent(row.exp) / 100) * width;
      context.fillRect(from, (n * height) / rows.length, Math.max(to - from, devicePixelRatio), thick);
    });
  }

  drawChosen() {
    const row = this.record.rows[this.chosen];
    if (!row) return fill(byId("chosen"));
    const inTime = [...row.uses].sort((a, b) => Number(a.at - b.at));
    const uses = inTime.map((use) => make("li", {},
      make("i", { class: `${use.isWithdrawal ? "cross" : "dot"} validator-${this.validators.get(use.validatorId).colour}`, "aria-hidden": "true" }),
      `${use.isWithdrawal ? "withdrawn" : "used"} at ${dateOf(use.at)} by `, make("code", {}, use.validatorId), this.gained.has(useName(use)) && make("b", {}, "new")));
    fill(byId("chosen"), make("p", {}, make("code", {}, row.key)), make("p", {}, `${row.isTwice ? "Used twice. " : ""}Expires at ${dateOf(row.exp)}, ${agoOf(row.exp, this.record.moment)} by the record's clock.`), make("ul", {}, uses));
  }

  choose(n) {
    this.chosen = Math.min(Math.max(n, 0), this.record.rows.length - 1);
    this.reveal();
    this.drawRows();
    this.drawChosen();
  }

  reveal() {
    const top = this.chosen * ROW, { scrollTop, clientHeight } = this.list;
    if (top < scrollTop) this.list.scrollTop = top;
    else if (top + ROW > scrollTop + clientHeight) this.list.scrollTop = top + ROW - clientHeight;
  }

  moves(event) {
    const page = Math.max(Math.floor(this.list.clientHeight / ROW) - 1, 1);
    const to = { ArrowDown: this.chosen + 1, ArrowUp: this.chosen - 1, PageDown: this.chosen + page, PageUp: this.chosen - page, Home: 0, End: Infinity }[event.key];
    if (to === undefined || event.ctrlKey || event.altKey || event.metaKey) return;
    event.preventDefault();
    this.choose(to);
  }

  clicked(event) {
    const row = event.target.closest(".row");
    if (row) this.choose(Number(row.id.slice(4)));
  }

  jumps(event) {
    this.choose(Math.floor((event.offsetY / this.picture.clientHeight) * this.record.rows.length));
  }
}

const isWithdrawn = (row) => row.uses.some((it) => it.isWithdrawal);

const marksOf = (row, isOwn) => [isOwn && "this token", row.isTwice && "used twice", isWithdrawn(row) && "withdrawn"].filter(Boolean);

function rowText(row, isOwn) {
  const what = marksOf(row, isOwn).join(", ");
  return `Key ${row.key.slice(0, 12)}${what && `, ${what}`}, ${row.uses.length} ${row.uses.length === 1 ? "entry" : "entries"}, expires at ${dateOf(row.exp)}`;
}

// The validators in the order in which the record names them, each with its colour and how many entries it made.
function validatorsOf(uses) {
  const validators = new Map();
  for (const { validatorId } of uses) {
    const known = validators.get(validatorId) ?? { colour: validators.size % COLOURS, count: 0 };
    known.count++;
    validators.set(validatorId, known);
  }
  return validators;
}

// From the first use to the last expiry; but where few rows expire long after all others, not up to these.
function scaleOf({ rows, uses, moment }) {
  const from = uses.reduce((least, { at }) => (at < least ? at : least), moment);
  const ends = rows.map((it) => it.exp).sort((a, b) => (a < b ? -1 : Number(a > b)));
  const most = ends[Math.floor(ends.length * 0.95)] ?? moment, last = ends.at(-1) ?? moment;
  const limit = most + (most - from) / 4n;
  const to = last < limit ? last : limit;
  return { from, span: to > from ? to - from : 1n };
}
