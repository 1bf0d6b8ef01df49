// The page of svidd dev: it shows what the stream /events tells, and asks /mint for tokens.
"use strict";

const most = 200; // rows of a table

/** Puts a row on top of a table. A cell is its text, or its text and its class. */
function add(table, cells) {
  const body = document.querySelector(`#${table} tbody`);
  const row = body.insertRow(0);
  for (const cell of cells) {
    const [text, kind] = Array.isArray(cell) ? cell : [cell, ""];
    const td = row.insertCell();
    td.textContent = text ?? "";
    td.className = kind;
  }
  while (body.rows.length > most) body.deleteRow(-1);
}

const clock = (time) => time.slice(11, 19);
const short = (key) => (key ? `${key.slice(0, 12)}..` : "");

const callers = new Map(); // name: [accepted, refused, last]

function decided(time, it) {
  const claimed = it.claimed ?? {};
  const reason = [it.event, it.reason, it.event === "refused" ? it.says : ""].filter(Boolean).join(", ");
  const caller = it.caller ?? it.second ?? it.client ?? "";
  add("decisions", [clock(time), [reason, it.event], caller, it.sub ?? claimed.sub, [short(it.key ?? claimed.key), "code"]]);
  if (!caller || it.event === "second caller") return;
  const counts = callers.get(caller) ?? [0, 0, ""];
  counts[it.event === "accepted" ? 0 : 1] += 1;
  counts[2] = clock(time);
  callers.set(caller, counts);
  document.querySelector("#callers tbody").replaceChildren();
  for (const [name, [accepted, refused, last]] of callers) add("callers", [name, accepted, refused, last]);
}

function minted(time, it) {
  const expires = clock(new Date(it.exp * 1000).toISOString());
  add("tokens", [clock(time), it.sub, it.aud.join(", "), expires, it.fault, [short(it.key), "code"], [it.token, "code"]]);
}

const show = {
  decision: decided,
  token: minted,
  keys: (time, ids) => { document.getElementById("keys").textContent = `${clock(time)}: ${ids.join(", ")}`; },
};

new EventSource("events").onmessage = (message) => {
  const { kind, time, value } = JSON.parse(message.data);
  show[kind](time, value);
};

document.getElementById("mint").addEventListener("submit", async (event) => {
  event.preventDefault();
  const said = document.getElementById("said");
  const form = new FormData(event.target);
  const asked = { sub: form.get("sub"), jti: form.get("jti"), fault: form.get("fault") };
  if (form.get("aud")) asked.aud = [form.get("aud")];
  if (form.get("life")) asked.life = Number(form.get("life"));
  try {
    const answer = await fetch("mint", { method: "POST", body: JSON.stringify(asked) });
    const given = await answer.json();
    said.textContent = given.error ?? given.token;
  } catch (error) {
    said.textContent = String(error);
  }
});
