// The journal: what was done, by whom, and what it changed. Older entries are asked for as one scrolls to them.

import { at, button, element, replaceText } from "./dom.js";
import { changes, excerpt } from "./marks.js";
import { objectOf, valueOf } from "./pattern.js";
import { rangesOf, replacements, wordsOf } from "./ranges.js";
import { request } from "./requests.js";
import { emit, on, state } from "./state.js";
import { formerText } from "./texts.js";

const SHOWN = 100; // entries that are shown before older ones are asked for
const KEPT = 2_000; // entries that are kept
const PAGE = 50; // older entries that are asked for at a time
const PAUSE = 150; // milliseconds until it is asked who sent the entries that have come

const stamps = new Map(); // index: {by, at, line}
let most = SHOWN; // rows that are shown
let ends = new Set(); // the texts, or null for all, whose first entry is known
let asking = false;
let timer = null;

export function addEntry(entry) {
  state.entries.set(entry.entry, entry);
  if (state.entries.size > KEPT) forget();
}

// Drops the oldest half: they can be asked for again.
function forget() {
  const kept = [...state.entries].sort(([one], [other]) => one - other).slice(-KEPT / 2);
  state.entries = new Map(kept);
  stamps.clear();
  ends = new Set();
  most = SHOWN;
}

const filter = () => (at("only").checked ? state.chosen : null);

function rowsNow() {
  const name = filter();
  const rows = [...state.entries.values()].filter((entry) => name === null || entry.text === name);
  return rows.sort((one, other) => other.entry - one.entry);
}

export function drawJournal() {
  const list = at("journal");
  const rows = rowsNow().slice(0, most);
  const wanted = new Set(rows.map((entry) => String(entry.entry)));
  for (const item of [...list.children]) if (!wanted.has(item.dataset.entry)) item.remove();
  let place = list.firstChild;
  for (const entry of rows) {
    if (place && place.dataset.entry === String(entry.entry)) place = place.nextSibling;
    else list.insertBefore(journalItem(entry), place);
  }
  at("older").hidden = ends.has(filter()) && rowsNow().length <= most;
  if (rows.some((entry) => !stamps.has(entry.entry))) askSoon();
}

function journalItem(entry) {
  const item = element("li");
  item.dataset.entry = entry.entry;
  const version = entry.after === undefined ? `version ${entry.version}` : `version ${entry.version} to ${entry.version + 1}`;
  item.append(element("div", `Entry ${entry.entry}: ${entry.text}, ${version}, ${wordsOf(entry)}`, "result"));
  item.append(element("div", "", "note", "author"), element("code", "", "line"));
  const shown = item.appendChild(element("pre"));
  shown.tabIndex = 0;
  shown.setAttribute("aria-label", `What entry ${entry.entry} did`);
  for (const [name, value] of entry.bindings ?? []) item.append(element("div", `${name} = ${value}`, "note"));
  if (entry.after !== undefined) {
    const offered = element("p", undefined, "buttons");
    offered.append(button(`Revert entry ${entry.entry}`, () => emit("revert", entry)));
    offered.append(button(`Show version ${entry.version}`, () => emit("show version", entry.text, entry.version)));
    item.append(offered);
  }
  drawStamp(item, entry);
  return item;
}

// Who sent it, when, and what; and then what it changed, for which the statement is needed.
function drawStamp(item, entry) {
  const stamp = stamps.get(entry.entry);
  if (!stamp) return;
  const who = stamp.by ?? "somebody without a name";
  replaceText(item.querySelector(".author"), stamp.at ? `by ${who}, at ${stamp.at.replace("T", " ").replace("Z", " UTC")}` : "a statement of the document");
  const given = stamp.line ? JSON.parse(stamp.line) : {};
  replaceText(item.querySelector(".line"), lineOf(given));
  drawChange(item.querySelector("pre"), entry, given);
}

function lineOf(given) {
  if (given.pattern === undefined) return "";
  const isWhole = given.pattern === "POS(0) REM" && given.bind !== undefined;
  if (isWhole) return "the whole text";
  const object = given.object === undefined ? "" : ` = ${given.object}`;
  const options = [given.anchored && "anchored", given.all && "for all matches", given.repeat && `${given.repeat} rounds`].filter(Boolean);
  return `${given.pattern}${object}${options.length ? ` (${options.join(", ")})` : ""}`;
}

async function drawChange(shown, entry, given) {
  const before = await formerText(entry.text, entry.version);
  if (before === undefined) return shown.remove();
  if (entry.after === undefined) return shown.replaceChildren(excerpt(before, rangesOf(entry)));
  const isWhole = given.bind !== undefined;
  const parts = !isWhole && given.object !== undefined ? objectOf(given.object) : null;
  const plain = isWhole ? { after: entry.after } : entry;
  shown.replaceChildren(changes(before, replacements(plain, before, parts && ((bindings) => valueOf(parts, bindings)))));
}

function askSoon() {
  if (timer === null) timer = setTimeout(askForStamps, PAUSE);
}

async function askForStamps() {
  timer = null;
  const wanted = [...at("journal").children].map((item) => Number(item.dataset.entry)).filter((index) => !stamps.has(index));
  if (!wanted.length) return;
  const first = Math.max(Math.min(...wanted), Math.max(...wanted) - 999);
  await takeEntries(`/entries?since=${first}&limit=${Math.max(...wanted) - first + 1}`);
  for (const item of at("journal").children) {
    const entry = state.entries.get(Number(item.dataset.entry));
    if (entry && wanted.includes(entry.entry)) drawStamp(item, entry);
  }
}

async function takeEntries(path) {
  let response;
  try {
    response = await request(path);
  } catch {
    return null;
  }
  if (!response.ok) return null;
  const { entries } = await response.json();
  for (const { by, at: when, key, line, ...entry } of entries) {
    stamps.set(entry.entry, { by, at: when, line });
    if (!state.entries.has(entry.entry)) state.entries.set(entry.entry, entry);
  }
  return entries;
}

async function askForOlder() {
  if (asking || at("older").hidden) return;
  asking = true;
  const name = filter();
  const rows = rowsNow();
  if (rows.length <= most) {
    const before = rows.length ? rows[rows.length - 1].entry : (state.next ?? 0);
    const path = name === null ? "/entries?" : `/texts/${encodeURIComponent(name)}/history?`;
    const entries = await takeEntries(`${path}before=${before}&limit=${PAGE}`);
    if (entries && entries.length < PAGE) ends.add(name);
  }
  most += PAGE;
  asking = false;
  drawJournal();
}

export function beginJournal() {
  at("only").addEventListener("change", () => {
    most = SHOWN;
    drawJournal();
    if (at("only").checked && rowsNow().length < PAGE) askForOlder();
  });
  at("older-button").addEventListener("click", askForOlder);
  new IntersectionObserver((seen) => seen.some((it) => it.isIntersecting) && askForOlder(), { rootMargin: "200px" }).observe(at("older"));
  on("chosen", () => at("only").checked && drawJournal());
}
