// What is wrong with the statement, and what it would do.

import { at, counted, element } from "./dom.js";
import { changes, excerpt } from "./marks.js";
import { objectOf, valueOf } from "./pattern.js";
import { rangesOf, replacements, wordsOf } from "./ranges.js";
import { on } from "./state.js";
import { farthest } from "./steps.js";

const AT_ONCE = 50; // changes that are drawn while one types
const QUIET = 250; // milliseconds without another look until all are drawn

let later = null; // draws all changes, if they aren't drawn yet
let timer = null;

export function drawFindings(found) {
  const list = at("findings");
  list.replaceChildren();
  at("pattern").removeAttribute("aria-invalid");
  if (!found) return;
  for (const error of found.errors) {
    const item = list.appendChild(element("li", error.fault.replace(/^statement 1: /, "")));
    if (error.excerpt !== undefined) item.append(element("pre", `${error.excerpt}\n${" ".repeat(error.column)}^ ${error.advice}`));
    else if (error.advice) item.append(` (${error.advice})`);
    at("pattern").setAttribute("aria-invalid", "true");
  }
  for (const warning of found.warnings) list.append(element("li", `warning: ${warning.message}`, "warning"));
  if (!found.errors.length && !found.warnings.length) list.append(element("li", "Nothing is wrong with it.", "fine"));
}

// Why there is no entry.
function refusal(found) {
  if (found.seconds !== undefined) return `The preview gave up after ${counted(found.seconds, "second")}.`;
  if (found.trials !== undefined) return `The preview gave up after ${counted(found.trials, "trial")}.`;
  return `It would be refused: ${found.reason}.`;
}

export function drawPreview(given, found, text) {
  const shown = at("preview");
  drawNoMore();
  if (!given || found.error) return shown.replaceChildren();
  if (found.reason) return shown.replaceChildren(element("p", refusal(found)));
  const { entry } = found;
  const which = found.version === undefined ? "" : `On version ${found.version}: `;
  if (!entry.matched) return shown.replaceChildren(element("p", `${which}it doesn't match.`), ...bindings(entry));
  const pre = element("pre");
  pre.tabIndex = 0;
  pre.setAttribute("aria-label", "What would change");
  shown.replaceChildren(element("p", `${which}${wordsOf(entry)}.`), ...bindings(entry));
  if (entry.after !== undefined) drawChanges(pre, text, replacementsOf(given, entry, text));
  else if (rangesOf(entry).length) pre.append(excerpt(text, rangesOf(entry).slice(0, 1)));
  else return;
  shown.append(pre);
  scrollToChange(0);
}

function replacementsOf(given, entry, text) {
  const parts = objectOf(given.object);
  return replacements(entry, text, parts && ((values) => valueOf(parts, values)));
}

// The first changes at once, and all of them when nothing more is typed: to lay out thousands takes longer than one waits for a key.
function drawChanges(pre, text, all) {
  if (all.length <= AT_ONCE) return pre.append(changes(text, all));
  const until = all[AT_ONCE - 1][1];
  pre.append(changes(text.slice(0, until), all.slice(0, AT_ONCE)), "\u2026");
  later = () => {
    drawNoMore();
    pre.replaceChildren(changes(text, all));
  };
  timer = setTimeout(() => later?.(), QUIET);
}

function drawNoMore() {
  clearTimeout(timer);
  later = null;
}

// Marks the change that is made of the current match, and scrolls to it.
function scrollToChange(number) {
  if (number >= AT_ONCE) later?.();
  const drawn = at("preview").querySelectorAll(".change, mark");
  const change = drawn[number] ?? drawn[0];
  if (!change) return;
  at("preview").querySelector(".current")?.classList.remove("current");
  change.classList.add("current");
  change.parentElement.scrollTop = change.offsetTop - change.parentElement.clientHeight / 3;
}

on("scroll", scrollToChange);

const bindings = (entry) => (entry.bindings ?? []).map(([name, value]) => element("p", `${name} = ${value}`, "note"));

// Of a match that failed: how far it came, and what was wanted there.
export function drawFailure(lines) {
  const found = farthest(lines);
  if (!found) return;
  const front = found.isCut ? "In the part that is traced, the" : "The";
  at("preview").append(element("p", `${front} farthest cursor was ${found.cursor}, where ${found.wanted.join(" or ")} was wanted.`));
}
