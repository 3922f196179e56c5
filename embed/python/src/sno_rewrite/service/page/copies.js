// The statement as a line for the shell, as JSON, and as a piece of a program.

import { at, replaceText } from "./dom.js";
import { isEmpty, statement } from "./form.js";
import { partsOf, patternOf } from "./pattern.js";
import { isPlay, on, state } from "./state.js";

// A word of the shell. Patterns have single quotes, so double ones are easier to read where they will do.
function quotedForShell(text) {
  return /[$`"\\!]/.test(text) ? `'${text.replaceAll("'", "'\\''")}'` : `"${text}"`;
}

// The definitions that a pattern refers to, and those that these refer to.
function reached(pattern, found = new Set()) {
  if (!pattern) return found;
  if (pattern.kind === "reference" && !found.has(pattern.name)) {
    found.add(pattern.name);
    reached(state.definitions.find((it) => it.name === pattern.name)?.tree, found);
  }
  for (const part of partsOf(pattern)) reached(part, found);
  return found;
}

function definitions(given) {
  const names = reached(patternOf(given.pattern));
  return state.definitions.filter((it) => names.has(it.name));
}

function rule(given) {
  const fields = [!given.all && given.repeat === undefined && ":first", given.anchored && ":anchored", given.repeat !== undefined && `:repeat ${given.repeat}`];
  const object = given.object === undefined ? "" : ` =${given.object.trim() ? ` ${given.object.trim()}` : ""}`;
  return [given.pattern.trim() + object, ...fields.filter(Boolean)].join(" ");
}

function shell(given) {
  const defined = definitions(given).map((it) => ` -d ${quotedForShell(`${it.name} = ${it.pattern}`)}`);
  return `sno edit${defined.join("")} -e ${quotedForShell(rule(given))} FILE`;
}

const json = (given, name) => JSON.stringify({ text: name, ...given });

// ASCII as JSON writes it is a literal of Python, and of C.
const literal = (value) => (value === true ? "True" : JSON.stringify(value));

function python(given, name) {
  const patterns = definitions(given).map((it) => `${literal(it.name)}: ${literal(it.pattern)}`);
  const more = Object.entries(given).filter(([member]) => member !== "pattern").map(([member, value]) => `, ${member}=${literal(value)}`);
  return [
    "from sno_rewrite import Statement, rewrite",
    "",
    "listing = rewrite(",
    `    texts={${literal(name)}: open(${literal(name)}).read()},`,
    ...(patterns.length ? [`    patterns={${patterns.join(", ")}},`] : []),
    `    statements=[Statement(${literal(name)}, ${literal(given.pattern)}${more.join("")})],`,
    ")",
    "print(listing.texts[0].text)",
  ].join("\n");
}

function inC(given) {
  const defined = definitions(given).map((it) => `${it.name} = ${it.pattern}\n`).join("");
  const [front, length] = defined ? [`    const char definitions[] = ${literal(defined)};\n`, "(const uint8_t *)definitions, sizeof definitions - 1"] : ["", "NULL, 0"];
  return `#include "sno_rewrite.h"

/* Reads the rule once. sno_pattern_next then finds matches, and sno_pattern_replace gives the new text. */
static uint8_t open_rule(sno_pattern *pattern, uint8_t *fault, size_t room, size_t *length) {
${front}    const char rule[] = ${literal(rule(given))};
    return sno_pattern_open(${length}, (const uint8_t *)rule, sizeof rule - 1, fault, room, length, pattern);
}`;
}

const KINDS = { "copy-shell": shell, "copy-json": json, "copy-python": python, "copy-c": inC };

async function copy(text) {
  try {
    await navigator.clipboard.writeText(text);
    return "Copied.";
  } catch {
    return "The browser doesn't let a page copy: take it from here.";
  }
}

async function show(id) {
  if (isEmpty()) return replaceText(at("copied-line"), "There is no pattern yet.");
  const text = id === "copy-link" ? location.href : KINDS[id](statement(), isPlay ? "FILE" : (state.chosen ?? "TEXT"));
  at("copied").textContent = text;
  at("copied").hidden = false;
  replaceText(at("copied-line"), await copy(text));
}

export function beginCopies(writeAddress) {
  for (const id of Object.keys(KINDS)) at(id).addEventListener("click", () => show(id));
  at("copy-link").addEventListener("click", () => {
    writeAddress(false);
    show("copy-link");
  });
  on("typed", () => {
    at("copied").hidden = true;
    replaceText(at("copied-line"), "");
  });
}
