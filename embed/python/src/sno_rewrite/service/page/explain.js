// The pattern explained: its tree, with each part in words.

import { at, element, replaceText } from "./dom.js";
import { partAt, partsOf, patternOf } from "./pattern.js";
import { on, state } from "./state.js";

const SHORTEST = "as few as will do";
const characters = (number) => (number === 1 ? "1 character" : `${number} characters`);
const shownSet = (set) => `${set.length === 1 ? "" : "one of "}${shownText(set)}`;

// A text as it is put into words, with what can't be seen by its name.
const shownText = (text) => text.replace(/\n/g, "\u21b5").replace(/\t/g, "\u21e5").replace(/ /g, "\u2423");

const WORDS = {
  literal: (node) => (node.value === "" ? "nothing, which is always there" : `the characters ${shownText(node.value)}`),
  sequence: () => "these, one after the other",
  "|": () => "one of these; they are tried in this order",
  LEN: (node) => `any ${characters(node.number)}`,
  POS: (node) => (node.number === 0 ? "the start of the text" : `only at cursor ${node.number}`),
  RPOS: (node) => (node.number === 0 ? "the end of the text" : `only if ${characters(node.number)} are left`),
  TAB: (node) => `all up to cursor ${node.number}`,
  RTAB: (node) => (node.number === 0 ? "all that is left" : `all but the last ${characters(node.number)}`),
  REM: () => "all that is left",
  ANY: (node) => (node.set.length === 1 ? `the character ${shownText(node.set)}` : `one character of ${shownText(node.set)}`),
  NOTANY: (node) => `one character, but not ${shownSet(node.set)}`,
  SPAN: (node) => `the longest run of characters of ${shownText(node.set)}, at least one`,
  BREAK: (node) => `up to the next ${shownSet(node.set)}, which isn't taken`,
  ARB: () => `any characters, ${SHORTEST}`,
  BAL: () => `characters in which parentheses balance, at least one, ${SHORTEST}`,
  ARBNO: () => `this, any number of times in a row, ${SHORTEST}`,
  FENCE: () => "no way back: if what follows fails, the whole match fails",
  ABORT: () => "the whole match fails",
  FAIL: () => "fails, so that another way is sought",
  ".": (node) => `once the whole match has succeeded, ${node.variable} is what this matched`,
  $: (node) => `at once, ${node.variable} is what this matched`,
  "@": (node) => `at once, ${node.variable} is the cursor`,
  reference: (node) => `the definition ${node.name}${sourceOf(node.name)}`,
};

function sourceOf(name) {
  const found = state.definitions.find((it) => it.name === name);
  return found ? `, which is ${found.pattern}` : "";
}

let tree = null;

export function explain() {
  const source = at("pattern").value;
  tree = source.trim() ? patternOf(source) : null;
  const words = source.trim() ? "What can't be read isn't explained: the findings say what is wrong." : "A pattern is explained here, part by part.";
  replaceText(at("explained-note"), tree ? "" : words);
  at("explained").replaceChildren(...(tree ? [itemOf(tree, source)] : []));
  markPart(at("pattern").selectionStart);
}

function itemOf(node, source) {
  if (node.kind === "group") return itemOf({ ...node.part, from: node.from, to: node.to, of: node.part }, source);
  const item = element("li");
  const row = element("button", undefined, "explained-part");
  row.type = "button";
  row.dataset.from = node.from;
  row.dataset.to = node.to;
  row.append(element("code", source.slice(node.from, node.to)), element("span", WORDS[node.kind](node), "words"));
  row.addEventListener("click", () => {
    at("pattern").focus();
    at("pattern").setSelectionRange(node.from, node.to);
  });
  item.append(row);
  const parts = partsOf(node);
  if (parts.length) {
    const list = element("ul");
    list.append(...parts.map((part) => itemOf(part, source)));
    item.append(list);
  }
  return item;
}

// Marks the smallest part at the caret in the tree.
export function markPart(place) {
  for (const item of at("explained").querySelectorAll("[aria-current]")) item.removeAttribute("aria-current");
  const part = tree && partAt(tree, place);
  if (!part) return;
  const rows = [...at("explained").querySelectorAll("button")];
  const row = rows.filter((it) => Number(it.dataset.from) <= part.from && Number(it.dataset.to) >= part.to).pop();
  row?.setAttribute("aria-current", "true");
}

export function beginExplain() {
  on("typed", explain);
  on("address", explain);
  on("definitions", explain);
  document.addEventListener("selectionchange", () => {
    if (document.activeElement === at("pattern")) markPart(at("pattern").selectionStart);
  });
}
