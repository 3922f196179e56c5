// The lines of the pane, and where a character of the text is on the screen. Who types changes one line: all others stay as they are.

import { at, element } from "./dom.js";

const LONGEST = 1_024; // characters of a piece; a line has at least one
const NEAR = 300; // pixels above and below the pane that count as in sight

let drawn = null; // the text that they show
let lines = []; // the characters of each line, with its end
let pieces = []; // {node, from}: the texts of which the lines are made, in order
let length = 0;

export function showLines(text) {
  if (text === drawn) return;
  drawn = text;
  const now = text === null ? [] : text.split(/(?<=\n)/);
  if (text?.endsWith("\n")) now.push("");
  const [front, back] = same(lines, now);
  const old = [...at("marks").children];
  replaceLines(old.slice(front, lines.length - back), now.slice(front, now.length - back), old[lines.length - back] ?? null);
  // A counter of the style would have all lines laid out at each key.
  if (now.length !== lines.length) [...at("marks").children].slice(front).forEach((line, number) => (line.dataset.number = front + number + 1));
  lines = now;
  findPieces();
}

// How many lines at the front, and then at the back, two lists have in common.
function same(before, after) {
  const most = Math.min(before.length, after.length);
  let front = 0;
  while (front < most && before[front] === after[front]) front += 1;
  let back = 0;
  while (back < most - front && before[before.length - 1 - back] === after[after.length - 1 - back]) back += 1;
  return [front, back];
}

// A line that becomes another one stays the same element, so that those after it keep their numbers and needn't be laid out.
function replaceLines(gone, texts, next) {
  gone.slice(texts.length).forEach((line) => line.remove());
  gone.slice(0, texts.length).forEach((line, number) => fill(line, texts[number]));
  const made = document.createDocumentFragment();
  for (const text of texts.slice(gone.length)) made.append(fill(element("div", undefined, "line-of-text"), text));
  at("marks").insertBefore(made, next);
}

function fill(line, text) {
  const parts = [];
  for (let from = 0; from === 0 || from < text.length; from += LONGEST) parts.push(text.slice(from, from + LONGEST));
  if (parts.length === 1 && line.childNodes.length === 1) line.firstChild.data = text;
  else line.replaceChildren(...parts.map((part) => document.createTextNode(part)));
  return line;
}

function findPieces() {
  pieces = [];
  length = 0;
  for (const line of at("marks").children) {
    for (const node of line.childNodes) {
      pieces.push({ node, from: length });
      length += node.length;
    }
  }
}

// The first of a number of places of which something holds, if it holds of all after that too.
export function firstOf(count, holds) {
  let [low, high] = [0, count];
  while (low < high) {
    const middle = (low + high) >> 1;
    if (holds(middle)) high = middle;
    else low = middle + 1;
  }
  return low;
}

// The node that has a cursor, and its place there. An end is that of a piece, and a start begins one.
function placeOf(cursor, isEnd) {
  const after = firstOf(pieces.length, (number) => (isEnd ? pieces[number].from >= cursor : pieces[number].from > cursor));
  const { node, from } = pieces[Math.max(0, after - 1)];
  return [node, Math.min(node.length, cursor - from)];
}

export function rangeOf(from, to) {
  const [[startContainer, startOffset], [endContainer, endOffset]] = [placeOf(from, false), placeOf(to, to > from)];
  return new StaticRange({ startContainer, startOffset, endContainer, endOffset });
}

function liveRange(from, to) {
  const given = rangeOf(from, to);
  const made = document.createRange();
  made.setStart(given.startContainer, given.startOffset);
  made.setEnd(given.endContainer, given.endOffset);
  return made;
}

// The boxes that some characters have on the screen, one for each line that they are on.
export const boxesOf = (from, to) => [...liveRange(from, to).getClientRects()].filter((box) => box.width > 0);

// The box of a cursor, which has no width.
export function boxOfCursor(cursor) {
  if (!pieces.length) return null;
  const box = liveRange(cursor, cursor).getBoundingClientRect();
  // An empty line has no characters, and so no box of its own.
  return box.height > 0 ? box : placeOf(cursor, false)[0].parentElement.getBoundingClientRect();
}

// A line of one piece is a block, whose box is known even if it is empty.
function boxOfPiece({ node }) {
  if (node.parentElement.childNodes.length === 1) return node.parentElement.getBoundingClientRect();
  const range = document.createRange();
  range.selectNodeContents(node);
  return range.getBoundingClientRect();
}

// From where to where the text is in sight, and near it.
export function inSight() {
  if (!pieces.length) return [0, 0];
  const { top, bottom } = at("pane").getBoundingClientRect();
  const first = firstOf(pieces.length, (number) => boxOfPiece(pieces[number]).bottom >= top - NEAR);
  const after = firstOf(pieces.length, (number) => boxOfPiece(pieces[number]).top > bottom + NEAR);
  return [pieces[first]?.from ?? length, pieces[after]?.from ?? length];
}

// The character at a place of the screen, or null. The field that lies over the lines has the same characters at the same places.
export function characterAt(x, y) {
  const place = document.caretPositionFromPoint?.(x, y);
  if (place?.offsetNode !== at("text")) return null;
  const isIn = (box) => x >= box.left && x <= box.right && y >= box.top && y <= box.bottom;
  return [place.offset - 1, place.offset].find((cursor) => cursor >= 0 && cursor < length && boxesOf(cursor, cursor + 1).some(isIn)) ?? null;
}
