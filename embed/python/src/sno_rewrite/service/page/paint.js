// Marks in the pane. The browser paints ranges of characters by their names (::highlight in page.css), so that thousands of matches
// need no elements. What a range can't show, as a cursor, is a box over the text.

import { at, element } from "./dom.js";
import { boxesOf, boxOfCursor, rangeOf } from "./lines.js";

export const COLOURS = 8;

// The later ones are painted over those before them. The first variable of a pattern often lies within further ones.
const COLOUR_NAMES = Array.from({ length: COLOURS }, (_, number) => `v${number}`);
const NAMES = ["further", "match", ...[...COLOUR_NAMES].reverse(), "current", "fresh", "part", "step"];

export const canPaint = typeof Highlight === "function" && CSS.highlights !== undefined;

const painted = new Map();

if (canPaint) {
  NAMES.forEach((name, priority) => {
    const made = new Highlight();
    made.priority = priority;
    CSS.highlights.set(name, made);
    painted.set(name, made);
  });
}

// Shows these marks and no others: for each name ranges of characters, [from, to].
export function paint(marks) {
  for (const [name, highlight] of painted) {
    const ranges = marks[name] ?? [];
    if (!ranges.length && !highlight.size) continue;
    highlight.clear();
    for (const [from, to] of ranges) if (from < to) highlight.add(rangeOf(from, to));
  }
}

function boxAt({ left, top, width, height }, corner, ...classes) {
  const made = element("span", undefined, ...classes);
  Object.assign(made.style, { left: `${left - corner.left}px`, top: `${top - corner.top}px`, width: `${width}px`, height: `${height}px` });
  return made;
}

// Shows boxes around ranges, and lines at cursors: {from, to, classes}.
export function drawBoxes(wanted) {
  const corner = at("marks").getBoundingClientRect();
  const made = [];
  for (const { from, to, classes } of wanted) {
    const boxes = from < to ? boxesOf(from, to) : [boxOfCursor(from)].filter(Boolean).map(({ left, top, height }) => ({ left, top, width: 0, height }));
    for (const box of boxes) made.push(boxAt(box, corner, ...classes));
  }
  at("boxes").replaceChildren(...made);
}
