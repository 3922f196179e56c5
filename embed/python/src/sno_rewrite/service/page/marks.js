// Changes of a text, and pieces of it with marks, as fragments of elements.

import { element } from "./dom.js";

const AROUND = 60; // characters that are shown before and after a mark where a text is cut

// The characters before a change, or between two, without those in the middle of many.
function shortened(text, isFirst, isLast) {
  const most = (isFirst ? 0 : AROUND) + (isLast ? 0 : AROUND);
  if (text.length <= most + AROUND) return text;
  return (isFirst ? "" : text.slice(0, AROUND)) + "\u2026" + (isLast ? "" : text.slice(text.length - AROUND));
}

// A text with what is taken out of it and what is put in, change by change.
export function changes(text, replacements) {
  const made = document.createDocumentFragment();
  let place = 0;
  replacements.forEach(([start, end, value], number) => {
    made.append(shortened(text.slice(place, start), number === 0, false));
    const change = element("span", undefined, "change");
    if (start < end) change.append(element("del", text.slice(start, end)));
    if (value !== "" || start === end) change.append(element("ins", value));
    made.append(change);
    place = end;
  });
  made.append(shortened(text.slice(place), replacements.length === 0, true));
  return made;
}

// A text with these ranges marked, without what is far from them.
export function excerpt(text, ranges) {
  const made = document.createDocumentFragment();
  let place = 0;
  ranges.forEach(([start, end], number) => {
    made.append(shortened(text.slice(place, start), number === 0, false), element("mark", text.slice(start, end), ...(start === end ? ["gap"] : [])));
    place = end;
  });
  made.append(ranges.length ? shortened(text.slice(place), false, true) : text.slice(0, 2 * AROUND));
  return made;
}
