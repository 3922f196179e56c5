// Ranges of characters: what an entry matched, and what it changed.

export function rangesOf(entry) {
  if (entry.all) return entry.all.map((match) => [match.start, match.end]);
  return entry.start === undefined ? [] : [[entry.start, entry.end]];
}

// The part of each of two texts in which they differ: [start, end in the first one, end in the second one].
export function difference(before, after) {
  const most = Math.min(before.length, after.length);
  let front = 0;
  while (front < most && before[front] === after[front]) front += 1;
  let back = 0;
  while (back < most - front && before[before.length - 1 - back] === after[after.length - 1 - back]) back += 1;
  return [front, before.length - back, after.length - back];
}

// The part of the new text that an entry changed. If it isn't known what it matched, or that was the whole text, the part that isn't
// as it was.
export function changedRange(entry, before, after) {
  const isWhole = entry?.start === 0 && entry.end === before.length;
  if (entry?.start !== undefined && !isWhole) return [entry.start, after.length - (before.length - entry.end)];
  const [start, , end] = difference(before, after);
  return [start, end];
}

// What each match was replaced by, as [start, end, the characters put in], if that gives the new text; or the one part that differs.
export function replacements(entry, before, valueOf) {
  const matches = entry.all ?? (entry.start === undefined ? [] : [entry]);
  const parts = matches.map((match) => [match.start, match.end, valueOf?.(match.bindings)]);
  if (parts.length && parts.every((part) => part[2] !== undefined) && replaced(before, parts) === entry.after) return parts;
  const [start, end, last] = difference(before, entry.after);
  return [[start, end, entry.after.slice(start, last)]];
}

function replaced(text, parts) {
  let place = 0;
  const made = [];
  for (const [start, end, value] of parts) {
    made.push(text.slice(place, start), value);
    place = end;
  }
  return made.join("") + text.slice(place);
}

export function wordsOf(entry) {
  if (!entry.matched) return "no match";
  if (entry.all) return entry.all.length === 1 ? "1 match" : `${entry.all.length} matches`;
  if (entry.repeated !== undefined) return `${entry.repeated} rounds`;
  return `match from ${entry.start} to ${entry.end}`;
}
