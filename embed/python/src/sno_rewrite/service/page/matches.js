// The matches that a look has found in the text, which of them is the current one, and how each is marked.

import { at, counted, element, replaceText } from "./dom.js";
import { firstOf } from "./lines.js";
import { COLOURS } from "./paint.js";
import { partAt, variablesOf } from "./pattern.js";
import { placesOf } from "./places.js";
import { emit, state } from "./state.js";

let found = null; // {text, matches, total, entry, pattern, microseconds, trials}
let current = 0;
let last = null; // the text and the pattern of the last matches: while an object isn't whole there are none
let caret = null; // the place of the caret in the pattern

export function showMatches(given) {
  const isOther = given && (given.text !== last?.text || given.source !== last?.source);
  if (given) last = { text: given.text, source: given.source };
  found = given && { ...given, variables: given.pattern ? variablesOf(given.pattern) : [], places: [] };
  if (isOther) current = 0;
  if (found && current >= found.matches.length) current = 0;
  const isMany = (found?.matches.length ?? 0) > 1;
  at("previous-match").disabled = at("next-match").disabled = !isMany;
  drawLine();
  emit("marks");
}

function drawLine() {
  replaceText(at("match-line"), found ? words() : "");
  drawVariables();
}

export function showTrials(trials) {
  if (!found) return;
  found.trials = trials;
  replaceText(at("match-line"), words());
}

export const isOf = (text) => found !== null && found.text === text;

export const currentMatch = () => found?.matches[current];

export const currentNumber = () => current;

export function goTo(step) {
  if (!found || !found.matches.length) return;
  current = (current + step + found.matches.length) % found.matches.length;
  drawLine();
  emit("marks");
  emit("scroll", current);
}

export function putCaret(place) {
  if (caret === place) return;
  caret = place;
  if (found) emit("marks");
}

function words() {
  const match = found.matches[current];
  const trials = found.trials === undefined ? "" : ` ${counted(found.trials, "trial")},`;
  const late = found.seconds === undefined ? "" : `; to find all takes longer than ${counted(found.seconds, "second")}`;
  const cost = found.microseconds === undefined ? "the new text would be too long" : `the statement takes${trials} ${(found.microseconds / 1000).toFixed(1)} ms`;
  if (!match) return `No match; ${cost}`;
  const kept = found.total > found.matches.length ? ` (the first ${found.matches.length.toLocaleString("en")} are marked)` : "";
  const which = found.total === undefined ? "Match 1" : `Match ${current + 1} of ${found.total.toLocaleString("en")}${kept}`;
  return `${which}, from ${match.start} to ${match.end}; ${cost}${late}`;
}

function placed(number) {
  found.places[number] ??= { is: found.pattern ? placesOf(found.pattern, definitionsByName(), found.text, found.matches[number]) : null };
  return found.places[number].is;
}

const definitionsByName = () => new Map(state.definitions.map((it) => [it.name, it.tree]));

// The marks between two cursors of the text, and the names and values that those of variables stand for.
export function marksWithin(from, to) {
  const made = { match: [], further: [], gaps: [], current: [], part: [], titles: [] };
  const first = firstOf(found.matches.length, (number) => found.matches[number].end >= from);
  for (let number = first; number < found.matches.length && found.matches[number].start <= to; number += 1) {
    const { start, end } = found.matches[number];
    made[number > 0 && !found.entry.all ? "further" : "match"].push([start, end]);
    if (start === end) made.gaps.push([start, end]);
    if (number === current) made.current.push([start, end]);
    addVariables(made, number);
  }
  if (made.current.length) made.part = partAtCaret();
  return made;
}

function addVariables(made, number) {
  const places = placed(number);
  if (!places) return;
  const values = new Map(found.matches[number].bindings);
  for (const [name, { from, to }] of places.variables) {
    if (from === undefined) continue;
    (made[colourOf(name)] ??= []).push([from, to]);
    made.titles.push({ from, to, title: `${name} = ${values.get(name)}` });
  }
}

const colourOf = (name) => `v${found.variables.indexOf(name) % COLOURS}`;

// The variables of the current match, each in its colour: what is seen under the mouse is read here without one.
function drawVariables() {
  const rows = (currentMatch()?.bindings ?? []).map(([name, value]) => {
    const row = element("li");
    row.append(element("span", name, "variable", colourOf(name)), ` = ${value}`);
    return row;
  });
  at("variables").replaceChildren(...rows);
}

// The part of the pattern at the caret, in the current match.
function partAtCaret() {
  if (caret === null || !found.pattern) return [];
  const part = partAt(found.pattern, caret);
  const places = part && placed(current);
  return places ? places.parts.filter((it) => it.node === part).map(({ from, to }) => [from, to]) : [];
}
