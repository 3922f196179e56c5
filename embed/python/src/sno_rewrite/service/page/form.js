// The fields of the statement.

import { at } from "./dom.js";

export function fields() {
  return {
    pattern: at("pattern").value,
    object: at("object").value,
    nothing: at("nothing").checked,
    anchored: at("anchored").checked,
    all: at("all").checked,
    repeat: at("repeat").value,
  };
}

export function fill(given) {
  for (const id of ["pattern", "object", "repeat"]) at(id).value = given[id] ?? "";
  for (const id of ["nothing", "anchored", "all"]) at(id).checked = given[id] === true;
}

// The members of the statement, without its text.
export function statement() {
  const given = fields();
  const made = { pattern: given.pattern };
  if (given.object.trim()) made.object = given.object;
  else if (given.nothing) made.object = "";
  if (given.anchored) made.anchored = true;
  if (given.all) made.all = true;
  if (given.repeat) made.repeat = Number(given.repeat);
  return made;
}

export const isEmpty = () => !at("pattern").value.trim();

export const FIELDS = ["pattern", "object", "nothing", "anchored", "all", "repeat"];
