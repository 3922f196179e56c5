// The trace of a match, stepped through by keys; the pane shows where each step is.

import { at, element, replaceText } from "./dom.js";
import { isEmpty, statement } from "./form.js";
import { currentMatch, currentNumber } from "./matches.js";
import { showStep as showInPane, subject } from "./pane.js";
import { post } from "./requests.js";
import { stepsOf } from "./steps.js";

let traced = null; // {lines, steps}

async function trace() {
  const subjectNow = subject();
  if (isEmpty() || subjectNow === null) return;
  const given = { ...subjectNow, ...statement(), ...whichMatch() };
  const response = await post("/trace", given);
  const found = await response.json();
  const lines = found.lines ?? [found.error ?? found.reason];
  traced = { lines, steps: stepsOf(lines) };
  at("trace-lines").replaceChildren(...lines.map((line) => element("li", line)));
  at("trace").hidden = false;
  at("step").max = lines.length - 1;
  goToStep(0);
  at("next").focus();
}

// The start of the current match, if it isn't the first one.
function whichMatch() {
  return currentNumber() === 0 ? {} : { from: currentMatch().start, to: currentMatch().start };
}

function goToStep(number) {
  const { lines, steps } = traced;
  const place = Math.max(0, Math.min(lines.length - 1, number));
  at("step").value = place;
  showInPane(steps[place]);
  replaceText(at("trace-line"), `Step ${place + 1} of ${lines.length}: ${lines[place].trim()}`);
  const list = at("trace-lines");
  list.querySelector("[aria-current]")?.removeAttribute("aria-current");
  const item = list.children[place];
  item.setAttribute("aria-current", "step");
  list.scrollTop = item.offsetTop - list.offsetTop - 60;
  for (const id of ["first", "previous"]) at(id).disabled = place === 0;
  for (const id of ["next", "last"]) at(id).disabled = place === lines.length - 1;
}

// A trace is of one statement on one text: another one has another trace.
export function closeTrace() {
  if (!traced) return;
  traced = null;
  at("trace").hidden = true;
  at("trace-lines").replaceChildren();
  showInPane(null);
}

const stepNow = () => Number(at("step").value);

const MOVES = { ArrowRight: 1, ArrowDown: 1, ArrowLeft: -1, ArrowUp: -1, PageDown: 10, PageUp: -10, Home: -Infinity, End: Infinity };

export function beginTrace() {
  at("trace-button").addEventListener("click", trace);
  at("step").addEventListener("input", () => goToStep(stepNow()));
  at("first").addEventListener("click", () => goToStep(0));
  at("previous").addEventListener("click", () => goToStep(stepNow() - 1));
  at("next").addEventListener("click", () => goToStep(stepNow() + 1));
  at("last").addEventListener("click", () => goToStep(traced.lines.length - 1));
  at("trace-close").addEventListener("click", closeTrace);
  at("trace").addEventListener("keydown", (event) => {
    if (event.key === "Escape") return closeTrace(), at("pattern").focus();
    if (event.target === at("step") || MOVES[event.key] === undefined) return;
    event.preventDefault();
    goToStep(stepNow() + MOVES[event.key]);
  });
}
