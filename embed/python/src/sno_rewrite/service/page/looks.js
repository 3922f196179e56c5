// What the service says of the statement while it is typed. One look is under way at a time, and the next one is of what is typed
// then. A look that fails says nothing of the connection.

import { at, replaceText } from "./dom.js";
import { isEmpty, statement } from "./form.js";
import { showMatches, showTrials } from "./matches.js";
import { subject } from "./pane.js";
import { patternOf } from "./pattern.js";
import { drawFailure, drawFindings, drawPreview } from "./preview.js";
import { post } from "./requests.js";
import { emit, state } from "./state.js";
import { formerText } from "./texts.js";

const AGAIN = 300; // milliseconds until a look that found too many others is tried again
const MOST_MARKED = 5_000; // matches, as of the service
const QUIET = 250; // milliseconds without a key until trials are counted

let isLooking = false;
let isStale = false;
let isCounting = false;
let timer = null;
let quiet = null;
let last = null; // what has been shown: {key, version}

// What is looked at: one statement on one text.
const keyOf = (given) => JSON.stringify(given);

export function lookSoon() {
  isStale = true;
  if (!isLooking) look();
}

// The version of the text on which the preview of this statement is, or null if none is shown.
export function previewed() {
  const on = subject();
  return last && on && last.key === keyOf({ ...on, ...statement() }) ? last.version : null;
}

async function look() {
  clearTimeout(timer);
  isLooking = true;
  try {
    while (isStale) {
      isStale = false;
      if (!(await lookOnce())) {
        timer = setTimeout(lookSoon, AGAIN);
        break;
      }
    }
  } finally {
    isLooking = false;
  }
}

async function lookOnce() {
  clearTimeout(quiet);
  const on = subject();
  if (isEmpty() || on === null) return showNothing();
  const given = { ...on, ...statement() };
  try {
    const preview = await post("/preview", { ...given, matches: true });
    if (preview.status === 503) return false;
    const found = await preview.json();
    if (!preview.ok) return showRefused(found.error ?? found.reason);
    await show(given, found);
    return await showFindings(given, found);
  } catch (fault) {
    if (!(fault instanceof TypeError)) throw fault;
    last = null;
    replaceText(at("preview"), "There is no preview at the moment: the service couldn't be asked.");
    return true;
  }
}

// A preview has the warnings. Where in a pattern a fault is takes a look of its own, which nothing else waits for.
async function showFindings(given, found) {
  if (found.findings) drawFindings({ errors: [], warnings: found.findings });
  if (found.findings || isStale) return true;
  const response = await post("/findings", given);
  if (response.ok) drawFindings(await response.json());
  return response.status !== 503;
}

// What can't be looked at at all, as a text that is too long.
function showRefused(why) {
  showNothing();
  replaceText(at("preview"), `There is no preview: ${why}.`);
  return true;
}

function showNothing() {
  last = null;
  drawFindings(null);
  drawPreview(null);
  showMatches(null);
  return true;
}

async function show(given, found) {
  const text = given.own ?? (await formerText(given.text, found.version));
  if (text === undefined) return;
  last = found.error ? null : { key: keyOf(given), version: found.version };
  drawPreview(given, found, text);
  if (!found.entry && !found.matches) return showMatches(null);
  // A new text that would be too long has matches too.
  const entry = found.entry ?? { matched: true, all: found.matches };
  const own = entry.matched && entry.start !== undefined ? [entry] : [];
  showMatches({
    text,
    entry,
    source: keyOf([given.pattern, given.anchored]),
    pattern: patternOf(given.pattern),
    matches: found.matches ?? entry.all?.slice(0, MOST_MARKED) ?? own,
    total: found.total,
    microseconds: found.microseconds,
    seconds: found.entry ? found.seconds : undefined,
  });
  emit("looked");
  quiet = setTimeout(() => lookLonger(given, entry), QUIET);
}

// What takes longer, once nothing more is typed: how many trials there are, and where a match that failed came. One such look is under
// way at a time: a few that nobody waits for any more would hold the next preview up.
async function lookLonger(given, entry) {
  if (isCounting) {
    quiet = setTimeout(lookLonger, QUIET, given, entry);
    return;
  }
  isCounting = true;
  try {
    await countTrials(given, entry);
  } catch (fault) {
    if (!(fault instanceof TypeError)) throw fault;
  } finally {
    isCounting = false;
  }
}

async function countTrials(given, entry) {
  const isStill = () => last?.key === keyOf(given);
  const counted = await post("/trials", given);
  const found = counted.ok ? await counted.json() : {};
  if (isStill() && !found.reason && found.trials) showTrials(found.trials);
  if (entry.matched || !isStill()) return;
  const traced = await post("/trace", given);
  if (traced.ok && isStill()) drawFailure((await traced.json()).lines ?? []);
}

export async function loadDefinitions(request) {
  const response = await request("/definitions");
  if (!response.ok) return;
  const rows = (await response.json()).definitions;
  state.definitions = rows.map((row) => ({ ...row, tree: patternOf(row.pattern) }));
}
