// The pane of the text. A field of the browser has the characters, and what is below it shows them with their marks.

import { at, replaceText } from "./dom.js";
import { boxOfCursor, characterAt, inSight, showLines } from "./lines.js";
import { currentMatch, isOf, marksWithin } from "./matches.js";
import { canPaint, drawBoxes, paint } from "./paint.js";
import { changedRange } from "./ranges.js";
import { isPlay, on, state } from "./state.js";

const FROM_TOP = 1 / 3; // of the pane, where what is scrolled to is put

let step = null; // the range of the trace's step that is shown
let titles = []; // what is said of characters under the mouse: {from, to, title}
let isScrolled = false;

// What the pane shows: a draft, a text as it was, or the text as it is.
export function shown() {
  if (state.draft?.name === state.chosen && state.draft) return { ...state.draft, isDraft: true };
  if (state.former?.name === state.chosen && state.former) return { ...state.former, isFormer: true };
  return state.texts.get(state.chosen) ?? null;
}

// What a look is of: the name of the text if it is shown as it is, otherwise its characters.
export function subject() {
  const it = shown();
  if (!it || it.text === undefined) return null;
  return isPlay || it.isDraft || it.isFormer ? { own: it.text } : { text: it.name };
}

export function drawPane() {
  const it = shown();
  if (!it) return drawNothing();
  replaceText(at("text-title"), isPlay ? "Your text" : `${it.name}, version ${it.version}${it.isDraft ? ", edited" : ""}`);
  const text = it.text ?? "";
  const field = at("text");
  field.readOnly = it.text === undefined || it.isFormer === true;
  if (field.value !== text) field.value = text;
  showLines(text);
  drawMarks();
}

function drawNothing() {
  replaceText(at("text-title"), "Text");
  at("text").value = "";
  at("text").readOnly = true;
  showLines(null);
  drawMarks();
}

// Paints the marks that are in sight: that takes as long for a long text as for a short one. What is scrolled to is painted then.
function drawMarks() {
  const it = shown();
  const text = it?.text ?? "";
  const fresh = it && freshRange(it, text);
  replaceText(at("changed"), fresh ? `Underlined is what ${it.entry === undefined ? "the last entry" : `entry ${it.entry.entry}`} changed.` : "");
  const hasMatches = !step && it && isOf(text);
  // To ask what is in sight has the browser lay the text out at once, which takes long just after a key.
  const [from, to] = hasMatches || fresh || step ? inSight() : [0, 0];
  const { gaps = [], titles: said = [], ...marks } = hasMatches ? marksWithin(from, to) : {};
  titles = said;
  const clipped = ([start, end]) => [Math.max(start, from), Math.min(end, to)];
  paint({ ...marks, fresh: fresh && !step ? [fresh] : [], step: step ? [step] : [] });
  drawBoxes([
    ...gaps.map(([start]) => ({ from: start, to: start, classes: ["gap"] })),
    ...(marks.current ?? []).map(clipped).map(([start, end]) => ({ from: start, to: end, classes: ["current"] })),
    ...cursors(fresh, from, to),
  ]);
  performance.clearMarks("marks");
  performance.mark("marks");
}

// The cursor of a step, and the place of characters that were taken away.
function cursors(fresh, from, to) {
  const made = [];
  if (step) made.push({ from: step[1], to: step[1], classes: ["cursor"] });
  else if (fresh && fresh[0] === fresh[1]) made.push({ from: fresh[0], to: fresh[0], classes: ["gap", "fresh"] });
  return made.filter((it) => it.from >= from && it.from <= to);
}

function freshRange(it, text) {
  if (isPlay || it.isDraft || it.isFormer || it.before === undefined) return null;
  return changedRange(it.entry, it.before, text);
}

export function showStep(range) {
  step = range;
  if (range) scrollTo(range[1]);
  drawMarks();
}

export function scrollToMatch() {
  const match = currentMatch();
  if (match) scrollTo(match.start);
  drawMarks();
}

// Scrolls the pane, and not the page, to a cursor.
function scrollTo(cursor) {
  const pane = at("pane");
  const box = boxOfCursor(cursor);
  if (!box) return;
  const [place, height] = [box.top - pane.getBoundingClientRect().top, pane.clientHeight];
  if (place < 0 || place > height - 30) pane.scrollTop += place - height * FROM_TOP;
}

// The names and values of the variables at a place of the screen.
function titleAt(x, y) {
  const character = characterAt(x, y);
  if (character === null) return "";
  return titles.filter((it) => it.from <= character && it.to > character).map((it) => it.title).join(", ");
}

function scrolled() {
  if (isScrolled) return;
  isScrolled = true;
  requestAnimationFrame(() => {
    isScrolled = false;
    drawPane();
  });
}

export function beginPane() {
  if (!canPaint) replaceText(at("hover"), "This browser is too old to show marks in the text.");
  at("text").addEventListener("mousemove", (event) => {
    const title = titleAt(event.clientX, event.clientY);
    at("text").title = title;
    replaceText(at("hover"), title);
  });
  at("pane").addEventListener("scroll", scrolled);
  // Another width breaks the lines at other places.
  new ResizeObserver(scrolled).observe(at("marks"));
  on("marks", drawPane);
  on("scroll", scrollToMatch);
}
