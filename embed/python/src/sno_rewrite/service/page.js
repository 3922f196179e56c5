// The page of the service. What comes from texts is only ever put in as text (textContent, append), never as HTML.

import { beginAddress, fillFromAddress, takeLeft, takeToken, writeAddress } from "./page/address.js";
import { beginCases } from "./page/cases.js";
import { beginCopies } from "./page/copies.js";
import { at } from "./page/dom.js";
import { beginEditing } from "./page/editing.js";
import { beginExplain } from "./page/explain.js";
import { FIELDS } from "./page/form.js";
import { beginHistory } from "./page/history.js";
import { addEntry, beginJournal, drawJournal } from "./page/journal.js";
import { loadDefinitions, lookSoon } from "./page/looks.js";
import { goTo, putCaret } from "./page/matches.js";
import { beginNames, chooseFromAddress, drawNames } from "./page/names.js";
import { beginPane, drawPane } from "./page/pane.js";
import { beginPlay } from "./page/play.js";
import { beginReference } from "./page/reference.js";
import { keepToken, request } from "./page/requests.js";
import { connect } from "./page/socket.js";
import { emit, isPlay, on } from "./page/state.js";
import { beginSubmit } from "./page/submit.js";
import { takeChange } from "./page/texts.js";
import { beginTrace, closeTrace } from "./page/trace.js";

const MANY = 20; // entries since the page was drawn, from which on it is drawn less often
const PAUSE = 300; // milliseconds between drawings then

let isDrawing = false;
let fresh = 0;

function drawSoon() {
  if (isDrawing) return;
  isDrawing = true;
  setTimeout(() => requestAnimationFrame(drawAll), fresh > MANY ? PAUSE : 0);
}

function drawAll() {
  isDrawing = false;
  fresh = 0;
  drawPane();
  if (isPlay) return;
  drawNames();
  drawJournal();
}

on("entry", (entry) => {
  fresh += 1;
  addEntry(entry);
  if (takeChange(entry)) {
    closeTrace();
    lookSoon();
  }
  drawSoon();
});
on("text", () => {
  drawSoon();
  lookSoon();
});
on("chosen", closeTrace);
on("edited", () => {
  closeTrace();
  // The service works while the browser lays the text out.
  lookSoon();
  drawPane();
});
on("connected", async () => {
  await loadDefinitions(request);
  emit("definitions");
  if (!isPlay) chooseFromAddress();
  drawSoon();
  lookSoon();
});

function typed() {
  closeTrace();
  lookSoon();
  emit("typed");
}

for (const id of FIELDS) at(id).addEventListener("input", typed);
document.addEventListener("selectionchange", () => {
  putCaret(document.activeElement === at("pattern") ? at("pattern").selectionStart : null);
});
document.addEventListener("keydown", (event) => {
  if (event.key !== "F3") return;
  event.preventDefault();
  goTo(event.shiftKey ? -1 : 1);
});
at("statement").addEventListener("submit", (event) => event.preventDefault());
at("next-match").addEventListener("click", () => goTo(1));
at("previous-match").addEventListener("click", () => goTo(-1));
at("skip").addEventListener("click", (event) => {
  event.preventDefault();
  at("pattern").focus();
});
at("token-form").addEventListener("submit", (event) => {
  event.preventDefault();
  keepToken(at("token").value);
  at("token").value = "";
  at("token-form").hidden = true;
  begin();
});

const begin = () => (isPlay ? beginPlay() : connect());

takeLeft();
takeToken();
beginAddress();
beginPane();
beginTrace();
beginExplain();
beginReference();
beginCases();
beginEditing();
beginCopies(writeAddress);
if (!isPlay) {
  beginNames();
  beginSubmit();
  beginJournal();
  beginHistory();
}
fillFromAddress();
begin();
