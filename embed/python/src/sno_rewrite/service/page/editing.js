// The text edited by hand: a draft of one's own, which replaces the whole text if nobody else has changed it meanwhile.

import { at, replaceText } from "./dom.js";
import { changes } from "./marks.js";
import { shown } from "./pane.js";
import { difference } from "./ranges.js";
import { freshKey, pathOf, request } from "./requests.js";
import { emit, isPlay, on, state } from "./state.js";
import { outcome } from "./submit.js";
import { loadText, loadTexts } from "./texts.js";

const KEY = "nomyake draft";
export const OWN = "nomyake text";

let isSaving = false;

function typed() {
  const text = at("text").value;
  const it = shown();
  if (!it || it.isFormer) return;
  if (isPlay) {
    localStorage.setItem(OWN, text);
    state.texts.set(state.chosen, { ...it, text });
  } else {
    const draft = it.isDraft ? state.draft : { name: it.name, version: it.version, base: it.text };
    setDraft(text === draft.base && draft.version === state.texts.get(it.name).version ? null : { ...draft, text });
  }
  emit("edited");
}

// A draft is kept for this window, so that a reload loses nothing.
function setDraft(draft) {
  state.draft = draft;
  if (draft) sessionStorage.setItem(KEY, JSON.stringify(draft));
  else sessionStorage.removeItem(KEY);
  drawEditing();
}

const ofChosen = () => (state.draft?.name === state.chosen ? state.draft : null);

export function drawEditing() {
  const draft = ofChosen();
  const known = state.texts.get(state.chosen);
  const isLate = draft !== null && known !== undefined && known.text !== undefined && known.version > draft.version;
  at("editing").hidden = draft === null;
  at("conflict").hidden = !isLate;
  at("save").disabled = isSaving || isLate;
  if (!isLate) return;
  replaceText(at("conflict-line"), `The text has version ${known.version} by now; your edit began with version ${draft.version}.`);
  at("theirs").replaceChildren(changes(draft.base, [changeOf(draft.base, known.text)]));
  at("mine").replaceChildren(changes(draft.base, [changeOf(draft.base, draft.text)]));
  at("do-mine").hidden = done(draft, known.text) === null;
}

function changeOf(before, after) {
  const [start, end, last] = difference(before, after);
  return [start, end, after.slice(start, last)];
}

// One's own edit done on the new text, or null if both have changed the same characters.
function done(draft, now) {
  const [start, end, value] = changeOf(draft.base, draft.text);
  const [from, to, put] = changeOf(draft.base, now);
  const moved = put.length - (to - from);
  if (end < from || (end === from && from < to)) return now.slice(0, start) + value + now.slice(end);
  if (to < start || (to === start && start < end)) return now.slice(0, start + moved) + value + now.slice(end + moved);
  return null;
}

function doMine(text) {
  const known = state.texts.get(state.chosen);
  setDraft({ name: known.name, version: known.version, base: known.text, text });
  emit("edited");
  at("text").focus();
}

async function save() {
  const draft = ofChosen();
  if (!draft || isSaving) return;
  isSaving = true;
  drawEditing();
  try {
    const headers = { "If-Match": `"${draft.version}"`, "Idempotency-Key": draft.key ?? freshKey() };
    state.draft.key = headers["Idempotency-Key"];
    const response = await request(pathOf(draft.name), { method: "PUT", body: draft.text, headers });
    saved(draft, response.status, await response.json());
  } catch (fault) {
    if (!(fault instanceof TypeError)) throw fault;
    outcome("Nobody knows whether it was saved: the service couldn't be asked. Saved again, it is done once.", true);
  } finally {
    isSaving = false;
    drawEditing();
  }
}

async function saved(draft, status, reply) {
  if (status === 200) {
    if (state.draft?.text === draft.text) setDraft(null);
    outcome(`Saved as entry ${reply.entry}.`, false);
    emit("edited");
  } else if (status === 412) {
    outcome(`Nothing was saved: the text has moved on to version ${reply.version}.`, true);
    await loadTexts();
    await loadText(draft.name);
    drawEditing();
  } else {
    delete state.draft.key;
    outcome(`Not saved: ${reply.error ?? reply.reason}.`, true);
  }
}

function takeTheirs() {
  setDraft(null);
  emit("edited");
  at("text").focus();
}

export function beginEditing() {
  const kept = sessionStorage.getItem(KEY);
  if (kept && !isPlay) state.draft = JSON.parse(kept);
  at("text").addEventListener("input", typed);
  at("save").addEventListener("click", save);
  at("discard").addEventListener("click", takeTheirs);
  at("do-mine").addEventListener("click", () => doMine(done(ofChosen(), state.texts.get(state.chosen).text)));
  at("put-mine").addEventListener("click", () => doMine(ofChosen().text));
  at("take-theirs").addEventListener("click", takeTheirs);
  on("text", drawEditing);
  on("entry", () => queueMicrotask(drawEditing));
}
