// Texts as they were, and entries that are taken back.

import { alsoInAddress } from "./address.js";
import { at, replaceText } from "./dom.js";
import { choose } from "./names.js";
import { freshKey, request } from "./requests.js";
import { emit, on, state } from "./state.js";
import { outcome } from "./submit.js";
import { formerText } from "./texts.js";

let wanted = null; // the version that the address asks for
let made = null; // the version at which the address was made

async function show(name, version) {
  if (state.chosen !== name) choose(name, true);
  const known = state.texts.get(name);
  if (!known || version >= known.version) return showNewest();
  const text = await formerText(name, version);
  if (state.chosen !== name) return;
  if (text === undefined) return replaceText(at("version-note"), `There is no version ${version} of it any more.`);
  state.former = { name, version, text };
  changed();
}

function showNewest() {
  state.former = null;
  changed();
}

function changed() {
  emit("text");
  emit("typed");
  draw();
}

function draw() {
  const known = state.texts.get(state.chosen);
  const former = state.former?.name === state.chosen ? state.former : null;
  at("version").max = known?.version ?? 0;
  if (document.activeElement !== at("version")) at("version").value = former?.version ?? known?.version ?? "";
  at("newest").hidden = !former;
  replaceText(at("version-note"), note(known, former));
}

function note(known, former) {
  if (former) return `This is the text as it was at version ${former.version}; it has version ${known.version} by now.`;
  if (made === null || !known || known.version <= made) return "";
  return `The address was made at version ${made}; the text has version ${known.version} by now.`;
}

async function revert(entry) {
  let response;
  try {
    response = await request(`/entries/${entry.entry}/revert`, { method: "POST", headers: { "Idempotency-Key": freshKey() } });
  } catch {
    return outcome("Nobody knows whether it was reverted: see the journal.", true);
  }
  const reply = await response.json();
  if (response.ok) return outcome(`Entry ${entry.entry} is taken back, as entry ${reply.entry}.`, false);
  const later = reply.entries ? ` Entries ${reply.entries.join(", ")} have changed the text since.` : "";
  outcome(`Entry ${entry.entry} wasn't taken back: ${reply.reason ?? reply.error}.${later}`, true);
}

function compare(version) {
  if (wanted !== null) return show(state.chosen, wanted);
  made = version;
  draw();
}

export function beginHistory() {
  alsoInAddress({
    write: (parameters) => state.former?.name === state.chosen && parameters.set("at", state.former.version),
    read(parameters) {
      wanted = /^[0-9]+$/.test(parameters.get("at") ?? "") ? Number(parameters.get("at")) : null;
      if (wanted === null) state.former = null;
    },
  });
  at("version").addEventListener("change", () => at("version").value !== "" && show(state.chosen, Number(at("version").value)));
  at("newest").addEventListener("click", showNewest);
  on("text", draw);
  on("entry", () => queueMicrotask(draw));
  on("revert", revert);
  on("show version", show);
  on("version", compare);
  on("chosen", () => {
    made = null;
  });
}
