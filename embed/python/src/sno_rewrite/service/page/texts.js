// The texts, as they are and as they were.

import { pathOf, request, versionIn } from "./requests.js";
import { emit, state } from "./state.js";

const VERSIONS = 400; // texts of former versions that are kept, to show matches in them
const former = new Map(); // "version name": characters

export async function loadTexts() {
  const response = await request("/texts");
  if (!response.ok) return false;
  for (const row of (await response.json()).texts) {
    const known = state.texts.get(row.name);
    if (!known || known.version < row.version) state.texts.set(row.name, { ...known, ...row, text: undefined });
  }
  return true;
}

export async function loadText(name) {
  const known = state.texts.get(name);
  if (!known || known.text !== undefined) return;
  const response = await request(pathOf(name));
  if (!response.ok) return;
  const version = versionIn(response);
  const text = await response.text();
  const now = state.texts.get(name);
  if (now.version > version) return;
  Object.assign(now, { version, text });
  keep(name, version, text);
  emit("text");
  const before = version > 0 ? await formerText(name, version - 1) : undefined;
  if (now.version !== version) return;
  now.before = before;
  emit("text");
}

function keep(name, version, text) {
  former.set(`${version} ${name}`, text);
  if (former.size > VERSIONS) former.delete(former.keys().next().value);
}

export async function formerText(name, version) {
  const key = `${version} ${name}`;
  if (!former.has(key)) {
    const response = await request(pathOf(name, version));
    if (!response.ok) return undefined;
    keep(name, version, await response.text());
  }
  return former.get(key);
}

// An entry that has just come; whether it changed the text that is shown.
export function takeChange(entry) {
  if (entry.after === undefined) return false;
  keep(entry.text, entry.version + 1, entry.after);
  const known = state.texts.get(entry.text);
  if (!known) return false;
  if (entry.version >= known.version) {
    const before = entry.version === known.version ? known.text : undefined;
    Object.assign(known, { before, text: entry.after, length: entry.after.length, version: entry.version + 1, entry });
    return entry.text === state.chosen;
  }
  if (entry.version + 1 === known.version) known.entry = entry;
  return false;
}
