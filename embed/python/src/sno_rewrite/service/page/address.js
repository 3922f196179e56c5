// What the page shows, in the fragment of its address, which no browser sends: a reload, Back or a link shows the same again.

import { fields, fill } from "./form.js";
import { keepToken } from "./requests.js";
import { emit, isPlay, on, state } from "./state.js";

const PAUSE = 100; // milliseconds without a key until the address has what was typed
const BOXES = ["nothing", "anchored", "all"];
const LEFT = "address"; // the address that a page had when it was left

let timer = null;
const more = []; // what else is in the address: {write(parameters), read(parameters)}

export function alsoInAddress(part) {
  more.push(part);
}

export function readAddress() {
  const fragment = location.hash.slice(1);
  // An address of only a name is one of earlier versions of the page.
  const given = new URLSearchParams(fragment.includes("=") ? fragment : "");
  const version = /^[0-9]+$/.test(given.get("version") ?? "") ? Number(given.get("version")) : null;
  return { given, name: given.get("text") ?? (fragment && !fragment.includes("=") ? decoded(fragment) : null), version };
}

function decoded(name) {
  try {
    return decodeURIComponent(name);
  } catch {
    return name;
  }
}

// A reload goes to the address as it was when it began: what was typed just before comes from here.
export function takeLeft() {
  const left = sessionStorage.getItem(LEFT);
  sessionStorage.removeItem(LEFT);
  if (left !== null && performance.getEntriesByType("navigation")[0]?.type === "reload") history.replaceState(null, "", left);
}

export function fillFromAddress() {
  const { given } = readAddress();
  const read = Object.fromEntries(["pattern", "object", "repeat"].map((id) => [id, given.get(id) ?? ""]));
  for (const id of BOXES) read[id] = given.has(id);
  fill(read);
  for (const part of more) part.read(given);
}

export function addressNow() {
  const made = new URLSearchParams();
  if (!isPlay && state.chosen !== null) {
    made.set("text", state.chosen);
    const known = state.texts.get(state.chosen);
    if (known) made.set("version", state.former?.name === state.chosen ? state.former.version : known.version);
  }
  const given = fields();
  for (const id of ["pattern", "object", "repeat"]) if (given[id]) made.set(id, given[id]);
  for (const id of BOXES) if (given[id]) made.set(id, "");
  for (const part of more) part.write(made);
  return `#${made}`;
}

export function writeAddress(isNew) {
  clearTimeout(timer);
  const address = addressNow();
  if (location.hash === address) return;
  if (isNew) history.pushState(null, "", address);
  else history.replaceState(null, "", address);
}

export function writeAddressSoon() {
  clearTimeout(timer);
  timer = setTimeout(writeAddress, PAUSE, false);
}

// A token in the address is taken out of it at once, and kept for this window alone.
export function takeToken() {
  const { given } = readAddress();
  const token = given.get("token");
  if (!token) return;
  keepToken(token);
  given.delete("token");
  history.replaceState(null, "", `#${given}`);
}

export function beginAddress() {
  window.addEventListener("popstate", () => {
    fillFromAddress();
    emit("address");
  });
  window.addEventListener("pagehide", () => {
    writeAddress(false);
    sessionStorage.setItem(LEFT, addressNow());
  });
  on("typed", writeAddressSoon);
}
