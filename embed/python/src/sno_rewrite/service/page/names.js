// The list of texts, and which of them is shown.

import { readAddress, writeAddress } from "./address.js";
import { at, button, element, replaceText } from "./dom.js";
import { emit, on, state } from "./state.js";
import { loadText } from "./texts.js";

export function choose(name, isNew) {
  if (!state.texts.has(name)) return;
  const isOther = state.chosen !== name;
  state.chosen = name;
  if (isOther) state.former = null;
  writeAddress(isNew && isOther);
  replaceText(at("unknown"), "");
  loadText(name);
  emit("text");
  if (isOther) emit("chosen");
}

// The text that the address names; one that isn't there is named, and none is shown in place of it.
export function chooseFromAddress() {
  const { name, version } = readAddress();
  if (name !== null && !state.texts.has(name)) {
    state.chosen = null;
    replaceText(at("unknown"), `There is no text ${name}. Choose one of the list.`);
    emit("unknown");
    return drawNames();
  }
  choose(name ?? state.chosen ?? state.texts.keys().next().value, false);
  if (version !== null && state.chosen !== null) emit("version", version);
}

export function drawNames() {
  const sought = at("filter").value.toLowerCase();
  const list = at("texts");
  const rows = [...state.texts.values()].filter((row) => row.name.toLowerCase().includes(sought));
  while (list.children.length > rows.length) list.lastChild.remove();
  rows.forEach((row, place) => {
    const item = list.children[place] ?? list.appendChild(nameItem());
    const pressed = item.firstChild;
    pressed.dataset.name = row.name;
    pressed.setAttribute("aria-current", String(row.name === state.chosen));
    replaceText(pressed.firstChild, row.name);
    replaceText(pressed.lastChild, ` version ${row.version}`);
  });
}

function nameItem() {
  const item = element("li");
  const made = button("", () => choose(made.dataset.name, true));
  made.append(element("b"), element("span"));
  item.append(made);
  return item;
}

export function beginNames() {
  at("filter").addEventListener("input", drawNames);
  on("address", chooseFromAddress);
}
