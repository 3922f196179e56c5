// What the page knows, and who is called when it changes.

export const isPlay = location.pathname === "/play";

export const state = {
  texts: new Map(), // name: {version, length, text, the text before, the entry that made it}
  entries: new Map(), // index: entry
  chosen: null,
  draft: null, // {name, version, base, text}: a text as it is being edited, and the version that the edit began with
  former: null, // {name, version, text}: a text as it was
  definitions: [],
  next: null, // the index of the entry that is awaited
};

const listeners = new Map();

export function on(event, listener) {
  listeners.set(event, [...(listeners.get(event) ?? []), listener]);
}

export function emit(event, ...values) {
  for (const listener of listeners.get(event) ?? []) listener(...values);
}
