// Submitting the statement: what is done is what the preview has shown, or nothing.

import { at } from "./dom.js";
import { isEmpty, statement } from "./form.js";
import { lookSoon, previewed } from "./looks.js";
import { wordsOf } from "./ranges.js";
import { freshKey, post } from "./requests.js";
import { on, state } from "./state.js";

const ONE_PRESS = 1000; // milliseconds within which the same statement comes of one press

let pressed = null; // {line, key, at} of the last press
let unknown = null; // a press whose outcome isn't known; it is sent again once there is a connection

export async function submit(event) {
  event.preventDefault();
  const button = at("submit");
  if (button.disabled || isEmpty() || state.chosen === null) return;
  const press = pressOf();
  if (!press) return outcome("Nothing was done: there is no preview of this statement yet. Press again when it is shown.", true);
  pressed = press;
  button.disabled = true;
  try {
    await send(press);
  } finally {
    button.disabled = false;
    if (pressed) pressed.at = Date.now();
  }
}

// The press with what it sends, or null if no preview is shown. A second one that comes at once is the same press.
function pressOf() {
  const line = JSON.stringify({ text: state.chosen, ...statement() });
  if (pressed && pressed.line === line && Date.now() - pressed.at < ONE_PRESS) return pressed;
  const version = previewed();
  if (version === null || version === undefined) return null;
  return { line, members: { ...JSON.parse(line), if_version: version }, key: freshKey(), at: Date.now() };
}

async function send(press) {
  let reply;
  try {
    const response = await post("/statements", press.members, { "Idempotency-Key": press.key });
    reply = await response.json();
  } catch {
    reply = { error: "outcome unknown" };
  }
  unknown = reply.error === "outcome unknown" ? press : null;
  const refused = reply.error ?? reply.reason;
  outcome(refused === undefined ? `Accepted as entry ${reply.entry}: ${wordsOf(reply)}.` : words(reply), refused !== undefined);
  // What was refused isn't done, so the next press is another one.
  if (refused !== undefined && unknown === null) pressed = null;
  if (reply.reason === "changed") lookSoon();
}

function words(reply) {
  if (reply.reason === "changed") return `Nothing was done: the text has moved on to version ${reply.version}. The preview is now of that.`;
  if (reply.error === "outcome unknown") return "Nobody knows yet whether it was performed. It is asked for again, with the same key, once there is a connection.";
  if (reply.error === "not performed") return "Not performed: the desk isn't there at the moment.";
  return reply.error ? `A fault: ${reply.error}.` : `Refused: ${reply.reason}.`;
}

export function outcome(words, isRefused) {
  at("outcome").classList.toggle("refused", isRefused);
  at("outcome").textContent = words;
}

export function beginSubmit() {
  at("statement").addEventListener("submit", submit);
  at("pattern").addEventListener("keydown", (event) => {
    if (event.key === "Enter" && !event.shiftKey) submit(event);
  });
  on("connected", () => unknown && send(unknown));
}
