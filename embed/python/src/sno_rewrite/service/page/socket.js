// The WebSocket, by which entries come as they are made. The line at the top is of this connection alone.

import { at, replaceText } from "./dom.js";
import { tokenOf } from "./requests.js";
import { emit, on, state } from "./state.js";
import { loadTexts } from "./texts.js";

const SHOWN = 100; // entries before the next one that are asked for at first
const SLOWEST = 5000; // milliseconds between two tries to connect

let current = null;
let delay = 100;

export async function connect() {
  // The WebSocket doesn't say why it couldn't be opened; a request does.
  try {
    if (!(await loadTexts())) return at("token-form").hidden ? again() : undefined;
  } catch {
    return again();
  }
  const scheme = location.protocol === "https:" ? "wss:" : "ws:";
  const socket = new WebSocket(`${scheme}//${location.host}/ws`);
  current = socket;
  socket.onopen = () => {
    const token = tokenOf();
    if (token) socket.send(JSON.stringify({ token }));
  };
  socket.onmessage = (message) => message.data.split("\n").forEach((line) => take(JSON.parse(line), socket));
  socket.onclose = (event) => closed(socket, event.code);
}

function closed(socket, code) {
  if (current !== socket) return;
  if (code === 4001) return emit("unauthorized");
  again();
}

function again() {
  connection("disconnected; trying again", true);
  setTimeout(connect, delay);
  delay = Math.min(2 * delay, SLOWEST);
}

function take(message, socket) {
  if (message.watched) return takeEntry(message.watched);
  if (message.service) return takeNotice(message, socket);
}

async function takeNotice(message, socket) {
  const isUp = message.service === "up";
  connection(isUp ? "connected" : "the desk is starting again", !isUp);
  if (!isUp || socket.isWatching) return;
  socket.isWatching = true;
  delay = 100;
  // After a reconnect the page goes on with the entry that it awaits. With another store its indices may be smaller.
  if (state.next === null || state.next > message.next) state.next = Math.max(0, message.next - SHOWN);
  socket.send(JSON.stringify({ watch: state.next }));
  await loadTexts();
  emit("connected");
}

function takeEntry(entry) {
  if (entry.entry < state.next) return;
  state.next = entry.entry + 1;
  emit("entry", entry);
}

function connection(words, isDown) {
  replaceText(at("connection"), words);
  at("connection").classList.toggle("down", isDown);
}

on("unauthorized", () => {
  at("token-form").hidden = false;
  connection("this service wants a token", true);
});
