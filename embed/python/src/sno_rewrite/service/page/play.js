// The page with a text of one's own, which stays in the browser. Nothing but looks goes to the service.

import { at, replaceText } from "./dom.js";
import { OWN } from "./editing.js";
import { emit, on, state } from "./state.js";

const FIRST = "host=example.org\nport=8080\n";

export function beginPlay() {
  document.body.classList.add("play");
  document.title = "Nomyake: a text of your own";
  for (const it of document.querySelectorAll("[data-shared]")) it.hidden = true;
  replaceText(at("connection"), "The text stays in this browser; looks at it go to the service, which keeps none.");
  on("unauthorized", () => {
    at("token-form").hidden = false;
  });
  state.chosen = "";
  state.texts.set("", { name: "", version: 0, text: localStorage.getItem(OWN) ?? FIRST });
  emit("connected");
}
