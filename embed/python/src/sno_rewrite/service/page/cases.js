// Texts that the pattern must match, or must not, with what is so while it is typed.

import { alsoInAddress } from "./address.js";
import { at, button, element, replaceText } from "./dom.js";
import { isEmpty, statement } from "./form.js";
import { post } from "./requests.js";
import { emit, on } from "./state.js";

const KINDS = { whole: "must match whole", somewhere: "must match somewhere", not: "must not match" };
const MOST = 64;

let isTrying = false;
let isStale = false;

function add(kind = "whole", text = "") {
  const item = element("li");
  const field = element("input");
  const choice = element("select");
  for (const [value, words] of Object.entries(KINDS)) choice.append(Object.assign(element("option", words), { value }));
  choice.value = kind;
  field.value = text;
  field.spellcheck = false;
  field.autocomplete = "off";
  const removed = button("Remove", () => {
    item.remove();
    changed();
    at("case-add").focus();
  });
  item.append(choice, field, removed, element("span", "", "case-result"));
  for (const control of [field, choice]) control.addEventListener("input", changed);
  at("cases").append(item);
  number();
  return field;
}

function number() {
  [...at("cases").children].forEach((item, place) => {
    item.querySelector("input").setAttribute("aria-label", `Text of test ${place + 1}`);
    item.querySelector("select").setAttribute("aria-label", `What test ${place + 1} demands`);
    item.querySelector("button").setAttribute("aria-label", `Remove test ${place + 1}`);
  });
  at("case-add").disabled = at("cases").children.length >= MOST;
}

const rows = () => [...at("cases").children].map((item) => ({ item, kind: item.querySelector("select").value, text: item.querySelector("input").value }));

function changed() {
  number();
  emit("typed");
}

function trySoon() {
  isStale = true;
  if (!isTrying) tryAll();
}

async function tryAll() {
  isTrying = true;
  try {
    while (isStale) {
      isStale = false;
      await tryOnce(rows());
    }
  } finally {
    isTrying = false;
  }
}

async function tryOnce(given) {
  if (!given.length) return replaceText(at("cases-line"), "");
  if (isEmpty()) return show(given, null);
  const { pattern, anchored } = statement();
  try {
    const response = await post("/tries", { pattern, anchored, texts: given.map((row) => row.text) });
    const found = await response.json();
    show(given, response.ok ? found.results : null, found.error ?? found.reason);
  } catch (fault) {
    if (!(fault instanceof TypeError)) throw fault;
    show(given, null, "the service couldn't be asked");
  }
}

function show(given, results, why) {
  let held = 0;
  given.forEach(({ item, kind }, place) => {
    const found = results?.[place];
    const line = item.querySelector(".case-result");
    const holds = found && isSo(kind, found);
    if (holds) held += 1;
    replaceText(line, found ? words(kind, found) : "not tried");
    line.classList.toggle("refused", Boolean(found) && !holds);
  });
  replaceText(at("cases-line"), results ? `${held} of ${given.length} hold.` : `Not tried${why ? `: ${why}` : ""}.`);
}

const isSo = (kind, found) => (kind === "not" ? found.somewhere === false : found[kind] === true);

function words(kind, found) {
  if ((kind === "whole" ? found.whole : found.somewhere) === null) return "gave up: too many trials";
  if (isSo(kind, found)) return "holds";
  if (kind === "not") return "doesn't hold: it matches";
  return kind === "whole" && found.somewhere ? "doesn't hold: it matches only a part" : "doesn't hold: it doesn't match";
}

export function beginCases() {
  at("case-add").addEventListener("click", () => {
    add().focus();
    changed();
  });
  alsoInAddress({
    write: (parameters) => rows().forEach(({ kind, text }) => parameters.append("test", `${kind}:${text}`)),
    read(parameters) {
      at("cases").replaceChildren();
      for (const written of parameters.getAll("test").slice(0, MOST)) {
        const [kind, ...text] = written.split(":");
        if (KINDS[kind]) add(kind, text.join(":"));
      }
      trySoon();
    },
  });
  on("typed", trySoon);
  on("connected", trySoon);
}
