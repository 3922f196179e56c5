// A quick reference of the language: the first table of docs/LANGUAGE.md, with an example of each row.

import { at, button, element } from "./dom.js";
import { on, state } from "./state.js";

// The pattern, what it matches, and the example.
const ROWS = [
  ["'..', \"..\"", "itself", "'cat'"],
  ["P Q", "P and then Q", "'a' 'b'"],
  ["P | Q", "P or Q", "('cat' | 'dog')"],
  ["LEN(n)", "n characters", "LEN(3)"],
  ["POS(n)", "the null string, at cursor n", "POS(0)"],
  ["RPOS(n)", "the null string, if n characters are left", "RPOS(0)"],
  ["TAB(n)", "all up to cursor n", "TAB(8)"],
  ["RTAB(n)", "all but the last n characters", "RTAB(1)"],
  ["REM", "all that is left", "REM"],
  ["ANY('..')", "one character that is in the set", "ANY('aeiou')"],
  ["NOTANY('..')", "one character that is not in the set", "NOTANY('aeiou')"],
  ["SPAN('..')", "the longest run of characters of the set, at least one", "SPAN('0123456789')"],
  ["BREAK('..')", "all up to the first character of the set", "BREAK('=')"],
  ["ARB", "any characters", "ARB"],
  ["BAL", "characters in which parentheses balance, at least one", "BAL"],
  ["ARBNO(P)", "P, any number of times in a row", "ARBNO('ab')"],
  ["FENCE", "the null string", "FENCE"],
  ["ABORT", "nothing: the whole match fails", "ABORT"],
  ["FAIL", "nothing: another way is sought", "FAIL"],
  ["P . V", "what P does; V has it once the whole match succeeds", "LEN(1) . V"],
  ["P $ V", "what P does; V has it at once", "LEN(1) $ V"],
  ["@V", "the null string; V has the cursor at once", "@V"],
  ["NAME, *NAME", "what the definition matches", null],
];

// Puts an example where the caret is, with the blanks that join it to what is there.
function insert(example) {
  const field = at("pattern");
  const [from, to] = [field.selectionStart, field.selectionEnd];
  const before = /[^ (]$/.test(field.value.slice(0, from)) ? " " : "";
  const after = /^[^ )]/.test(field.value.slice(to)) ? " " : "";
  field.focus();
  field.setRangeText(before + example + after, from, to, "end");
  field.dispatchEvent(new Event("input"));
}

function row([pattern, matches, example]) {
  const made = element("tr");
  const cell = element("td");
  // The example of a reference is one to the first definition, if there is one.
  const inserted = example ?? (state.definitions.length ? `*${state.definitions[0].name}` : null);
  cell.append(inserted === null ? "there are no definitions" : button(`Insert ${inserted}`, () => insert(inserted)));
  made.append(Object.assign(element("th", pattern), { scope: "row" }), element("td", matches), cell);
  return made;
}

export function beginReference() {
  const draw = () => at("reference-rows").replaceChildren(...ROWS.map(row));
  on("definitions", draw);
  draw();
}
