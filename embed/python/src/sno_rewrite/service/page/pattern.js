// Reads a pattern or an object into a tree, with the place of each part in what was typed. docs/LANGUAGE.md has the grammar. The
// service says what is wrong with a pattern; what can't be read here has no tree.

const WORDS = ["ARB", "BAL", "REM", "FENCE", "ABORT", "FAIL"];
const NUMBERS = ["LEN", "POS", "RPOS", "TAB", "RTAB"];
const SETS = ["ANY", "NOTANY", "SPAN", "BREAK"];
const NAME = /[A-Za-z][A-Za-z0-9._]*/y;
const RESERVED = new Set([...WORDS, ...NUMBERS, ...SETS, "ARBNO"]);

class Unreadable extends Error {}

class Reader {
  constructor(source) {
    this.source = source;
    this.place = 0;
  }

  peek() {
    return this.source[this.place];
  }

  // Blanks, and whether there was one.
  blanks() {
    const from = this.place;
    while (this.peek() === " " || this.peek() === "\t") this.place += 1;
    return this.place > from;
  }

  take(expected) {
    if (!this.source.startsWith(expected, this.place)) throw new Unreadable(expected);
    this.place += expected.length;
  }

  name() {
    NAME.lastIndex = this.place;
    const found = NAME.exec(this.source);
    if (!found) throw new Unreadable("a name");
    this.place += found[0].length;
    return found[0];
  }

  variable() {
    const name = this.name();
    if (RESERVED.has(name)) throw new Unreadable(name);
    return name;
  }

  quoted() {
    const quote = this.peek();
    if (quote !== "'" && quote !== '"') throw new Unreadable("a literal");
    const end = this.source.indexOf(quote, this.place + 1);
    if (end < 0) throw new Unreadable(quote);
    const value = this.source.slice(this.place + 1, end);
    this.place = end + 1;
    return value;
  }

  // What is between parentheses.
  inParentheses(read) {
    this.take("(");
    this.blanks();
    const inner = read();
    this.blanks();
    this.take(")");
    return inner;
  }

  alternatives() {
    const from = this.place;
    const parts = [this.sequence()];
    for (;;) {
      const before = this.place;
      if (!this.blanks() || this.peek() !== "|") {
        this.place = before;
        break;
      }
      this.take("|");
      if (!this.blanks()) throw new Unreadable("a blank");
      parts.push(this.sequence());
    }
    return parts.length === 1 ? parts[0] : { kind: "|", parts, from, to: this.place };
  }

  sequence() {
    const from = this.place;
    const parts = [this.item()];
    for (;;) {
      const before = this.place;
      if (!this.blanks() || this.peek() === undefined || "|).$".includes(this.peek())) {
        this.place = before;
        break;
      }
      parts.push(this.item());
    }
    return parts.length === 1 ? parts[0] : { kind: "sequence", parts, from, to: this.place };
  }

  item() {
    const from = this.place;
    let part = this.element();
    for (;;) {
      const before = this.place;
      if (!this.blanks() || (this.peek() !== "." && this.peek() !== "$")) {
        this.place = before;
        return part;
      }
      const kind = this.peek();
      this.take(kind);
      if (!this.blanks()) throw new Unreadable("a blank");
      const variable = this.variable();
      part = { kind, part, variable, from, to: this.place };
    }
  }

  element() {
    const from = this.place;
    const found = this.primary();
    return found.kind === "group" ? { ...found, from, to: this.place } : { from, to: this.place, ...found };
  }

  primary() {
    const next = this.peek();
    if (next === "'" || next === '"') return { kind: "literal", value: this.quoted() };
    if (next === "(") return { kind: "group", part: this.inParentheses(() => this.alternatives()) };
    if (next === "@" || next === "*") {
      this.take(next);
      const name = this.variable();
      return next === "@" ? { kind: "@", variable: name, to: this.place } : { kind: "reference", name, to: this.place };
    }
    return this.word(this.name());
  }

  word(name) {
    const made = (members) => ({ kind: name, ...members, to: this.place });
    if (WORDS.includes(name)) return made({});
    if (NUMBERS.includes(name)) return made({ number: this.inParentheses(() => this.digits()) });
    if (SETS.includes(name)) return made({ set: this.inParentheses(() => this.quoted()) });
    if (name === "ARBNO") return made({ part: this.inParentheses(() => this.alternatives()) });
    return { kind: "reference", name, to: this.place };
  }

  digits() {
    const found = /^[0-9]+/.exec(this.source.slice(this.place));
    if (!found) throw new Unreadable("digits");
    this.place += found[0].length;
    return Number(found[0]);
  }
}

function read(source, how) {
  const reader = new Reader(source);
  try {
    reader.blanks();
    const found = how(reader);
    reader.blanks();
    return reader.place === source.length ? found : null;
  } catch (fault) {
    if (fault instanceof Unreadable || fault instanceof RangeError) return null;
    throw fault;
  }
}

// The tree of a pattern, or null.
export const patternOf = (source) => read(source, (reader) => reader.alternatives());

// The parts of an object, each a literal or a variable, or null.
export function objectOf(source) {
  return read(source, (reader) => {
    const parts = [];
    while (reader.peek() !== undefined) {
      const isLiteral = reader.peek() === "'" || reader.peek() === '"';
      parts.push(isLiteral ? { literal: reader.quoted() } : { variable: reader.variable() });
      if (!reader.blanks() && reader.peek() !== undefined) throw new Unreadable("a blank");
    }
    return parts;
  });
}

// What an object puts in, for the bindings of one match.
export function valueOf(parts, bindings) {
  const values = new Map(bindings);
  return parts.map((part) => part.literal ?? String(values.get(part.variable) ?? "")).join("");
}

// The parts of which a part is made.
export const partsOf = (node) => node.parts ?? (node.part ? [node.part] : []);

// The variables of a pattern in the order of their first places.
export function variablesOf(node, found = []) {
  if (node.variable !== undefined && node.kind === "@" && !found.includes(node.variable)) found.push(node.variable);
  for (const part of partsOf(node)) variablesOf(part, found);
  if (node.variable !== undefined && !found.includes(node.variable)) found.push(node.variable);
  return found;
}

// The smallest part around a place of what was typed; a place at the end of a part is in it.
export function partAt(node, place) {
  if (place < node.from || place > node.to) return null;
  for (const part of partsOf(node)) {
    const found = partAt(part, place);
    if (found) return found;
  }
  return node;
}
