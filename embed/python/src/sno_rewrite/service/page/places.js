// From where to where each part of a pattern lies in one match. The service says which matches there are, and the values of their
// variables, but not the places of parts. So the match is made again here, from the start that is known; what it shows counts only
// if its end and its values are those of the service.

const MOST_STEPS = 20_000; // of one match, past which its parts aren't shown

// A frame is what is still to be matched: {node, next}. A choice is where the match goes on when it backs up.
class Match {
  constructor(text, definitions, cursor) {
    this.text = text;
    this.definitions = definitions;
    this.cursor = cursor;
    this.trail = null; // the parts that have ended, the last one first: {node, from, to, before}
    this.frame = null;
    this.choices = [];
    this.immediate = new Map();
  }

  choose(frame) {
    this.choices.push({ frame, cursor: this.cursor, trail: this.trail });
  }

  backUp() {
    const choice = this.choices.pop();
    if (!choice || choice.halts) return false;
    Object.assign(this, choice);
    return true;
  }

  run(root) {
    this.frame = { node: root, next: null };
    for (let steps = 0; steps < MOST_STEPS; steps += 1) {
      if (this.frame === null) return true;
      const { node, next } = this.frame;
      if (!(STEPS[node.kind] ?? leaf)(this, node, next) && !this.backUp()) return false;
    }
    return false;
  }

  // The frames of a part, and of its end, before what follows.
  enter(node, part, next) {
    this.frame = { node: part, next: { node: { kind: "ended", node, from: this.cursor }, next } };
    return true;
  }

  end(node, from, next) {
    this.trail = { node, from, to: this.cursor, before: this.trail };
    this.frame = next;
    return true;
  }
}

const STEPS = {
  group: (match, node, next) => match.enter(node, node.part, next),
  ".": (match, node, next) => match.enter(node, node.part, next),
  $: (match, node, next) => match.enter(node, node.part, next),
  sequence(match, node, next) {
    let frame = { node: { kind: "ended", node, from: match.cursor }, next };
    for (const part of [...node.parts].reverse()) frame = { node: part, next: frame };
    match.frame = frame;
    return true;
  },
  "|"(match, node, next) {
    const end = { node: { kind: "ended", node, from: match.cursor }, next };
    for (const part of node.parts.slice(1).reverse()) match.choose({ node: part, next: end });
    match.frame = { node: node.parts[0], next: end };
    return true;
  },
  ended(match, { node, from }, next) {
    if (node.kind === "$") match.immediate.set(node.variable, { from, to: match.cursor });
    return match.end(node, from, next);
  },
  reference(match, node, next) {
    const pattern = match.definitions.get(node.name);
    return pattern ? match.enter(node, pattern, next) : false;
  },
  ARBNO: (match, node, next) => rounds(match, node, match.cursor, next),
  round(match, { node, from, at }, next) {
    return match.cursor > at && rounds(match, node, from, next);
  },
  ARB: (match, node, next) => grow(match, node, match.cursor, next),
  grown(match, { node, from }, next) {
    match.cursor += 1;
    return match.cursor <= match.text.length && grow(match, node, from, next);
  },
  BAL: (match, node, next) => balance(match, node, match.cursor, next),
  balanced: (match, { node, from }, next) => balance(match, node, from, next),
  FENCE(match, node, next) {
    match.choices.push({ halts: true });
    return match.end(node, match.cursor, next);
  },
  ABORT(match) {
    match.choices.length = 0;
    return false;
  },
  "@"(match, node, next) {
    match.immediate.set(node.variable, { cursor: match.cursor });
    return match.end(node, match.cursor, next);
  },
};

// No further round at first, and one more each time that the match backs up.
function rounds(match, node, from, next) {
  match.choose({ node: node.part, next: { node: { kind: "round", node, from, at: match.cursor }, next } });
  return match.end(node, from, next);
}

function grow(match, node, from, next) {
  match.choose({ node: { kind: "grown", node, from }, next });
  return match.end(node, from, next);
}

function balance(match, node, from, next) {
  let depth = 0;
  let place = match.cursor;
  do {
    if (place >= match.text.length) return false;
    if (match.text[place] === "(") depth += 1;
    if (match.text[place] === ")") depth -= 1;
    if (depth < 0) return false;
    place += 1;
  } while (depth > 0);
  match.cursor = place;
  match.choose({ node: { kind: "balanced", node, from }, next });
  return match.end(node, from, next);
}

function leaf(match, node, next) {
  const from = match.cursor;
  const end = ENDS[node.kind]?.(match.text, from, node);
  if (end === undefined || end < from || end > match.text.length) return false;
  match.cursor = end;
  return match.end(node, from, next);
}

// Where a leaf ends that begins at a cursor.
const ENDS = {
  literal: (text, from, node) => (text.startsWith(node.value, from) ? from + node.value.length : undefined),
  LEN: (text, from, node) => from + node.number,
  POS: (text, from, node) => (from === node.number ? from : undefined),
  RPOS: (text, from, node) => (from === text.length - node.number ? from : undefined),
  TAB: (text, from, node) => node.number,
  RTAB: (text, from, node) => text.length - node.number,
  REM: (text) => text.length,
  ANY: (text, from, node) => (from < text.length && node.set.includes(text[from]) ? from + 1 : undefined),
  NOTANY: (text, from, node) => (from < text.length && !node.set.includes(text[from]) ? from + 1 : undefined),
  SPAN(text, from, node) {
    let end = from;
    while (end < text.length && node.set.includes(text[end])) end += 1;
    return end > from ? end : undefined;
  },
  BREAK(text, from, node) {
    let end = from;
    while (end < text.length && !node.set.includes(text[end])) end += 1;
    return end < text.length ? end : undefined;
  },
};

// The parts of a match that the service has found, in the order in which they ended, and the place of each variable; null if the
// match that is made here isn't the same.
export function placesOf(pattern, definitions, text, { start, end, bindings }) {
  const match = new Match(text, definitions, start);
  if (!match.run(pattern) || match.cursor !== end) return null;
  const parts = [];
  for (let part = match.trail; part; part = part.before) parts.push(part);
  parts.reverse();
  const variables = new Map(match.immediate);
  for (const { node, from, to } of parts) if (node.kind === ".") variables.set(node.variable, { from, to });
  const values = new Map(bindings);
  for (const [name, place] of variables) {
    const value = place.cursor ?? text.slice(place.from, place.to);
    if (values.get(name) !== value) return null;
  }
  return { parts, variables };
}
