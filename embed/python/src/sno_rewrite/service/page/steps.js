// The lines of a trace: docs/FORMAT.md says what each means.

const TRIED = /^ *(?:try|back to|leave) (.*) ([0-9]+) (?:-> ([0-9]+)|fails)$/;

// For each line the range from the start to the cursor that it leads to.
export function stepsOf(lines) {
  let start = 0;
  return lines.map((line) => {
    const begun = /^start ([0-9]+)$/.exec(line);
    if (begun) start = Number(begun[1]);
    const done = /^matched ([0-9]+) ([0-9]+)$/.exec(line);
    if (done) return [Number(done[1]), Number(done[2])];
    const tried = TRIED.exec(line) ?? /^ *(enter .*|null round) ([0-9]+)$/.exec(line);
    return tried ? [Math.min(start, Number(tried[2])), Number(tried[3] ?? tried[2])] : [start, start];
  });
}

// The farthest cursor at which a leaf failed, and the leaves that failed there; null if none did.
export function farthest(lines) {
  let cursor = -1;
  let wanted = new Set();
  for (const line of lines) {
    const failed = /^ *try (.*) ([0-9]+) fails$/.exec(line);
    if (!failed || Number(failed[2]) < cursor) continue;
    if (Number(failed[2]) > cursor) wanted = new Set();
    cursor = Number(failed[2]);
    wanted.add(failed[1]);
  }
  const isCut = lines.some((line) => /^(?:[0-9]+ more lines|more lines follow)$/.test(line));
  return cursor < 0 ? null : { cursor, wanted: [...wanted], isCut };
}
