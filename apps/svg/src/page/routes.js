// How one word leads to another, from the arrows alone. An arrow is a pair of words, [from, to].

const ANSWERS = ["not at all", "by an arrow only", "by longer routes only", "by both"];

// The words that one arrow or more lead to from `start`, from end 0 to end 1; from end 1 to end 0, those that lead to it.
function reached(start, arrows, near, far) {
  const seen = new Set();
  const open = [start];
  while (open.length > 0) {
    const word = open.pop();
    for (const arrow of arrows) {
      if (arrow[near] === word && !seen.has(arrow[far])) {
        seen.add(arrow[far]);
        open.push(arrow[far]);
      }
    }
  }
  return seen;
}

// The answer for two words, and by number whether an arrow is on a route from the first to the second.
function routes(first, second, arrows) {
  const after = reached(first, arrows, 0, 1);
  const before = reached(second, arrows, 1, 0);
  const starts = arrows.filter(([from]) => from === first);
  const arrow = starts.some(([, to]) => to === second);
  const longer = starts.some(([, to]) => before.has(to));
  const onRoute = ([from, to]) =>
    (from === first || after.has(from)) && (to === second || before.has(to));
  return { answer: ANSWERS[(arrow ? 1 : 0) + (longer ? 2 : 0)], lit: arrows.map(onRoute) };
}
