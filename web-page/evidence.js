// The evidence of a report, worked out again from the rule's table alone, as the Python package does (evidence.py). A pair of nodes
// is the number first * nodes + second.

function stepped(graph, pairs, differing = false) {
  const {nodes, states, table} = graph, next = new Set();
  for (const pair of pairs) {
    const first = Math.floor(pair / nodes) * states, second = pair % nodes * states;
    for (let one = 0; one < states; one++)
      for (let other = 0; other < states; other++)
        if (table[first + one] === table[second + other] && !(differing && one === other))
          next.add((first + one) % nodes * nodes + (second + other) % nodes);
  }
  return next;
}
const equals = graph => new Set(Array.from({length: graph.nodes}, (_, node) => node * graph.nodes + node));
const isEqual = (graph, pair) => Math.floor(pair / graph.nodes) === pair % graph.nodes;

// The pairs of walks from one node that read different letters first: after one letter, after two, and so on.
function* parting(graph) {
  for (let pairs = stepped(graph, equals(graph), true); ; pairs = stepped(graph, pairs)) yield pairs;
}
// All pairs that such walks come to. If none has two equal nodes, the rule is surjective (Hedlund 1969).
function reached(graph) {
  const pairs = new Set();
  for (const more of parting(graph)) {
    const before = pairs.size;
    more.forEach(pair => pairs.add(pair));
    if (pairs.size === before) return pairs;
  }
}
// How many pairs of such walks there are after each letter, up to so many.
function leftAfter(graph, ahead) {
  const counts = [];
  for (const pairs of parting(graph)) {
    if (counts.length === ahead) return counts;
    counts.push(pairs.size);
  }
}
// How many pairs of nodes two walks that differ at the window's place may be at, before the first letter of the image and after each.
function undecided(graph, [letters, place]) {
  const within = place - graph.width + 1, {nodes} = graph;
  let pairs = new Set(Array(nodes * nodes).keys());
  if (within < 0)
    pairs.forEach(pair => {
      if (graph.name(Math.floor(pair / nodes))[place] === graph.name(pair % nodes)[place]) pairs.delete(pair);
    });
  const counts = [pairs.size];
  for (let at = 0; at < letters; at++) counts.push((pairs = stepped(graph, pairs, at === within)).size);
  return counts;
}

function isClosing(graph, way, closing, side) {
  if (!closing.holds) return isSplit(graph, closing.split, side);
  const counts = leftAfter(way, closing.ahead);
  return counts.at(-1) === 0 && counts.slice(0, -1).every(Boolean);
}
const commonMultiple = (a, b) => {
  const divisor = (x, y) => (y ? divisor(y, x % y) : x);
  return a / divisor(a, b) * b;
};
// Whether two configurations differ, agree to one side, and share an image: seen on a common period beyond all that the middles reach.
function isSplit(graph, [one, two], side) {
  const reach = Math.abs(graph.offset) + graph.width;
  const left = commonMultiple(one.left.length, two.left.length) + reach;
  const middle = Math.max(one.middle.length, two.middle.length);
  const right = commonMultiple(one.right.length, two.right.length) + reach;
  const [first, second] = [one, two].map(tail => cellsOf(tail, -left, middle + right));
  const alike = side === "right" ? first.slice(0, left) === second.slice(0, left)
    : first.slice(left + middle) === second.slice(left + middle);
  const images = [one, two].map(tail => written(graph.over(tail, -left, middle + right)));
  return first !== second && alike && images[0] === images[1];
}
function isOrphan(graph, word) {
  let last;
  for (const nodes of graph.reading(word)) last = nodes;
  return last.size === 0;
}
function areTwins(graph, [one, two]) {
  return one !== two && one.length === two.length && written(graph.ring(one)) === written(graph.ring(two));
}
const isFlux = (graph, flux) => graph.edges().every(edge => graph.change(edge) === flux[edge.source] - flux[edge.target]);
const loses = (graph, ring) => ring !== "" && graph.total(ring) !== graph.total(written(graph.ring(ring)));
function isErasable(graph, [one, two]) {
  const ends = graph.width - 1, images = [one, two].map(word => written(graph.within(word)));
  return one !== two && images[0] === images[1] && one.slice(0, ends) === two.slice(0, ends) && one.slice(-ends) === two.slice(-ends);
}
// Whether a configuration whose middle begins at the cell `at` maps to the given one: seen on a common period on both sides.
function isPreimage(graph, {at, tail}, given) {
  const reach = Math.abs(graph.offset) + graph.width;
  const from = Math.min(at, 0) - commonMultiple(tail.left.length, given.left.length) - reach;
  const to = Math.max(at + tail.middle.length, given.middle.length) + commonMultiple(tail.right.length, given.right.length) + reach;
  return written(graph.over(tail, from - at, to - at)) === cellsOf(given, from, to);
}

// The windows of the configurations that a rule only moves by `by` cells: each gives its letter at one place, and has one before it
// and one behind it.
function movedWindows(graph, by) {
  let windows = graph.edges().filter(edge => DIGITS[edge.image] === graph.windowOf(edge)[by - graph.offset]);
  for (let before = -1; before !== windows.length;) {
    before = windows.length;
    const sources = new Set(windows.map(edge => edge.source)), targets = new Set(windows.map(edge => edge.target));
    windows = windows.filter(edge => sources.has(edge.target) && targets.has(edge.source));
  }
  return windows.map(edge => edge.window);
}
function areMoved(graph, by, {windows, ring}) {
  if (windows.join() !== movedWindows(graph, by).join()) return false;
  return ring === "" ? windows.length === 0 : written(graph.ring(ring)) === cellsOf(ringOf(ring), by, by + ring.length);
}
// Whether both words have just these last and first nodes, and the degree follows from their numbers.
function isDegree(graph, degree, right, left) {
  const mirrored = new Graph(mirror(graph)), reversed = word => [...word].reverse().join("");
  const last = (way, word) => ascending([...way.reading(word)].at(-1)).map(node => way.name(node));
  const names = side => side.nodes.map(node => graph.name(node)).sort().join();
  return right.count * left.count === degree * graph.nodes && right.count === right.nodes.length && left.count === left.nodes.length
    && last(graph, right.word).sort().join() === names(right)
    && last(mirrored, reversed(left.word)).map(reversed).sort().join() === names(left);
}

// Throws an Error if a piece of evidence of a report isn't so.
function workOut(report, graph) {
  const {surjective, injective, right, left, conserving} = report, back = new Graph(mirror(graph), graph.weights);
  const holds = {
    surjective: () => (surjective.holds ? ![...reached(graph)].some(pair => isEqual(graph, pair))
      : isOrphan(graph, surjective.orphan)),
    injective: () => (injective.holds ? undecided(graph, injective.window).at(-1) === 0 : areTwins(graph, injective.twins)),
    right: () => isClosing(graph, graph, right, "right"),
    left: () => isClosing(graph, back, left, "left"),
    open: () => report.open === (right.holds && left.holds),
    conserving: () => (conserving.holds ? isFlux(graph, conserving.flux) : loses(graph, conserving.ring)),
  };
  for (const [name, isSo] of Object.entries(holds)) mustFit(isSo(), name, report.rule);
}
function mustFit(fits, name, rule) {
  if (!fits) throw new Error(`the evidence of ${name} doesn't fit the table of ${rule}`);
}

// The current: what moves to the right across the border between two cells, by the flux (docs/EVIDENCE.md). It has a number for each
// word of `letters` letters, by its value: of as many as the words of the flux have, if the window of a cell holds the cell. It is
// null if there are too many words. One number more or less for all letters changes no current, so here the letter 0 weighs 0.
function currentOf(graph, flux) {
  const {states, width, offset} = graph, weights = graph.weights.map(weight => weight - graph.weights[0]);
  const letters = Math.max(width - 1, -offset, width - 1 + offset);
  if (states ** letters > PICTURES.most.tried) return null;
  const numbers = wordsOf(states, letters).map(word => {
    const moved = [...word.slice(0, Math.abs(offset))].reduce((sum, digit) => sum + weights[parseInt(digit, 16)], 0);
    const from = Math.max(offset, 0);
    return flux[valueOf(word.slice(from, from + width - 1), states)] + (offset < 0 ? moved : -moved);
  });
  return {letters, numbers};
}
