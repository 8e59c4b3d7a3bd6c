// Pictures of a rule as SVG. Which there are, what each says, and the names of its rows stand in pictures.json, which the Python
// package has too (pictures.py, telling.py, trellis.py, node_sets.py). A test holds both to the same cells, marks and labels.
const {labels: LABELS, most: MOST, sizes: SIZES} = PICTURES;
const CELL = SIZES.cell, LEFT = MARGIN + 92, LEAST = 16;
// Of two walks: line, dashes, nodes, how far down.
const STYLES = [[FIRST, "", FIRST, -2.5], [SECOND, DASHES, PAPER, 2.5]];
const signed = number => (number > 0 ? `+${number}` : String(number));

// A picture of a report, or an Error if the rule has no such thing or too much of it. `found` has what other commands have found:
// `erased`, an erasable pair, or `asked` with `preimage` or `gap`.
function picture(report, show, withGraph = true, found = {}) {
  const graph = new Graph(ruleOf(report.rule), report.weights), below = beneath(report, graph, show, found), name = titleOf(report);
  const heading = below.heading ?? "", first = filled(LABELS.graph, {rule: name});
  const canvas = new Canvas(withGraph || !heading ? first + (heading && `, and ${lowered(heading)}`) : `${name}: ${heading}`);
  if (withGraph) {
    canvas.lines(26, name, {size: 16, bold: true});
    drawGraph(canvas, graph, below.draws === "walks" ? walksOf(graph, below) : [], below.draws === "numbers" ? below : null);
  }
  const top = canvas.height + (withGraph ? 34 : 26);
  ({walks: drawWalks, reading: drawReading, sets: drawSets, cases: drawCases})[below.draws]?.(canvas, graph, below, top);
  return canvas.svg();
}
// The picture of what a rule only moves, {by, windows}, with the windows by their values.
function pictureOfMoved(rule, found) {
  const graph = new Graph(rule), name = titleOf({rule: textOf(rule), number: numberOf(rule)}), said = PICTURES.pictures.moved;
  if (found.windows.length === 0) throw new Error(filled(said.lacks, {moves: movesBy(found.by)}));
  const heading = filled(said.heading, {moves: movesBy(found.by)});
  const canvas = new Canvas(`${filled(LABELS.graph, {rule: name})}, and ${lowered(heading)}`);
  canvas.lines(26, name, {size: 16, bold: true});
  drawGraph(canvas, graph, [graph.edges().filter(edge => found.windows.includes(edge.window))], null);
  drawField(canvas, graph, found, heading, said.rows, canvas.height + 34);
  return canvas.svg();
}
function movesBy(by) {
  const far = Math.abs(by);
  return by === 0 ? "leaves as they are" : `moves ${far} cell${far === 1 ? "" : "s"} to the ${by < 0 ? "right" : "left"}`;
}
const lowered = text => text[0].toLowerCase() + text.slice(1);
const titleOf = report => (report.rule.startsWith("2:3:-1:") ? filled(LABELS.rule, report) : report.rule);
// What the letters weigh, if that isn't their own value.
const weighing = report => (report.given ? filled(LABELS.weights, {weights: report.given.join(", ")}) : "");

// What stands beneath a graph, at its nodes or at its edges.

// The evidence that a picture is of, or undefined if the rule has none.
function evidenceOf({surjective, injective, right, left, conserving}, show, {erased}) {
  return {graph: true, orphan: surjective.orphan, sets: surjective.holds || undefined, erase: erased ?? undefined,
    twins: injective.twins, window: injective.window, right: right.split ?? right.ahead, left: left.split ?? left.ahead,
    flux: conserving.flux, current: conserving.flux, ring: conserving.ring && [conserving.ring]}[show];
}
function beneath(report, graph, show, found) {
  const said = PICTURES.pictures[show], it = evidenceOf(report, show, found);
  if (show === "preimage") return preimageOf(said, graph, found.asked);
  if (it === undefined) throw new Error(filled(said.lacks, report.surjective));
  if (typeof it === "number") return {...said, ...byLookAhead(graph, it, show), draws: "cases"};
  switch (said.draws) {
    case "walks": return {...said, ...walkedBy(report, graph, said, it)};
    case "reading": return {...said, heading: filled(said.heading, {orphan: it}), word: it};
    case "numbers": return {...said, ...numbersOf(report, graph, show)};
    case "cases": return {...said, ...byWindow(graph, it)};
    case "sets": return {...said, found: setsOf(graph)};
    default: return said;
  }
}
// A configuration for each of the words, rings or tails.
const TAILS = {tail: tail => tail, ring: ringOf, word: word => ({left: word[0], middle: word, right: word.at(-1)})};
function walkedBy(report, graph, {each, heading}, words) {
  const tails = words.map(TAILS[each]), names = each === "tail" ? words.map(tailText) : words, whole = [0, words[0].length];
  const cells = each === "ring" ? whole : seenAt(graph, each === "word" ? whole : shownOf(tails));
  return {heading: filled(heading, {...names, weights: weighing(report)}), tails, cells, moved: 0};
}
function numbersOf(report, graph, show) {
  const said = PICTURES.pictures[show], heading = said.heading + weighing(report);
  if (show === "flux") return {heading, atNodes: report.conserving.flux, place: 0};
  if (-graph.offset < 0 || -graph.offset >= graph.width) throw new Error(said.outside);
  return {heading, atNodes: currentOf(graph, report.conserving.flux).numbers, place: -graph.offset};
}
function preimageOf(said, graph, {tail, preimage, gap}) {
  if (gap) return {...said, draws: "reading", heading: filled(said.gap, {tail: tailText(tail), word: gap.word}), word: gap.word};
  const own = shownOf([preimage.tail]).map(cell => cell + preimage.at), given = shownOf([tail]);
  const cells = [Math.min(own[0], given[0]), Math.max(own[1], given[1])];
  const heading = filled(said.heading, {0: tailText(preimage.tail), start: preimage.at, tail: tailText(tail)});
  return {...said, heading, tails: [preimage.tail], cells, moved: preimage.at};
}
// Cells with a period of each configuration on either side.
function shownOf(tails) {
  const longest = part => Math.max(...tails.map(tail => tail[part].length));
  return [-longest("left"), longest("middle") + longest("right")];
}
// The cells, and so many more that each of them is in the window of one, where windows lie off their cells.
const seenAt = (graph, [from, to]) => [from - Math.max(graph.offset, 0), to + Math.max(1 - graph.width - graph.offset, 0)];
const walksOf = (graph, {tails, cells, moved}) => tails.map(tail => graph.over(tail, cells[0] - moved, cells[1] - moved));

// The graph as nodes and edges, or as a table if there are too many edges.

function drawGraph(canvas, graph, walks, numbers) {
  const layout = LAYOUTS[`${graph.states}:${graph.width}`];
  if (layout) drawRing(canvas, graph, layout, walks, numbers);
  else drawTable(canvas, graph, walks, numbers);
  const said = (numbers ? lowered(numbers.heading) : LABELS.edges) + (layout ? "" : LABELS.table);
  canvas.lines(canvas.height + 22, said, {size: 12, color: GREY, room: PHONE});
}
const labelOf = (graph, edge, numbers) =>
  (numbers ? signed(graph.change(edge, numbers.place)) : `${DIGITS[edge.letter]}/${DIGITS[edge.image]}`);
const goes = (walk, edge) => walk?.some(it => it.window === edge.window) ?? false;

// Nodes and edges; those of the walks in their colours, the second one broken.
function drawRing(canvas, graph, layout, [first, second], numbers) {
  const down = canvas.height - 19, moved = ([x, y]) => [x, y + down];
  for (const edge of graph.edges()) {
    const points = layout.lines[edge.window].map(moved), isFirst = goes(first, edge), isSecond = goes(second, edge);
    canvas.titled(graph.said(edge), () => {
      if (isFirst || !isSecond) canvas.arrow(points, isFirst ? FIRST : GREY, isFirst ? 2.4 : 1.2);
      if (isSecond) canvas.arrow(points, SECOND, 2.4, DASHES);
    });
  }
  for (const edge of graph.edges()) {
    const [x, y] = moved(layout.labels[edge.window]);
    canvas.titled(graph.said(edge), () => canvas.text(x, y + 4.3, labelOf(graph, edge, numbers)));
  }
  layout.nodes.forEach(([node, place]) => {
    const [x, y] = moved(place), name = graph.name(node);
    canvas.disc(x, y, SIZES.node, PAPER, INK);
    canvas.text(x, y + (numbers ? 0 : 4.3), name, {size: name.length < 4 ? 12 : 11, bold: true});
    if (numbers) canvas.text(x, y + 11, String(numbers.atNodes[node]), {size: 10, color: FIRST});
  });
  canvas.height = Math.max(canvas.height, 2 * layout.middle + down - 40);
}
// A row for each node and a column for each letter that is read: the letter of the image is written there.
function drawTable(canvas, graph, walks, numbers) {
  const wide = 34, high = 24, left = MARGIN + 70, top = canvas.height + 45;
  canvas.text(left - 14, top - 12, LABELS.node, {anchor: "end", color: GREY});
  const at = letter => left + wide * (letter + 0.5);
  for (let letter = 0; letter < graph.states; letter++) canvas.text(at(letter), top - 12, `${DIGITS[letter]}/`, {bold: true});
  for (let node = 0; node < graph.nodes; node++) {
    const y = top + high * node, number = numbers ? `: ${numbers.atNodes[node]}` : "";
    if (node % 2 === 0) canvas.box(left - 50, y, wide * graph.states + 50, high, SHADE);
    canvas.text(left - 14, y + 16, graph.name(node) + number, {anchor: "end", bold: true});
    for (const edge of graph.out(node))
      canvas.titled(graph.said(edge), () => drawEntry(canvas, edge, labelOf(graph, edge, numbers), walks, at(edge.letter), y + 16));
  }
}
// The label of an edge in the table, with a line of its colour beneath if it belongs to a walk.
function drawEntry(canvas, edge, label, walks, x, y) {
  canvas.text(x, y, label);
  walks.forEach((walk, place) => {
    const [color, dashes] = STYLES[place], down = [3, 6][place];
    if (goes(walk, edge)) canvas.line([[x - 12, y + down], [x + 12, y + down]], color, 2, dashes);
  });
}

// Walks, step by step: a column of all nodes before each letter of an image, and one behind the last.

function columnOf(graph, steps) {
  return Math.max(LEAST, Math.min(38 + 3.5 * graph.nodes, (WIDEST - LEFT - 52) / Math.max(steps, 1)));
}
// How wide the lines of text may be: as wide as a phone shows, unless the columns are much wider.
function roomOf(graph, steps) {
  const columns = LEFT + columnOf(graph, steps) * steps + 52;
  return columns < 2 * PHONE ? PHONE : Math.min(WIDEST, columns);
}
class Trellis {
  constructor(canvas, graph, steps, top) {
    Object.assign(this, {canvas, graph, top, column: columnOf(graph, steps)});
    for (let node = 0; node < graph.nodes; node++) {
      canvas.text(LEFT - 22, this.y(node) + 4.3, graph.name(node), {anchor: "end", bold: true});
      for (let column = 0; column <= steps; column++) canvas.disc(this.x(column), this.y(node), 1.6, LIGHT, LIGHT);
    }
  }
  x(column) { return LEFT + this.column * column; }
  y(node) { return this.top + SIZES.row * (node + 0.5); }
  // A row of letters, each between two columns.
  letters(head, letters, y, color = INK, bold = true) {
    this.canvas.text(LEFT - 22, y, head, {anchor: "end", color});
    letters.forEach((letter, place) => { if (letter) this.canvas.text(this.x(place + 0.5), y, letter, {color, bold}); });
  }
  // The numbers of the cells; where the columns are narrow every fifth.
  numbers([from, to], y) {
    const wide = Math.max(String(from).length, String(to - 1).length) * 8 + 4, every = this.column >= wide ? 1 : 5;
    const cells = Array.from({length: to - from}, (_, place) => from + place);
    this.letters(LABELS.cell, cells.map(cell => (cell % every ? "" : String(cell))), y, GREY, false);
  }
  // A bar beside a row of letters, where a period begins or ends.
  bar(column, y) {
    this.canvas.line([[this.x(column), y - 13], [this.x(column), y + 4]], INK, 1.6);
  }
  // An edge from a column to the next.
  step(column, edge, color, width, down = 0, dashes = "") {
    const start = [this.x(column), this.y(edge.source) + down], end = [this.x(column + 1), this.y(edge.target) + down];
    const part = 6 / Math.hypot(start[0] - end[0], start[1] - end[1]);
    const tip = [0, 1].map(axis => end[axis] + part * (start[axis] - end[axis]));
    this.canvas.titled(this.graph.said(edge), () => this.canvas.arrow([start, tip], color, width, dashes));
  }
}
// Where a walk may be that writes the word, letter by letter: at last nowhere.
function drawReading(canvas, graph, {heading, word}, top) {
  const text = canvas.lines(top, heading, {room: roomOf(graph, word.length)});
  const trellis = new Trellis(canvas, graph, word.length, text + 44);
  trellis.letters(LABELS.image, [...word], trellis.top - 14);
  [...graph.reading(word)].forEach((nodes, column) => {
    for (const edge of graph.edges())
      if (nodes.has(edge.source) && DIGITS[edge.image] === word[column]) trellis.step(column, edge, INK, 1.2);
    for (const node of ascending(nodes)) canvas.disc(trellis.x(column), trellis.y(node), 5, INK, INK);
  });
  canvas.text(trellis.x(word.length), trellis.y(graph.nodes) + 6, LABELS.nowhere, {color: GREY});
}
// All walks that spell the right word, then width - 1 letters 0, then the left word, with the nodes at the cut after the right word.
function pictureOfDegree(rule, right, left) {
  const graph = new Graph(rule), word = right + "0".repeat(graph.width - 1) + left, said = PICTURES.pictures.degree;
  if (word.length > MOST.cut) throw new Error(filled(said.long, {letters: word.length, most: MOST.cut}));
  const steps = spelling(graph, word), atCut = ascending(new Set(steps[right.length].map(edge => edge.source)));
  const name = titleOf({rule: textOf(rule), number: numberOf(rule)}).replace(/^rule /, "");
  const canvas = new Canvas(filled(said.heading, {rule: name, walks: graph.nodes, cut: counted(atCut.length, "node")}));
  const top = canvas.lines(26, canvas.title, {size: 15, bold: true, room: roomOf(graph, word.length)});
  const trellis = new Trellis(canvas, graph, word.length, top + 44), cut = trellis.x(right.length);
  canvas.line([[cut, trellis.top - 30], [cut, trellis.y(graph.nodes)]], GREY, 1.2, "3 3");
  trellis.letters(LABELS.image, [...word], trellis.top - 14);
  for (const node of atCut) canvas.disc(cut, trellis.y(node), 9, MARK, INK);
  steps.forEach((edges, column) => edges.forEach(edge => {
    trellis.step(column, edge, INK, 1.2);
    canvas.disc(trellis.x(column), trellis.y(edge.source), 4, INK, INK);
    canvas.disc(trellis.x(column + 1), trellis.y(edge.target), 4, INK, INK);
  }));
  return canvas.svg();
}
// For each letter the edges of the walks that spell the whole word.
function spelling(graph, word) {
  const there = [...graph.reading(word)], steps = [];
  let back = there.at(-1);
  for (let column = word.length - 1; column >= 0; column--) {
    const edges = graph.edges().filter(edge => there[column].has(edge.source) && back.has(edge.target)
      && DIGITS[edge.image] === word[column]);
    steps.unshift(edges);
    back = new Set(edges.map(edge => edge.source));
  }
  return steps;
}
// Configurations with one image, by their names: their letters at the cells, those that differ marked, and at each cell its letter of
// the image with the steps of the walks that write it. `moved` is the cell at which the middles begin, and bars are where periods end
// and begin.
function drawWalks(canvas, graph, {heading, rows, tails, cells, moved}, top) {
  const [from, to] = cells, room = roomOf(graph, to - from), at = canvas.lines(top, heading, {room}) + 12;
  const words = tails.map(tail => cellsOf(tail, from - moved, to - moved)), walks = walksOf(graph, {tails, cells, moved});
  const trellis = new Trellis(canvas, graph, to - from, at + 18 * rows.length + 54);
  for (let place = 0; place < to - from; place++)
    if (words.some(word => word[place] !== words[0][place]))
      canvas.box(trellis.x(place) + 1, at + 18, trellis.column - 2, 18 * rows.length, MARK);
  trellis.numbers(cells, at + 10);
  rows.forEach((name, place) => trellis.letters(name, [...words[place]], at + 18 * place + 31, STYLES[place][0]));
  tails.forEach(({middle}, place) => {
    const ends = [...new Set([moved - from, moved + middle.length - from])];
    for (const column of ends) if (0 < column && column < to - from) trellis.bar(column, at + 18 * place + 31);
  });
  trellis.letters(LABELS.image, [...written(walks[0])], trellis.top - 14);
  walks.forEach((walk, place) => drawWalk(trellis, walk, STYLES[place]));
  canvas.lines(trellis.y(graph.nodes) + 14, filled(LABELS.step, {where: readAt(graph)}), {size: 12, color: GREY, room});
}
function drawWalk(trellis, walk, [color, dashes, fill, down]) {
  walk.forEach((edge, column) => {
    trellis.step(column, edge, color, 2, down, dashes);
    trellis.canvas.disc(trellis.x(column), trellis.y(edge.source) + down, 3.4, fill, color);
  });
  trellis.canvas.disc(trellis.x(walk.length), trellis.y(walk.at(-1).target) + down, 3.4, fill, color);
}
function readAt(graph) {
  const cells = graph.offset + graph.width - 1, far = Math.abs(cells);
  return cells ? `${far} cell${far === 1 ? "" : "s"} to the ${cells > 0 ? "right" : "left"}` : "of the same cell";
}

// What tells a letter, case by case: cells, a blank for each that may have any letter; the place of the cell that is told; and letters
// of the image, the first of which stands beneath the place `start`.

// The place of a window beneath which its image is drawn: that of its own cell, or its middle if it doesn't hold that.
const ownPlace = graph => (-graph.offset >= 0 && -graph.offset < graph.width ? -graph.offset : (graph.width - 1) / 2);
function lookAt(cases, tried, what) {
  if (cases > MOST.cases || tried > MOST.tried) throw new Error(`${what}: a picture has at most ${MOST.cases} cases`);
}
// What each image tells, by the images.
function toldBy(graph, words, letterOf) {
  const told = new Map(words.map(word => [written(graph.within(word)), letterOf(word)]));
  return [...told].sort(([one], [other]) => (one < other ? -1 : 1));
}
function byWindow(graph, [letters, place]) {
  const wide = letters + graph.width - 1, {heading} = PICTURES.pictures.window;
  lookAt(graph.states ** letters, graph.states ** wide, `the window has ${letters} letters`);
  const cases = toldBy(graph, wordsOf(graph.states, wide), word => word[place]).map(([image, letter]) =>
    ({cells: letter.padStart(place + 1).padEnd(wide), told: place, image, start: ownPlace(graph)}));
  const told = letters === 1 ? {letters: "one letter", tell: "tells"} : {letters: `${letters} letters`, tell: "tell"};
  return {heading: filled(heading, told), groups: [cases]};
}
// For each word of width - 1 letters, and each with which the image may go on, the letter that both tell.
function byLookAhead(graph, ahead, side) {
  const tried = graph.states ** Math.min(ahead, 16);
  lookAt(tried, graph.nodes * tried, `the look-ahead is ${ahead}`);
  const way = side === "right" ? graph : new Graph(mirror(graph)), start = ownPlace(way);
  const groups = Array.from({length: way.nodes}, (_, node) => way.name(node)).map(node =>
    toldBy(way, wordsOf(way.states, ahead).map(word => node + word), word => word[node.length]).map(([image, letter]) =>
      ({cells: node + letter + " ".repeat(ahead - 1), told: node.length, image, start})));
  lookAt(groups.flat().length, 0, `the look-ahead is ${ahead}`);
  const heading = filled(PICTURES.pictures[side].told, {letters: ahead === 1 ? "one letter" : `${ahead} letters`});
  return {heading, groups: side === "right" ? groups : groups.map(group => group.map(mirroredCase))};
}
function mirroredCase({cells, told, image, start}) {
  const back = word => [...word].reverse().join("");
  return {cells: back(cells), told: cells.length - 1 - told, image: back(image), start: cells.length - start - image.length};
}
// A cell with its letter; of two states a 1 is black and a 0 white, by day and in the dark.
function drawLetter(canvas, states, letter, x, y, fill = "") {
  const [ground, ink] = letter === " " ? [SHADE, INK] : states !== 2 ? [PAPER, INK] : letter === "1" ? [ONE, ZERO] : [ZERO, ONE];
  canvas.box(x, y, CELL, CELL, fill || ground, GREY);
  if (letter !== " ") canvas.text(x + CELL / 2, y + CELL / 2 + 4.3, letter, {color: fill ? INK : ink});
}
// The cases, as many in a row as there is room for.
function drawCases(canvas, graph, {heading, groups}, top) {
  let y = canvas.lines(top, heading, {room: PHONE}) + 16;
  for (const group of groups) {
    const step = CELL * group[0].cells.length + SIZES.gap, fit = Math.max(1, Math.floor((WIDEST - 2 * MARGIN) / step));
    const inRow = fit > graph.states ? fit - fit % graph.states : fit;
    const rowOf = place => Math.floor(place / inRow), high = 2 * CELL + 16;
    group.forEach((it, place) => drawCase(canvas, graph.states, it, MARGIN + step * (place % inRow), y + high * rowOf(place)));
    y += high * (1 + rowOf(group.length - 1));
  }
}
function drawCase(canvas, states, {cells, told, image, start}, x, y) {
  canvas.titled(filled(LABELS.case, {image, letter: cells[told]}), () => {
    [...cells].forEach((letter, place) => drawLetter(canvas, states, letter, x + CELL * place, y, place === told ? MARK : ""));
    [...image].forEach((letter, place) => drawLetter(canvas, states, letter, x + CELL * (start + place), y + CELL + 2));
  });
}

// The sets of nodes at which a walk may be, whatever it has written, each with the sets that follow it on each letter of the image. A
// set is the list of its nodes; the sets come in the order in which they are found, from the set of all nodes on.

function setsOf({nodes, states, table}) {
  const found = new Map(), waiting = [[...Array(nodes).keys()]];
  for (const here of waiting) {
    if (found.has(here.join())) continue;
    const next = Array.from({length: states}, () => new Set());
    for (const node of here)
      for (let window = node * states; window < (node + 1) * states; window++) next[table[window]].add(window % nodes);
    const lists = next.map(ascending);
    found.set(here.join(), {nodes: here, next: lists});
    waiting.push(...lists);
    if (found.size > MOST.sets) throw new Error(`the list has more than ${MOST.sets} sets: too many for a picture`);
  }
  return found;
}
// A row for each set: its number, a disc for each of its nodes, and the number of the set after each letter.
function drawSets(canvas, graph, {heading, found}, top) {
  let y = canvas.lines(top, heading, {room: PHONE}) + 30;
  const numbers = new Map([...found.keys()].map((key, place) => [key, place + 1]));
  const column = 10 + 9 * (graph.width - 1), left = MARGIN + 34, after = left + column * graph.nodes + 26;
  for (let node = 0; node < graph.nodes; node++) canvas.text(left + column * (node + 0.5), y, graph.name(node), {bold: true});
  for (let letter = 0; letter < graph.states; letter++) canvas.text(after + 36 * letter, y, `/${DIGITS[letter]}`, {bold: true});
  for (const [key, {nodes, next}] of found) {
    y += 24;
    if (numbers.get(key) % 2) canvas.box(MARGIN, y - 16, after + 36 * graph.states - 12 - MARGIN, 24, SHADE);
    canvas.text(MARGIN + 20, y, String(numbers.get(key)), {anchor: "end", color: GREY});
    for (let node = 0; node < graph.nodes; node++) {
      const inside = nodes.includes(node);
      canvas.disc(left + column * (node + 0.5), y - 4, inside ? 6 : 2.5, inside ? INK : PAPER, inside ? INK : LIGHT);
    }
    next.forEach((set, letter) => canvas.text(after + 36 * letter, y, String(numbers.get(set.join()))));
  }
}

// A word of so many letters that shows many of the windows. From the letters of a node in its middle it goes on to both sides by the
// window that it has least often, and of all nodes it is from the one with the most windows.
function stretch(windows, length) {
  const size = windows[0].length;
  const longer = word => {
    const met = new Map(windows.map(window => [window, 0]));
    for (let right = true; word.length < length; right = !right) {
      const fits = window => (right ? word.endsWith(window.slice(0, -1)) : word.startsWith(window.slice(1)));
      const next = windows.filter(fits).reduce((one, other) => (met.get(other) < met.get(one) ? other : one));
      met.set(next, met.get(next) + 1);
      word = right ? word + next.at(-1) : next[0] + word;
    }
    return word;
  };
  const shown = word => new Set([...word.slice(size - 1)].map((_, place) => word.slice(place, place + size))).size;
  const words = [...new Set(windows.map(window => window.slice(0, -1)))].sort().map(longer);
  return words.reduce((one, other) => (shown(other) > shown(one) ? other : one));
}
// The stretch in three rows. A row begins with the cell 0, and each row is found by the rule from the one above.
function drawField(canvas, graph, found, heading, rows, top) {
  let y = canvas.lines(top, `${heading}.`, {room: PHONE}) + 14;
  const begin = Math.min(graph.offset, 0), end = Math.max(graph.offset + graph.width - 1, 0), left = MARGIN + 60;
  let word = stretch(found.windows.map(window => nameOf(window, graph.states, graph.width)), MOST.field + 2 * (end - begin));
  let first = 2 * begin;                        // the cell of the first letter
  rows.forEach((name, row) => {
    if (row) {
      word = written(graph.within(word));
      first -= graph.offset;
    }
    canvas.text(left - 10, y + CELL / 2 + 4.3, name, {anchor: "end", color: GREY});
    const letters = [...word.slice(-first, MOST.field - first)];
    letters.forEach((letter, place) => drawLetter(canvas, graph.states, letter, left + CELL * place, y));
    y += CELL + 4;
  });
}

// The windows of a rule in some order of their values, each with the letter that it gives beneath its own cell.
function drawWindow(rule, value) {
  const graph = new Graph(rule), word = nameOf(value, rule.states, rule.width), letter = DIGITS[rule.table[value]];
  const canvas = new Canvas(filled(LABELS.window, {window: word, letter}));
  [...word].forEach((digit, place) => drawLetter(canvas, rule.states, digit, 1 + CELL * place, 1));
  drawLetter(canvas, rule.states, letter, 1 + CELL * ownPlace(graph), CELL + 3);
  return canvas;
}
