// What is said of a report: sections of headings, sentences, pictures and tables. Each piece of evidence is worked out again first.
const LONGEST = 200;                            // letters of a word that is drawn, and steps of a table
const LISTED = 24, SUMS = 4, NAMED = 32;        // rules of a class, sums, and windows that are named
const MOVES = 3;                                // pictures of what is only moved
const PAIRED = ["window of the first", "of the second", "letter of the image"], LEFT_PAIRS = "pairs of nodes that are left";
const SIDES = [["right", "left"], ["left", "right"]];
const VERDICTS = {surjective: "Surjective", injective: "Injective", right: "Closing on the right", left: "Closing on the left",
  open: "Open", conserving: "Conserving"};

function make(tag, properties, ...children) {
  const made = Object.assign(document.createElement(tag), properties);
  made.append(...children.flat(Infinity).filter(it => it !== null));
  return made;
}
const say = (...children) => make("p", {}, children);
const note = text => make("p", {className: "note", textContent: text});
const code = text => make("code", {textContent: text});
const term = (word, shown = word) => make("a", {className: "term", href: `#${TEXTS.parts[word]}`, textContent: shown});
const scroll = inner => make("div", {className: "scroll", tabIndex: 0}, inner);
const title = (id, textContent) => make("h2", {id, tabIndex: -1, textContent});
const folded = (summary, ...children) => make("details", {}, make("summary", {textContent: summary}), children);
const holds = (report, key) => report[key].holds ?? report[key];
const yesOrNo = (report, key) => (holds(report, key) ? "yes" : "no");

// A picture, or why there is none.
function drawn(report, show, {long = 0, found = {}} = {}) {
  if (long > LONGEST) return note(`It has ${many(long)} letters, too many for a picture.`);
  return boxed(() => picture(report, show, ["graph", "flux", "current"].includes(show), found));
}
function boxed(draw) {
  try {
    const box = scroll([]);
    box.innerHTML = draw();
    return box;
  } catch (fault) {
    return note(`${fault.message[0].toUpperCase()}${fault.message.slice(1)}.`);
  }
}
// A table that opens and closes, cut if it is long.
function steps(summary, heads, rows, open = true) {
  const cut = rows.length > LONGEST ? note(`and ${many(rows.length - LONGEST)} more steps`) : null;
  const lines = rows.slice(0, LONGEST).map(row => make("tr", {}, row.map(cell =>
    make("td", {className: "mono"}, cell instanceof Node ? cell : String(cell)))));
  const top = make("thead", {}, make("tr", {}, heads.map(head => make("th", {scope: "col", textContent: head}))));
  const table = make("table", {}, make("caption", {textContent: summary}), top, make("tbody", {}, lines));
  return make("details", {open}, make("summary", {textContent: summary}), scroll([table, cut]));
}
function rowsOf(graph, walks) {
  return walks[0].map((edge, place) => [...walks.map(walk => graph.windowOf(walk[place])), DIGITS[edge.image]]);
}

class Sections {
  // `find` carries out a command and gives its finding, or null; `call` calls the library otherwise.
  constructor(report, find, call) {
    Object.assign(this, {report, find, call, rule: ruleOf(report.rule)});
    this.graph = new Graph(this.rule, report.weights);
    workOut(report, this.graph);
  }
  async all() {
    const {report} = this, {surjective, injective, conserving} = report;
    const parts = [this.about(), this.head("surjective"), surjective.holds ? this.apart() : await this.orphan(surjective.orphan),
      this.head("injective"), injective.holds ? await this.inverse(injective.window) : this.twins(injective.twins)];
    for (const [side, other] of SIDES)
      parts.push(this.head(side), report[side].holds ? this.ahead(report[side].ahead, side, other) : this.split(side, other));
    parts.push(this.head("open"), this.open(), this.head("conserving"), conserving.holds ? this.flux(conserving.flux)
      : this.ring(conserving.ring), await this.preimages(), await this.keptSums(), await this.moves(), await this.kin());
    return parts.flat(Infinity).filter(it => it !== null);
  }
  head(key) {
    const said = yesOrNo(this.report, key);
    return make("h2", {id: key, tabIndex: -1}, term(TEXTS.parts[key] ? key : "closes", VERDICTS[key]), ": ",
      make("span", {className: said, textContent: said}));
  }
  about() {
    const {report, rule} = this, letters = rule.table.map(letter => DIGITS[letter]).join("");
    const long = letters.length > 64, back = [...letters].reverse().join("");
    const number = report.number === null ? "." : [", and its Wolfram number ", code(report.number), "."];
    return [title("rule", "The rule"), say("Its text is ", leads(report.rule), number),
      long ? null : say("The table, from the window of the least value on: ", code(letters), ". In Wolfram's order, from the "
        + "greatest value on: ", code(back), "."),
      say("In the graph, a ", term("node"), " is the letters that were read last. Each edge reads a letter and writes one. A "
        + "configuration is a ", term("walk"), ", and the letters that the walk writes are its image."), drawn(report, "graph")];
  }

  async orphan(orphan) {
    const {graph} = this, begun = orphan.slice(0, LONGEST + 1), reading = [...graph.reading(begun)];
    const rows = [...begun].map((letter, place) => [place + 1, letter, graph.names(reading[place]),
      graph.names(reading[place + 1]) || "nowhere"]);
    const {erased} = await this.find("erase");
    mustFit(isErasable(graph, erased), "the erasable pair", this.report.rule);
    const walks = erased.map(word => graph.within(word));
    return [say("No word has the image ", code(orphan), ", and it is the first such word: an ", term("orphan"), ". A configuration "
      + "that contains it is a Garden of Eden: it has no preimage."), drawn(this.report, "orphan", {long: orphan.length}),
    steps("Letter by letter", ["step", "letter written", "a walk may be at", "and then at"], rows),
    say("So there is an ", term("erasable pair"), ", too: ", code(erased[0]), " and ", code(erased[1]), " begin and end alike and "
      + "have one image. Each may stand for the other everywhere."),
    drawn(this.report, "erase", {long: erased[0].length, found: {erased}}),
    steps("The erasable pair, window by window", PAIRED, rowsOf(graph, walks))];
  }
  apart() {
    const {graph} = this, {nodes} = graph, ends = pair => [Math.floor(pair / nodes), pair % nodes].sort((a, b) => a - b);
    const pairs = [...new Set([...reached(graph)].map(pair => graph.names(ends(pair))))].sort();
    const begin = ["Every word has a preimage, and exactly ", String(nodes), " of them, so there is no ", term("orphan"), ". Two ",
      term("walk", "walks"), " that begin at one node, read different letters first and write the same letters "];
    const list = [say("A list of sets shows this too:"), drawn(this.report, "sets")];
    if (pairs.length === 0) return [say(begin, "don't exist: the edges from a node write different letters."), list];
    return [say(begin, "never meet: none of the pairs of nodes that they come to has two equal nodes."),
      steps(`The pairs of nodes: ${many(pairs.length)}`, ["nodes"], pairs.map(pair => [pair])), list];
  }
  // Two configurations with one image.
  pair(show, tails, cells, text) {
    const walks = walksOf(this.graph, {tails, cells, moved: 0});
    return [say(text, " Marked cells differ."), drawn(this.report, show, {long: cells[1] - cells[0]}),
      steps("Cell by cell", ["cell", ...PAIRED], rowsOf(this.graph, walks).map((row, place) => [cells[0] + place, ...row]))];
  }
  twins(twins) {
    return this.pair("twins", twins.map(ringOf), [0, twins[0].length], ["Two different ", term("ring", "rings"), " have one image: "
      + "they are ", term("twins"), "."]);
  }
  split(side, other) {
    const {split} = this.report[side];
    return this.pair(side, split, seenAt(this.graph, shownOf(split)), ["Two configurations have one image and agree to the "
      + `${other}: a `, term("split"), ". Beyond the cells that are shown their periods go on for ever."]);
  }
  async inverse([letters, place]) {
    const {inverse} = await this.find("inverse") ?? {}, wide = letters + this.rule.width - 1;
    return [say(`The rule is reversible. The image of ${wide} letters has ${counted(letters, "letter")}, and determines the letter `
      + `at place ${place} of them, counted from 0: a `, term("window"), "."), drawn(this.report, "window"),
    steps("Two walks that differ at that place and write the same letters", ["letters of the image", LEFT_PAIRS],
      undecided(this.graph, [letters, place]).map((count, at) => [at, count])), this.map(inverse, letters)];
  }
  map(inverse, letters) {
    if (!inverse) return say("The ", term("inverse"), " is wider than a map of 65,536 letters.");
    if (inverse.rule) return say("The ", term("inverse"), " is ", leads(inverse.rule), ".");
    return [say("The ", term("inverse"), ` is wider than a rule may be. It reads ${letters} cells, from the offset `
      + `${inverse.offset} on.`), folded(`Its map, ${many(inverse.map.length)} letters`, make("pre", {textContent: inverse.map}))];
  }
  ahead(ahead, side, other) {
    const counts = leftAfter(side === "right" ? this.graph : new Graph(mirror(this.rule)), ahead);
    return [say(`The cells to the ${other} of a cell and ${counted(ahead, "letter")} of the image determine the cell, and fewer `
      + "letters don't: the ", term("look-ahead"), ` is ${ahead}.`), drawn(this.report, side),
    steps("Two walks from one node that read different letters first and write the same ones", ["letters written", LEFT_PAIRS],
      counts.map((count, at) => [at + 1, count]))];
  }
  open() {
    if (!this.report.open) return say("It doesn't ", term("closes", "close"), " on both sides, so it isn't ", term("open"), ".");
    return say("It ", term("closes"), " on both sides, so it is ", term("open"), ": all configurations have the same number of "
      + "preimages.");
  }
  ring(ring) {
    const {graph} = this, walk = graph.ring(ring), image = written(walk);
    return [say("The ", term("ring"), " ", code(ring), ` has the sum ${graph.total(ring)}, and its image `, code(image),
      ` has the sum ${graph.total(image)}.`), drawn(this.report, "ring"),
    steps("Cell by cell", ["cell", "window", "letter of the image"], rowsOf(graph, [walk]).map((row, cell) => [cell, ...row]))];
  }
  flux(flux) {
    const {graph} = this;
    const rows = graph.edges().map(edge => [graph.windowOf(edge), DIGITS[edge.image], signed(graph.change(edge)), flux[edge.source],
      flux[edge.target]]);
    return [say("A window adds to the sum the ", term("flux"), " at its first letters minus the flux at its last letters. Around a "
      + "ring these differences add up to 0, so the sum stays the same."), drawn(this.report, "flux"),
    steps("Window by window", ["window", "gives", "adds", "flux before", "flux behind"], rows), this.current(flux)];
  }
  current(flux) {
    const {graph} = this, current = currentOf(graph, flux), holdsCell = -graph.offset >= 0 && -graph.offset < graph.width;
    if (!current) return note("The current has a number for each of too many words: the windows lie far from their cells.");
    const rows = current.numbers.map((number, value) => [nameOf(value, graph.states, current.letters), number]);
    return [say("The ", term("current"), " says how much moves between neighbours: a cell gains the number to its left minus the "
      + "number to its right."), holdsCell ? drawn(this.report, "current") : null,
    steps("The current, word by word", ["letters", "current"], rows, rows.length <= 32)];
  }
  // The degree with the walks that show it.
  async preimages() {
    const {graph, rule, report} = this, head = title("degree", "How many preimages");
    if (!report.surjective.holds) return [head, say("Some word has no preimage, so the rule has no degree.")];
    const {degree, right, left} = await this.call({kind: "degree", rule}), states = BigInt(rule.states);
    for (const side of [right, left]) side.word = side.word.map(letter => DIGITS[letter]).join("");
    mustFit(isDegree(graph, degree, right, left), "the degree", report.rule);
    const sides = [["last", right], ["first", left]].map(([which, {count, nodes, word}]) => say("The preimages of ", word ? code(word)
      : "the empty word", ` have ${counted(count, `${which} node`)}, `, code(graph.names(nodes)), ", and no word has fewer."));
    const open = report.open ? "Each configuration has so many preimages."
      : "Some periodic configuration has so many preimages, and none has fewer.";
    return [head, sides, say(`So the degree is ${right.count} · ${left.count} / ${graph.nodes} = ${degree}, since there are `
      + `${graph.nodes} nodes. ${open}`), report.injective.holds ? say(`The flow is ${flowOf(right.count, states, rule)}: so many times `
      + "as much flows to the right as to the left.") : null, boxed(() => pictureOfDegree(rule, right.word, left.word))];
  }
  // All sums of words of one, two and three letters that the rule keeps.
  async keptSums() {
    const {states} = this.rule, rows = [], shown = (words, row) => row.map((weight, word) => weight && `${words[word]}:${weight}`)
      .filter(Boolean).join(" ");
    for (let letters = 1; letters <= 3 && states ** letters <= 16; letters++) {
      const {rows: kept, rings} = await this.call({kind: "sums", rule: this.rule, letters}), words = wordsOf(states, letters);
      const first = kept.slice(0, SUMS).map(row => shown(words, row)).join("; ") + (kept.length > SUMS ? "; .." : "");
      const lost = rings.map(([word, ring]) => `${words[word]} by ${ring.map(letter => DIGITS[letter]).join("")}`).join(", ");
      rows.push([letters, kept.length, first, lost]);
    }
    return [title("sums", "Kept sums"), say("Weigh each word of so many letters, and add up around a ", term("ring"), " the weights of "
      + "the words in it. The table has all sums that stay the same on every ring. It leaves out sums that say only how long the "
      + "ring is, and combinations of other sums. Each other word has a ring, and these rings show that no more sums stay the same."),
    steps("Sums that are kept", ["letters", "sums", "what the words of each weigh", "words without a sum, each with its ring"], rows)];
  }
  // What the rule only moves, for each cell of the window, and pictures of what is more than one letter everywhere.
  async moves() {
    const {rule, graph} = this, found = [];
    for (let by = rule.offset; by < rule.offset + rule.width; by++) {
      const {windows, ring} = await this.call({kind: "moved", rule, by});
      const one = {by, windows, ring: ring.map(letter => DIGITS[letter]).join("")};
      mustFit(areMoved(graph, by, one), "what it only moves", this.report.rule);
      found.push({...one, names: windows.map(window => nameOf(window, rule.states, rule.width))});
    }
    const rows = found.map(({by, ring, names}) =>
      [movesBy(by), ring || "none", names.slice(0, NAMED).join(" ") + (names.length > NAMED ? " .." : "")]);
    const shown = found.filter(({names}) => names.some(name => new Set(name).size > 1)).sort((one, other) =>
      Math.abs(one.by) - Math.abs(other.by));
    const drawable = LAYOUTS[`${rule.states}:${rule.width}`] ? shown.slice(0, MOVES) : [];
    const pictures = drawable.map(one => boxed(() => pictureOfMoved(rule, one)));
    return [title("moved", "What it only moves"), say("Some configurations are ", term("moved", "only moved"), ": their image is the "
      + "configuration itself, so many cells further on. A configuration is moved so exactly if it has only these windows."),
    steps("Configurations that the rule ..", ["..", "least ring", "windows of them"], rows), pictures];
  }
  // The mirrored rule, and the class.
  async kin() {
    const made = [title("kin", "Its class"), say("The mirrored rule is ", to(mirror(this.rule)), ".")];
    const least = await this.find("least");
    if (!least) return made;
    const members = classOf(this.rule), more = members.length > LISTED ? ` and ${many(members.length - LISTED)} more` : "";
    mustFit(textOf({...members[0], offset: 0}) === least.rule, "the class", this.report.rule);
    const names = members.slice(0, LISTED).flatMap((rule, place) => [place ? ", " : "", to(rule)]);
    const others = members.length === 1 ? "" : " They differ only by the names of the letters and by the mirror. The first one has the "
      + "least number.";
    return [...made, say(`At its own offset, its class has ${counted(members.length, "rule")}: `, names, `${more}.${others}`)];
  }
}
// The flow of a reversible rule, as a fraction: right / states^(offset + width - 1).
function flowOf(right, states, {offset, width}) {
  const power = offset + width - 1, by = states ** BigInt(Math.abs(power));
  const [over, under] = power < 0 ? [BigInt(right) * by, 1n] : [BigInt(right), by];
  const divisor = (a, b) => (b ? divisor(b, a % b) : a), common = divisor(over, under);
  return over / common + (under === common ? "" : `/${under / common}`);
}
// A rule that leads to its page, with its number if that is short.
function to(rule) {
  const number = rule.states ** rule.width <= 9 ? ` (${numberOf(rule)})` : "";
  return [leads(textOf(rule)), number];
}
