// The de Bruijn graph of a rule: nodes are words of width - 1 letters, by their values. An edge is a window: it reads the last
// letter of the window and writes the letter that the rule gives.

const ascending = numbers => [...numbers].sort((a, b) => a - b);

class Graph {
  constructor(rule, weights = null) {
    Object.assign(this, rule);
    this.nodes = rule.states ** (rule.width - 1);
    this.weights = weights ?? [...Array(rule.states).keys()];
  }
  edge(node, letter) {
    const window = node * this.states + letter;
    return {window, source: node, letter, image: this.table[window], target: window % this.nodes};
  }
  edges() { return this.table.map((_, window) => this.edge(Math.floor(window / this.states), window % this.states)); }
  out(node) { return Array.from({length: this.states}, (_, letter) => this.edge(node, letter)); }
  name(node) { return nameOf(node, this.states, this.width - 1); }
  names(nodes) { return ascending(nodes).map(node => this.name(node)).join(" "); }
  windowOf(edge) { return nameOf(edge.window, this.states, this.width); }
  said(edge) {
    return filled(PICTURES.labels.edge, {source: this.name(edge.source), letter: DIGITS[edge.letter], image: DIGITS[edge.image],
      target: this.name(edge.target)});
  }
  // What the letter that is written weighs more than the letter of the edge's window at a place, the first one at 0.
  change(edge, place = 0) { return this.weights[edge.image] - this.weights[parseInt(this.windowOf(edge)[place], 16)]; }
  total(word) { return [...word].reduce((sum, digit) => sum + this.weights[parseInt(digit, 16)], 0); }

  // The walk that reads the windows of a word.
  within(word) {
    let node = 0;
    const edges = [...word].map(digit => {
      const edge = this.edge(node, parseInt(digit, 16));
      node = edge.target;
      return edge;
    });
    return edges.slice(this.width - 1);         // the first edges read the first window's beginning
  }
  // The walk along a configuration that writes its image at the cells from `start` on, before `stop`.
  over(tail, start, stop) { return this.within(cellsOf(tail, start + this.offset, stop + this.offset + this.width - 1)); }
  ring(word) { return this.over(ringOf(word), 0, word.length); }

  // Where a walk may be that writes a word, letter by letter: the nodes before each letter, and at last those behind the word.
  *reading(word) {
    let here = new Set(Array(this.nodes).keys());
    yield here;
    for (const digit of word) {
      const image = parseInt(digit, 16), next = new Set();
      for (const node of here)
        for (let letter = 0, window = node * this.states; letter < this.states; letter++, window++)
          if (this.table[window] === image) next.add(window % this.nodes);
      yield here = next;
    }
  }
}
const written = walk => walk.map(edge => DIGITS[edge.image]).join("");
