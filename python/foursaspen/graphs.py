"""The de Bruijn graph of a rule: nodes are words of width - 1 letters, numbered by their values; an edge reads a
letter and writes what the rule gives on the node's letters and the one that is read.
"""
from __future__ import annotations

from collections.abc import Sequence
from dataclasses import dataclass

from .drawing import LABELS
from .report import Tail
from .rule_values import DIGITS, RuleLike, rule_of

Way = tuple[int, int]                           # a node, and the letter that is read there


@dataclass(frozen=True)
class Edge:
    """An edge: from where, the letter that is read, the letter that is written, to where."""
    source: int
    letter: int
    image: int
    target: int

    @property
    def way(self) -> Way:
        return self.source, self.letter

    @property
    def label(self) -> str:
        return f"{DIGITS[self.letter]}/{DIGITS[self.image]}"


def written(walk: list[Edge]) -> str:
    """The image that a walk writes."""
    return "".join(DIGITS[edge.image] for edge in walk)


class Graph:
    """The graph of a rule, and what each letter weighs: its own value, where no weights are given."""

    def __init__(self, like: RuleLike, weights: Sequence[int] | None = None) -> None:
        self.rule = rule = rule_of(like)
        self.states, self.width, self.offset, self.table = rule.states, rule.width, rule.offset, rule.table
        self.nodes: int = self.states ** (self.width - 1)
        self.weights = range(self.states) if weights is None else weights

    def edge(self, node: int, letter: int) -> Edge:
        window = node * self.states + letter
        return Edge(node, letter, self.table[window], window % self.nodes)

    def said(self, edge: Edge) -> str:
        """An edge in words."""
        return LABELS["edge"].format(source=self.name(edge.source), letter=DIGITS[edge.letter], image=DIGITS[edge.image],
                                     target=self.name(edge.target))

    def change(self, edge: Edge, place: int = 0) -> int:
        """What the letter that is written weighs more than the letter of the edge's window at a place, the first one at 0."""
        return self.weights[edge.image] - self.weights[int(self.window(edge)[place], 16)]

    def total(self, word: str) -> int:
        """What the letters of a word weigh."""
        return sum(self.weights[int(letter, 16)] for letter in word)

    def out(self, node: int) -> list[Edge]:
        """The edges from a node."""
        return [self.edge(node, letter) for letter in range(self.states)]

    def edges(self) -> list[Edge]:
        """All edges, by their windows."""
        return [edge for node in range(self.nodes) for edge in self.out(node)]

    def name(self, node: int) -> str:
        """The letters of a node."""
        places = reversed(range(self.width - 1))
        return "".join(DIGITS[node // self.states ** place % self.states] for place in places)

    def cycle(self) -> list[int]:
        """All nodes, in the order of a closed walk from 0 on that meets each once: the greatest letter goes
        first that leads to a node not met so far (Martin 1934)."""
        met = [0]
        while len(met) < self.nodes:
            ways = (self.edge(met[-1], letter).target for letter in reversed(range(self.states)))
            met.append(next(node for node in ways if node not in met))
        return met

    def within(self, word: str) -> list[Edge]:
        """The walk that reads the windows of a word."""
        node, edges = 0, []
        for digit in word:
            edges.append(self.edge(node, int(digit, 16)))
            node = edges[-1].target
        return edges[self.width - 1:]           # the first edges read the first window's beginning

    def over(self, tail: Tail, start: int, stop: int) -> list[Edge]:
        """The walk along a configuration that writes its image at the cells from `start` on, before `stop`."""
        return self.within(tail.cells(start + self.offset, stop + self.offset + self.width - 1))

    def ring(self, word: str) -> list[Edge]:
        """The closed walk along the ring of a word that writes its image."""
        return self.over(Tail.ring(word), 0, len(word))

    def window(self, edge: Edge) -> str:
        """The letters of the window of an edge."""
        return self.name(edge.source) + DIGITS[edge.letter]

    def reading(self, word: str) -> list[tuple[set[int], list[Edge]]]:
        """Where a walk may be that writes a word, letter by letter: the nodes before each letter with the edges
        that write it, and at last the nodes behind the word."""
        here, steps = set(range(self.nodes)), []
        for digit in word:
            edges = [edge for edge in self.edges() if edge.source in here and edge.image == int(digit, 16)]
            steps.append((here, edges))
            here = {edge.target for edge in edges}
        return steps + [(here, [])]
