"""How many preimages a configuration has under a surjective rule, and how much a reversible rule lets flow (Hedlund 1969).

A node is a word of width - 1 letters. A last node of a word is the last width - 1 letters of one of its preimages, and a first
node is the first width - 1 letters of one of its preimages. docs/DEGREE.md of the repository has examples.
"""
from __future__ import annotations

import json
from dataclasses import dataclass, field
from fractions import Fraction
from typing import Any, NamedTuple

from .drawing import DARK, DESCRIBED, GREY, LABELS, MARK, MOST, Canvas, Picture
from .faults import UsageError
from .graphs import Edge, Graph
from .library import library
from .report import Answer, line, table
from .rule_values import DIGITS, Rule, RuleLike, rule_of
from .sums import all_words
from .trellis import Trellis, room_of

SAID = DESCRIBED["pictures"]["degree"]
LONGEST = MOST["cut"]                           # letters of a picture


class Multipliers(NamedTuple):
    """Hedlund's multipliers. The right one is the greatest number of last nodes of the preimages of one word that begin with
    one node. The left one is that of the mirrored rule."""
    right: int
    left: int


@dataclass(frozen=True)
class Degree(Answer):
    """The degree of a rule, and what belongs to it.

    `right` is the least number of last nodes that a word has, `right_word` the least word that has so few, and `right_nodes`
    these nodes. `left`, `left_word` and `left_nodes` are the same of first nodes, where words are read from right to left.
    `degree` is the least number of nodes that are last nodes of one word and first nodes of another one. If the rule is open,
    each configuration has `degree` preimages. `flow` is how many times as much flows to the right as to the left: k for the
    shift of k states to the right by one cell. Only a reversible rule has a flow.

    If the rule isn't surjective, `degree` and `multipliers` are None, both counts are 0, and both words are orphans."""
    text: str = field(repr=False)
    rule: Rule
    degree: int | None
    right: int
    left: int
    multipliers: Multipliers | None
    flow: Fraction | None
    right_word: str
    right_nodes: tuple[str, ...]
    left_word: str
    left_nodes: tuple[str, ...]

    def as_dict(self) -> dict[str, Any]:
        """What `python -m foursaspen degree --json` writes, and checkers/degrees.py judges."""
        return {"rule": str(self.rule), "degree": self.degree,
                "right": {"count": self.right, "word": self.right_word, "nodes": list(self.right_nodes)},
                "left": {"count": self.left, "word": self.left_word, "nodes": list(self.left_nodes)},
                "multipliers": self.multipliers and self.multipliers._asdict(),
                "flow": None if self.flow is None else str(self.flow)}

    def as_json(self) -> str:
        """The same as a JSON text."""
        return json.dumps(self.as_dict())

    def picture(self) -> Picture:
        """All walks that spell the right word, then width - 1 letters 0, then the left word. At the cut after the right word they
        go through exactly `degree` nodes."""
        return drawn(self)

    def _repr_html_(self) -> str:
        return table([["", "count", "word", "nodes"], ["right", str(self.right), self.right_word, " ".join(self.right_nodes)],
                      ["left", str(self.left), self.left_word, " ".join(self.left_nodes)],
                      *([name, shown] for name, shown in (part.split(" ", 1) for part in self.text.splitlines())
                        if name not in ("right", "left"))])


def degree(rule: RuleLike) -> Degree:
    """The degree of a rule, its multipliers, its flow if it is reversible, and the words with the fewest last nodes and first
    nodes."""
    known = rule_of(rule)
    letters = bytes(known.table)
    found, words = library().degree(known.states, known.width, known.offset, letters)
    right, left = (side_of(known, row.begin, row.length, nodes, words)
                   for row, nodes in ((found.right_word, found.right_nodes), (found.left_word, found.left_nodes)))
    onto = found.degree > 0
    multipliers = Multipliers(found.right_multiplier, found.left_multiplier) if onto else None
    flow = None
    if library().verdicts(known.states, known.width, letters).injective:
        flow = found.right / Fraction(known.states) ** (known.offset + known.width - 1)
    text = line("degree", found.degree if onto else "none")
    for name, count, (word, nodes) in (("right", found.right, right), ("left", found.left, left)):
        text += line(name, count, *(["word", word] if word else []), *(["nodes", *nodes] if nodes else []))
    text += "" if multipliers is None else line("multipliers", *multipliers)
    text += "" if flow is None else line("flow", flow)
    return Degree(text, known, found.degree if onto else None, found.right, found.left, multipliers, flow, *right, *left)


def side_of(rule: Rule, begin: int, length: int, nodes: int, letters: bytes) -> tuple[str, tuple[str, ...]]:
    """The word of a side and its nodes."""
    words = all_words(rule.states, rule.width - 1)
    return ("".join(DIGITS[letter] for letter in letters[begin:begin + length]),
            tuple(word for value, word in enumerate(words) if nodes >> value & 1))


def drawn(found: Degree) -> Picture:
    """The walks that show the degree, with the nodes at the cut marked."""
    graph = Graph(found.rule)
    before, after = found.right_word, "0" * (graph.width - 1) + found.left_word
    word = before + after
    if len(word) > LONGEST:
        raise UsageError(SAID["long"].format(letters=len(word), most=LONGEST))
    steps = walks(graph, word)
    at_cut = {edge.source for edge in steps[len(before)]}
    name = found.rule.number if found.rule.startswith("2:3:-1:") else found.rule
    said = SAID["heading"].format(rule=name, walks=graph.nodes, cut=f"{len(at_cut)} node{'' if len(at_cut) == 1 else 's'}")
    canvas = Canvas(said)
    top = canvas.lines_of_text(26, said, 15, bold=True, room=room_of(graph, len(word)))
    trellis = Trellis(canvas, graph, len(word), top + 44)
    cut = trellis.x(len(before))
    canvas.line([(cut, trellis.top - 30), (cut, trellis.y(graph.nodes))], GREY, dashes="3 3")
    trellis.letters(LABELS["image"], list(word), trellis.top - 14)
    for node in at_cut:
        canvas.disc(cut, trellis.y(node), 9, MARK, DARK)
    for column, edges in enumerate(steps):
        for edge in edges:
            trellis.step(column, edge, DARK, 1.2)
            canvas.disc(trellis.x(column), trellis.y(edge.source), 4, DARK, DARK)
            canvas.disc(trellis.x(column + 1), trellis.y(edge.target), 4, DARK, DARK)
    return canvas.svg()


def walks(graph: Graph, word: str) -> list[list[Edge]]:
    """For each letter the edges of the walks that spell the whole word."""
    there = [set(range(graph.nodes))]
    for letter in word:
        there.append({edge.target for edge in graph.edges() if edge.source in there[-1] and DIGITS[edge.image] == letter})
    steps: list[list[Edge]] = []
    back = there[-1]
    for column in reversed(range(len(word))):
        steps.append([edge for edge in graph.edges()
                      if edge.source in there[column] and edge.target in back and DIGITS[edge.image] == word[column]])
        back = {edge.source for edge in steps[-1]}
    return steps[::-1]
