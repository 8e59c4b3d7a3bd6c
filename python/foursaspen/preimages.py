"""The preimages of a word or of a ring: all of them, one after another, and how many there are. They are read off the de Bruijn
graph, and none of this is proved; `preimage` asks the proved program."""
from __future__ import annotations

from collections.abc import Iterator, Sequence

from .faults import UsageError
from .graphs import Graph
from .rule_values import DIGITS, RuleLike, Word, rule_of, word_letters

LONGEST = 1 << 16                               # letters


class Writing:
    """The walks in the graph of a rule that write a list of letters."""

    def __init__(self, rule: RuleLike, word: Word | None, ring: Word | None) -> None:
        known = rule_of(rule)
        if (word is None) == (ring is None):
            raise TypeError("it takes a word, or ring=WORD")
        name, given = ("word", word) if ring is None else ("ring", ring)
        letters = word_letters(name, given, known.states)
        if ring is not None and not letters:
            raise UsageError("ring has at least one letter, and not none")
        if len(letters) > LONGEST:
            raise UsageError(f"{name} has at most {LONGEST:,} letters, and not {len(letters):,}")
        self.graph, self.closed = Graph(known), ring is not None
        # The window of cell i begins at cell i + offset, so the walk round a ring writes first the letter of the cell whose
        # window begins at cell 0.
        turn = -known.offset % len(letters) if self.closed else 0
        self.letters = letters[turn:] + letters[:turn]
        # For each node and each letter the letters that are read there when it is written, each with the node after it.
        self.ways: list[list[list[tuple[int, int]]]] = [[[] for _ in range(known.states)] for _ in range(self.graph.nodes)]
        for edge in self.graph.edges():
            self.ways[edge.source][edge.image].append((edge.letter, edge.target))

    def back(self, ends: set[int]) -> list[set[int]]:
        """The nodes from which the last letters can be written by walks that end in these, for each number of letters."""
        found = [ends]
        for letter in reversed(self.letters):
            found.append({node for node in range(self.graph.nodes)
                          if any(target in found[-1] for _, target in self.ways[node][letter])})
        return found

    def words(self) -> Iterator[str]:
        """What the walks read, with the letters of the node at which they begin, in dictionary order."""
        size = len(self.letters)
        everywhere = set(range(self.graph.nodes))
        known = None if self.closed else self.back(everywhere)
        for start in range(self.graph.nodes):
            back = known or self.back({start})
            if start not in back[size]:
                continue
            name, begun = self.graph.name(start), [("", start)]
            while begun:
                word, node = begun.pop()
                if len(word) == size:
                    yield (name + word)[:size] if self.closed else name + word
                    continue
                there = back[size - len(word) - 1]
                begun.extend((word + DIGITS[read], target) for read, target in reversed(self.ways[node][self.letters[len(word)]])
                             if target in there)

    def count(self) -> int:
        """How many there are."""
        if not self.closed:
            return sum(self.walks([1] * self.graph.nodes))
        starts = range(self.graph.nodes)
        return sum(self.walks([int(node == start) for node in starts])[start] for start in starts)

    def walks(self, counts: Sequence[int]) -> list[int]:
        """How many walks end at each node that write the letters, where so many begin at each."""
        here = list(counts)
        for letter in self.letters:
            after = [0] * self.graph.nodes
            for node, count in enumerate(here):
                if count:
                    for _, target in self.ways[node][letter]:
                        after[target] += count
            here = after
        return here


def preimages(rule: RuleLike, word: Word | None = None, *, ring: Word | None = None) -> Iterator[str]:
    """The words whose image a word is, or the rings of the same length whose image a `ring` is, in dictionary order, each once. A
    preimage of a word has width - 1 letters more. A ring is read from cell 0 on, so its image is `image(rule, ring=..)`."""
    return Writing(rule, word, ring).words()


def count_preimages(rule: RuleLike, word: Word | None = None, *, ring: Word | None = None) -> int:
    """How many `preimages` there are, without going through them."""
    return Writing(rule, word, ring).count()
