"""The configurations that a rule only moves: those whose image is the configuration, so many cells further on.

A rule only moves a configuration by s cells if each cell i of the image has the letter of cell i + s. If s is 0, the rule leaves
it as it is. A configuration is moved so if and only if the rule gives for each of its windows the letter at one place of the
window. So these configurations are the walks without end in a part of the de Bruijn graph (McIntosh 1991), and nothing is run.
"""
from __future__ import annotations

from collections.abc import Iterable, Iterator
from dataclasses import dataclass
from typing import Any, SupportsIndex

from .faults import UsageError
from .graphs import Graph, Way
from .library import library
from .report import Answer, line, table
from .rule_values import DIGITS, Rule, RuleLike, index, rule_of, whole, word_letters

LONGEST = 4096                                  # letters of words and rings that are counted


@dataclass(frozen=True)
class Moved(Answer):
    """The configurations that a rule only moves by `by` cells. It is true if there are any.

    `windows` has the windows that occur in them, in the order of their values: a configuration is moved so if and only if it
    has no other windows. `ring` is the least ring that is moved so: the shortest, and among the shortest the first in
    dictionary order. It is None if the rule moves no configuration so, periodic or not."""
    rule: Rule
    by: int
    windows: tuple[str, ...]
    ring: str | None

    @property
    def text(self) -> str:
        return line("none") if self.ring is None else line("ring", self.ring) + line("windows", *self.windows)

    def __bool__(self) -> bool:
        return self.ring is not None

    def __contains__(self, word: object) -> bool:
        """Whether a word occurs in a configuration that is moved so."""
        letters = "".join(DIGITS[letter] for letter in word_letters("word", word, self.rule.states))
        width, windows = self.rule.width, set(self.windows)
        if len(letters) < width:
            return any(window.startswith(letters) for window in windows)
        return all(letters[place:place + width] in windows for place in range(len(letters) - width + 1))

    def words(self, length: SupportsIndex) -> Iterator[str]:
        """The words of so many letters that occur in configurations that are moved so, in dictionary order."""
        size, width = whole("length is", length, 0, LONGEST), self.rule.width
        if size < width:
            yield from sorted({window[:size] for window in self.windows})
            return
        after = self._after()
        begun = sorted(after, reverse=True)     # each of these can go on, since the windows have no dead ends
        while begun:
            word = begun.pop()
            if len(word) == size:
                yield word
            else:
                begun.extend(word + letter for letter in reversed(after[word[1 - width:]]))

    def rings(self, length: SupportsIndex) -> Iterator[str]:
        """The rings of so many letters that are moved so, as words in dictionary order: each ring once for each place where
        it can begin."""
        size = whole("length is", length, 1, LONGEST)
        return (word for node in self._after() for word in self._turns(node, size))

    def count_words(self, length: SupportsIndex) -> int:
        """How many words of so many letters occur in configurations that are moved so."""
        size, width = whole("length is", length, 0, LONGEST), self.rule.width
        if size < width:
            return len({window[:size] for window in self.windows})
        after = self._after()
        ways = dict.fromkeys(after, 1)
        for _ in range(size - width + 1):
            ways = {node: sum(ways[(node + letter)[1:]] for letter in letters) for node, letters in after.items()}
        return sum(ways.values())

    def count_rings(self, length: SupportsIndex) -> int:
        """How many words `rings` gives: so many configurations with this period are moved so."""
        size = whole("length is", length, 1, LONGEST)
        nodes = list(self._after())
        places = {node: place for place, node in enumerate(nodes)}
        step = [[0] * len(nodes) for _ in nodes]
        for window in self.windows:
            step[places[window[:-1]]][places[window[1:]]] += 1
        power, total = powered(step, size), 0
        for place in range(len(nodes)):
            total += power[place][place]
        return total

    def ways(self) -> frozenset[Way]:
        """The edges of the de Bruijn graph that are the windows."""
        return frozenset((int(window[:-1], self.rule.states), int(window[-1], 16)) for window in self.windows)

    def as_dict(self) -> dict[str, Any]:
        return {"rule": str(self.rule), "by": self.by, "windows": " ".join(self.windows), "ring": self.ring}

    def _repr_html_(self) -> str:
        return table([["rule", str(self.rule)], ["moved by", str(self.by)], ["least ring", self.ring or "none"],
                      ["windows", " ".join(self.windows) or "none"]])

    def _after(self) -> dict[str, str]:
        """The letters on which windows lead on from each node that has any, ascending."""
        after: dict[str, str] = {}
        for window in self.windows:
            after[window[:-1]] = after.get(window[:-1], "") + window[-1]
        return after

    def _turns(self, start: str, size: int) -> Iterator[str]:
        """The rings of so many letters that begin with the letters of a node, where windows lead round them back to it."""
        after = self._after()
        back = [{start}]                        # the nodes from which so many windows can lead to the start
        for _ in range(size):
            back.append({node for node, letters in after.items() if any((node + letter)[1:] in back[-1] for letter in letters)})
        begun = [("", start)] if start in back[size] else []
        while begun:
            word, node = begun.pop()
            if len(word) == size:
                yield (start + word)[:size]
                continue
            there = back[size - len(word) - 1]
            begun.extend((word + letter, (node + letter)[1:]) for letter in reversed(after[node])
                         if (node + letter)[1:] in there)


def moved(rule: RuleLike, by: SupportsIndex = 0) -> Moved:
    """The configurations that a rule only moves: cell i of the image has the letter of cell i + `by`. With 0 they are those that
    the rule leaves as they are, with -1 those that it moves one cell to the right. UsageError if the window of cell 0 doesn't
    have the cell `by`, which is from offset to offset + width - 1."""
    known = rule_of(rule)
    cell, last = index("by is", "a whole number", by), known.offset + known.width - 1
    if not known.offset <= cell <= last:
        raise UsageError(f"by is {known.offset} to {last}, a cell of the window of cell 0, and not {cell:,}")
    graph = Graph(known)
    rows, ring = library().moved(known.states, known.width, known.offset, bytes(known.table), cell)
    windows = tuple(graph.window(edge) for edge in graph.edges() if rows[edge.source] >> edge.letter & 1)
    return Moved(known, cell, windows, "".join(DIGITS[letter] for letter in ring) or None)


def all_moved(rule: RuleLike) -> Iterator[Moved]:
    """What a rule only moves, for each cell of the window of cell 0."""
    known = rule_of(rule)
    return (moved(known, known.offset + place) for place in range(known.width))


def moved_rings(rule: Rule) -> tuple[str | None, ...]:
    """The least ring that a rule only moves, for each cell of the window of cell 0; None where it moves nothing so."""
    states, width, offset, table = rule.states, rule.width, rule.offset, bytes(rule.table)
    found = (library().moved(states, width, offset, table, offset + place)[1] for place in range(width))
    return tuple("".join(DIGITS[letter] for letter in ring) or None for ring in found)


def powered(step: list[list[int]], count: int) -> list[list[int]]:
    """A power of a matrix of whole numbers, with count at least 1."""
    result: list[list[int]] | None = None
    while count:
        if count & 1:
            result = step if result is None else product(result, step)
        step, count = product(step, step) if count > 1 else step, count >> 1
    assert result is not None
    return result


def product(first: list[list[int]], second: list[list[int]]) -> list[list[int]]:
    """The product of two square matrices."""
    columns = list(zip(*second))
    return [[sum(a * b for a, b in zip(row, column)) for column in columns] for row in first]


def in_words(by: int) -> str:
    """A move in words."""
    if by == 0:
        return "leaves as they are"
    return f"moves {abs(by)} cell{'' if abs(by) == 1 else 's'} to the {'right' if by < 0 else 'left'}"


def rings_of(rings: Iterable[str | None]) -> str:
    """Least rings in a cell of a table."""
    return " ".join(ring or "none" for ring in rings)
