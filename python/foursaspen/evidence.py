"""The evidence of a report, worked out again from the rule's table alone: no call of the library."""
from __future__ import annotations

import math
from collections.abc import Iterator

from .faults import FoursaspenError
from .graphs import Graph, written
from .report import Closing, Pair, Report, Split, Window
from .rule_values import mirror

Pairs = set[tuple[int, int]]                    # of nodes


class EvidenceError(FoursaspenError):
    """Evidence doesn't fit the rule's table."""


def work_out(report: Report) -> None:
    """EvidenceError where a piece of evidence isn't so. That no evidence is less is looked at for look-aheads alone."""
    graph = Graph(report.rule, report.weights)
    for name, holds in pieces(report, graph, mirrored(graph)):
        if not holds:
            raise EvidenceError(f"the evidence of {name} doesn't fit the table of {report.rule}")


def pieces(report: Report, graph: Graph, back: Graph) -> Iterator[tuple[str, bool]]:
    """Each verdict, and whether its evidence is so."""
    yield "surjective", are_apart(graph) if report.orphan is None else not graph.reading(report.orphan)[-1][0]
    yield "injective", (is_window(graph, report.window) if report.window else
                        report.twins is not None and are_twins(graph, report.twins))
    yield "right", is_closing(graph, graph, report.right, "right")
    yield "left", is_closing(graph, back, report.left, "left")
    yield "open", report.open == (bool(report.right) and bool(report.left))
    yield "conserving", is_flux(graph, report.flux) if report.flux is not None else loses(graph, report.ring or "")


def mirrored(graph: Graph) -> Graph:
    """The graph of the mirrored rule."""
    return Graph(mirror(graph.rule), graph.weights)


# Pairs of walks that write the same letters

def equals(graph: Graph) -> Pairs:
    return {(node, node) for node in range(graph.nodes)}


def step(graph: Graph, pairs: Pairs, differing: bool = False) -> Pairs:
    """The pairs one step on, where both walks write one letter, and where it is asked for read different ones."""
    return {(one.target, other.target) for first, second in pairs
            for one in graph.out(first) for other in graph.out(second)
            if one.image == other.image and not (differing and one.letter == other.letter)}


def parting(graph: Graph) -> Iterator[Pairs]:
    """The pairs of walks from one node that read different letters first: after one letter, after two, and so on."""
    pairs = step(graph, equals(graph), differing=True)
    while True:
        yield pairs
        pairs = step(graph, pairs)


def reached(graph: Graph) -> Pairs:
    """All pairs that such walks come to."""
    pairs: Pairs = set()
    for more in parting(graph):
        if more <= pairs:
            return pairs
        pairs |= more
    return pairs


def are_apart(graph: Graph) -> bool:
    """Whether such walks never meet again: then the rule is surjective (Hedlund 1969)."""
    return not reached(graph) & equals(graph)


def left_after(graph: Graph, ahead: int) -> list[int]:
    """How many pairs of such walks there are after each letter, up to so many."""
    return [len(pairs) for _, pairs in zip(range(ahead), parting(graph))]


def undecided(graph: Graph, window: Window) -> list[int]:
    """How many pairs of nodes two walks that differ at the window's place may be at, before the first letter of the
    image and after each."""
    within = window.place - graph.width + 1     # the step that reads the place, where the first node doesn't hold it
    everywhere = {(one, other) for one in range(graph.nodes) for other in range(graph.nodes)}
    pairs = everywhere if within >= 0 else {
        pair for pair in everywhere if graph.name(pair[0])[window.place] != graph.name(pair[1])[window.place]}
    counts = [len(pairs)]
    for at in range(window.letters):
        pairs = step(graph, pairs, differing=at == within)
        counts.append(len(pairs))
    return counts


# What a report has

def is_window(graph: Graph, window: Window) -> bool:
    return undecided(graph, window)[-1] == 0


def are_twins(graph: Graph, twins: Pair) -> bool:
    """Whether two different rings of one length have one image."""
    if twins.first == twins.second or len(twins.first) != len(twins.second):
        return False
    return written(graph.ring(twins.first)) == written(graph.ring(twins.second))


def is_closing(graph: Graph, way: Graph, side: Closing, name: str) -> bool:
    """Whether a look-ahead tells the next letter and one less doesn't, or a split is one. `way` is the graph of the
    rule, of the left side that of the mirrored one."""
    if side.split is not None:
        return is_split(graph, side.split, name)
    counts = left_after(way, side.ahead or 0)
    return counts[-1:] == [0] and all(counts[:-1])


def is_split(graph: Graph, split: Split, name: str) -> bool:
    """Whether two configurations differ, agree to one side, and share an image: seen on a common period beyond all that
    the middles reach."""
    tails = split.first, split.second
    reach = abs(graph.offset) + graph.width
    left = math.lcm(*(len(tail.left) for tail in tails)) + reach
    middle = max(len(tail.middle) for tail in tails)
    right = math.lcm(*(len(tail.right) for tail in tails)) + reach
    first, second = (tail.cells(-left, middle + right) for tail in tails)
    alike = first[:left] == second[:left] if name == "right" else first[left + middle:] == second[left + middle:]
    images = [written(graph.over(tail, -left, middle + right)) for tail in tails]
    return first != second and alike and images[0] == images[1]


def is_flux(graph: Graph, flux: tuple[int, ...]) -> bool:
    return all(graph.change(edge) == flux[edge.source] - flux[edge.target] for edge in graph.edges())


def loses(graph: Graph, ring: str) -> bool:
    """Whether a ring hasn't the sum of its image."""
    return ring != "" and graph.total(ring) != graph.total(written(graph.ring(ring)))


def is_erasable(graph: Graph, pair: Pair) -> bool:
    """Whether two different words with one image begin and end with the same M - 1 letters."""
    ends = graph.width - 1
    first, second = (written(graph.within(word)) for word in (pair.first, pair.second))
    return (pair.first != pair.second and first == second and pair.first[:ends] == pair.second[:ends]
            and pair.first[-ends:] == pair.second[-ends:])
