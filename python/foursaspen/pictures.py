"""Pictures of a rule as SVG: its windows; its de Bruijn graph, and beneath it how an orphan is read, two walks with one image,
those of twins or of a split, a configuration with a preimage of it, what a window or a look-ahead tells, or a list of sets.
"""
from __future__ import annotations

from dataclasses import dataclass
from typing import SupportsIndex

from .commands import decide, erase, preimage
from .drawing import (DARK, DASHES, DESCRIBED, FIRST, GREY, LABELS, MARGIN, MOST, PAPER, PHONE, SECOND, SHADE, WIDEST, Canvas,
                      Picture)
from .graphs import Edge, Graph
from .layout import RADIUS, fits, ring
from .moved_field import draw_field, heading
from .moves import Moved, in_words, moved
from .node_sets import Nodes, draw_sets, sets_of
from .operands import Weights
from .report import Gap, Report, Split, Tail
from .rule_values import DIGITS, Rule, RuleLike, refuse, rule_of
from .telling import CELL, Telling, by_look_ahead, by_window, draw_cases, draw_letter, own_place
from .trellis import draw_reading, draw_walks

PICTURES = DESCRIBED["pictures"]
MOVED = "moved"
SHOWN = tuple(name for name in PICTURES if name not in ("preimage", "degree", MOVED))  # what a picture may show, besides these
DRAWN = MOST["windows"]                         # of a picture, at most


@dataclass(frozen=True)
class Walks:
    """Configurations with one image, the cells that are shown of them, and the cell at which their middles begin."""
    heading: str
    rows: dict[str, Tail]
    cells: range
    moved: int = 0

    def edges(self, graph: Graph) -> list[list[Edge]]:
        """The walks of the configurations that write their image at the cells."""
        return [graph.over(tail, self.cells.start - self.moved, self.cells.stop - self.moved)
                for tail in self.rows.values()]


@dataclass(frozen=True)
class Reading:
    """An orphan, and what is said of it."""
    heading: str
    orphan: str


@dataclass(frozen=True)
class Numbers:
    """A number for each node, and the place of the letter of a window that a difference of two of them is about."""
    heading: str
    at_nodes: tuple[int, ...]
    place: int


@dataclass(frozen=True)
class Sets:
    """The sets of nodes at which a walk may be, each with those that follow it."""
    heading: str
    found: dict[Nodes, list[Nodes]]


Beneath = Walks | Reading | Numbers | Sets | Telling | None


def picture(rule: RuleLike, show: str | Tail | None = None, weights: Weights | None = None, *, by: SupportsIndex = 0) -> Picture:
    """The graph of a rule. Beneath it stands what `show` names: the reading of the least orphan or the list of sets that shows
    that there is none, the two walks of the least twins or what the least window tells, those of the least split of a side,
    `right` or `left`, or what the look-ahead tells, that of the least ring whose sum isn't kept; of a configuration, a Tail or
    its text, a preimage or the orphan in it; where it is None the orphan, if there is one. `graph` has nothing beneath it.
    `flux` and `current` have these numbers at the nodes, and at the edges what they carry, by the weights that are given or
    that a report has. `moved` marks the windows of the configurations that the rule only moves by so many cells, and has a part of one
    beneath. ValueError where the rule has no such thing, or too much of it for a picture."""
    if not isinstance(show, (str, Tail, type(None))):
        raise refuse("show is", f"one of {', '.join((*SHOWN, MOVED))}, or a configuration, a Tail or a text LEFT|MIDDLE|RIGHT", show)
    if show == MOVED:
        return drawn_moved(moved(rule, by))
    return drawn(decide(rule, weights), show)


def drawn(report: Report, show: str | Tail | None = None, with_graph: bool = True, headed: bool = True) -> Picture:
    """The picture of a report; without the graph only what stands beneath it, with what is said of it or without."""
    graph = Graph(report.rule, report.weights)
    below = beneath(report, show)
    what = f", and {below.heading[0].lower()}{below.heading[1:]}" if below else ""
    canvas = Canvas(LABELS["graph"].format(rule=title(report)) + what if with_graph or below is None else
                    f"{title(report)}: {below.heading}")
    if with_graph:
        canvas.lines_of_text(26, title(report), 16, bold=True)
        draw_graph(canvas, graph, below.edges(graph) if isinstance(below, Walks) else [],
                   below if isinstance(below, Numbers) else None)
    top = canvas.height + (34 if with_graph else 26 if headed else 0)
    said = below.heading if below and headed else ""
    if isinstance(below, Walks):
        draw_walks(canvas, graph, below.rows, below.cells, below.moved, said, top)
    elif isinstance(below, Reading):
        draw_reading(canvas, graph, below.orphan, said, top)
    elif isinstance(below, Sets):
        draw_sets(canvas, graph, below.found, said, top)
    elif isinstance(below, Telling):
        draw_cases(canvas, graph, below, said, top)
    return canvas.svg()


def drawn_moved(found: Moved, with_graph: bool = True, headed: bool = True) -> Picture:
    """The picture of what a rule only moves, with what is said of it or without; without the graph a part of such a configuration
    alone."""
    if not found:
        raise ValueError(PICTURES[MOVED]["lacks"].format(moves=in_words(found.by)))
    graph = Graph(found.rule)
    name, said_below = title_of(found.rule), heading(found)
    if not with_graph:
        canvas = Canvas(f"{name}: {part_of(found)}")
        draw_field(canvas, graph, found, "", 0)
        return canvas.svg()
    canvas = Canvas(f"{LABELS['graph'].format(rule=name)}, and {said_below[0].lower()}{said_below[1:]}")
    canvas.lines_of_text(26, name, 16, bold=True)
    draw_graph(canvas, graph, [[edge for edge in graph.edges() if edge.way in found.ways()]], None)
    draw_field(canvas, graph, found, said_below + "." if headed else "", canvas.height + (34 if headed else 10))
    return canvas.svg()


def part_of(found: Moved) -> str:
    """What a picture without the graph shows."""
    return f"a part of a configuration that the rule {in_words(found.by)}, and its next two steps"


def windows(rule: RuleLike) -> Picture:
    """The windows of a rule by their values, each with the letter that it gives beneath its own cell, or beneath its middle where
    it doesn't hold that cell."""
    known = rule_of(rule)
    canvas, graph = Canvas(LABELS["windows"].format(rule=known)), Graph(known)
    step = CELL * known.width + 14
    room = PHONE if len(graph.edges()) < 10 else WIDEST
    in_row = 1                                  # a power of the states: windows below each other end alike
    while in_row < len(graph.edges()) and in_row * known.states * step <= room - 2 * MARGIN:
        in_row *= known.states
    for place, edge in enumerate(graph.edges()[:DRAWN]):
        x, y = MARGIN + step * (place % in_row), 16 + (2 * CELL + 16) * (place // in_row)
        with canvas.titled(LABELS["window"].format(window=graph.window(edge), letter=DIGITS[edge.image])):
            for at, letter in enumerate(graph.window(edge)):
                draw_letter(canvas, known.states, letter, x + CELL * at, y)
            draw_letter(canvas, known.states, DIGITS[edge.image], x + CELL * own_place(graph), y + CELL + 2)
    return canvas.svg()


def title(report: Report) -> str:
    """The rule: an elementary one by its number, another one by its table."""
    return title_of(report.rule)


def title_of(rule: Rule) -> str:
    return LABELS["rule"].format(number=rule.number) if rule.startswith("2:3:-1:") else str(rule)


def weighing(report: Report) -> str:
    """What the letters weigh, where that isn't their own value."""
    if report.weights is None:
        return ""
    return LABELS["weights"].format(weights=", ".join(map(str, report.weights)))


def beneath(report: Report, show: str | Tail | None) -> Beneath:
    """What stands beneath a graph or at its nodes; ValueError where it isn't there."""
    if isinstance(show, Tail) or (show and "|" in show):
        return preimage_of(report, show)
    if show == "graph":
        return None
    if show in ("flux", "current"):
        return numbers_of(report, show)
    if show in ("window", "right", "left"):
        told = told_of(report, show)
        if told:
            return told
    if show in ("twins", "erase", "right", "left", "ring"):
        return walks_of(report, show)
    if show == "sets":
        return sets_beneath(report)
    if show not in ("orphan", None):
        raise ValueError(f"show is one of {', '.join((*SHOWN, MOVED))}, or a configuration LEFT|MIDDLE|RIGHT, and not {show!r}")
    if report.orphan:
        return Reading(PICTURES["orphan"]["heading"].format(orphan=report.orphan), report.orphan)
    if show:
        raise ValueError(PICTURES["orphan"]["lacks"])
    return None


def sets_beneath(report: Report) -> Sets:
    """The list of sets of a surjective rule."""
    if report.orphan:
        raise ValueError(PICTURES["sets"]["lacks"].format(orphan=report.orphan))
    return Sets(PICTURES["sets"]["heading"], sets_of(Graph(report.rule)))


def told_of(report: Report, show: str) -> Telling | None:
    """What a window or a look-ahead tells, or None where the rule doesn't close on the side; ValueError where it isn't
    injective, or there are too many cases."""
    graph = Graph(report.rule)
    if show == "window":
        if not report.window:
            raise ValueError(PICTURES["window"]["lacks"])
        return by_window(graph, report.window)
    ahead = (report.right if show == "right" else report.left).ahead
    return by_look_ahead(graph, ahead, show) if ahead else None


def numbers_of(report: Report, show: str) -> Numbers:
    """The flux or the current; ValueError where there is none, or it has other words than the graph has nodes."""
    if report.flux is None:
        raise ValueError(PICTURES[show]["lacks"])
    heading = PICTURES[show]["heading"] + weighing(report)
    if show == "flux":
        return Numbers(heading, report.flux, 0)
    if not 0 <= -report.rule.offset < report.rule.width:
        raise ValueError(PICTURES[show]["outside"])
    return Numbers(heading, report.current or (), -report.rule.offset)


def walks_of(report: Report, show: str) -> Walks:
    """The walks of the twins, of an erasable pair, of a split or of a ring; ValueError where there are none."""
    tails, cells = walked(report, show)
    if not tails:
        raise ValueError(PICTURES[show]["lacks"])
    named = [str(tail) if PICTURES[show]["each"] == "tail" else tail.middle or tail.left for tail in tails]
    heading = PICTURES[show]["heading"].format(*named, weights=weighing(report))
    return Walks(heading, dict(zip(PICTURES[show]["rows"], tails)), cells)


def walked(report: Report, show: str) -> tuple[list[Tail], range]:
    """Configurations with one image, or a ring, and the cells that are shown; none where the rule has no such thing."""
    split = {"right": report.right, "left": report.left}.get(show, report.right).split
    pair = erase(report.rule) if show == "erase" else report.twins if show == "twins" else split
    if show == "ring":
        return [Tail.ring(report.ring)] if report.ring else [], range(len(report.ring or ""))
    if pair is None:
        return [], range(0)
    if isinstance(pair, Split):
        return [pair.first, pair.second], seen_at(Graph(report.rule), shown_of(pair.first, pair.second))
    words, cells = (pair.first, pair.second), range(len(pair.first))
    if show == "twins":
        return [*map(Tail.ring, words)], cells
    return [Tail(word[0], word, word[-1]) for word in words], seen_at(Graph(report.rule), cells)


def shown_of(*tails: Tail) -> range:
    """Cells with a period of each tail on either side."""
    left, middle, right = (max(len(getattr(tail, part)) for tail in tails) for part in ("left", "middle", "right"))
    return range(-left, middle + right)


def seen_at(graph: Graph, cells: range) -> range:
    """The cells, and so many more that each of them is in the window of one, where windows lie off their cells."""
    return range(cells.start - max(graph.offset, 0), cells.stop + max(1 - graph.width - graph.offset, 0))


def preimage_of(report: Report, show: Tail | str) -> Walks | Reading:
    """The walk of the first preimage of a configuration, or the orphan in it."""
    found = preimage(report.rule, show)
    tail = show if isinstance(show, Tail) else Tail.of(show)
    if isinstance(found, Gap):
        return Reading(PICTURES["preimage"]["gap"].format(tail=tail, word=found.word), found.word)
    own, given = shown_of(found.tail), shown_of(tail)
    cells = range(min(own.start + found.start, given.start), max(own.stop + found.start, given.stop))
    heading = PICTURES["preimage"]["heading"].format(found.tail, start=found.start, tail=tail)
    return Walks(heading, dict(zip(PICTURES["preimage"]["rows"], [found.tail])), cells, found.start)


def draw_graph(canvas: Canvas, graph: Graph, walks: list[list[Edge]], numbers: Numbers | None) -> None:
    """The graph as nodes and edges, or as a table where there are too many edges."""
    said = LABELS["edges"]
    if numbers is not None:
        said = numbers.heading[0].lower() + numbers.heading[1:]
    if fits(graph):
        draw_ring(canvas, graph, walks, numbers)
    else:
        draw_table(canvas, graph, walks, numbers)
        said += LABELS["table"]
    canvas.lines_of_text(canvas.height + 22, said, 12, GREY, room=PHONE)


def label(graph: Graph, edge: Edge, numbers: Numbers | None) -> str:
    """What stands at an edge."""
    return edge.label if numbers is None else signed(graph.change(edge, numbers.place))


def signed(number: int) -> str:
    """A number with its sign; 0 has none."""
    return f"{number:+d}" if number else "0"


def draw_ring(canvas: Canvas, graph: Graph, walks: list[list[Edge]], numbers: Numbers | None) -> None:
    """Nodes and edges; those of the walks in their colours, the second one broken."""
    placed, down = ring(graph.states, graph.width), canvas.height - 19
    first, second = walks[0] if walks else [], walks[1] if len(walks) > 1 else []
    for edge in graph.edges():
        points = [(x, y + down) for x, y in placed.lines[edge.way]]
        with canvas.titled(graph.said(edge)):
            if edge in first or edge not in second:
                canvas.arrow(points, FIRST if edge in first else GREY, 2.4 if edge in first else 1.2)
            if edge in second:
                canvas.arrow(points, SECOND, 2.4, DASHES)
    for edge in graph.edges():
        x, y = placed.labels[edge.way]
        with canvas.titled(graph.said(edge)):
            canvas.text(x, y + down + 4.3, label(graph, edge, numbers))
    for node, (x, y) in placed.nodes.items():
        name = graph.name(node)
        canvas.disc(x, y + down, RADIUS, PAPER, DARK)
        canvas.text(x, y + down + (0 if numbers else 4.3), name, size=12 if len(name) < 4 else 11, bold=True)
        if numbers:
            canvas.text(x, y + down + 11, str(numbers.at_nodes[node]), size=10, color=FIRST)
    canvas.height = max(canvas.height, 2 * placed.middle + down - 40)


def draw_table(canvas: Canvas, graph: Graph, walks: list[list[Edge]], numbers: Numbers | None) -> None:
    """A row for each node and a column for each letter that is read: the letter of the image is written there."""
    wide, high, left, top = 34, 24, MARGIN + 70, canvas.height + 45
    canvas.text(left - 14, top - 12, LABELS["node"], anchor="end", color=GREY)
    for letter in range(graph.states):
        canvas.text(left + wide * (letter + 0.5), top - 12, f"{letter:x}/", bold=True)
    for node in range(graph.nodes):
        y = top + high * node
        if node % 2 == 0:
            canvas.box(left - 50, y, wide * graph.states + 50, high, SHADE)
        number = f": {numbers.at_nodes[node]}" if numbers else ""
        canvas.text(left - 14, y + 16, graph.name(node) + number, anchor="end", bold=True)
        for letter in range(graph.states):
            edge = graph.edge(node, letter)
            with canvas.titled(graph.said(edge)):
                draw_cell(canvas, edge, label(graph, edge, numbers), walks, left + wide * (letter + 0.5), y + 16)


def draw_cell(canvas: Canvas, edge: Edge, text: str, walks: list[list[Edge]], x: float, y: float) -> None:
    """The label of an edge in the table, with a line of its colour beneath where it belongs to a walk."""
    canvas.text(x, y, text)
    for walk, color, dashes, down in zip(walks, (FIRST, SECOND), ("", DASHES), (3, 6)):
        if edge in walk:
            canvas.line([(x - 12, y + down), (x + 12, y + down)], color, 2, dashes)
