"""Where the nodes, edges and labels of a graph lie: the nodes on a circle, the edges bent to the left, and each
label beside its edge, where it is clear of all else.
"""
from __future__ import annotations

import functools
import math
from .drawing import SIZES, Point
from .graphs import Edge, Graph, Way

RADIUS = SIZES["node"]
SIZE = 12                                       # of a label's letters
HALF = (12.5, 6.5)                              # half the width and height of a label
STEPS = 24                                      # pieces of an edge
CELL = 20                                       # of the grid by which what is near is found
ENOUGH = 7.0                                    # clear of all else
# Of the circle of nodes, by states and width.
RADII = {(2, 2): 70, (3, 2): 95, (4, 2): 150, (2, 3): 80, (2, 4): 165, (3, 3): 230, (2, 5): 270, (4, 3): 430}


def fits(graph: Graph) -> bool:
    """Whether the labels of the graph can be read where it is drawn by nodes and edges."""
    return (graph.states, graph.width) in RADII


@functools.cache
def ring(states: int, width: int) -> Ring:
    """The layout of the graphs of a shape, found once."""
    return Ring(Graph(f"{states}:{width}:0:t" + "0" * states ** width))


class Ring:
    """Where all lies. Places depend on the shape alone: an edge is named by its node and the letter that it
    reads."""

    def __init__(self, graph: Graph) -> None:
        self.radius = RADII[graph.states, graph.width]
        self.middle = self.radius + 80.0
        self.order = graph.cycle()
        turn = 2 * math.pi / len(self.order)
        self.nodes = {node: self._round(math.pi + place * turn, self.radius) for place, node in enumerate(self.order)}
        self.lines = {edge.way: self._line(edge) for edge in graph.edges()}
        self._near: dict[tuple[int, int], list[tuple[Way, Point]]] = {}
        for edge, line in self.lines.items():
            for x, y in dense(line):
                self._near.setdefault((int(x // CELL), int(y // CELL)), []).append((edge, (x, y)))
        self.labels: dict[Way, Point] = {}
        for edge in sorted(self.lines, key=lambda edge: -length(self.lines[edge])):
            self.labels[edge] = self._best(edge)

    def _round(self, angle: float, radius: float) -> Point:
        return self.middle + radius * math.cos(angle), self.middle + radius * math.sin(angle)

    def _line(self, edge: Edge) -> list[Point]:
        """An edge as points, from the rim of one node to the rim of the other."""
        start, end = self.nodes[edge.source], self.nodes[edge.target]
        if edge.source == edge.target:
            return self._loop(start)
        (a, b), (c, d) = start, end
        bend = self._bend(self.order.index(edge.target) - self.order.index(edge.source))
        turn = (a + c) / 2 + bend * (d - b), (b + d) / 2 - bend * (c - a)
        points = [curve(start, turn, end, step / 400) for step in range(401)]
        outer = [p for p in points if math.dist(p, start) >= RADIUS and math.dist(p, end) >= RADIUS + 1]
        return [outer[round(step * (len(outer) - 1) / STEPS)] for step in range(STEPS + 1)]

    def _bend(self, places: int) -> float:
        """How far an edge is bent to the left that leads so many places on round the circle: one to the next node
        outwards, one past few nodes inwards, and one that leads back another way than the one that it undoes."""
        around = places % len(self.order)
        if around == 1:
            return 0.22
        if around < len(self.order) / 4:
            return -0.06
        return 0.22 if around > 3 * len(self.order) / 4 else 0.14

    def _loop(self, node: Point) -> list[Point]:
        """A loop, outside of the circle of nodes."""
        x, y = node
        out = math.atan2(y - self.middle, x - self.middle)
        radius, far = 13.0, RADIUS + 8.0
        center = x + far * math.cos(out), y + far * math.sin(out)
        gap = 0.93
        angles = [out + math.pi + gap + (2 * math.pi - 2 * gap) * step / STEPS for step in range(STEPS + 1)]
        return [(center[0] + radius * math.cos(a), center[1] + radius * math.sin(a)) for a in angles]

    def _best(self, edge: Way) -> Point:
        """The place beside an edge that is clearest of all else, and of those that are clear enough the one
        nearest to its middle."""
        def worth(place: tuple[float, Point]) -> float:
            return min(self.room(place[1], edge), ENOUGH) - abs(place[0] - 0.5)
        return max(self._places(edge), key=worth)[1]

    def _places(self, edge: Way) -> list[tuple[float, Point]]:
        """Places beside an edge, each with how far along it is."""
        line, places = self.lines[edge], []
        for step in range(2, STEPS - 2):
            (a, b), (c, d) = line[step - 1], line[step + 1]
            long = math.dist((a, b), (c, d))
            across = (d - b) / long, (a - c) / long
            away = 2.5 + HALF[0] * abs(across[0]) + HALF[1] * abs(across[1])
            for side in (away, -away):
                x, y = line[step]
                places.append((step / STEPS, (x + side * across[0], y + side * across[1])))
        return places

    def room(self, place: Point, edge: Way) -> float:
        """How far the label of an edge would be from all else, up to what is near; negative where it lies on
        something."""
        nodes = min(distance(place, node) for node in self.nodes.values()) - RADIUS
        labels = [overlap(place, label) for other, label in self.labels.items() if other != edge]
        column, row = int(place[0] // CELL), int(place[1] // CELL)
        lines = [ENOUGH if other == edge and distance(place, point) > 1.0 else distance(place, point) - 2.0
                 for i in range(column - 2, column + 3) for j in range(row - 2, row + 3)
                 for other, point in self._near.get((i, j), ())]
        return min([nodes, *labels, *lines])


def curve(start: Point, turn: Point, end: Point, t: float) -> Point:
    """A point of a quadratic curve."""
    s = 1 - t
    return (s * s * start[0] + 2 * s * t * turn[0] + t * t * end[0],
            s * s * start[1] + 2 * s * t * turn[1] + t * t * end[1])


def length(line: list[Point]) -> float:
    return sum(map(math.dist, line, line[1:]))


def dense(line: list[Point]) -> list[Point]:
    """The points of a line, and more between them where they are far apart."""
    points = []
    for (a, b), (c, d) in zip(line, line[1:]):
        parts = 1 + int(math.dist((a, b), (c, d)) / 6)
        points += [(a + (c - a) * i / parts, b + (d - b) * i / parts) for i in range(parts)]
    return points + [line[-1]]


def distance(label: Point, point: Point) -> float:
    """How far a point is from the box of a label; negative within."""
    x, y = abs(label[0] - point[0]) - HALF[0], abs(label[1] - point[1]) - HALF[1]
    return math.hypot(x, y) if x > 0 and y > 0 else max(x, y)


def overlap(label: Point, other: Point) -> float:
    """How far two labels' boxes are apart; negative where they share something."""
    return max(abs(label[0] - other[0]) - 2 * HALF[0], abs(label[1] - other[1]) - 2 * HALF[1])
