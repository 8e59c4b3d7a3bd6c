"""Walks, drawn step by step: a column of all nodes before each letter of an image, and one behind the last."""
from __future__ import annotations

import math

from .drawing import DARK, DASHES, FIRST, GREY, LABELS, LIGHT, MARGIN, MARK, PAPER, PHONE, SECOND, SIZES, WIDEST, Canvas
from .graphs import Edge, Graph, written
from .report import Tail

ROW = SIZES["row"]
LEFT = MARGIN + 92.0                            # of the columns
LEAST = 16.0                                    # of a column's width
STYLES = ((FIRST, "", FIRST, -2.5), (SECOND, DASHES, PAPER, 2.5))   # of two walks: line, dashes, nodes, how far down


def column_of(graph: Graph, steps: int) -> float:
    """How wide a column is, as far as there is room."""
    room = (WIDEST - LEFT - 52) / max(steps, 1)             # the margin, and half a word beyond the last column
    return max(LEAST, min(38.0 + 3.5 * graph.nodes, room))


def room_of(graph: Graph, steps: int) -> float:
    """How wide the lines of text may be: as wide as a phone shows, unless the columns are much wider."""
    columns = LEFT + column_of(graph, steps) * steps + 52
    return PHONE if columns < 2 * PHONE else min(WIDEST, columns)


class Trellis:
    """The columns, as wide as there is room, with the nodes' names beside them. Rows of letters stand above."""

    def __init__(self, canvas: Canvas, graph: Graph, steps: int, top: float) -> None:
        self.canvas, self.graph, self.top = canvas, graph, top
        self.left, self.column = LEFT, column_of(graph, steps)
        for node in range(graph.nodes):
            canvas.text(self.left - 22, self.y(node) + 4.3, graph.name(node), anchor="end", bold=True)
            for column in range(steps + 1):
                canvas.disc(self.x(column), self.y(node), 1.6, LIGHT, LIGHT)

    def x(self, column: float) -> float:
        return self.left + self.column * column

    def y(self, node: int) -> float:
        return self.top + ROW * (node + 0.5)

    def letters(self, head: str, letters: list[str], y: float, color: str = DARK, bold: bool = True) -> None:
        """A row of letters, each between two columns."""
        self.canvas.text(self.left - 22, y, head, anchor="end", color=color)
        for place, letter in enumerate(letters):
            if letter:
                self.canvas.text(self.x(place + 0.5), y, letter, color=color, bold=bold)

    def numbers(self, cells: range, y: float) -> None:
        """The numbers of the cells; where the columns are narrow every fifth."""
        wide = max(len(str(cells.start)), len(str(cells.stop - 1))) * 8 + 4
        every = 1 if self.column >= wide else 5
        self.letters(LABELS["cell"], [str(cell) if cell % every == 0 else "" for cell in cells], y, GREY, bold=False)

    def bar(self, column: int, y: float) -> None:
        """A bar beside a row of letters, where a period begins or ends."""
        self.canvas.line([(self.x(column), y - 13), (self.x(column), y + 4)], DARK, 1.6)

    def step(self, column: int, edge: Edge, color: str, width: float, down: float = 0.0, dashes: str = "") -> None:
        """An edge from a column to the next."""
        start = self.x(column), self.y(edge.source) + down
        end = self.x(column + 1), self.y(edge.target) + down
        part = 6 / math.dist(start, end)
        x, y = end[0] + part * (start[0] - end[0]), end[1] + part * (start[1] - end[1])
        with self.canvas.titled(self.graph.said(edge)):
            self.canvas.arrow([start, (x, y)], color, width, dashes)


def draw_reading(canvas: Canvas, graph: Graph, orphan: str, said: str, top: float) -> None:
    """Where a walk may be that writes the orphan, letter by letter: at last nowhere."""
    top = canvas.lines_of_text(top, said, room=room_of(graph, len(orphan)))
    trellis = Trellis(canvas, graph, len(orphan), top + 44)
    trellis.letters(LABELS["image"], list(orphan), trellis.top - 14)
    for column, (nodes, edges) in enumerate(graph.reading(orphan)):
        for edge in edges:
            trellis.step(column, edge, DARK, 1.2)
        for node in nodes:
            canvas.disc(trellis.x(column), trellis.y(node), 5, DARK, DARK)
    canvas.text(trellis.x(len(orphan)), trellis.y(graph.nodes) + 6, LABELS["nowhere"], color=GREY)


def draw_walks(canvas: Canvas, graph: Graph, rows: dict[str, Tail], cells: range, moved: int, said: str,
               top: float) -> None:
    """Configurations with one image, by their names: their letters at the cells, those that differ marked, and at
    each cell its letter of the image with the steps of the walks that write it. `moved` is the cell at which the
    middles begin, and bars are where periods end and begin."""
    room = room_of(graph, len(cells))
    top = canvas.lines_of_text(top, said, room=room) + 12
    ends = cells.start - moved, cells.stop - moved
    words = [tail.cells(*ends) for tail in rows.values()]
    walks = [graph.over(tail, *ends) for tail in rows.values()]
    trellis = Trellis(canvas, graph, len(cells), top + 18 * len(rows) + 54)
    for place, letters in enumerate(zip(*words)):
        if len(set(letters)) > 1:
            canvas.box(trellis.x(place) + 1, top + 18, trellis.column - 2, 18 * len(rows), MARK)
    trellis.numbers(cells, top + 10)
    for place, (name, word) in enumerate(zip(rows, words)):
        trellis.letters(name, list(word), top + 18 * place + 31, STYLES[place][0])
    for place, tail in enumerate(rows.values()):
        for column in sorted({moved - cells.start, moved + len(tail.middle) - cells.start}):
            if 0 < column < len(cells):
                trellis.bar(column, top + 18 * place + 31)
    trellis.letters(LABELS["image"], list(written(walks[0])), trellis.top - 14)
    for walk, (color, dashes, fill, down) in zip(walks, STYLES):
        for column, edge in enumerate(walk):
            trellis.step(column, edge, color, 2, down, dashes)
            canvas.disc(trellis.x(column), trellis.y(edge.source) + down, 3.4, fill, color)
        canvas.disc(trellis.x(len(walk)), trellis.y(walk[-1].target) + down, 3.4, fill, color)
    reads = graph.offset + graph.width - 1
    where = f"{abs(reads)} cell{'' if abs(reads) == 1 else 's'} to the {'right' if reads > 0 else 'left'}"
    said = LABELS["step"].format(where=where if reads else "of the same cell")
    canvas.lines_of_text(trellis.y(graph.nodes) + 14, said, 12, GREY, room=room)
