"""What tells a letter, drawn case by case: cells of a configuration, beneath them letters of its image, and marked among the cells
the letter that is told.
"""
from __future__ import annotations

from collections.abc import Iterator
from dataclasses import dataclass
from itertools import product

from .drawing import DARK, DESCRIBED, GREY, LABELS, MARGIN, MARK, MOST, ONE, PAPER, PHONE, SHADE, SIZES, WIDEST, ZERO, Canvas
from .evidence import mirrored
from .graphs import Graph, written
from .report import Window
from .rule_values import DIGITS

CASES = MOST["cases"]                           # of a picture
TRIED = MOST["tried"]                           # words from which they are found
CELL = SIZES["cell"]
GAP = SIZES["gap"]                              # between two cases


@dataclass(frozen=True)
class Case:
    """Cells, a blank for each that may have any letter; the place of the cell that is told; and letters of the image, the first
    of which stands beneath the place `start`."""
    cells: str
    told: int
    image: str
    start: float

    def mirrored(self) -> Case:
        start = len(self.cells) - self.start - len(self.image)
        return Case(self.cells[::-1], len(self.cells) - 1 - self.told, self.image[::-1], start)


@dataclass(frozen=True)
class Telling:
    """Cases in rows, and what is said of them."""
    heading: str
    rows: tuple[tuple[Case, ...], ...]


def by_window(graph: Graph, window: Window) -> Telling:
    """For each word of the image the letter that it tells; ValueError where there are too many words."""
    letters = window.letters + graph.width - 1
    look_at(graph.states ** window.letters, graph.states ** letters, f"the window has {window.letters} letters")
    told = {written(graph.within(word)): word[window.place] for word in words(graph.states, letters)}
    start = own_place(graph)
    cases = tuple(Case(told[image].rjust(window.place + 1).ljust(letters), window.place, image, start) for image in sorted(told))
    said = counted(window.letters), "tells" if window.letters == 1 else "tell"
    return Telling(DESCRIBED["pictures"]["window"]["heading"].format(letters=said[0], tell=said[1]), (cases,))


def by_look_ahead(graph: Graph, ahead: int, side: str) -> Telling:
    """For each word of width - 1 letters, and each with which the image may go on, the letter that both tell; ValueError where
    there are too many. A row is of one word."""
    look_at(graph.states ** min(ahead, 16), graph.nodes * graph.states ** min(ahead, 16), f"the look-ahead is {ahead}")
    way = graph if side == "right" else mirrored(graph)
    rows = []
    for node in map(way.name, range(way.nodes)):
        told = {written(way.within(node + word)): word[0] for word in words(way.states, ahead)}
        cases = [Case(node + told[image] + " " * (ahead - 1), len(node), image, own_place(way)) for image in sorted(told)]
        rows.append(tuple(case if side == "right" else case.mirrored() for case in cases))
    look_at(sum(map(len, rows)), 0, f"the look-ahead is {ahead}")
    return Telling(DESCRIBED["pictures"][side]["told"].format(letters=counted(ahead)), tuple(rows))


def counted(letters: int) -> str:
    return "one letter" if letters == 1 else f"{letters} letters"


def words(states: int, letters: int) -> Iterator[str]:
    """All words of so many letters."""
    return map("".join, product(DIGITS[:states], repeat=letters))


def look_at(cases: int, tried: int, what: str) -> None:
    """ValueError where there are more than can be drawn."""
    if cases > CASES or tried > TRIED:
        raise ValueError(f"{what}: a picture has at most {CASES} cases")


def own_place(graph: Graph) -> float:
    """The place of a window beneath which its image is drawn: that of its own cell, or its middle where it doesn't hold that."""
    return -graph.offset if 0 <= -graph.offset < graph.width else (graph.width - 1) / 2


def draw_letter(canvas: Canvas, states: int, letter: str, x: float, y: float, fill: str = "") -> None:
    """A cell with its letter; of two states a 1 is black and a 0 white, by day and in the dark. A cell that may have any letter is
    blank and grey."""
    ground, ink = SHADE if letter == " " else PAPER, DARK
    if states == 2 and letter in "01":
        ground, ink = (ONE, ZERO) if letter == "1" else (ZERO, ONE)
    canvas.box(x, y, CELL, CELL, fill or ground, GREY)
    if letter != " ":
        canvas.text(x + CELL / 2, y + CELL / 2 + 4.3, letter, color=DARK if fill else ink)


def draw_cases(canvas: Canvas, graph: Graph, telling: Telling, said: str, top: float) -> None:
    """The cases, as many in a row as there is room for."""
    y = canvas.lines_of_text(top, said, room=PHONE) + 16
    for row in telling.rows:
        step = CELL * len(row[0].cells) + GAP
        fit = max(1, int((WIDEST - 2 * MARGIN) // step))
        in_row = fit - fit % graph.states if fit > graph.states else fit
        for place, case in enumerate(row):
            draw_case(canvas, graph.states, case, MARGIN + step * (place % in_row), y + (2 * CELL + 16) * (place // in_row))
        y += (2 * CELL + 16) * (1 + (len(row) - 1) // in_row)


def draw_case(canvas: Canvas, states: int, case: Case, x: float, y: float) -> None:
    with canvas.titled(LABELS["case"].format(image=case.image, letter=case.cells[case.told])):
        for place, letter in enumerate(case.cells):
            draw_letter(canvas, states, letter, x + CELL * place, y, MARK if place == case.told else "")
        for place, letter in enumerate(case.image):
            draw_letter(canvas, states, letter, x + CELL * (case.start + place), y + CELL + 2)
