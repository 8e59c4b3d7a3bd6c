"""A stretch of a configuration that a rule only moves, and what it is after each of two steps."""
from __future__ import annotations

from .drawing import DESCRIBED, GREY, MARGIN, MOST, PHONE, Canvas
from .graphs import Graph, written
from .moves import Moved, in_words
from .telling import CELL, draw_letter

SAID = DESCRIBED["pictures"]["moved"]
SHOWN = MOST["field"]                           # cells of the stretch
ROWS: tuple[str, ...] = tuple(SAID["rows"])
LEFT = MARGIN + 60.0                            # of the cells


def heading(found: Moved) -> str:
    """What the graph and the field show."""
    return str(SAID["heading"].format(moves=in_words(found.by)))


def stretch(found: Moved, length: int) -> str:
    """A word of so many letters that shows many of the windows. From the letters of a node in its middle it goes on to both sides by the
    window that it has least often, and of all nodes it is from the one with the most windows."""
    def longer(word: str) -> str:
        met = dict.fromkeys(found.windows, 0)
        for place in range(length - len(word)):
            right = place % 2 == 0
            ways = [window for window in found.windows
                    if (window[:-1] == word[1 - len(window):] if right else window[1:] == word[:len(window) - 1])]
            window = min(ways, key=lambda one: (met[one], one))
            met[window] += 1
            word = word + window[-1] if right else window[0] + word
        return word

    def shown(word: str) -> int:
        size = len(found.windows[0])
        return len({word[place:place + size] for place in range(length - size + 1)})
    return max(map(longer, sorted({window[:-1] for window in found.windows})), key=shown)


def draw_field(canvas: Canvas, graph: Graph, found: Moved, words: str, top: float) -> None:
    """The stretch in three rows. A row begins with the cell 0, and each row is found by the rule from the one above."""
    y = canvas.lines_of_text(top, words, room=PHONE) + 14
    begin, end = min(graph.offset, 0), max(graph.offset + graph.width - 1, 0)
    word = stretch(found, SHOWN + 2 * (end - begin))
    first = 2 * begin                           # the cell of the first letter
    for row, name in enumerate(ROWS):
        if row:
            word = written(graph.within(word))
            first -= graph.offset
        canvas.text(LEFT - 10, y + CELL / 2 + 4.3, name, anchor="end", color=GREY)
        for place, letter in enumerate(word[-first:-first + SHOWN]):
            draw_letter(canvas, graph.states, letter, LEFT + CELL * place, y)
        y += CELL + 4
