"""The pictures of a page, written shorter: what comes again and again is drawn once and used. A page may have thousands of cells."""
from __future__ import annotations

import functools
import math
import re
from collections.abc import Iterator

from .drawing import DARK, FONT, NIGHT as COLOURS, ONE, PAPER, ZERO, Point
from .telling import CELL

SIZE = f"{CELL:.1f}"
NUMBER = r"[0-9]+\.[0-9]"
COLOR = "#[0-9a-f]+"
# A cell with its letter or without one, as `draw_letter` writes it, and a titled group of cells.
RECT = '<rect x="{0}" y="{0}" width="%s" height="%s" fill="{1}" stroke="{1}"/>\n' % (SIZE, SIZE)
LETTER = '<text x="{0}" y="{0}" font-size="12" text-anchor="middle" fill="{1}">{2}</text>\n'
CELLS = re.compile((RECT + f"(?:{LETTER})?").format(f"({NUMBER})", f"({COLOR})", "([0-9a-f])"))
GROUPS = re.compile(f"<g><title>[^<]*</title>\n((?:{(RECT + f'(?:{LETTER})?').format(NUMBER, COLOR, '[0-9a-f]')})+)</g>\n")
# A line through many points.
LINES = re.compile(r'<polyline points="((?:-?[0-9.]+,-?[0-9.]+ ?){12,})"')
NEAR = 0.7                                      # how far a curve may be from the points of a line
# A label with the title of its line, the words that all labels have, and the dots of a trellis.
LABELS = re.compile(r"<g><title>([^<]*)</title>\n(<text [^>]*>[^<]*</text>\n)</g>\n")
PLAIN = re.compile(rf'<text (x="[^"]*" y="[^"]*") font-size="12" text-anchor="middle" fill="{DARK}">')
DOTS = re.compile(rf'<circle cx="(-?[0-9.]+)" cy="(-?[0-9.]+)" r="1.6" fill="({COLOR})" stroke="{COLOR}" stroke-width="1.3"/>')
# What the style of the page says of lines, of discs and of letters, and what can be left out.
STROKES = re.compile(rf' fill="none" stroke="({COLOR})" stroke-width="([0-9.]+)"')
WHOLE = re.compile(r'([0-9])\.0(?=[" ,])')
SPARED = ((">\n<", "><"), (' stroke-width="1.3"', ""), (f' font-family="{FONT}"', ""), (' x="0" y="0"/>', "/>"), (' y="0"/>', "/>"),
          (' font-size="12" text-anchor="middle"', ' class="t"'), (' font-size="12" text-anchor="end"', ' class="u"'))
PICTURES = re.compile(r"<svg [^>]*>.*?</svg>", re.DOTALL)
# The ground of a picture, and what it says of its colours in the dark.
GROUND = re.compile(rf'<rect width="[0-9]+" height="[0-9]+" fill="{PAPER}"/>\n')
NIGHT = re.compile(r"<style>(@media\(prefers-color-scheme:dark\)\{[^<]*\})</style>\n")


class Shapes:
    """The shapes that are drawn once, by their names."""

    def __init__(self) -> None:
        self.named: dict[str, str] = {}         # by what is drawn

    def use(self, drawn: str, x: float, y: float) -> str:
        name = self.named.setdefault(drawn, f"s{len(self.named)}")
        return f'<use href="#{name}" x="{x:g}" y="{y:g}"/>'

    def row(self, shape: str, lefts: list[float], top: float) -> str:
        """Uses of one shape beside each other: equal rows are drawn once, too."""
        first = min(lefts)
        row = "".join(self.use(shape, left - first, 0) for left in sorted(lefts))
        return (self.use(row, first, top) if len(lefts) > 1 else self.use(shape, first, top)) + "\n"

    def defined(self) -> str:
        return "".join(f'<g id="{name}">{drawn}</g>' for drawn, name in self.named.items())


def smaller(sections: str) -> str:
    """The sections of a page with shorter pictures, which lie on the ground of the page and have the style of `colours`."""
    shapes = Shapes()
    made = PICTURES.sub(lambda found: spared(picture(found[0], shapes)), GROUND.sub("", NIGHT.sub("", sections)))
    if shapes.named:                            # the first picture has them
        begin = made.index(">", made.index("<svg ")) + 1
        made = f"{made[:begin]}\n<defs>{spared(shapes.defined())}</defs>{made[begin:]}"
    return made


def colours() -> str:
    """The style of the pictures: each colour by day and in the dark."""
    def named(night: bool) -> str:
        return ":root{" + ";".join(f"--{day[1:]}:{dark if night else day}" for day, dark in COLOURS.items()) + "}"
    used = "".join(f'.foursaspen [{part}="{day}"]{{{part}:{follows(day)}}}' for day in COLOURS for part in ("fill", "stroke"))
    widths = "".join(f".l{width.replace('.', '')}{{fill:none;stroke-width:{width}}}" for width in ("1.2", "1.6", "2", "2.4"))
    used += f".foursaspen{{font-family:{FONT}}}.foursaspen circle{{stroke-width:1.3}}{widths}"
    used += ".t,.u{font-size:12px;text-anchor:middle}.u{text-anchor:end}"
    return f"{named(False)}\n@media(prefers-color-scheme:dark){{{named(True)}}}\n{used}\n"


def spared(text: str) -> str:
    """The same picture without what the style says."""
    made = STROKES.sub(lambda found: f' class="l{found[2].replace(".", "")}" stroke="{found[1]}"', WHOLE.sub(r"\1", text))
    for long, short in SPARED:
        made = made.replace(long, short)
    return made


def picture(text: str, shapes: Shapes) -> str:
    """A picture, whose groups of cells are used, and whose letters stand in lines."""
    lines: dict[str, tuple[list[str], list[str]]] = {}      # by y: where the letters stand, and which they are
    rows: dict[tuple[str, float], list[float]] = {}         # by a shape and y: where it stands

    def group(found: re.Match[str]) -> str:
        cells = list(CELLS.finditer(found[1]))
        if any(cell[3] in (ZERO, ONE) for cell in cells):          # of two states the letters tell the shape
            return "".join(single(cell) for cell in cells)
        left, top = float(cells[0][1]), float(cells[0][2])
        shape = "".join(square(float(cell[1]) - left, float(cell[2]) - top, cell[3], cell[4]) for cell in cells)
        for cell in cells:
            if cell[8]:
                places, letters = lines.setdefault(cell[6], ([], []))
                places.append(f"{float(cell[5]):g}")
                letters.append(cell[8])
        rows.setdefault((shape, top), []).append(left)
        return ""

    def single(cell: re.Match[str]) -> str:
        x, y = float(cell[1]), float(cell[2])
        letter = (f'<text x="{float(cell[5]) - x:g}" y="{float(cell[6]) - y:.1f}" font-size="12" text-anchor="middle" '
                  f'style="fill:{follows(cell[7])}">{cell[8]}</text>') if cell[8] else ""
        return shapes.use(square(0, 0, cell[3], cell[4]) + letter, x, y) + "\n"

    made = LINES.sub(curve, CELLS.sub(single, GROUPS.sub(group, text)))
    made = LABELS.sub(lambda found: found[2] if made.count(f"<title>{found[1]}</title>") > 1 else found[0], made)
    made = DOTS.sub(lambda found: shapes.use(dot(found[3]), float(found[1]), float(found[2])), PLAIN.sub(r'<text class="cells" \1>', made))
    end = made.rindex("</svg>")
    return made[:end] + "".join(shapes.row(shape, lefts, top) for (shape, top), lefts in rows.items()) + "".join(written(lines)) + made[end:]


def curve(found: re.Match[str]) -> str:
    """A quadratic curve in place of a line through many points, or the same."""
    return curved(found[1]) or found[0]


@functools.cache
def curved(text: str) -> str:
    """A quadratic curve from which no point is further than can be seen, or nothing. The graphs of a shape have the same lines."""
    points = [(float(x), float(y)) for x, y in (point.split(",") for point in text.split())]
    (a, b), (c, d), (e, f) = points[0], points[len(points) // 2], points[-1]
    x, y = 2 * c - (a + e) / 2, 2 * d - (b + f) / 2
    parts = [(s / 48, 1 - s / 48) for s in range(49)]
    there = [(t * t * a + 2 * s * t * x + s * s * e, t * t * b + 2 * s * t * y + s * s * f) for s, t in parts]
    if any(min(beside(point, *ends) for ends in zip(there, there[1:])) > NEAR for point in points):
        return arc(points)
    return f'<path d="M{a:g} {b:g}Q{x:.1f} {y:.1f} {e:g} {f:g}"'


def arc(points: list[Point]) -> str:
    """The same for more than half of a circle."""
    (a, b), (c, d), (e, f) = points[0], points[len(points) // 2], points[-1]
    turn = 2 * (a * (d - f) + c * (f - b) + e * (b - d))
    if abs(turn) < 1:
        return ""
    x = ((a * a + b * b) * (d - f) + (c * c + d * d) * (f - b) + (e * e + f * f) * (b - d)) / turn
    y = ((a * a + b * b) * (e - c) + (c * c + d * d) * (a - e) + (e * e + f * f) * (c - a)) / turn
    radius = math.dist((x, y), (a, b))
    if any(abs(math.dist((x, y), point) - radius) > NEAR for point in points) or math.dist((a, b), (c, d)) < 1.42 * radius:
        return ""
    return f'<path d="M{a:g} {b:g}A{radius:.1f} {radius:.1f} 0 1 {int(turn > 0)} {e:g} {f:g}"'


def beside(point: Point, start: Point, end: Point) -> float:
    """How far a point is from a piece of a line."""
    (x, y), (a, b), (c, d) = point, start, end
    long = (c - a) ** 2 + (d - b) ** 2
    part = min(1.0, max(0.0, ((x - a) * (c - a) + (y - b) * (d - b)) / long)) if long else 0.0
    return math.dist(point, (a + part * (c - a), b + part * (d - b)))


def square(x: float, y: float, fill: str, stroke: str) -> str:
    return f'<rect x="{x:g}" y="{y:g}" width="{CELL:g}" height="{CELL:g}" style="fill:{follows(fill)};stroke:{follows(stroke)}"/>'


def dot(color: str) -> str:
    return f'<circle r="1.6" style="fill:{follows(color)};stroke:{follows(color)}" stroke-width="1.3"/>'


def follows(color: str) -> str:
    """A colour that is another one in the dark, also in what is used: a style of the page doesn't see what contains that."""
    return f"var(--{color[1:]})"


def written(lines: dict[str, tuple[list[str], list[str]]]) -> Iterator[str]:
    """Letters at their places, a text for each line of them."""
    for y, (places, letters) in lines.items():
        yield f'<text class="cells" x="{" ".join(places)}" y="{y}">{"".join(letters)}</text>\n'
