"""A canvas that writes SVG: lines with arrows, discs and texts, on a ground that follows the reader's dark mode."""
from __future__ import annotations

import json
import math
import os
import textwrap
from collections.abc import Iterator, Sequence
from contextlib import contextmanager
from html import escape
from pathlib import Path
from typing import Any

# Which pictures there are, what each says, the names of its rows, colours and sizes. The page for browsers draws by this file too.
DESCRIBED: dict[str, Any] = json.loads(Path(__file__).with_name("pictures.json").read_text(encoding="utf-8"))
LABELS: dict[str, str] = DESCRIBED["labels"]
MOST: dict[str, int] = DESCRIBED["most"]
SIZES: dict[str, int] = DESCRIBED["sizes"]
NIGHT: dict[str, str] = dict(DESCRIBED["colours"].values())     # each colour where the reader's system is dark
# FIRST and SECOND are of two walks: far apart in brightness too. A cell of two states is ZERO or ONE, and dark if it is a 1.
PAPER, SHADE, MARK, DARK, GREY, LIGHT, FIRST, SECOND, ZERO, ONE = NIGHT
DASHES = "6 4"                                  # of the second walk
MARGIN = SIZES["margin"]                        # left of all, and below it
WIDEST = SIZES["widest"]                        # of a picture whose words have room in it
PHONE = SIZES["phone"]                          # what a phone shows of a picture
FONT = "DejaVu Sans, Verdana, sans-serif"
LETTER, BOLD = 0.65, 0.7                        # the widths of digits of size 1
Point = tuple[float, float]


class Picture(str):
    """An SVG text, which a notebook shows as the picture."""

    def _repr_svg_(self) -> str:
        return str(self)

    def __repr__(self) -> str:
        return f"<Picture: {len(self):,} characters of SVG>"

    def save(self, path: str | os.PathLike[str]) -> None:
        """Writes the picture to a file."""
        Path(path).write_text(self, encoding="utf-8")


class Canvas:
    """What is drawn so far, and the room that it takes to the right and downwards."""

    def __init__(self, title: str) -> None:
        self.title = title
        self.width, self.height = 0.0, 0.0
        self._parts: list[str] = []

    def _reach(self, x: float, y: float) -> None:
        self.width, self.height = max(self.width, x), max(self.height, y)

    def text(self, x: float, y: float, text: str, size: float = 12, anchor: str = "middle", color: str = DARK,
             bold: bool = False) -> None:
        """A text with its base line at y."""
        beyond = {"start": 1.0, "middle": 0.5, "end": 0.0}[anchor] * len(text) * size * (BOLD if bold else LETTER)
        self._reach(x + beyond, y + size / 3)
        weight = ' font-weight="bold"' if bold else ""
        self._parts.append(f'<text x="{x:.1f}" y="{y:.1f}" font-size="{size:g}" text-anchor="{anchor}" '
                           f'fill="{color}"{weight}>{escape(text)}</text>')

    def lines_of_text(self, y: float, text: str, size: float = 13, color: str = DARK, bold: bool = False,
                      room: float = WIDEST) -> float:
        """A text from the left margin on, in as many lines as it takes; where the last one stands."""
        letters = int((room - 2 * MARGIN) / (size * (BOLD if bold else LETTER)))
        for place, line in enumerate(textwrap.wrap(text, letters, break_on_hyphens=False)):
            y += 1.35 * size if place else 0
            self.text(MARGIN, y, line, size, "start", color, bold)
        return y

    @contextmanager
    def titled(self, title: str) -> Iterator[None]:
        """What is drawn within shows the title where the pointer rests on it."""
        self._parts.append(f"<g><title>{escape(title)}</title>")
        yield
        self._parts.append("</g>")

    def disc(self, x: float, y: float, radius: float, fill: str, line: str) -> None:
        self._reach(x + radius, y + radius)
        self._parts.append(f'<circle cx="{x:.1f}" cy="{y:.1f}" r="{radius:g}" fill="{fill}" stroke="{line}" '
                           'stroke-width="1.3"/>')

    def box(self, x: float, y: float, width: float, height: float, fill: str, line: str = "") -> None:
        self._reach(x + width, y + height)
        edge = f' stroke="{line}"' if line else ""
        self._parts.append(f'<rect x="{x:.1f}" y="{y:.1f}" width="{width:.1f}" height="{height:.1f}" '
                           f'fill="{fill}"{edge}/>')

    def line(self, points: Sequence[Point], color: str, width: float = 1.2, dashes: str = "") -> None:
        """A line through the points."""
        for x, y in points:
            self._reach(x, y)
        path = " ".join(f"{x:.1f},{y:.1f}" for x, y in points)
        broken = f' stroke-dasharray="{dashes}"' if dashes else ""
        self._parts.append(f'<polyline points="{path}" fill="none" stroke="{color}" '
                           f'stroke-width="{width:g}"{broken}/>')

    def arrow(self, points: Sequence[Point], color: str, width: float = 1.2, dashes: str = "") -> None:
        """A line through the points with a head at its end."""
        self.line(points, color, width, dashes)
        (x, y), (u, v) = points[-1], points[-2]
        angle = math.atan2(y - v, x - u)
        sides = [(x - 8 * math.cos(angle + turn), y - 8 * math.sin(angle + turn)) for turn in (-0.38, 0.38)]
        corners = " ".join(f"{a:.1f},{b:.1f}" for a, b in [(x, y), *sides])
        self._parts.append(f'<polygon points="{corners}" fill="{color}"/>')

    def svg(self) -> Picture:
        """The picture."""
        width, height = math.ceil(self.width + MARGIN), math.ceil(self.height + MARGIN)
        night = "".join(f'.foursaspen [{part}="{color}"]{{{part}:{dark}}}'
                        for color, dark in NIGHT.items() for part in ("fill", "stroke"))
        return Picture("\n".join([
            f'<svg xmlns="http://www.w3.org/2000/svg" class="foursaspen" role="img" aria-label="{escape(self.title)}" '
            f'width="{width}" height="{height}" viewBox="0 0 {width} {height}" font-family="{FONT}">',
            f"<title>{escape(self.title)}</title>",
            f"<style>@media(prefers-color-scheme:dark){{{night}}}</style>",
            f'<rect width="{width}" height="{height}" fill="{PAPER}"/>', *self._parts, "</svg>", ""]))
