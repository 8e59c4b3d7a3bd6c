"""docs/EVIDENCE.md as HTML: what the words of a page mean. It knows of Markdown what that page uses.

The wheel has the page beside this module; in the repository it is read where it stands.
"""
from __future__ import annotations

import functools
import re
from collections.abc import Iterator
from html import escape
from pathlib import Path

NAME = "EVIDENCE.md"
HERE = Path(__file__).resolve().parent
FOUND = HERE / NAME if (HERE / NAME).exists() else HERE.parents[1] / "docs" / NAME
LAST = "The pictures"                           # a part that is about files of the repository

# The part that explains a word.
PARTS = {
    "node": "the-graph", "walk": "the-graph", "orphan": "an-orphan", "surjective": "an-orphan", "erasable pair": "an-orphan",
    "twins": "twins", "injective": "a-window", "window": "a-window", "inverse": "a-window", "split": "a-split",
    "closes": "a-split", "look-ahead": "a-look-ahead", "open": "a-look-ahead", "ring": "a-ring", "conserving": "a-ring",
    "flux": "a-flux", "current": "a-current", "moved": "only-moved", "certificate": "all-configurations", "sum": "a-ring",
}


@functools.cache
def parts() -> dict[str, list[str]]:
    """The parts by the names by which links lead to them, each with its heading and its blocks."""
    found: dict[str, list[str]] = {}
    for text in FOUND.read_text(encoding="utf-8").split("\n## ")[1:]:
        heading, *blocks = re.split(r"\n{2,}", text.strip("\n"))
        if heading != LAST:
            found[anchor(heading)] = [heading, *blocks]
    return found


def anchor(heading: str) -> str:
    return heading.lower().replace(" ", "-")


def link(word: str, page: str = "", shown: str | None = None) -> str:
    """A word that leads to what explains it, on this page or on another one."""
    return f"<a class=term href='{page}#{PARTS[word]}'>{escape(shown or word)}</a>"


def written(pictures: dict[str, str] | None = None, level: int = 3) -> str:
    """All parts, with headings of this level; with pictures by the names of their files, or without any."""
    return "".join("".join(part(name, blocks, pictures or {}, level)) for name, blocks in parts().items())


def part(name: str, blocks: list[str], pictures: dict[str, str], level: int) -> Iterator[str]:
    """A part: its heading, and then its blocks."""
    yield f"<h{level} id={name}>{escape(blocks[0])}</h{level}>"
    for block in blocks[1:]:
        picture = re.fullmatch(r"!\[(.*)\]\((.*)\)", block)
        if picture:
            yield f"<div class=scroll tabindex=0>{pictures[picture[2]]}</div>" if picture[2] in pictures else ""
        elif block.startswith("    "):
            yield f"<pre>{escape(re.sub('(?m)^    ', '', block))}</pre>"
        elif block.startswith("|"):
            yield table(block.split("\n"), blocks[0])
        else:
            yield f"<p>{inline(block)}</p>"


def table(rows: list[str], caption: str) -> str:
    cells = [re.split(r"(?<!\\)\|", row)[1:-1] for row in rows if not set(row) <= set("|- ")]
    heads, *lines = [[inline(cell.strip()) for cell in row] for row in cells]
    head = "".join(f"<th scope=col>{cell}</th>" for cell in heads)
    body = "".join(f"<tr>{''.join(f'<td>{cell}</td>' for cell in line)}</tr>" for line in lines)
    return f"<div class=scroll tabindex=0><table><caption>{escape(caption)}</caption><tr>{head}</tr>{body}</table></div>"


def inline(text: str) -> str:
    """Code, bold words, and the links that lead to a part of this page; of others the words alone."""
    def linked(found: re.Match[str]) -> str:
        inner = found[2].startswith("#") and found[2][1:] in parts()
        return f"<a href='{found[2]}'>{found[1]}</a>" if inner else found[1]
    text = re.sub(r"\[([^]]*)\]\(([^)]*)\)", linked, escape(text, quote=False))
    text = re.sub(r"`([^`]*)`", r"<code>\1</code>", text)
    return re.sub(r"\*\*([^*]*)\*\*", r"<b>\1</b>", text)
