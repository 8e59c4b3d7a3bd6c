"""A site: an atlas, a page for each of its classes, and one that explains the words, all in one folder and linked."""
from __future__ import annotations

import hashlib
import os
import re
from collections.abc import Iterable
from pathlib import Path
from typing import Any, SupportsIndex, Union, overload

from . import prose
from .atlases import Entry, Told, as_html, entries_in, entries_of, title_of
from .commands import class_count, numbered
from .faults import UsageError
from .pages import Sections, counted, whole_page, whole_style
from .pictures import picture
from .progress import Said
from .rule_values import Rule, RuleLike, centred, refuse

MOST = 4096                                     # pages of a site
INDEX, WORDS, STYLED = "index.html", "evidence.html", "style.css"
LONG = 100                                      # letters of a file's name
Folder = Union[str, "os.PathLike[str]"]
DRAWN = re.compile(r"foursaspen picture (\S+)(?: (\S+))? > docs/(\S+)")


@overload
def site(folder: Folder, states: SupportsIndex = 2, width: SupportsIndex = 3, *, found: Iterable[RuleLike] | None = None,
         told: Told | None = None, bar: bool = False) -> int: ...


@overload
def site(states: SupportsIndex, width: SupportsIndex, folder: Folder, /, *, found: Iterable[RuleLike] | None = None,
         told: Told | None = None, bar: bool = False) -> int: ...


def site(folder: Any, states: Any = 2, width: Any = 3, *, found: Iterable[RuleLike] | None = None, told: Told | None = None,
         bar: bool = False) -> int:
    """Writes the site of a shape into a folder, or that of the rules of a list, and gives the number of its pages. index.html
    is the atlas, evidence.html explains the words, and the pages have the style of style.css. The folder may also stand behind the
    shape, as on the command line. `told` is called with how far it is, and `bar` shows it on standard error. UsageError where there
    are more than 4,096 classes."""
    if isinstance(width, (str, os.PathLike)):
        folder, states, width = width, folder, states
    if not isinstance(folder, (str, os.PathLike)):
        raise refuse("folder is", "a path", folder)
    if bar:
        said = Said()
        count = site(folder, states, width, found=found, told=said)
        said.close()
        return count
    if found is None:
        k, m, _, _ = numbered(states, width, 0, 1)
        if class_count(k, m) > MOST:
            raise UsageError(f"a site has at most {MOST:,} classes, and {k} states and width {m} have {class_count(k, m):,}: "
                             "found=rules(..) makes a site of a list")
        title, entries = title_of(k, m), list(entries_of(k, m, centred(m), told))
    else:
        entries = list(entries_in(found, told))
        title = f"{counted(sum(len(entry.members) for entry in entries), 'rule')}"
    if len(entries) > MOST:
        raise UsageError(f"a site has at most {MOST:,} classes, and not {len(entries):,}")
    place = Path(folder)
    place.mkdir(parents=True, exist_ok=True)
    pages = {rule: file_of(entry.report.rule) for entry in entries for rule in (*entry.members, entry.report.rule)}
    write(place / INDEX, as_html(entries, title, pages))
    write(place / WORDS, words())
    write(place / STYLED, whole_style())
    for at, entry in enumerate(entries):
        if told is not None:
            told(f"page {at + 1:,} of {len(entries):,}")
        write(place / file_of(entry.report.rule), page_of(entries, at, pages))
    return len(entries) + 2


def write(file: Path, text: str) -> None:
    file.write_text(text, encoding="utf-8", newline="")


def file_of(rule: Rule) -> str:
    """The name of the page of a rule."""
    name = rule.replace(":", "_")
    return f"{name if len(name) <= LONG else hashlib.sha256(name.encode()).hexdigest()[:32]}.html"


def page_of(entries: list[Entry], at: int, pages: dict[Rule, str]) -> str:
    """The page of a class, which leads to the atlas and to the classes before and behind."""
    sections = Sections(entries[at].report, WORDS, pages)
    ways = [f"<a href={INDEX}>all classes</a>"]
    for there, said in ((at - 1, "the class before"), (at + 1, "the next class")):
        if 0 <= there < len(entries):
            ways.append(f"<a href='{file_of(entries[there].report.rule)}'>{said}</a>")
    ways.append(f"<a href={WORDS}>what the words mean</a>")
    return whole_page(sections.name, "\n".join(sections.all()), f"<nav class=row aria-label=site>{' '.join(ways)}</nav>\n",
                      STYLED)


def words() -> str:
    """docs/EVIDENCE.md as a page, with its pictures."""
    text = prose.FOUND.read_text(encoding="utf-8")
    pictures = {file: str(picture(rule, show or None)) for rule, show, file in DRAWN.findall(text)}
    return whole_page("What the evidence is", prose.written(pictures, level=2), f"<nav class=row aria-label=site><a href={INDEX}>all "
                      "classes</a></nav>\n", STYLED)
