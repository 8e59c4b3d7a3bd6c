"""What the commands answer, as frozen dataclasses, which are made of the values of docs/ANSWERS.md. The text of each,
`str(answer)`, is made of these values, and is what the program prints, to the byte.

Words are texts of hexadecimal digits, one for a letter, as the program prints them.
"""
from __future__ import annotations

import html
import json
import os
import re
from collections.abc import Iterable
from dataclasses import dataclass, field, fields
from fractions import Fraction
from functools import cached_property
from pathlib import Path
from reprlib import repr as short
from typing import Any, Literal

from .currents import current_of, reach
from .faults import UsageError
from .rule_values import DIGITS, Rule, Word, refuse, word_letters

LISTED = 64                                     # rows of a table, and letters in cells of their own


class Answer:
    """What is common: a text, which is `text` too, the values as a dict of one level, and a table of the lines for a
    notebook."""

    def __str__(self) -> str:
        return str(getattr(self, "text"))

    def as_dict(self) -> dict[str, Any]:
        """The values by their names, each one that JSON and a cell of a table have room for: parts are texts."""
        return {part.name: flat(getattr(self, part.name)) for part in fields(self) if part.name != "text"}

    def _repr_html_(self) -> str:
        return table(line.split(" ", 1) for line in str(self).splitlines())


def flat(value: Any) -> Any:
    """A value, or its text where it has parts."""
    if isinstance(value, (tuple, list)):
        return " ".join(map(str, value))
    return value if value is None or isinstance(value, (bool, int, str)) else str(value)


def barred(word: str | None) -> str:
    """A word in a CSV file: between bars, since pandas and spreadsheets take 010 for the number 10."""
    return "" if word is None else f"|{word}|"


# Lines

def line(*words: object) -> str:
    return " ".join(map(str, words)) + "\n"


def verdict(name: str, holds: object, *evidence: object) -> str:
    """The line of a verdict with the words of its evidence; a kind without any is left out."""
    return line(name, "yes" if holds else "no", *evidence)


def table(rows: Iterable[Iterable[str]]) -> str:
    """An HTML table: each row begins with its heading."""
    def row(head: str, *cells: str) -> str:
        return "".join([f"<tr><th style='text-align:left'>{html.escape(head)}</th>",
                        *(f"<td style='text-align:left'>{html.escape(cell)}</td>" for cell in cells), "</tr>"])
    return f"<table>{''.join(row(*cells) for cells in rows)}</table>"


def letters(word: str) -> Iterable[str]:
    """The cells of a word in a table: one for each letter, where there aren't too many."""
    return word if len(word) <= LISTED else [word]


# The parts of reports

@dataclass(frozen=True)
class Tail:
    """A configuration: the left period over and over, the middle from cell 0 on, the right period over and
    over."""
    left: str
    middle: str
    right: str

    def __post_init__(self) -> None:
        for name in ("left", "middle", "right"):
            word = getattr(self, name)
            if not isinstance(word, str):
                raise refuse(f"{name} is", "a text of digits", word)
            if not re.fullmatch("[0-9a-fA-F]*", word):
                raise UsageError(f"{name} is a text of hexadecimal digits, and not {short(word)}")

    def __str__(self) -> str:
        return f"{self.left}|{self.middle}|{self.right}"

    def cells(self, start: int, stop: int) -> str:
        """The letters of the cells from `start` on, before `stop`."""
        for name in ("left", "right"):
            if not getattr(self, name):
                raise UsageError(f"{name} must have a letter, since it is repeated")

        def letter(cell: int) -> str:
            if cell < 0:
                return self.left[cell % len(self.left)]
            behind = cell - len(self.middle)
            return self.middle[cell] if behind < 0 else self.right[behind % len(self.right)]
        return "".join(map(letter, range(start, stop)))

    @staticmethod
    def of(text: str) -> Tail:
        if not isinstance(text, str):
            raise refuse("tail is", "a text LEFT|MIDDLE|RIGHT", text)
        parts = text.split("|")
        if len(parts) != 3 or not all(re.fullmatch("[0-9a-fA-F]*", part) for part in parts):
            raise UsageError(f"tail is LEFT|MIDDLE|RIGHT, three words of hexadecimal digits, and not {short(text)}")
        return Tail(*parts)

    @staticmethod
    def ring(word: str) -> Tail:
        """The word over and over, from cell 0 on."""
        return Tail(word, "", word)


@dataclass(frozen=True)
class Window:
    """`letters` letters of the image tell the letter at `place` of each preimage."""
    letters: int
    place: int

    def __str__(self) -> str:
        return f"{self.letters} {self.place}"


@dataclass(frozen=True)
class Pair:
    """Two words of one length: twins, whose rings have one image, or an erasable pair."""
    first: str
    second: str

    def __str__(self) -> str:
        return f"{self.first} {self.second}"

    def _repr_html_(self) -> str:
        return table([["first", *letters(self.first)], ["second", *letters(self.second)]])


@dataclass(frozen=True)
class Split:
    """Two configurations that agree to one side, differ, and share an image."""
    first: Tail
    second: Tail

    def __str__(self) -> str:
        return f"{self.first} {self.second}"

    def _repr_html_(self) -> str:
        return table([["first", str(self.first)], ["second", str(self.second)]])


@dataclass(frozen=True)
class Closing:
    """Whether a rule closes on a side, with the least look-ahead or the least normal split. It is true exactly
    where the rule closes."""
    ahead: int | None
    split: Split | None

    def __bool__(self) -> bool:
        return self.ahead is not None

    def _repr_html_(self) -> str:
        return table([["closes", "yes"], ["look-ahead", str(self.ahead)]] if self.split is None else
                     [["closes", "no"], ["split", str(self.split.first), str(self.split.second)]])

    def _line(self, name: str) -> str:
        return verdict(name, True, "ahead", self.ahead) if self.split is None else verdict(name, False, "split", self.split)

    @staticmethod
    def _of(value: dict[str, Any]) -> Closing:
        if value["holds"]:
            return Closing(value["ahead"], None)
        return Closing(None, Split(*(Tail(**tail) for tail in value["split"])))


# Answers about one rule

@dataclass(frozen=True)
class Report(Answer):
    """The report of `decide`: five verdicts and whether the rule is open, each with its least evidence. `weights` is what
    each letter weighs, or None where it weighs its own value."""
    rule: Rule
    number: int | None
    surjective: bool
    orphan: str | None
    injective: bool
    window: Window | None
    twins: Pair | None
    right: Closing
    left: Closing
    open: bool
    conserving: bool
    flux: tuple[int, ...] | None
    ring: str | None
    weights: tuple[int, ...] | None = None

    @property
    def text(self) -> str:
        return "".join([
            line("rule", self.rule), line("number", "none" if self.number is None else self.number),
            verdict("surjective", self.surjective, *(() if self.orphan is None else ("orphan", self.orphan))),
            verdict("injective", self.injective, *(("window", self.window) if self.injective else ("twins", self.twins))),
            self.right._line("right"), self.left._line("left"), verdict("open", self.open),
            verdict("conserving", self.conserving, *(("ring", self.ring) if self.flux is None else ("flux", *self.flux)))])

    @property
    def reversible(self) -> bool:
        """The same as `injective`."""
        return self.injective

    @cached_property
    def current(self) -> tuple[int, ...] | None:
        """What moves between neighbours, or None where the sum isn't kept: a number for each word of width - 1 letters, by the
        word's value. The word lies to the left of a place between two cells where the offset is 1 - width, and round it or to
        its right where the offset is greater. What a cell weighs more in the image than before is the number to its left less
        the one to its right. Where windows don't hold their own cells, the words reach from the window to the cell."""
        if self.flux is None:
            return None
        rule = self.rule
        return current_of(rule.states, rule.width, rule.offset, 1, self.flux, self.weights or range(rule.states))

    def flow(self, ring: Word) -> Fraction | None:
        """How much moves to the right past a border between two cells of a ring, in the mean over the borders: the sum of the current
        round the ring, by its number of letters. None where the sum isn't kept."""
        numbers, letters = self.current, word_letters("ring", ring, self.rule.states)
        if numbers is None:
            return None
        if not letters:
            raise UsageError("ring has at least one letter, and not none")
        states, total = self.rule.states, 0
        size = reach(self.rule.width, self.rule.offset, 1)
        around = letters * (2 + size // len(letters))
        for place in range(len(letters)):
            word = 0
            for letter in around[place:place + size]:
                word = word * states + letter
            total += numbers[word]
        return Fraction(total, len(letters))

    def as_dict(self) -> dict[str, Any]:
        values = super().as_dict()
        for side in ("right", "left"):
            closing: Closing = getattr(self, side)
            values[side] = bool(closing)
            values |= {f"{side}_ahead": closing.ahead, f"{side}_split": flat(closing.split)}
        return values

    @staticmethod
    def _of(value: dict[str, Any], weights: tuple[int, ...] | None = None) -> Report:
        number, onto, one, kept = (value[name] for name in ("number", "surjective", "injective", "conserving"))
        return Report(
            Rule._made(value["rule"]), None if number is None else int(number),
            onto["holds"], onto.get("orphan"),
            one["holds"], Window(*one["window"]) if one["holds"] else None, None if one["holds"] else Pair(*one["twins"]),
            Closing._of(value["right"]), Closing._of(value["left"]), value["open"],
            kept["holds"], tuple(kept["flux"]) if kept["holds"] else None, kept.get("ring"), weights)


@dataclass(frozen=True, repr=False)
class Certificate(Answer):
    """A certificate, as one JSON text without a line end."""
    text: str

    @staticmethod
    def _of(value: dict[str, Any]) -> Certificate:
        return Certificate(json.dumps(value, separators=(",", ":")))

    @cached_property
    def data(self) -> dict[str, Any]:
        """The object that the text writes, as docs/CERTIFICATES.md has its keys. It is read once, and is to be left as it is."""
        data: dict[str, Any] = json.loads(self.text)
        return data

    @property
    def rule(self) -> Rule:
        return Rule._made(self.data["rule"])

    @property
    def weights(self) -> tuple[int, ...] | None:
        """What each letter weighs, or None where it weighs its own value."""
        weights = self.data.get("weights")
        return None if weights is None else tuple(weights)

    def as_dict(self) -> dict[str, Any]:
        return dict(self.data)

    def save(self, path: str | os.PathLike[str]) -> None:
        """Writes the text to a file."""
        Path(path).write_text(self.text, encoding="utf-8", newline="")

    def __repr__(self) -> str:
        return f"Certificate({str(self.rule)!r}, version={self.data['version']}, {len(self.text):,} bytes)"

    def __getstate__(self) -> dict[str, str]:
        return {"text": self.text}

    def _repr_html_(self) -> str:
        return table((key, json.dumps(value)) for key, value in self.data.items() if key != "ranks")


@dataclass(frozen=True)
class Verdicts(Answer):
    """What `check` says of an accepted certificate; `weights` exactly where a letter doesn't weigh its value."""
    rule: Rule
    surjective: bool
    injective: bool
    right: bool
    left: bool
    open: bool
    conserving: bool
    weights: tuple[int, ...] | None

    @property
    def reversible(self) -> bool:
        """The same as `injective`."""
        return self.injective

    @property
    def text(self) -> str:
        names = ("surjective", "injective", "right", "left", "open", "conserving")
        weights = [] if self.weights is None else [line("weights", ",".join(map(str, self.weights)))]
        return "".join([line("accepted", self.rule), *(verdict(name, getattr(self, name)) for name in names), *weights])

    @staticmethod
    def _of(value: dict[str, Any]) -> Verdicts:
        weights = tuple(value["weights"])
        parts: dict[str, Any] = {**value, "rule": Rule._made(value["rule"]),
                                 "weights": None if weights == tuple(range(len(weights))) else weights}
        return Verdicts(**parts)


@dataclass(frozen=True)
class Language(Answer):
    """The least automaton of the words that have a preimage: how many classes there are, the class of the
    orphans, and for each class the class after it on each letter. It begins in class 0."""
    classes: int
    dead: int | None
    after: tuple[tuple[int, ...], ...] = field(repr=False)

    @property
    def text(self) -> str:
        return "".join([line("classes", self.classes), line("dead", "none" if self.dead is None else self.dead),
                        *(line(*row) for row in self.after)])

    @staticmethod
    def _of(value: dict[str, Any]) -> Language:
        return Language(value["classes"], value["dead"], tuple(map(tuple, value["next"])))

    def as_dict(self) -> dict[str, Any]:
        return {"classes": self.classes, "dead": self.dead, "after": [list(row) for row in self.after]}

    def class_of(self, word: object) -> int:
        """The class of a word, which is a text, or a list or an array of letters."""
        here = 0
        for letter in word_letters("word", word, len(self.after[0])):
            here = self.after[here][letter]
        return here

    def __contains__(self, word: object) -> bool:
        """Whether the word has a preimage."""
        return self.class_of(word) != self.dead

    def accepts(self, word: Word) -> bool:
        """The same as `word in language`."""
        return word in self

    def _repr_html_(self) -> str:
        rows = [[f"{here}, of the orphans" if here == self.dead else str(here), *map(str, row)]
                for here, row in enumerate(self.after[:LISTED])]
        more = [[f"and {self.classes - LISTED:,} more"]] if self.classes > LISTED else []
        return table([["class", *(f"after {DIGITS[letter]}" for letter in range(len(self.after[0])))], *rows, *more])


@dataclass(frozen=True)
class Inverse(Answer):
    """The map that gives every cell back from the image: the least window, the offset from which on it reads
    the image, its letter for each word, and the map as a rule where that is within the limits."""
    window: Window
    offset: int
    map: str = field(repr=False)
    rule: Rule | None

    @property
    def text(self) -> str:
        return line("window", self.window) + line("offset", self.offset) + line("map", self.map) + line("rule", self.rule or "none")

    @staticmethod
    def _of(value: dict[str, Any]) -> Inverse:
        rule = value["rule"]
        return Inverse(Window(*value["window"]), value["offset"], value["map"], None if rule is None else Rule._made(rule))


@dataclass(frozen=True)
class Same(Answer):
    """Whether two rules have the same orphans, or the first word that is one of exactly one of them. It is true
    exactly where they have."""
    word: str | None

    @property
    def text(self) -> str:
        return line("same yes") if self.word is None else line("same no", self.word)

    def __bool__(self) -> bool:
        return self.word is None


@dataclass(frozen=True)
class Preimage(Answer):
    """The first configuration that maps to the given one, whose middle begins at the cell `start`. It is
    true."""
    start: int
    tail: Tail

    @property
    def text(self) -> str:
        return line("preimage", self.start, self.tail)

    def __bool__(self) -> Literal[True]:
        return True

    def _repr_html_(self) -> str:
        return table([["preimage", str(self.tail)], ["its middle begins at cell", str(self.start)]])


@dataclass(frozen=True)
class Gap(Answer):
    """That nothing maps to the given configuration: `left` of its left periods, its middle and `right` of its
    right ones are an orphan, `word`. It is false."""
    left: int
    right: int
    word: str

    @property
    def text(self) -> str:
        return line("no preimage", self.left, self.right, self.word)

    def __bool__(self) -> Literal[False]:
        return False

    def _repr_html_(self) -> str:
        return table([["preimage", "none"], ["orphan", self.word], ["left periods in it", str(self.left)],
                      ["right periods in it", str(self.right)]])


def preimage_of(finding: dict[str, Any]) -> Preimage | Gap:
    """What is found of a configuration."""
    if "gap" in finding:
        gap = finding["gap"]
        return Gap(gap["before"], gap["after"], gap["word"])
    return Preimage(finding["preimage"]["at"], Tail(**finding["preimage"]["tail"]))


# Answers about many rules

@dataclass(frozen=True)
class Summary(Answer):
    """How many rules there are, and how many of them have each property. Summaries of different rules are
    added, many of them by `sum(summaries, Summary())`."""
    rules: int = 0
    surjective: int = 0
    injective: int = 0
    right: int = 0
    left: int = 0
    open: int = 0
    conserving: int = 0

    @property
    def text(self) -> str:
        return "".join(line(part.name, getattr(self, part.name)) for part in fields(Summary))

    def __add__(self, other: Summary) -> Summary:
        if not isinstance(other, Summary):
            return NotImplemented
        return Summary(*(getattr(self, part.name) + getattr(other, part.name) for part in fields(Summary)))

    def _repr_html_(self) -> str:
        return table((part.name, f"{getattr(self, part.name):,}") for part in fields(Summary))


@dataclass(frozen=True)
class ClassSummary(Answer):
    """A summary, and in how many classes the rules lie. Two of these can't be added: they may share a class."""
    counts: Summary
    classes: int

    @property
    def text(self) -> str:
        return self.counts.text + line("classes", self.classes)

    def as_dict(self) -> dict[str, Any]:
        return {**self.counts.as_dict(), "classes": self.classes}
