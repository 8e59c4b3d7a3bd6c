"""How far a long call is: a bar of tqdm where it is installed, and else a line on standard error."""
from __future__ import annotations

import importlib
import sys
import time
from collections.abc import Iterable, Iterator
from typing import Any, TypeVar

OFTEN = 0.2                                     # seconds between two lines
T = TypeVar("T")


class Line:
    """A line on standard error that is written again and again, as a bar of tqdm is: `n` of `of` are done."""

    def __init__(self, of: int | None, done: int, unit: str) -> None:
        self.n, self._of, self._unit = done, of, unit
        self._begun = self._said = time.monotonic()

    def update(self, count: int) -> None:
        self.n += count
        if time.monotonic() - self._said >= OFTEN:
            self._say()

    def close(self) -> None:
        self._say()
        print(file=sys.stderr)

    def _say(self) -> None:
        self._said = time.monotonic()
        of = "" if self._of is None else f" of {self._of:,}"
        text = f"{self.n:,}{of}{self._unit}, {self._said - self._begun:.0f} s"
        print(f"\r{text:<50}", end="", file=sys.stderr, flush=True)


class Said:
    """Says on standard error how far a call is, each text in place of the one before."""

    def __init__(self) -> None:
        self._said = 0.0

    def __call__(self, text: str) -> None:
        if time.monotonic() - self._said >= OFTEN:
            self._said = time.monotonic()
            print(f"\r{text:<50}", end="", file=sys.stderr, flush=True)

    def close(self) -> None:
        print(file=sys.stderr)


def bar_of(of: int | None, done: int = 0, unit: str = " rules") -> Any:
    """A bar of tqdm, or a line where it isn't installed."""
    try:
        return importlib.import_module("tqdm").tqdm(total=of, initial=done, unit=unit, unit_scale=True)
    except ImportError:
        return Line(of, done, unit)


def shown(found: Iterable[T], bar: bool, of: int | None = None, unit: str = " rules") -> Iterator[T]:
    """The same, while a bar shows how many there were."""
    if not bar:
        yield from found
        return
    counter = bar_of(of, 0, unit)
    try:
        for one in found:
            yield one
            counter.update(1)
    finally:
        counter.close()
