"""All rules of a shape that have a property, one after another or in parts over any executor."""
from __future__ import annotations

import csv
import os
import re
import threading
import time
from collections import deque
from collections.abc import Callable, Generator, Iterable, Iterator
from concurrent.futures import Executor, Future, wait
from dataclasses import dataclass
from itertools import islice, product
from pathlib import Path
from queue import SimpleQueue
from typing import Any, Literal, NamedTuple, SupportsIndex, Union, overload

from .bits import Bit, of_table
from .commands import brief, inverse
from .degrees import degree as degree_of
from .faults import FoursaspenError, UsageError
from .library import library
from .operands import HEX, shape
from .progress import bar_of
from .relations import RuleClass, as_dict, classes_in, write_rows
from .rule_values import DIGITS, Rule, index, items, look_at, refuse, whole
from .sums import Sum, SumWeights
from .surveys import AHEAD, executor_of

PARTS = 64                                      # of a list, at least, where the shape has so many tables
OPEN = 255                                      # no letter: its window is open
LOOK = 0.2                                      # seconds after which it is looked again what there is, and whether to end
QUICK = 0.002                                   # seconds within which tables come quickly
BATCH = 128                                     # tables that are searched at a time where they come quickly

# The properties by their words. The number of each is that of its bit.
PROPERTIES = {"surjective": Bit.SURJECTIVE, "injective": Bit.INJECTIVE, "right": Bit.RIGHT, "left": Bit.LEFT,
              "open": Bit.OPEN, "conserving": Bit.CONSERVING}
# Other words for them.
SYNONYMS = {"onto": "surjective", "reversible": "injective", "bijective": "injective", "one-to-one": "injective",
            "invertible": "injective", "right-closing": "right", "left-closing": "left", "number-conserving": "conserving",
            "conservative": "conserving"}
# Which list of several is gone through: that of the property which fewer rules have.
RARER = (Bit.CONSERVING, Bit.INJECTIVE, Bit.OPEN, Bit.RIGHT, Bit.LEFT, Bit.SURJECTIVE)
Properties = Union[str, Bit, Iterable[Union[str, Bit]]]

NO_RULE = 13                                    # of enum ca_fault


@dataclass(frozen=True)
class Listing:
    """How far a list is: `parts` of `of` parts of the shape are searched, which have `rules` rules of it, and they took
    `seconds`."""
    parts: int
    of: int
    rules: int
    seconds: float

    def __str__(self) -> str:
        return f"{self.parts:,} of {self.of:,} parts, {self.rules:,} rules, {self.seconds:.0f} s"


class Rules(Iterator[Rule]):
    """The rules of a list, each searched when it is asked for: what `rules` gives. `close` ends the search."""

    def __init__(self, found: Generator[Rule, None, None]) -> None:
        self._found = found

    def __next__(self) -> Rule:
        return next(self._found)

    def close(self) -> None:
        """Ends the search, and leaves what no worker has begun."""
        self._found.close()

    def to_csv(self, path: str | os.PathLike[str]) -> int:
        """Writes a line for each rule with all that `as_dict` says of it into a file, the words between bars; how many there are."""
        with open(path, "w", newline="", encoding="utf-8") as file:
            return write_rows(csv.writer(file, lineterminator="\n"), map(as_dict, self))


@overload
def rules(property: Properties, states: SupportsIndex, width: SupportsIndex, offset: SupportsIndex = 0, begin: str = "", *,
          classes: Literal[False] = False, shifts: bool = False, essential: bool = False, every_cell: bool = False,
          inverse_width: SupportsIndex | None = None, keeps: SumWeights | None = None,
          degree: SupportsIndex | None = None, executor: Executor | None = None,
          progress: Callable[[Listing], object] | None = None, bar: bool = False) -> Rules: ...


@overload
def rules(property: Properties, states: SupportsIndex, width: SupportsIndex, offset: SupportsIndex = 0, begin: str = "", *,
          classes: Literal[True], shifts: bool = False, essential: bool = False, every_cell: bool = False,
          inverse_width: SupportsIndex | None = None, keeps: SumWeights | None = None,
          degree: SupportsIndex | None = None, executor: Executor | None = None,
          progress: Callable[[Listing], object] | None = None, bar: bool = False) -> Iterator[RuleClass]: ...


def rules(property: Properties, states: SupportsIndex, width: SupportsIndex, offset: SupportsIndex = 0, begin: str = "", *,
          classes: bool = False, shifts: bool = False, essential: bool = False, every_cell: bool = False,
          inverse_width: SupportsIndex | None = None, keeps: SumWeights | None = None,
          degree: SupportsIndex | None = None, executor: Executor | None = None,
          progress: Callable[[Listing], object] | None = None, bar: bool = False) -> Rules | Iterator[RuleClass]:
    """All rules of a shape that have a property, or several, and whose tables begin so, each once. The properties are
    `surjective`, `injective`, `right`, `left`, `open` and `conserving`, or other words for them, as `reversible`, or Bits;
    `begin` has the first digits of the table. docs/LISTS.md has the order, and which shapes have an end in sight. The offset is
    0 where none is named, and that of a number is -1: a rule of the one offset isn't equal to one of the other.

    `all` has all rules of the shape, by their numbers, which needs no search and so no executor. Of several properties the list of
    one is gone through, and the rules are left out that haven't the others. `essential` leaves out those that ignore their first
    or their last cell, and so have a smaller width too, and `every_cell` those that ignore any cell of the window. `inverse_width`
    leaves out those that have no inverse of at most so many cells, `keeps` those that don't keep the sum of these weights, as the
    function `keeps` takes them, and `degree` those that have another degree. With `classes` the classes of the rules come in place
    of the rules, each with its least rule and with its members that are in the list; with `shifts` rules that only read other
    cells are in one class.

    Without an executor each rule is searched when it is asked for, with some more where they come quickly. An executor, any of
    concurrent.futures whose workers have this package, searches the parts of the shape side by side, and the rules of a part come
    together; the order is the same. A list that is stopped or left ends within a second. `progress` is called with a Listing after
    each part, and `bar` shows a bar of tqdm, or a line on standard error where that isn't installed."""
    everything = isinstance(property, str) and property.lower() == "all"
    wanted = Bit(0) if everything else bits_of(property)
    states, width = shape(states, width)
    begins = index("offset is", "a whole number", offset)
    look_at(states, width, begins)
    if not isinstance(begin, str):
        raise refuse("begin is", "a text of digits", begin)
    size = states ** width
    if len(begin) > size or not re.fullmatch(f"{HEX}*", begin) or max(letters(begin), default=0) >= states:
        raise UsageError(f"begin is at most {size} hexadecimal digits below {states}, and not {begin!r}")
    if progress is not None and not callable(progress):
        raise refuse("progress is", "a function of a Listing", progress)
    narrow = None if inverse_width is None else whole("inverse_width is", inverse_width, 1, 5)
    wanted_degree = None if degree is None else whole("degree is", degree, 1, 16)
    kept = None if keeps is None else Sum.of(states, keeps)
    head, pool = f"{states}:{width}:{begins}:t", executor_of(executor)
    found = (all_rules(states, width, head, begin, progress, bar) if everything else
             listed(next(bit for bit in RARER if bit in wanted), states, width, head, begin, pool, progress, bar))
    if wanted.bit_count() > 1:
        found = (rule for rule in found if wanted in of_table(states, width, bytes(rule.table)))
    if essential:
        found = (rule for rule in found if rule.is_essential)
    if every_cell:
        found = (rule for rule in found if rule.reads_every_cell)
    if kept is not None:
        found = (rule for rule in found if kept.flux(rule) is not None)
    if narrow is not None:
        found = (rule for rule in found if has_inverse(rule, narrow))
    if wanted_degree is not None:
        found = (rule for rule in found if degree_of(rule).degree == wanted_degree)
    return classes_in(found, shifts) if classes else Rules(found)


def bits_of(property: Properties) -> Bit:
    """The properties that are meant, as a sum."""
    expected = f"one of {', '.join(PROPERTIES)}, or a list of them, or all"
    if isinstance(property, Bit):
        if not property:
            raise UsageError(f"property is {expected}, and not none of them")
        return property
    if isinstance(property, str):
        name = property.lower()
        if SYNONYMS.get(name, name) not in PROPERTIES:
            raise UsageError(f"property is {expected}, and not {property!r}")
        return PROPERTIES[SYNONYMS.get(name, name)]
    wanted = Bit(0)
    for one in items("property is", expected, property):
        if not isinstance(one, (str, Bit)):
            raise refuse("property is", expected, one)
        wanted |= bits_of(one)
    return bits_of(wanted)


def has_inverse(rule: Rule, most: int) -> bool:
    """Whether a rule has an inverse that reads at most so many cells."""
    try:
        return inverse(rule).window.letters <= most
    except FoursaspenError:
        return False


def letters(digits: str) -> bytes:
    """The letters that digits stand for."""
    return bytes(int(digit, 16) for digit in digits)


def all_rules(states: int, width: int, head: str, begin: str, progress: Callable[[Listing], object] | None,
              bar: bool) -> Generator[Rule, None, None]:
    """All rules whose tables begin so, by their numbers, and as often as the last letters change how far it is."""
    free = states ** width - len(begin)
    low = free
    while states ** (free - low) < PARTS and low > 0:
        low -= 1
    count, of, begun = 0, states ** (free - low), time.monotonic()
    digits = DIGITS[:states]
    shown = bar_of(of, 0, " parts") if bar else None
    try:
        for place, high in enumerate(product(digits, repeat=free - low), 1):
            tail = "".join(reversed(high))
            for stand in product(digits, repeat=low):
                count += 1
                yield Rule._made(f"{head}{begin}{''.join(reversed(stand))}{tail}")
            if shown is not None:
                shown.update(1)
            if progress is not None:
                progress(Listing(place, of, count, time.monotonic() - begun))
    finally:
        if shown is not None:
            shown.close()


def listed(property: int, states: int, width: int, head: str, begin: str, executor: Executor | None,
           progress: Callable[[Listing], object] | None, bar: bool) -> Generator[Rule, None, None]:
    """The rules part by part, and after each how far the list is."""
    order = library().window_order(property, states, width)
    least = PARTS if executor or progress or bar else 1
    fixed = [bytes(part) for part in parts(states, order, letters(begin), least)]
    begun, count = time.monotonic(), 0
    shown = bar_of(len(fixed), 0, " parts") if bar else None
    try:
        for place, found in enumerate(searched(property, states, width, order, fixed, executor), 1):
            for table in found:
                count += 1
                yield Rule._made(head + "".join(DIGITS[letter] for letter in table))
            if shown is not None:
                shown.update(1)
            if progress is not None:
                progress(Listing(place, len(fixed), count, time.monotonic() - begun))
    finally:
        if shown is not None:
            shown.close()


def parts(states: int, order: bytes, begin: bytes, least: int) -> Iterator[bytearray]:
    """The letters that each part fixes: those of the beginning, and all that can stand at so many of the first other
    windows of the order that there are at least so many parts. The parts ascend as rules do."""
    free = [window for window in order if window >= len(begin)]
    while states ** (len(free) - 1) >= least:
        free.pop()
    for stand in product(range(states), repeat=len(free)):
        fixed = bytearray(begin + bytes([OPEN]) * (len(order) - len(begin)))
        for window, letter in zip(free, stand):
            fixed[window] = letter
        yield fixed


class Stop:
    """Whether the tasks of a list are to end: known to the threads of this process. A worker of another process has one of its
    own, which is never set."""

    def __init__(self) -> None:
        self._event = threading.Event()

    def set(self) -> None:
        self._event.set()

    def is_set(self) -> bool:
        return self._event.is_set()

    def __reduce__(self) -> Any:
        return Stop, ()


class Gathering(NamedTuple):
    """Tables that are asked for: where they come from, how many or all of them, and the list into which they go."""
    found: Iterator[bytes]
    most: int | None
    into: list[bytes]
    done: Future[None]


class Aside:
    """A thread that calls in place of another one, which only waits. A call of the library can't be stopped and may last for
    hours: where nobody waits for it any more it ends at its next rule, or with the process."""

    def __init__(self) -> None:
        self._asked: SimpleQueue[Gathering | None] = SimpleQueue()
        self._left = threading.Event()
        threading.Thread(target=self._work, daemon=True).start()

    def gather(self, found: Iterator[bytes], most: int | None, into: list[bytes]) -> Future[None]:
        """Puts the next tables into a list, so many or all."""
        asked = Gathering(found, most, into, Future())
        self._asked.put(asked)
        return asked.done

    def leave(self) -> None:
        """Says that nobody waits any more."""
        self._left.set()
        self._asked.put(None)

    def _work(self) -> None:
        while (asked := self._asked.get()) is not None:
            try:
                for table in islice(asked.found, asked.most):
                    asked.into.append(table)
                    if self._left.is_set():
                        break
                asked.done.set_result(None)
            except BaseException as fault:
                asked.done.set_exception(fault)


def searched(property: int, states: int, width: int, order: bytes, fixed: list[bytes],
             executor: Executor | None) -> Generator[Iterator[bytes] | list[bytes], None, None]:
    """The tables of each part, in the order of the parts. With an executor so many parts are under way at a time; where
    the list is left, those that threads are at end within a second."""
    if executor is None:
        aside = Aside()
        try:
            for begin in fixed:
                yield waited_for(aside, tables(property, states, width, order, begin))
        finally:
            aside.leave()
        return
    missing, stop = iter(fixed), Stop()
    pending: deque[Future[list[bytes]]] = deque()
    try:
        while True:
            for begin in islice(missing, AHEAD - len(pending)):
                pending.append(executor.submit(part, property, states, width, order, begin, stop))
            if not pending:
                return
            yield pending.popleft().result()
    finally:
        stop.set()
        for future in pending:
            future.cancel()


def waited_for(aside: Aside, found: Iterator[bytes]) -> Iterator[bytes]:
    """The same tables, found by another thread, so that who waits hears Ctrl-C. Each is searched when it is asked for, with some
    more where they come quickly."""
    count = 1
    while True:
        batch: list[bytes] = []
        begun, given, ended = time.monotonic(), 0, False
        done = aside.gather(found, count, batch)
        while not ended:
            ended = bool(wait([done], LOOK).done)
            for table in batch[given:]:
                given += 1
                yield table
        done.result()
        if len(batch) < count:
            return
        count = min(2 * count, BATCH) if time.monotonic() - begun < QUICK else 1


def part(property: int, states: int, width: int, order: bytes, fixed: bytes, stop: Stop) -> list[bytes]:
    """The tables of a part, or where it is stopped the first of them: a task."""
    found: list[bytes] = []
    aside = Aside()
    done = aside.gather(tables(property, states, width, order, fixed), None, found)
    try:
        while not stop.is_set() and not wait([done], LOOK).done:
            pass
    finally:
        aside.leave()
    if done.done():
        done.result()
    return list(found)


def tables(property: int, states: int, width: int, order: bytes, fixed: bytes) -> Iterator[bytes]:
    """The tables of the rules with the property and the fixed letters, one call of the library for each."""
    table = bytes(len(order))
    fault, after = library().next_rule(property, states, width, order, fixed, False, table)
    while not fault:
        yield after
        fault, after = library().next_rule(property, states, width, order, fixed, True, after)
    if fault != NO_RULE:
        raise AssertionError(f"ca_next_rule gives {fault}")


BEGINNING = re.compile(r"([0-9]+):([0-9]+):(-?[0-9]+):t(.*)")


def write_list(property: str, beginning: str, folder: str | None = None) -> Iterator[str]:
    """The lines of a list, as the program `rules` prints them: of each rule whose text begins so, and of their number.
    With a folder the brief certificate of each rule is written into it before its line comes, into a file that is called
    as the rule, with _ for each colon, and .json."""
    read = BEGINNING.fullmatch(beginning)
    if read is None:
        raise UsageError(f"BEGIN is STATES:WIDTH:OFFSET:t and the first digits of the table, and not {beginning!r}")
    states, width, offset = map(int, read.groups()[:3])
    place, count = Path(folder) if folder is not None else None, 0
    found = rules(property, states, width, offset, read[4])
    if place is not None:
        place.mkdir(parents=True, exist_ok=True)
    for count, rule in enumerate(found, 1):
        if place is not None:
            (place / (rule.replace(":", "_") + ".json")).write_text(str(brief(rule)), encoding="utf-8", newline="")
        yield f"{rule}\n"
    yield f"rules {count}\n"
