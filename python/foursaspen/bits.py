"""What holds of a rule, and of many rules with consecutive numbers, in a byte for each."""
from __future__ import annotations

import ctypes
from collections.abc import Iterable
from enum import IntFlag
from typing import SupportsIndex

from .faults import RuleError
from .library import library
from .operands import shape
from .rule_values import index, items, look_at, look_at_number, needs, whole

PART = 1 << 20                                  # rules of one call of the library: a second at most
MOST_NUMBERS = 1 << 128                         # a number of a rule is below this


class Bit(IntFlag):
    """What the byte of a rule is the sum of: those that hold."""
    SURJECTIVE = 1
    INJECTIVE = 2
    RIGHT = 4
    LEFT = 8
    OPEN = 16
    CONSERVING = 32


def verdicts(states: SupportsIndex, width: SupportsIndex, table: Iterable[SupportsIndex]) -> Bit:
    """What holds of the rule with this table, at offset 0: the letter of each window, in the order of the windows'
    values. Neither a text nor evidence is made, so it takes some microseconds."""
    states, width = shape(states, width)
    given = items("table is", "a list of letters, one for each window", table)
    letters = bytes(whole("a letter is", letter, 0, states - 1) for letter in given)
    look_at(states, width, 0)
    if len(letters) != states ** width:
        raise RuleError(1, "length", found=needs(len(letters), "letter", states ** width))
    return of_table(states, width, letters)


def of_table(states: int, width: int, letters: bytes) -> Bit:
    """What holds of the rule with a table that is one."""
    found = library().verdicts(states, width, letters)
    assert not found.fault, found.fault
    held = (found.surjective, found.injective, found.right, found.left, found.is_open, found.conserving)
    return Bit(sum(1 << place for place, holds in enumerate(held) if holds))


def verdict_bytes(states: SupportsIndex, width: SupportsIndex, first: SupportsIndex, count: SupportsIndex) -> bytes:
    """What holds of so many rules of a shape, from the one with the number `first` on: byte i is the sum of the Bits
    of the rule with the number first + i, at offset 0. A shape or a number without a rule is a RuleError, before
    anything is worked out.

    The library is called for a million rules at a time, and Python's other threads run meanwhile."""
    states, width = shape(states, width)
    number = index("first is", "a whole number", first)
    if number < 0:
        look_at_number(states, width, 0)        # a shape that is refused is refused first
        whole("first is", number, 0, states ** states ** width - 1)
    first = whole("first is", number, 0, MOST_NUMBERS - 1)
    count = whole("count is", count, 0, MOST_NUMBERS)
    if count == 0:
        return b""
    look_at_number(states, width, first + count - 1)
    written = bytearray(count)
    for start in range(0, count, PART):
        room = (ctypes.c_char * min(PART, count - start)).from_buffer(written, start)
        fault = library().verdict_bytes(states, width, first + start, room)
        assert not fault, fault
    return bytes(written)
