"""Maps of configurations by tables of any width: what comes of rules one after another, where no rule is as wide. None of this is
proved."""
from __future__ import annotations

from dataclasses import dataclass
from itertools import cycle, repeat

from .faults import UsageError
from .rule_values import DIGITS, FARTHEST, NODES, Rule

LARGEST = 1 << 20                               # letters of a table


@dataclass(frozen=True)
class Power:
    """A map of configurations by a table of any width, without cells at the ends that it ignores."""
    states: int
    width: int
    offset: int
    table: tuple[int, ...]

    @staticmethod
    def of(rule: Rule) -> Power:
        return Power(rule.states, rule.width, rule.offset, rule.table).trimmed()

    def trimmed(self) -> Power:
        k, width, offset, table = self.states, self.width, self.offset, self.table
        while width > 1 and table == table[:len(table) // k] * k:
            width, offset, table = width - 1, offset + 1, table[:len(table) // k]
        while width > 1 and all(table[at::k] == table[::k] for at in range(1, k)):
            width, table = width - 1, table[::k]
        return Power(k, width, offset if len(set(table)) > 1 else 0, table)

    def images(self, letters: int) -> list[int]:
        """The values of the images of all words that have so many windows, by the values of the words."""
        k = self.states
        found = list(self.table)
        for _ in range(letters - 1):
            longer = (value * k for value in found for _ in repeat(None, k))
            found = [value + letter for value, letter in zip(longer, cycle(self.table))]
        return found

    def after(self, first: Power) -> Power:
        """What comes of the first map and then of this one."""
        k, width = self.states, self.width + first.width - 1
        if k ** width > LARGEST:
            raise UsageError(f"a power of the rule reads {width} cells, whose table is too large")
        table = tuple(map(self.table.__getitem__, first.images(self.width)))
        return Power(k, width, self.offset + first.offset, table).trimmed()

    def is_identity(self) -> bool:
        return (self.width, self.offset, self.table) == (1, 0, tuple(range(self.states)))

    def rule(self) -> Rule | None:
        """The rule that does the same, if there is one within the limits."""
        k, width, offset, table = self.states, self.width, self.offset, self.table
        if width == 1:                          # a rule reads two cells at least
            before = offset == FARTHEST
            width, offset = 2, offset - before
            table = table * k if before else tuple(letter for letter in table for _ in range(k))
        if width > 5 or k ** (width - 1) > NODES or offset < -FARTHEST or offset + width - 1 > FARTHEST:
            return None
        return Rule._made(f"{k}:{width}:{offset}:t{''.join(DIGITS[letter] for letter in table)}")
