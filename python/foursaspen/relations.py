"""Rules and their kin: classes, rules that undo themselves, and all that is known of a rule in one row."""
from __future__ import annotations

import math
from collections.abc import Iterable, Iterator
from itertools import permutations, product
from operator import itemgetter
from typing import Any, NamedTuple, SupportsIndex

from .commands import decide, inverse, least, trim
from .degrees import degree
from .faults import NotFitError
from .moves import moved_rings, rings_of
from .powers import Power
from .report import Report, barred, flat
from .rule_values import DIGITS, NUMBERED, Rule, RuleLike, mirror, renamed, rule_of, whole
from .sums import kept_counts

RINGS = 1024                                    # of one length that are turned round


class RuleClass(NamedTuple):
    """Rules that can be made of each other by other names of the letters, by the mirror or by both, and the one of the least
    number."""
    least: Rule
    members: tuple[Rule, ...]


def class_of(rule: RuleLike) -> RuleClass:
    """All rules of the class of a rule, at the offset of the rule, by their numbers; NotFitError from seven states on."""
    known = rule_of(rule)
    first = Rule(states=known.states, offset=known.offset, table=least(known).table)
    names = list(permutations(range(known.states)))
    members = {renamed(side, order) for side in (first, mirror(first)) for order in names}
    here = {Rule(states=one.states, offset=known.offset, table=one.table) for one in members}
    return RuleClass(first, tuple(sorted(here, key=lambda one: one.table[::-1])))


def classes_in(found: Iterable[Rule], shifts: bool = False) -> Iterator[RuleClass]:
    """The classes of rules, in the order of their first ones, each with those of its rules that are there. With `shifts` rules
    that only read other cells are in one class too."""
    members: dict[Rule, list[Rule]] = {}
    for rule in found:
        members.setdefault(least(trim(rule) if shifts else rule), []).append(rule)
    for first, those in members.items():
        yield RuleClass(first, tuple(those))


def shape_classes(states: int, width: int, offset: int) -> Iterator[RuleClass]:
    """The classes of all rules of a shape, by their least numbers. Each rule is met once: the first one of a class, by its number, is
    its least one, and the others are made of it."""
    words, digits = list(product(range(states), repeat=width)), DIGITS[:states]
    changes = []                                # where the letter of each window comes from, and its new name
    for names in permutations(range(states)):
        back = [names.index(letter) for letter in range(states)]
        named = str.maketrans(digits, "".join(digits[name] for name in names))
        for turn in (1, -1):
            places = [value_of(states, [back[letter] for letter in word][::turn]) for word in words]
            changes.append((itemgetter(*places), named))
    met = bytearray(states ** len(words))
    head = f"{states}:{width}:{offset}:t"
    for number in range(len(met)):
        if met[number]:
            continue
        table = "".join(digits[number // states ** window % states] for window in range(len(words)))
        members = {}
        for moved, named in changes:
            made = "".join(moved(table)).translate(named)
            members[int(made[::-1], states)] = made
        for member in members:
            met[member] = 1
        found = tuple(Rule._made(head + members[member]) for member in sorted(members))
        yield RuleClass(found[0], found)


def value_of(states: int, word: Iterable[int]) -> int:
    value = 0
    for letter in word:
        value = value * states + letter
    return value


def is_linear(rule: RuleLike) -> bool:
    """Whether a rule is linear up to a constant: it adds up multiples of the letters of the window and a constant, modulo the number
    of states."""
    known = rule_of(rule)
    k, m, table = known.states, known.width, known.table
    times = [table[k ** (m - 1 - place)] - table[0] for place in range(m)]
    return all((table[0] + sum(a * b for a, b in zip(times, window)) - letter) % k == 0
               for window, letter in zip(product(range(k), repeat=m), table))


def is_involution(rule: RuleLike) -> bool:
    """Whether a rule undoes itself."""
    known = Power.of(rule_of(rule))
    return known.after(known).is_identity()


def order(rule: RuleLike, most: SupportsIndex = 12) -> int | None:
    """The least number of steps after which a rule has brought every configuration back, where it is at most `most`; else
    None. UsageError where the powers of the rule become too large to tell."""
    known, steps = rule_of(rule), whole("most is", most, 1, 1000)
    turns = 1                                   # which divides the order, as long as rings say
    for length in range(1, 2 + int(math.log(RINGS, known.states))):
        for ring in product(range(known.states), repeat=length):
            period = returning(known, ring, steps)
            if period is None or math.lcm(turns, period) > steps:
                return None
            turns = math.lcm(turns, period)
    step = Power.of(known)
    power = step
    for count in range(1, steps + 1):
        if count % turns == 0 and power.is_identity():
            return count
        power = power.after(step)
    return None


def returning(rule: Rule, ring: tuple[int, ...], steps: int) -> int | None:
    """After how many steps a ring is back, where these are few enough."""
    k, width, table = rule.states, rule.width, rule.table       # a rule is a text, and each of these reads it
    turn, more = rule.offset % len(ring), -(-width // len(ring)) + 1
    here = ring
    for count in range(1, steps + 1):
        round_it = here[turn:] + here * more
        image = []
        for cell in range(len(ring)):
            window = 0
            for letter in round_it[cell:cell + width]:
                window = window * k + letter
            image.append(table[window])
        here = tuple(image)
        if here == ring:
            return count
    return None


def as_dict(rule: RuleLike) -> dict[str, Any]:
    """All that is known of a rule in one row of values that JSON and a cell of a table have room for: the verdicts and their
    evidence, the inverse as a rule, the least rule of its class at the offset of the rule, how many sums it keeps of words of 1
    letter, of 2 and so on, the least ring that it only moves for each cell of its window, its degree, the fewest last nodes and
    first nodes that a word has, and its flow. None where there is no such thing."""
    return row_of(decide(rule))


def row_of(report: Report) -> dict[str, Any]:
    """The same of the rule of a report."""
    known = report.rule
    row = report.as_dict()
    row["inverse"] = inverse_of(known) if report.injective else None
    row["least"] = least_at_offset(known) if known.states <= NUMBERED else None
    row["kept_sums"] = flat(kept_counts(known))
    row["moved"] = rings_of(moved_rings(known))
    row |= {"degree": None, "last_nodes": 0, "first_nodes": 0, "flow": None}
    if report.surjective:
        found = degree(known)
        row |= {"degree": found.degree, "last_nodes": found.right, "first_nodes": found.left,
                "flow": None if found.flow is None else str(found.flow)}
    return row


def write_rows(writer: Any, rows: Iterable[dict[str, Any]]) -> int:
    """Writes a line of CSV for each row, the words between bars, below the names of the values; how many rows there were."""
    count = 0
    for count, row in enumerate(rows, 1):
        if count == 1:
            writer.writerow(row)
        row = {**row, "orphan": barred(row["orphan"]), "ring": barred(row["ring"])}
        writer.writerow("" if value is None else value for value in row.values())
    return count


def least_at_offset(rule: Rule) -> Rule:
    """The least rule of a class, at the offset of the rule and not at 0. So a rule that is the least of its class is equal to it."""
    return Rule(states=rule.states, offset=rule.offset, table=least(rule).table)


def inverse_of(rule: Rule) -> Rule | None:
    """The inverse of an injective rule, where it is within the limits of rules."""
    try:
        return inverse(rule).rule
    except NotFitError:                         # its table has too many letters
        return None
