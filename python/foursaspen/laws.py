"""Laws between rules: whether one undoes another, whether two commute, which changes of names leave a rule as it is or turn it into
its inverse. All of this compares tables of the maps, and none of it is proved."""
from __future__ import annotations

import functools
from collections.abc import Iterator
from itertools import permutations
from typing import NamedTuple, SupportsIndex, Union

from .commands import compose as composed
from .commands import decide
from .faults import NotFitError
from .powers import Power
from .report import Inverse
from .rule_values import DIGITS, NUMBERED, Rule, RuleLike, mirror, renamed, rule_of, whole

MapLike = Union[RuleLike, Inverse]


class Change(NamedTuple):
    """Other names of the letters, letter a has the a-th of `names`, and whether the mirror comes with them."""
    mirrored: bool
    names: str

    def __str__(self) -> str:
        return f"names {self.names}{' in the mirror' if self.mirrored else ''}"

    def of(self, rule: RuleLike) -> Rule:
        """The rule that a rule becomes."""
        known = rule_of(rule)
        return renamed(mirror(known) if self.mirrored else known, [int(name, 16) for name in self.names])


def map_of(like: MapLike, name: str = "rule", place: int = 1) -> Power:
    """The map of a rule, or of an inverse that is too wide to be one."""
    if isinstance(like, Inverse) and like.rule is None:
        table = tuple(int(letter, 16) for letter in like.map)
        states = round(len(table) ** (1 / like.window.letters))
        return Power(states, like.window.letters, like.offset, table).trimmed()
    return Power.of(rule_of(like, name, place))


def both(rule: MapLike, other: MapLike) -> tuple[Power, Power]:
    """Two maps of the same letters."""
    first, second = map_of(rule), map_of(other, "other", 2)
    if first.states != second.states:
        raise NotFitError("states")
    return first, second


def compose(rule: RuleLike, then: RuleLike, *more: RuleLike) -> Rule:
    """The rule that does what the first does, then what the second does, and so on. Where the program says that the result doesn't
    fit, it is tried without the outer cells that it ignores: a rule and its inverse make the identity, whatever their widths are."""
    return in_turn([rule_of(rule), *(rule_of(one, "then", place) for place, one in enumerate((then, *more), 2))])


def power(rule: RuleLike, steps: SupportsIndex) -> Rule:
    """The rule that does in one step what a rule does in so many: `compose` of the rule with itself. No step leaves every
    configuration as it is."""
    known, count = rule_of(rule), whole("steps is", steps, 0, 1000)
    return in_turn([known] * count) if count else Rule._made(f"{known.states}:2:0:t" + "".join(
        letter * known.states for letter in DIGITS[:known.states]))


def in_turn(listed: list[Rule]) -> Rule:
    """The rule that does what these do, one after another; NotFitError, as the program has it, where the whole doesn't fit."""
    try:
        return functools.reduce(composed, listed)
    except NotFitError as fault:
        if len({one.states for one in listed}) == 1:
            made = functools.reduce(lambda first, then: then.after(first), map(Power.of, listed)).rule()
            if made is not None:
                return made
        raise fault


def undoes(other: MapLike, rule: MapLike) -> bool:
    """Whether the first undoes the second: it maps the image of each configuration back to it. Then the second undoes the first,
    too. An answer of `inverse` is one of both even where it is wider than a rule may be, so `undoes(inverse(rule), rule)` confirms
    an inverse."""
    back, step = both(other, rule)
    return back.after(step).is_identity()


def commutes(rule: MapLike, other: MapLike) -> bool:
    """Whether two rules come to the same in either order."""
    first, second = both(rule, other)
    return first.after(second) == second.after(first)


def symmetries(rule: RuleLike) -> tuple[Change, ...]:
    """The changes of names, with the mirror or without, that leave a rule as it is, its offset included. The first one changes
    nothing, and together they are a group. NotFitError from seven states on."""
    known = rule_of(rule)
    if known.states > NUMBERED:
        raise NotFitError("colours")
    own = Power.of(known)
    return tuple(change for change in changes(known.states) if Power.of(change.of(known)) == own)


def time_reversal(rule: RuleLike) -> Change | None:
    """The first involution of the letters, without or with the mirror, that turns a reversible rule into its inverse: rename,
    take a step, rename again, and the step before is undone. None if there is none; NotFitError if the rule isn't reversible, or
    has seven states or more. The first one of a rule that undoes itself changes nothing."""
    known = rule_of(rule)
    if known.states > NUMBERED:
        raise NotFitError("colours")
    report = decide(known)
    if not report.injective:
        assert report.twins is not None
        raise NotFitError("twins", report.twins.first, report.twins.second)
    own = Power.of(known)
    for change in changes(known.states):
        names = [int(name, 16) for name in change.names]
        if all(names[name] == letter for letter, name in enumerate(names)) and \
                Power.of(change.of(known)).after(own).is_identity():
            return change
    return None


def changes(states: int) -> Iterator[Change]:
    """All changes of names, without the mirror first, by their names."""
    for mirrored in (False, True):
        for names in permutations(DIGITS[:states]):
            yield Change(mirrored, "".join(names))
