"""Which sums a rule keeps: all of them, for letters or for words of a few letters; and whether it keeps one.

A sum weighs each word of `range` letters and adds up, round a ring, the weights of the words that begin at each place.
Every rule keeps the trivial ones, which say no more than how many letters the ring has. Each other one that is kept is a
rational combination of the rows and of a trivial one; docs/SUMS.md of the repository says so with examples.
"""
from __future__ import annotations

import json
import math
from collections.abc import Mapping, Sequence
from dataclasses import dataclass, field
from fractions import Fraction
from itertools import product
from numbers import Rational
from typing import Any, SupportsIndex, Union

from .currents import current_of, reach
from .faults import UsageError
from .library import library
from .powers import Power
from .report import Answer, line, table
from .rule_values import DIGITS, Rule, RuleLike, index, refuse, rule_of, whole

MOST_WORDS = 16
HEAVIEST = 1 << 56                              # a weight that the library takes
Number = Union[int, Fraction]
SumWeights = Union[Mapping[str, Any], Mapping[int, Any]]        # by words, or by letters


@dataclass(frozen=True)
class KeptSums(Answer):
    """The sums that a rule keeps.

    `rows` has the weights of each, by the words that don't weigh 0; the words that begin with the letter 0 weigh 0.
    `rings` has, for each other word by which no row begins, a ring. These rings alone show that no more sums are kept:
    whatever keeps their sums is a combination of the rows and of a trivial one."""
    text: str = field(repr=False)
    rule: Rule
    range: int
    rows: tuple[dict[str, int], ...]
    rings: dict[str, str]

    def __hash__(self) -> int:
        return hash((self.rule, self.range, self.text))

    @property
    def fluxes(self) -> tuple[dict[str, int], ...]:
        """The flux of each row, by the words of width + range - 2 letters that have a number other than 0: for each word of
        one letter more, what its image weighs more than its first letters is the number of its first letters but for the
        last less that of its last letters but for the first."""
        words = all_words(self.rule.states, self.rule.width + self.range - 2)
        return tuple(named(words, flux_of(self.rule, self.range, row)) for row in self.rows)

    @property
    def currents(self) -> tuple[dict[str, int], ...]:
        """The current of each row, by the words that have a number other than 0: what moves between neighbours. What the word
        at a cell weighs more in the image than before is the number to the cell's left less the one to its right. As with
        `current` of a report the words are as long as those of `fluxes` where windows hold their own cells, and begin at the
        first cell of the window."""
        rule = self.rule
        words = all_words(rule.states, reach(rule.width, rule.offset, self.range))
        return tuple(named(words, current_of(rule.states, rule.width, rule.offset, self.range, flux_of(rule, self.range, row),
                                             by_values(rule.states, self.range, row))) for row in self.rows)

    def as_dict(self) -> dict[str, Any]:
        """What `python -m foursaspen kept --json` writes, and checkers/sums.py judges."""
        return {"rule": str(self.rule), "range": self.range, "rows": [dict(row) for row in self.rows],
                "fluxes": [dict(flux) for flux in self.fluxes], "rings": dict(self.rings)}

    def as_json(self) -> str:
        """The same as a JSON text."""
        return json.dumps(self.as_dict())

    def _repr_html_(self) -> str:
        words = free_words(self.rule.states, self.range)
        heads = [f"row {place}" for place in range(1, len(self.rows) + 1)]
        lines = [[word, *(str(row.get(word, 0)) for row in self.rows), self.rings.get(word, "")] for word in words]
        return table([["word", *heads, "ring"], *lines])


def kept_sums(rule: RuleLike, range: SupportsIndex = 1) -> KeptSums:
    """All sums that a rule keeps, of weights of words of `range` letters: the rows of the one reduced basis, and rings that
    show that there are no more. There may be at most 16 words of so many letters. A sum of whole numbers is kept where each
    ring, however long, has the sum of its image."""
    known = rule_of(rule)
    letters = whole_range(known.states, range)
    found = library().kept_sums(known.states, known.width, bytes(known.table), letters)
    words = {value: word for value, word in enumerate(all_words(known.states, letters))}
    rows = tuple({words[value]: weight for value, weight in enumerate(row) if weight}
                 for row, count in zip(found.rows, found.counts) if not count and any(row))
    rings = {words[place]: "".join(DIGITS[letter] for letter in ring[:count])
             for place, (ring, count) in enumerate(zip(found.rings, found.counts)) if count}
    return KeptSums(text_of(rows, rings), known, letters, rows, rings)


def kept_counts(rule: Rule) -> tuple[int, ...]:
    """How many rows `kept_sums` has for words of 1 letter, of 2 and so on: each word that doesn't begin with the letter 0 has a row
    or a ring."""
    states, width, table = rule.states, rule.width, bytes(rule.table)
    counts = []
    for letters in ranges(states):
        rings = sum(map(bool, bytes(library().kept_sums(states, width, table, letters).counts)))
        counts.append(states ** letters - states ** (letters - 1) - rings)
    return tuple(counts)


@dataclass(frozen=True)
class Keeps(Answer):
    """Whether a rule keeps a sum, which it is true exactly for. Then `flux` shows it: a number for each word of width + range - 2
    letters that isn't 0, by the word. Otherwise `ring` is the least ring whose image has another sum. With `modulo` sums are the
    same, and numbers of the flux add up, modulo this number."""
    flux: dict[str, Number] | None
    ring: str | None
    modulo: int | None = None

    @property
    def text(self) -> str:
        return line("keeps yes") if self.ring is None else line("keeps no", self.ring)

    def __bool__(self) -> bool:
        return self.ring is None

    def __hash__(self) -> int:
        return hash((self.ring, self.modulo))

    def as_dict(self) -> dict[str, Any]:
        return {"keeps": bool(self), "flux": self.flux, "ring": self.ring, "modulo": self.modulo}


@dataclass(frozen=True)
class Sum:
    """A sum of whole numbers: what words of so many letters weigh, by their values, each so many times too much."""
    letters: int
    weights: tuple[int, ...]
    times: int
    modulo: int | None = None

    @staticmethod
    def of(states: int, weights: SumWeights, modulo: SupportsIndex | None = None) -> Sum:
        letters, weighed = words_weighed(states, weights)
        times = math.lcm(*(number.denominator for number in weighed.values()))
        numbers = [weighed.get(word, Fraction(0)) * times for word in all_words(states, letters)]
        if modulo is None:
            if any(abs(number) > HEAVIEST for number in numbers):
                raise UsageError(f"weights are at most {HEAVIEST:,} on either side of 0, where all are whole, and not "
                                 f"{max((int(number) for number in numbers), key=lambda number: abs(number)):,}")
            return Sum(letters, tuple(map(int, numbers)), times)
        number = whole("modulo is", modulo, 2, HEAVIEST)
        if times > 1:
            raise UsageError("modulo goes with weights that are whole numbers")
        return Sum(letters, tuple(int(weight) % number for weight in numbers), 1, number)

    def flux(self, rule: Rule) -> list[int] | None:
        """The flux by the values of its words, or None where the rule doesn't keep the sum."""
        if self.modulo is None:
            return library().flux(rule.states, rule.width, bytes(rule.table), self.letters, self.weights)
        return self.potential(rule, self.modulo)

    def changes(self, rule: Rule) -> list[int]:
        """What the image of each word of width + range - 1 letters weighs more than its first letters, by its value."""
        over = rule.states ** (rule.width - 1)
        images = Power(rule.states, rule.width, 0, rule.table).images(self.letters)
        return [self.weights[image] - self.weights[word // over] for word, image in enumerate(images)]

    def potential(self, rule: Rule, modulo: int) -> list[int] | None:
        """The flux modulo a number, read along the way from the word of zeros to each word."""
        k, changes = rule.states, self.changes(rule)
        size = len(changes) // k
        found = []
        for word in range(size):
            number, here, place = 0, 0, size
            while place > 1:
                place //= k
                here = here % size * k + word // place % k
                number -= changes[here]
                here %= size
            found.append(number % modulo)
        fits = all((found[word // k] - found[word % size] - change) % modulo == 0 for word, change in enumerate(changes))
        return found if fits else None

    def lost(self, rule: Rule) -> str:
        """The least ring whose image has another sum, of a sum that isn't kept."""
        k, changes, size = rule.states, self.changes(rule), rule.width + self.letters - 1
        for length in range(1, 2 * size):
            for ring in product(range(k), repeat=length):
                around, total = ring * (size // length + 2), 0
                for cell in range(length):
                    word = 0
                    for letter in around[cell:cell + size]:
                        word = word * k + letter
                    total += changes[word]
                if total % self.modulo if self.modulo else total:
                    return "".join(DIGITS[letter] for letter in ring)
        raise AssertionError("a sum that isn't kept is lost on a short ring")


def flux(rule: RuleLike, weights: SumWeights, *, modulo: SupportsIndex | None = None) -> dict[str, Number] | None:
    """The flux of a sum that somebody has in mind, or None where the rule doesn't keep it. `weights` has what words of one
    length weigh, whole numbers or fractions; other words weigh 0. The flux is by the words of width + range - 2 letters that
    have a number other than 0, as in `KeptSums.fluxes`, and empty where the sum stays at each place. With `modulo` the weights are
    whole, and so is the flux, from 0 to modulo - 1; this isn't proved."""
    known = rule_of(rule)
    asked = Sum.of(known.states, weights, modulo)
    found = asked.flux(known)
    if found is None:
        return None
    words = all_words(known.states, known.width + asked.letters - 2)
    return {word: shown(Fraction(number, asked.times)) for word, number in named(words, found).items()}


def keeps(rule: RuleLike, weights: SumWeights, *, modulo: SupportsIndex | None = None) -> Keeps:
    """Whether a rule keeps a sum that somebody has in mind, with what shows it: the flux, or the least ring that loses it. `flux`
    says what the operands are. With `modulo=2` it is the parity of the sum, and so on."""
    known = rule_of(rule)
    asked = Sum.of(known.states, weights, modulo)
    found = flux(known, weights, modulo=modulo)
    return Keeps(found, asked.lost(known) if found is None else None, asked.modulo)


def current(rule: RuleLike, weights: SumWeights) -> dict[str, Number] | None:
    """What moves between neighbours of a sum that somebody has in mind, or None where the rule doesn't keep it: by words, as
    `KeptSums.currents` has it. `flux` says what the weights are."""
    known = rule_of(rule)
    asked = Sum.of(known.states, weights)
    found = asked.flux(known)
    if found is None:
        return None
    numbers = current_of(known.states, known.width, known.offset, asked.letters, found, asked.weights)
    words = all_words(known.states, reach(known.width, known.offset, asked.letters))
    return {word: shown(Fraction(number, asked.times)) for word, number in named(words, numbers).items()}


def words_weighed(states: int, weights: SumWeights) -> tuple[int, dict[str, Fraction]]:
    """How many letters the words have, and what each weighs that is named."""
    if not isinstance(weights, Mapping):
        raise refuse("weights are", "a dict of words and what they weigh, as {'10': 1}", weights)
    known: dict[str, Fraction] = {}
    for word, weight in weights.items():
        if not isinstance(word, str):           # a letter as a number, as weights of letters may have it
            expected = f"a text of digits, or a letter from 0 to {states - 1}"
            letter = index("a word of weights is", expected, word)
            if not 0 <= letter < states:
                raise refuse("a word of weights is", expected, word)
            word = DIGITS[letter]
        if word == "" or set(word.lower()) - set(DIGITS[:states]):
            raise UsageError(f"words of weights have letters from 0 to {DIGITS[states - 1]}, and not {word!r}")
        if isinstance(weight, bool) or not isinstance(weight, Rational):
            weight = index(f"the weight of {word} is", "a whole number or a fraction", weight)
        known[word.lower()] = Fraction(int(weight.numerator), int(weight.denominator))
    sizes = sorted({len(word) for word in known})
    if len(sizes) != 1:
        raise UsageError("weights are of words of one length, and not of " + (" and ".join(map(str, sizes)) or "no word"))
    return whole_range(states, sizes[0]), known


def shown(number: Fraction) -> Number:
    """A whole number as one."""
    return int(number) if number.denominator == 1 else number


def whole_range(states: int, range: SupportsIndex) -> int:
    """How many letters the words have, where they have one and there are few enough."""
    letters = index("range is", "a whole number", range)
    most = ranges(states)[-1]
    if not 1 <= letters <= most:
        raise UsageError(f"range is 1 to {most}, since there are at most {MOST_WORDS} words of so many letters, "
                         f"and not {letters}")
    return letters


def ranges(states: int) -> list[int]:
    """How many letters the words may have."""
    return [letters for letters in (1, 2, 3, 4) if states ** letters <= MOST_WORDS]


def all_words(states: int, letters: int) -> list[str]:
    """The words of so many letters, by their values."""
    words = [""]
    for _ in range(letters):
        words = [word + digit for word in words for digit in DIGITS[:states]]
    return words


def free_words(states: int, letters: int) -> list[str]:
    """Those that don't begin with the letter 0."""
    return [word for word in all_words(states, letters) if word[0] != "0"]


def named(words: list[str], numbers: Sequence[int]) -> dict[str, int]:
    """The numbers other than 0, by their words."""
    return {word: number for word, number in zip(words, numbers) if number}


def by_values(states: int, letters: int, row: Mapping[str, int]) -> list[int]:
    """The weights of a row, by the values of the words."""
    return [row.get(word, 0) for word in all_words(states, letters)]


def text_of(rows: tuple[dict[str, int], ...], rings: dict[str, str]) -> str:
    """A line for each row, and one for each ring behind the word by which no row begins."""
    lines = ["row " + " ".join(f"{word}:{weight}" for word, weight in row.items()) for row in rows]
    lines += [f"ring {word} {ring}" for word, ring in rings.items()]
    return "".join(f"{line}\n" for line in [f"rows {len(rows)}", *lines])


def flux_of(rule: Rule, letters: int, row: dict[str, int]) -> list[int]:
    """The flux of a row, by the values of the words."""
    found = library().flux(rule.states, rule.width, bytes(rule.table), letters, by_values(rule.states, letters, row))
    assert found is not None                    # a row is kept
    return found
