"""One function for each command of docs/COMMANDS.md, which says what each answers.

A rule is a Rule, a text, as `"2:3:-1:t01110110"`, the number of an elementary rule, or an answer that has a rule. Whatever the
program answers with a status other than Done is an exception of foursaspen.faults.
"""
from __future__ import annotations

import math
from collections.abc import Iterable
from itertools import permutations, product
from typing import Any, SupportsIndex

from .calls import finding, reply
from .faults import NotFitError, UsageError
from .library import Outcome, library
from .operands import (MOST, CertificateLike, Letters, Weights, certificate_bytes, digits_text, own_weights, shape, tail_of,
                       weight_numbers, weights_of, weights_word)
from .report import (Certificate, ClassSummary, Gap, Inverse, Language, Pair, Preimage, Report, Same, Summary, Tail,
                     Verdicts, preimage_of)
from .rule_values import (DIGITS, Rule, RuleLike, Word, index, items, look_at, look_at_number, refuse, rule_of, whole,
                          word_letters)


def run(words: Iterable[str], data: bytes = b"") -> Outcome:
    """The program's exit status and output on a command line and an input, whatever they are."""
    listed = items("words are", "a list of texts", words)
    for word in listed:
        if not isinstance(word, str):
            raise refuse("words are", "a list of texts", word)
    if not isinstance(data, (bytes, bytearray)):
        raise refuse("data is", "bytes", data)
    return library().run(listed, bytes(data))


# One rule

def decide(rule: RuleLike, weights: Weights | None = None) -> Report:
    """The report of a rule: each verdict with its least evidence. Where weights are given, one for each letter,
    the sum of a ring is that of its letters' weights. An answer that has weights hands them on."""
    known, numbers, words = weighed(rule, weights)
    return Report._of(finding("decide", known, *words)["report"], own_weights(known.states, numbers))


def orphan(rule: RuleLike) -> str | None:
    """The least word that is the image of none, or None where the rule is surjective."""
    word: str | None = finding("orphan", rule_of(rule))["orphan"]
    return word


def number(rule: RuleLike) -> int | None:
    """The Wolfram number of a rule, or None from seven states on."""
    digits = finding("number", rule_of(rule))["number"]
    return None if digits is None else int(digits)


def certify(rule: RuleLike, weights: Weights | None = None) -> Certificate:
    """The certificate of a rule, of version 2."""
    known, _, words = weighed(rule, weights)
    return Certificate._of(finding("certify", known, *words)["certificate"])


def brief(rule: RuleLike, weights: Weights | None = None) -> Certificate:
    """The short certificate of a rule, of version 3."""
    known, _, words = weighed(rule, weights)
    return Certificate._of(finding("brief", known, *words)["certificate"])


def weighed(rule: RuleLike, weights: Weights | None) -> tuple[Rule, tuple[int, ...] | None, list[str]]:
    """A rule, what its letters weigh where that is said, and the words for it."""
    known, given = rule_of(rule), weights_of(rule, weights)
    if given is None:
        return known, None, []
    numbers = weight_numbers(known.states, given)
    return known, numbers, [weights_word(numbers)]


def check(certificate: CertificateLike) -> Verdicts:
    """The verdicts of a certificate that is accepted; else RefusedError or TooLongError is raised. It may be a
    Certificate, a text, bytes, the object that a text writes, the path of a file, or a file that is open for reading."""
    return Verdicts._of(reply("check", data=certificate_bytes(certificate))["verdicts"])


# Images

def language(rule: RuleLike) -> Language:
    """The least automaton of the words that have a preimage."""
    return Language._of(finding("language", rule_of(rule))["automaton"])


def same(rule: RuleLike, other: RuleLike) -> Same:
    """Whether the same words have a preimage under two rules."""
    first, second = rule_of(rule), rule_of(other, "other", 2)
    return Same(finding("same", first, second)["same"])


def preimage(rule: RuleLike, tail: Tail | str | None = None, *, ring: Word | None = None) -> Preimage | Gap:
    """The first configuration that the rule maps to this one, or to the one that repeats a `ring`; or the orphan in it."""
    known = rule_of(rule)
    if (tail is None) == (ring is None):
        raise TypeError("preimage takes a configuration, or ring=WORD")
    if ring is not None:
        letters = "".join(DIGITS[letter] for letter in word_letters("ring", ring, known.states))
        if not letters:
            raise UsageError("ring has at least one letter, and not none")
        tail = Tail.ring(letters)
    assert tail is not None
    return preimage_of(finding("preimage", known, tail_of(known, tail)))


def erase(rule: RuleLike) -> Pair | None:
    """The least erasable pair, or None where the rule is surjective."""
    pair = finding("erase", rule_of(rule))["erased"]
    return None if pair is None else Pair(*pair)


# Rules made of rules

def inverse(rule: RuleLike) -> Inverse:
    """The map that gives every cell back from the image; NotFitError where the rule isn't injective."""
    return Inverse._of(finding("inverse", rule_of(rule))["inverse"])


def compose(rule: RuleLike, then: RuleLike) -> Rule:
    """The rule that does what the first does, and then what the second does."""
    first, second = rule_of(rule), rule_of(then, "then", 2)
    wide = first.width + second.width - 1
    if first.states == second.states and wide > 5:
        raise NotFitError("width", why=f"the width of the result must be at most 5, and would be {wide}")
    return made("compose", first, second)


def trim(rule: RuleLike) -> Rule:
    """The rule without outer cells that it ignores."""
    return made("trim", rule_of(rule))


def widen(rule: RuleLike, width: SupportsIndex) -> Rule:
    """The rule at a greater width."""
    known, wide = rule_of(rule), whole("width is", width, 2, 5)
    if wide < known.width:
        raise NotFitError("width", why=f"the width must be at least that of the rule, {known.width}, and not {wide}")
    return made("widen", known, wide)


def shift(rule: RuleLike, cells: SupportsIndex) -> Rule:
    """The rule that reads so many cells further to the right."""
    return made("shift", rule_of(rule), whole("cells is", cells, -31, 31))


def reflect(rule: RuleLike) -> Rule:
    """The mirrored rule."""
    return made("reflect", rule_of(rule))


def permute(rule: RuleLike, digits: Letters) -> Rule:
    """The rule with other names of the letters: letter a has the a-th of the digits, or what a mapping has for it."""
    known = rule_of(rule)
    return made("permute", known, digits_text(known.states, digits))


def least(rule: RuleLike) -> Rule:
    """The rule of the least number in the class of a rule."""
    return made("least", rule_of(rule))


def lift(rule: RuleLike) -> Rule:
    """The second-order rule, of pairs of letters, which is reversible."""
    return made("lift", rule_of(rule))


def unlift(rule: RuleLike) -> Rule:
    """The rule that undoes the lift."""
    return made("unlift", rule_of(rule))


def made(command: str, rule: Rule, *words: object) -> Rule:
    """The rule that a command makes."""
    return Rule._made(finding(command, rule, *words)["rule"])


# Many rules

START = 10 ** 39 - 1
SEED = 2 ** 64 - 1
FEW = 2 ** 20                                   # rules of a shape that is surveyed whole by one call


def survey(states: SupportsIndex, width: SupportsIndex, start: SupportsIndex = 0, count: SupportsIndex | None = None) -> Summary:
    """How many of `count` rules, from 1 to 4,096, have each property, by their numbers from `start` on, from 0 to
    K^(K^M) - count where K states have the width M. Without a count it is all rules from `start` on, of a shape that has at most
    1,048,576 of them; `survey_over` takes any shape."""
    if count is not None:
        return Summary(**finding("survey", *numbered(states, width, start, count))["summary"])
    k, m, first, size = rest(states, width, start)
    calls = (finding("survey", k, m, at, min(MOST, size - at))["summary"] for at in range(first, size, MOST))
    return sum((Summary(**one) for one in calls), Summary())


def sample(states: SupportsIndex, width: SupportsIndex, seed: SupportsIndex, count: SupportsIndex) -> Summary:
    """The same of `count` rules, from 1 to 4,096, that are drawn from a seed, from 0 to 2^64 - 1."""
    k, m = shape(states, width)
    at, rules = whole("seed is", seed, 0, SEED), whole("count is", count, 1, MOST)
    look_at(k, m, 0)
    return Summary(**finding("sample", k, m, at, rules)["summary"])


def classes(states: SupportsIndex, width: SupportsIndex, start: SupportsIndex = 0,
            count: SupportsIndex | None = None) -> ClassSummary:
    """The same as `survey`, and in how many classes the rules lie. Without `start` and `count` these are all rules of a shape of at
    most 1,048,576, whose classes are counted by the changes that leave rules as they are (Burnside's lemma), which isn't proved."""
    if count is None and index("start is", "a whole number", start) == 0:
        whole_shape = survey(states, width)
        return ClassSummary(whole_shape, class_count(*shape(states, width)))
    if count is None:
        raise UsageError("classes takes start and count, or neither for a whole shape")
    found: dict[str, Any] = finding("classes", *numbered(states, width, start, count))
    return ClassSummary(Summary(**found["summary"]), found["classes"])


def class_count(states: int, width: int) -> int:
    """In how many classes the rules of a shape lie: the mean number of rules that a change of names, in the mirror or not, leaves
    as they are."""
    total, words = 0, list(product(range(states), repeat=width))
    for names in permutations(range(states)):
        for turn in (1, -1):
            left, once = 1, set(words)
            while once:
                first = word = once.pop()
                length, ends = 1, list(names)
                while (word := tuple(names[letter] for letter in word)[::turn]) != first:
                    once.remove(word)
                    length, ends = length + 1, [names[letter] for letter in ends]
                left *= sum(letter == end for letter, end in enumerate(ends))       # letters that a window may have
            total += left
    return total // (2 * math.factorial(states))


def rest(states: SupportsIndex, width: SupportsIndex, start: SupportsIndex) -> tuple[int, int, int, int]:
    """A shape of few rules, the number of one, and how many rules there are."""
    k, m, first, _ = numbered(states, width, start, 1)
    size: int = k ** k ** m
    if size > FEW:
        raise UsageError(f"{k} states and width {m} have {size:,} rules, and without a count there are at most {FEW:,}: survey_over "
                         "takes any shape")
    return k, m, first, size


def numbered(states: SupportsIndex, width: SupportsIndex, start: SupportsIndex, count: SupportsIndex) -> tuple[int, int, int, int]:
    """A shape, and numbers of its rules: the first one, and how many."""
    k, m = shape(states, width)
    at, rules = whole("start is", start, 0, START), whole("count is", count, 1, MOST)
    look_at_number(k, m, at + rules - 1)
    return k, m, at, rules
