"""What may be an operand, and the word of a command line that it becomes.

What is of another type is a TypeError, and what is out of its range or hasn't its form a UsageError that says what it
may be, both before any call. So is a rule or a shape that is refused, a RuleError, and what doesn't fit the rule's letters,
a NotFitError.
"""
from __future__ import annotations

import json
import os
import re
from collections.abc import Iterable, Mapping
from pathlib import Path
from reprlib import repr as short
from typing import IO, Any, SupportsIndex, Union

from .faults import NotFitError, UsageError, WordsError
from .report import Certificate, Tail
from .rule_values import DIGITS, Rule, RuleLike, index, items, refuse, whole

MOST = 4096                                     # rules of a call
HEX = "[0-9a-fA-F]"
HEAVIEST = 255                                  # a weight that is handed over

Weights = Union[str, Iterable[SupportsIndex], Mapping[int, SupportsIndex]]
Letters = Union[str, Iterable[SupportsIndex], Mapping[int, SupportsIndex]]
CertificateLike = Union[Certificate, str, bytes, bytearray, memoryview, os.PathLike[str], Mapping[str, Any], IO[str], IO[bytes]]


def shape(states: SupportsIndex, width: SupportsIndex) -> tuple[int, int]:
    return whole("states is", states, 2, 16), whole("width is", width, 2, 5)


def by_letters(name: str, given: Mapping[Any, Any], states: int, default: int | None = None) -> list[Any]:
    """The values of a mapping at the letters 0 to states - 1; a letter may be its digit. It has to have them all, unless there is a
    default, and no others."""
    known: dict[int, Any] = {}
    for key, value in given.items():
        letter = DIGITS.find(key.lower()) if isinstance(key, str) and len(key) == 1 else key
        known[index(f"a letter of {name} is", f"a whole number from 0 to {states - 1}", letter)] = value
    if default is not None and set(known) <= set(range(states)):
        known = {**dict.fromkeys(range(states), default), **known}
    if sorted(known) != list(range(states)):
        raise UsageError(f"{name} have the letters 0 to {states - 1}, and not {', '.join(map(str, sorted(known))) or 'none'}")
    return [known[letter] for letter in range(states)]


def weights_of(rule: RuleLike, weights: Weights | None) -> Weights | None:
    """The weights that are given, or else those that an answer has."""
    own: Weights | None = None if isinstance(rule, str) else getattr(rule, "weights", None)
    return own if weights is None else weights


def weight_numbers(states: int, weights: Weights) -> tuple[int, ...]:
    """What each letter weighs: so many whole numbers, of which the greatest is at most 255 more than the least."""
    expected = "a text or whole numbers, one for each letter"
    if isinstance(weights, str):
        if not re.fullmatch("-?[0-9]{1,9}(,-?[0-9]{1,9})*", weights):
            raise UsageError(f"weights are whole numbers with one comma between, as '0,1', and not {short(weights)}")
        listed: list[Any] = [int(part) for part in weights.split(",")]
    elif isinstance(weights, Mapping):
        listed = by_letters("weights", weights, states, 0 if weights else None)
    else:
        listed = items("weights are", expected, weights)
    numbers = tuple(index("weights are", "whole numbers", weight) for weight in listed)
    if len(numbers) != states:
        raise NotFitError("weights", why=f"there must be one weight for each of the {states} letters, and there "
                          f"{'is' if len(numbers) == 1 else 'are'} {len(numbers)}")
    if max(numbers) - min(numbers) > HEAVIEST:
        raise UsageError(f"weights are whole numbers of which the greatest is at most {HEAVIEST} more than the least, and not "
                         f"{min(numbers):,} and {max(numbers):,}")
    return numbers


def weights_word(numbers: tuple[int, ...]) -> str:
    """The operand WEIGHTS: the numbers from 0 to 255, or else each less the least of them. One number more or less for all
    letters is as much more or less for a ring and for its image, so no verdict and no flux is another one."""
    less = 0 if 0 <= min(numbers) and max(numbers) <= HEAVIEST else min(numbers)
    return ",".join(str(number - less) for number in numbers)


def own_weights(states: int, numbers: tuple[int, ...] | None) -> tuple[int, ...] | None:
    """None where each letter weighs its own value, as answers have it."""
    return None if numbers == tuple(range(states)) else numbers


def tail_of(rule: Rule, tail: Tail | str) -> Tail:
    """A configuration of a rule's letters."""
    if not isinstance(tail, (Tail, str)):
        raise refuse("tail is", "a Tail or a text LEFT|MIDDLE|RIGHT", tail)
    known = tail if isinstance(tail, Tail) else Tail.of(tail)
    for name in ("left", "right"):
        if not getattr(known, name):
            raise NotFitError("tail", f"{name}empty")
    for part in (known.left, known.middle, known.right):
        if len(part) > 1024:
            raise NotFitError("tail", "long")
    for digit in known.left + known.middle + known.right:
        if int(digit, 16) >= rule.states:
            raise NotFitError("tail", "letter", why=f"each letter of a configuration must be below {rule.states}, and {digit} "
                              "isn't")
    return known


def digits_text(states: int, digits: Letters) -> str:
    """The operand DIGITS."""
    expected = "a text or whole numbers from 0 to 15, one for each letter"
    if isinstance(digits, Mapping):
        digits = by_letters("digits", digits, states)
    text = digits if isinstance(digits, str) else "".join(
        f"{whole('digits are', digit, 0, 15):x}" for digit in items("digits are", expected, digits))
    if not re.fullmatch(f"{HEX}{{1,16}}", text):
        raise UsageError(f"digits are 1 to 16 hexadecimal digits, one for each letter, and not {short(text)}")
    if sorted(text.lower()) != list(DIGITS[:states]):
        raise NotFitError("permutation", why=f"the digits must name each of the letters 0 to {DIGITS[states - 1]} once, and are "
                          f"{text}")
    return text


def certificate_bytes(certificate: CertificateLike) -> bytes:
    """The text of a certificate as bytes. A text without a brace that names a file, or ends in .json, is a path."""
    data: Any = certificate.text if isinstance(certificate, Certificate) else certificate
    if isinstance(data, os.PathLike) or isinstance(data, str) and is_path(data):
        data = Path(data).read_bytes()
    elif isinstance(data, Mapping):
        data = json.dumps(dict(data))
    elif hasattr(data, "read"):
        data = data.read()
    if isinstance(data, str):
        try:
            return data.encode()
        except UnicodeEncodeError as fault:
            raise WordsError(f"certificate has no UTF-8: {fault}") from fault
    try:
        return memoryview(data).tobytes()
    except TypeError as fault:
        raise refuse("certificate is", "a Certificate, a text, bytes, a dict, a path or an open file", certificate) from fault


def is_path(text: str) -> bool:
    if not text or "{" in text or "\n" in text or "\0" in text or len(text) > 4096:
        return False
    return text.endswith(".json") or os.path.isfile(text)

