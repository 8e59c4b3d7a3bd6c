"""One step of a rule, or several: the image of a word, of a ring or of a configuration."""
from __future__ import annotations

from dataclasses import dataclass
from typing import SupportsIndex, overload

from .faults import NotFitError, UsageError
from .library import library
from .operands import tail_of
from .report import Answer, Tail, line, table
from .rule_values import DIGITS, Rule, RuleLike, Word, rule_of, whole, word_letters

LONGEST = 1 << 20                               # letters of a word or a middle


@dataclass(frozen=True)
class Image(Answer):
    """A configuration whose middle begins at the cell `start`. Its periods and its middle are the shortest that there are for the
    lengths of the periods."""
    start: int
    tail: Tail

    @property
    def text(self) -> str:
        return line("image", self.start, self.tail)

    def cells(self, start: int, stop: int) -> str:
        """The letters of the cells from `start` on, before `stop`."""
        return self.tail.cells(start - self.start, stop - self.start)

    def _repr_html_(self) -> str:
        return table([["image", str(self.tail)], ["its middle begins at cell", str(self.start)]])


@overload
def image(rule: RuleLike, word: Word, *, ring: None = None, steps: SupportsIndex = 1) -> str: ...


@overload
def image(rule: RuleLike, word: Tail | Image, *, ring: None = None, steps: SupportsIndex = 1) -> Image: ...


@overload
def image(rule: RuleLike, *, ring: Word, steps: SupportsIndex = 1) -> str: ...


def image(rule: RuleLike, word: Word | Tail | Image | None = None, *, ring: Word | None = None,
          steps: SupportsIndex = 1) -> str | Image:
    """What a rule makes of a word, of a `ring` or of a configuration in one step, or in so many. The image of a word has width - 1
    letters fewer for each step, that of a ring as many. A word or a ring is a text, or a list or an array of letters. A
    configuration is a Tail, or an Image, which is what comes of it."""
    known, count = rule_of(rule), whole("steps is", steps, 0, LONGEST)
    if (word is None) == (ring is None):
        raise TypeError("image takes a word or a configuration, or ring=WORD")
    if ring is not None:
        letters = bytes(word_letters("ring", ring, known.states))
        if not letters:
            raise UsageError("ring has at least one letter, and not none")
        for _ in range(count):
            letters = applied(known, (letters, b"", letters), 0, len(letters))
        return text_of(letters)
    if isinstance(word, (Tail, Image)):
        here = word if isinstance(word, Image) else Image(0, tail_of(known, word))
        for _ in range(count):
            here = stepped(known, here)
        return here
    if isinstance(word, str) and "|" in word:
        raise UsageError(f"word is a text of digits, and a configuration is Tail.of({word!r})")
    letters = bytes(word_letters("word", word, known.states))
    fewer = known.width - 1
    if len(letters) < count * fewer:
        raise UsageError(f"word has at least {count * fewer:,} letters, one fewer than a window{' for each step' if count > 1 else ''}"
                         f", and not {len(letters)}")
    for _ in range(count):
        letters = applied(known, (b"\0", letters, b"\0"), -known.offset, len(letters) - fewer)
    return text_of(letters)


def applied(rule: Rule, parts: tuple[bytes, bytes, bytes], first: int, count: int) -> bytes:
    """So many letters of the image of a configuration, from a cell on."""
    if count > LONGEST:
        raise UsageError(f"an image has at most {LONGEST:,} letters, and not {count:,}")
    return library().image(rule.states, rule.width, rule.offset, bytes(rule.table), parts, first, count) if count else b""


def text_of(letters: bytes) -> str:
    """Letters as digits."""
    return "".join(DIGITS[letter] for letter in letters)


def stepped(rule: Rule, before: Tail | Image) -> Image:
    """The image of a configuration."""
    start, tail = (before.start, before.tail) if isinstance(before, Image) else (0, before)
    if isinstance(before, Tail):
        tail = tail_of(rule, before)
    words = [word_letters("tail", part, rule.states) for part in (tail.left, tail.middle, tail.right)]
    if not words[0] or not words[2]:
        raise NotFitError("tail", "leftempty" if not words[0] else "rightempty")
    left, middle, right = map(bytes, words)
    # The windows of the cells before the first one hold letters of the left period alone, and those from the last one on of the
    # right period.
    first, last = 1 - rule.width - rule.offset, len(middle) - rule.offset
    letters = text_of(applied(rule, (left, middle, right), first - len(left), last + len(right) - first + len(left)))
    end = len(letters) - len(right)
    return shortest(start + first, letters[:len(left)], letters[len(left):end], letters[end:])


def shortest(start: int, left: str, middle: str, right: str) -> Image:
    """The configuration with as few letters in its middle as there can be: those that the periods go on with are in these."""
    while middle and middle[0] == left[0]:
        start, left, middle = start + 1, left[1:] + left[0], middle[1:]
    while middle and middle[-1] == right[-1]:
        middle, right = middle[:-1], right[-1] + right[:-1]
    return Image(start, Tail(left, middle, right))
