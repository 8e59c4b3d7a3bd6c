"""A rule as a value: its text, and what the text says. Nothing here calls the library."""
from __future__ import annotations

import inspect
import operator
import re
from collections.abc import Callable, Iterable, Sequence
from itertools import product
from reprlib import repr as short
from typing import TYPE_CHECKING, Any, Protocol, SupportsIndex, Union

from .faults import RuleError, UsageError, WordsError

DIGITS = "0123456789abcdef"
VALUES = bytes.maketrans(DIGITS.encode(), bytes(range(16)))
ELEMENTARY = 256
NUMBERED = 6                                    # states of rules that have numbers, at most
NODES = 16
FARTHEST = 16                                   # cells from its own that a window holds, at most

FORM = re.compile(r"([0-9]{1,2}):([0-9]{1,2}):(-?[0-9]{1,2}):(?:t([0-9a-fA-F]*)|w([0-9]{1,39}))")
BARE = re.compile(r"[0-9]{1,39}")
# What a text of either form begins with.
BEGUN = (re.compile(r"[0-9]{0,39}"),
         re.compile(r"(?:[0-9]{1,2}(?::(?:[0-9]{1,2}(?::(?:-?(?:[0-9]{1,2}(?::(?:t[0-9a-fA-F]*|w[0-9]{0,39})?)?)?)?)?)?)?)?"))


# The calls of the package whose first operand is a rule: no methods of a rule.
CALLS = frozenset((
    "as_dict", "blocks", "brief", "certify", "class_of", "commutes", "compose", "count_preimages", "current", "decide", "degree",
    "erase", "flux", "image", "inverse", "is_involution", "is_linear", "keeps", "kept_sums", "language", "least", "lift", "moved",
    "order", "orphan", "page", "permute", "picture", "power", "preimage", "preimages", "reflect", "same", "shift", "symmetries",
    "time_reversal", "to_dot", "to_networkx", "trim", "undoes", "unlift", "widen", "windows"))


class HasRule(Protocol):
    """A report, verdicts, an inverse, a certificate."""

    @property
    def rule(self) -> str | None: ...


RuleLike = Union[str, SupportsIndex, HasRule]
Word = Union[str, Iterable[SupportsIndex]]


def refuse(name: str, expected: str, value: object) -> TypeError:
    """The error for a value of a type that isn't expected."""
    return TypeError(f"{name} {expected}, and not {short(value)} of type {type(value).__name__}")


def index(name: str, expected: str, value: SupportsIndex) -> int:
    """A whole number of any library; a truth value is none."""
    try:
        if not isinstance(value, bool):
            return operator.index(value)
    except TypeError:
        pass
    raise refuse(name, expected, value)


def whole(name: str, value: SupportsIndex, low: int, high: int) -> int:
    """A whole number within its range."""
    number = index(name, f"a whole number from {low:,} to {high:,}", value)
    if not low <= number <= high:
        raise UsageError(f"{name} {low:,} to {high:,}, and not {number:,}")
    return number


def items(name: str, expected: str, value: Any) -> list[Any]:
    """What a list or an array of any library has; a set has no order, and a mapping is read by its values elsewhere."""
    if isinstance(value, (str, set, frozenset)) or hasattr(value, "keys") or not isinstance(value, Iterable):
        raise refuse(name, expected, value)
    return list(value)


def word_letters(name: str, word: object, states: int) -> list[int]:
    """The letters of a word, which is a text of digits, or a list or an array of whole numbers."""
    if not isinstance(word, str):
        return [whole(f"a letter of {name} is", letter, 0, states - 1)
                for letter in items(f"{name} is", "a text of digits or a list of letters", word)]
    known = DIGITS[:states]
    for digit in word.lower():
        if digit not in known:
            raise UsageError(f"{name} has letters from 0 to {known[-1]}, and not {digit!r}")
    return [known.index(digit) for digit in word.lower()]


class Rule(str):
    """A rule, by its table. It is the text STATES:WIDTH:OFFSET:tTABLE, and has what that says as values:

        >>> rule = Rule(110)
        >>> rule, rule.states, rule.width, rule.offset, rule.number
        (Rule('2:3:-1:t01110110'), 2, 3, -1, 110)
        >>> rule.table
        (0, 1, 1, 1, 0, 1, 1, 0)

    It is made of whatever is taken for a rule, or of a table. The table has the letter of each window in the order of the
    windows' values, 000, 001, 010 and so on: the reverse of the row that Wolfram writes, which `Rule.from_wolfram` takes.

        >>> Rule(states=2, offset=-1, table=[0, 1, 1, 1, 0, 1, 1, 0]) == Rule.from_wolfram("01101110") == rule
        True
        >>> Rule.of(lambda a, b, c: (a + c) % 2, states=2, offset=-1).number
        90

    A number of any shape is handed over with the shape, and without one it is that of an elementary rule. By default a window
    lies round its cell.

        >>> Rule(number=110) == rule, Rule(number=6000, states=2, width=4)
        (True, Rule('2:4:-1:t0000111011101000'))
    """
    __slots__ = ()

    def __new__(cls, rule: RuleLike | None = None, *, states: SupportsIndex | None = None, width: SupportsIndex | None = None,
                offset: SupportsIndex | None = None, table: Iterable[SupportsIndex] | None = None,
                number: SupportsIndex | None = None) -> Rule:
        if number is not None:
            alone = states is None and width is None and 0 <= index("number is", "a whole number", number) < ELEMENTARY
            if rule is not None or table is not None or not alone and (states is None or width is None):
                raise TypeError("a number is handed over with states and width, as Rule(number=6000, states=2, width=4), or is that of "
                                "an elementary rule, as Rule(number=110)")
            return of_shape(2 if states is None else states, 3 if width is None else width, offset, number)
        if table is None:
            if rule is None:
                raise TypeError("a rule is made of a text, of a number, or of states and a table")
            if (states, width, offset) != (None, None, None):
                raise TypeError("states, width and offset go with a table: a rule has its own. The text of a number of another shape "
                                "is STATES:WIDTH:OFFSET:wNUMBER, as '2:4:-1:w6000', and shift gives a rule another offset")
            return rule_of(rule)
        if rule is not None or states is None:
            raise TypeError("a table is handed over with the number of states, as Rule(states=2, table=[0, 1, 1, 0])")
        letters = items("table is", "a list of letters", table)
        return of_table(states, width, 0 if offset is None else offset, letters)

    @classmethod
    def _made(cls, text: str) -> Rule:
        """A rule of a text that is known to be one in the table form."""
        return str.__new__(cls, text)

    @classmethod
    def of(cls, function: Callable[..., Any], *, states: SupportsIndex, width: SupportsIndex | None = None,
           offset: SupportsIndex = 0) -> Rule:
        """The rule that gives on a window what the function gives on its letters. The width is how many letters the function
        takes, where none is named."""
        if not callable(function):
            raise refuse("function is", "a function of letters", function)
        count = whole("states is", states, 2, 16)
        wide = whole("width is", inspected(function) if width is None else width, 2, 5)
        look_at(count, wide, 0)
        letters = [function(*window) for window in product(range(count), repeat=wide)]
        return of_table(count, wide, offset, [int(letter) if isinstance(letter, bool) else letter for letter in letters])

    @classmethod
    def totalistic(cls, states: SupportsIndex, width: SupportsIndex, code: SupportsIndex,
                   offset: SupportsIndex | None = None) -> Rule:
        """The rule of a code of Wolfram's: on a window whose letters have the sum s it gives the digit s of the code in base
        `states`, digit 0 the least significant. By default a window lies round its cell."""
        count, wide = whole("states is", states, 2, 16), whole("width is", width, 2, 5)
        look_at(count, wide, 0)
        sums = wide * (count - 1) + 1
        number = whole("code is", code, 0, count ** sums - 1)
        letters = [number // count ** sum(window) % count for window in product(range(count), repeat=wide)]
        return of_table(count, wide, centred(wide) if offset is None else offset, letters)

    @classmethod
    def from_wolfram(cls, row: str | Iterable[SupportsIndex], states: SupportsIndex = 2,
                     offset: SupportsIndex | None = None) -> Rule:
        """The rule of the row of letters that Wolfram writes, the window of the greatest letters first: 111, 110, .., 000.
        By default a window lies round its cell."""
        if isinstance(row, str):
            if not re.fullmatch("[0-9a-fA-F]+", row):
                raise UsageError(f"row is a letter for each window, as '01101110', and not {short(row)}")
            letters: list[Any] = [int(digit, 16) for digit in row]
        else:
            letters = items("row is", "a text of digits or a list of letters", row)
        wide = width_of(whole("states is", states, 2, 16), len(letters))
        return of_table(states, wide, centred(wide) if offset is None else offset, letters[::-1])

    @property
    def text(self) -> str:
        """The text, and no more than that."""
        return str(self)

    @property
    def states(self) -> int:
        """How many letters there are."""
        return int(self.partition(":")[0])

    @property
    def width(self) -> int:
        """How many cells a window has."""
        return int(self.split(":")[1])

    @property
    def offset(self) -> int:
        """Where the window of a cell begins: so many cells to the right of it, or to the left where it is negative."""
        return int(self.split(":")[2])

    @property
    def table(self) -> tuple[int, ...]:
        """The letter of each window, in the order of the windows' values."""
        return tuple(self.partition("t")[2].encode().translate(VALUES))

    @property
    def number(self) -> int | None:
        """The Wolfram number, or None from seven states on."""
        states = self.states
        if states > NUMBERED:
            return None
        number = 0
        for letter in reversed(self.table):
            number = number * states + letter
        return number

    @property
    def reads(self) -> tuple[int, ...]:
        """The places of a window, from 0 on, whose letters matter."""
        states, table = self.states, self.table
        sizes = [states ** (self.width - 1 - place) for place in range(self.width)]
        return tuple(place for place, size in enumerate(sizes)
                     if any(table[window] != table[window - window // size % states * size] for window in range(len(table))))

    @property
    def is_essential(self) -> bool:
        """Whether the first and the last letter of a window matter, so that no rule of a smaller width does the same. A letter
        between them may not matter: `reads_every_cell`."""
        return {0, self.width - 1} <= set(self.reads)

    @property
    def reads_every_cell(self) -> bool:
        """Whether each letter of a window matters."""
        return len(self.reads) == self.width

    def __repr__(self) -> str:
        return f"Rule({str(self)!r})"

    if not TYPE_CHECKING:                       # for a type checker a rule has its own attributes alone
        def __getattr__(self, name: str) -> Any:
            """AttributeError; for a call of the package, which is no method of a rule, it says what to write."""
            told = f": write {name}(rule), a call of the package" if name in CALLS else ""
            raise AttributeError(f"a rule has no {name!r}{told}")


def rule_of(rule: RuleLike, name: str = "rule", place: int = 1) -> Rule:
    """The rule that is meant; `place` is the number of the operand."""
    if isinstance(rule, Rule):
        return rule
    if isinstance(rule, str):
        return read(rule, place)
    own: Any = getattr(rule, "rule", rule)
    if isinstance(own, str):
        return rule_of(own, name, place)
    if own is None and rule is not None:
        raise UsageError(f"{name} is of type {type(rule).__name__} and has no rule: it would break a limit of rules")
    number = index(f"{name} is", "a text, the number of an elementary rule, an answer that has a rule, or a Rule, which is "
                   "made of a table as Rule(states=2, offset=-1, table=[..])", own)
    if not 0 <= number < ELEMENTARY:
        raise RuleError(place, "number", found=numbers_of(2, 3, number))
    return of_number(2, 3, -1, number)


def read(text: str, place: int = 1) -> Rule:
    """The rule that a text says, by the grammar of docs/COMMANDS.md; RuleError at its first fault."""
    check_words(text)
    form = FORM.fullmatch(text) or BARE.fullmatch(text) and FORM.fullmatch(f"2:3:-1:w{text}")
    if not form:
        end = max(len(begun[0]) for begun in (pattern.match(text) for pattern in BEGUN) if begun)
        raise RuleError(place, "form", end, f"and {short(text)} {said_of(text, end)}")
    states, width, offset = map(int, form.groups()[:3])
    look_at(states, width, offset, place)
    digits, number = form[4], form[5]
    if digits is None:
        if states > NUMBERED:
            raise RuleError(place, "kind", found=f"and not {states}")
        if int(number) >= states ** states ** width:
            behind = (f"; Rule.from_wolfram('{text}') takes this row, from 111 to 000, and its reverse stands behind "
                      f"STATES:WIDTH:OFFSET:t, as 2:3:-1:t{text[::-1]}") if re.fullmatch("[01]{8}", text) else ""
            raise RuleError(place, "number", found=numbers_of(states, width, int(number)) + behind)
        return of_number(states, width, offset, int(number))
    if len(digits) != states ** width:
        raise RuleError(place, "length", found=needs(len(digits), "digit", states ** width))
    for at, digit in enumerate(digits):
        if int(digit, 16) >= states:
            raise RuleError(place, "letter", form.start(4) + at, f"and {digit} at place {form.start(4) + at}, from 0 on, isn't "
                            f"below {states}")
    return Rule._made(f"{states}:{width}:{offset}:t{digits.lower()}")


def said_of(text: str, end: int) -> str:
    """Where a text stops being one of a rule."""
    if not text:
        return "is empty"
    if end == len(text):
        return "ends too early"
    return f"is neither from place {end} on"


def check_words(text: str) -> None:
    """WordsError where a text can't be handed over."""
    if "\0" in text:
        raise WordsError("a word has a character 0")
    try:
        text.encode()
    except UnicodeEncodeError as fault:
        raise WordsError(f"a word has no UTF-8: {fault}") from fault


def look_at(states: int, width: int, offset: int, place: int = 1) -> None:
    """RuleError where there is no rule of this shape."""
    if not 2 <= states <= 16:
        raise RuleError(place, "states", found=f"and not {states}")
    if not 2 <= width <= 5:
        raise RuleError(place, "width", found=f"and not {width}")
    if states ** (width - 1) > NODES:
        raise RuleError(place, "nodes", found=f"and {states} states and width {width} have {states ** (width - 1):,}")
    if offset < -FARTHEST or offset + width - 1 > FARTHEST:
        raise RuleError(place, "offset", found=f"and not {offset} of width {width}")


def look_at_number(states: int, width: int, number: int) -> None:
    """RuleError where there is no rule with this number of this shape."""
    look_at(states, width, 0)
    if states > NUMBERED:
        raise RuleError(1, "kind", found=f"and not {states}")
    if number >= states ** states ** width:
        raise RuleError(1, "number", found=numbers_of(states, width, number))


def numbers_of(states: int, width: int, number: int) -> str:
    return f"from 0 to {states ** states ** width - 1:,}, and not {number:,}"


def needs(count: int, thing: str, size: int) -> str:
    """How many there are, and how many there must be."""
    return f"and has {count:,} {thing}{'' if count == 1 else 's'} and needs {size:,}"


def of_number(states: int, width: int, offset: int, number: int) -> Rule:
    digits = "".join(DIGITS[number // states ** window % states] for window in range(states ** width))
    return Rule._made(f"{states}:{width}:{offset}:t{digits}")


def of_shape(states: SupportsIndex, width: SupportsIndex, offset: SupportsIndex | None, number: SupportsIndex) -> Rule:
    """The rule of a number of any shape, whose windows lie round their cells where no offset is named."""
    count, wide = whole("states is", states, 2, 16), whole("width is", width, 2, 5)
    begin = centred(wide) if offset is None else index("offset is", "a whole number", offset)
    at = index("number is", "a whole number", number)
    look_at(count, wide, begin)
    if count > NUMBERED:
        raise RuleError(1, "kind", found=f"and not {count}")
    if not 0 <= at < count ** count ** wide:
        raise RuleError(1, "number", found=numbers_of(count, wide, at))
    return of_number(count, wide, begin, at)


def of_table(states: SupportsIndex, width: SupportsIndex | None, offset: SupportsIndex, letters: list[Any]) -> Rule:
    """The rule of a table, whose width is told by its length where none is named."""
    count = whole("states is", states, 2, 16)
    wide = width_of(count, len(letters)) if width is None else whole("width is", width, 2, 5)
    begin = index("offset is", "a whole number", offset)
    look_at(count, wide, begin)
    if len(letters) != count ** wide:
        raise RuleError(1, "length", found=needs(len(letters), "letter", count ** wide))
    table = "".join(DIGITS[whole("a letter is", letter, 0, count - 1)] for letter in letters)
    return Rule._made(f"{count}:{wide}:{begin}:t{table}")


def width_of(states: int, letters: int) -> int:
    """The width of a rule whose table has so many letters."""
    for width in range(2, 6):
        if states ** width == letters:
            return width
    sizes = ", ".join(str(states ** width) for width in range(2, 6) if states ** (width - 1) <= NODES)
    raise RuleError(1, "length", found=f"of which {states} states have {sizes}, and not {letters:,}")


def mirror(rule: Rule) -> Rule:
    """The mirrored rule."""
    states, width, table = rule.states, rule.width, rule.table
    digits = ""
    for window in range(len(table)):
        back = 0
        for _ in range(width):
            window, letter = divmod(window, states)
            back = back * states + letter
        digits += DIGITS[table[back]]
    return Rule._made(f"{states}:{width}:{1 - width - rule.offset}:t{digits}")


def renamed(rule: Rule, names: Sequence[int]) -> Rule:
    """The rule with other names of the letters: letter a has the a-th of them."""
    states, width, table = rule.states, rule.width, rule.table
    digits = [""] * len(table)
    for window, letter in enumerate(table):
        value = 0
        for place in reversed(range(width)):
            value = value * states + names[window // states ** place % states]
        digits[value] = DIGITS[names[letter]]
    return Rule._made(f"{states}:{width}:{rule.offset}:t{''.join(digits)}")


def centred(width: int) -> int:
    """The offset of windows that lie round their cells."""
    return -((width - 1) // 2)


def inspected(function: Callable[..., object]) -> int:
    """How many operands a function takes."""
    try:
        taken = inspect.signature(function).parameters.values()
    except (TypeError, ValueError):
        raise TypeError("width is how many letters the function takes, and has to be named here") from None
    if any(one.kind is inspect.Parameter.VAR_POSITIONAL for one in taken):
        raise TypeError("width is how many letters the function takes, and has to be named where it takes any number of them")
    return sum(one.kind in (inspect.Parameter.POSITIONAL_ONLY, inspect.Parameter.POSITIONAL_OR_KEYWORD) for one in taken)
