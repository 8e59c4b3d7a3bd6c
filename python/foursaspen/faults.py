"""One exception for each status but Done, and one where there is no library. All are of the class FoursaspenError.

The first words of each text are what the program prints; behind a colon it says what must hold, and what was found.
"""
from __future__ import annotations

from typing import Any

# What must hold of a rule or a shape, by the kind of the fault.
MEANINGS = {
    "form": "a rule must be a number, as 110, or STATES:WIDTH:OFFSET:tTABLE, as 2:3:-1:t01110110",
    "states": "there must be 2 to 16 states",
    "width": "the width must be 2 to 5",
    "nodes": "there must be at most 16 words of width - 1 letters",
    "offset": "the offset must be at least -16, and offset + width - 1 at most 16",
    "kind": "a rule must have at most six states to have a number",
    "length": "the table must have one digit for each window",
    "letter": "each digit of the table must be below the number of states",
    "number": "the number must be that of a rule of the shape",
}

# Why a certificate is refused, by the first word of the reason.
REASONS = {
    "format": "the certificate must be a JSON text of the form that docs/CERTIFICATES.md describes",
    "rank": "a rank must be more than the ranks of all pairs that the pair leads to, or comes from on the left",
    "nofull": "the sets must have that of all nodes among them",
    "emptyset": "no set may be empty",
    "notclosed": "each step from a set must lead to a set that is listed",
    "nofirst": "the pairs must have each pair that two walks from one node come to first",
    "diagonal": "no pair may have two equal nodes",
    "leaves": "each step from a pair must lead to a pair that is listed",
    "orphan": "the orphan must be the image of no word",
    "window": "the window must tell its letter",
    "twins": "the twins must be two different words of one length whose rings share an image",
    "ahead": "the look-ahead must tell the next letter",
    "split": "the split must be two different configurations that agree to one side and share an image",
    "flux": "the flux must fit each window",
    "ring": "the ring must have another sum than its image",
}

# Why nothing can be made of the operands: by the cause, and where commands differ by the key in the JSON form before it.
CAUSES = {
    "twins": "the rule must be injective to have an inverse, and the rings of {0} and {1} share an image",
    "wide": "the inverse must have at most 65,536 words in its table, and it reads {0} cells",
    "weights": "there must be one weight for each letter",
    "colours": "the rule must have at most six states",
    "states": "both rules must have the same number of states",
    "algebra states": "both rules must have the same number of states",
    "width": "the width of the result must be 2 to 5, and not less than that of the rule",
    "nodes": "the result must have at most 16 words of width - 1 letters",
    "offset": "the windows of the result must lie within 16 cells on both sides",
    "permutation": "the digits must name each letter once",
    "lift states": "the rule must have at most four states, since letters become pairs of them",
    "lift nodes": "there must be at most 16 words of width - 1 pairs of letters",
    "centre": "the window of a cell must hold the cell itself: the offset is 1 - width to 0",
    "tail leftempty": "the left period of a configuration must have a letter",
    "tail rightempty": "the right period of a configuration must have a letter",
    "tail long": "each part of a configuration must have at most 1,024 letters",
    "tail letter": "each letter of a configuration must be below the number of states",
}


class FoursaspenError(Exception):
    """Anything but an answer. `code` is the program's exit status, and `output` what it prints then, both as
    docs/COMMANDS.md has them."""

    code: int | None = None

    @property
    def output(self) -> str:
        return ""

    @classmethod
    def _of(cls, reply: dict[str, Any]) -> FoursaspenError:
        """Of what docs/ANSWERS.md says of the status."""
        return cls()


class RefusedError(FoursaspenError):
    """`check` has read a text that is no accepted certificate. `reason` is the first condition that it fails."""
    code = 1

    def __init__(self, reason: str) -> None:
        super().__init__(reason)
        self.reason = reason

    @classmethod
    def _of(cls, reply: dict[str, Any]) -> RefusedError:
        words = [reply[name] for name in ("cause", "side", "because", "key", "fault") if name in reply]
        return cls(" ".join(map(str, words + reply["at"])))

    @property
    def output(self) -> str:
        return f"refused {self.reason}\n"

    def __str__(self) -> str:
        return f"{self.output.rstrip()}: {REASONS[self.reason.split()[0]]}"


class UsageError(FoursaspenError, ValueError):
    """An operand hasn't its form, or is out of its range. The program, where it is asked, says no more than its
    output."""
    code = 2

    def __init__(self, text: str = "usage error") -> None:
        super().__init__(text)

    @property
    def output(self) -> str:
        return "usage error\n"


class RuleError(FoursaspenError):
    """A rule or a shape is refused. `operand` is its number from 1 on, `kind` the first fault, and `place`
    where it is, for the kinds `form` and `letter`. `found` says what there is in place of what must be."""
    code = 3

    def __init__(self, operand: int, kind: str, place: int | None = None, found: str = "") -> None:
        super().__init__(operand, kind, place, found)
        self.operand, self.kind, self.place, self.found = operand, kind, place, found

    @classmethod
    def _of(cls, reply: dict[str, Any]) -> RuleError:
        return cls(reply["operand"], reply["fault"], reply.get("place"))

    @property
    def output(self) -> str:
        place = [] if self.place is None else [str(self.place)]
        return " ".join(["rule fault", str(self.operand), self.kind, *place]) + "\n"

    def __str__(self) -> str:
        return f"{self.output.rstrip()}: {MEANINGS[self.kind]}" + (f", {self.found}" if self.found else "")


class NotFitError(FoursaspenError):
    """Nothing can be made of the operands as the command asks. `cause` is why, and `parts` what stands behind
    it: the twins of a rule that has no inverse, the length of one that is too wide, what is wrong with a
    configuration. `why` says it in words."""
    code = 4

    def __init__(self, cause: str, *parts: str, why: str = "") -> None:
        super().__init__(cause, *parts)
        self.cause, self.parts = cause, parts
        self.why = why or (CAUSES.get(" ".join([cause, *parts])) or CAUSES.get(cause) or "").format(*parts)

    @classmethod
    def _of(cls, reply: dict[str, Any]) -> NotFitError:
        [(key, value)] = reply["cause"].items()
        if key in ("algebra", "lift"):          # whose value is the cause
            return cls(value, why=CAUSES.get(f"{key} {value}", ""))
        return cls(key, *{"twins": value, "wide": [str(value)], "tail": [value]}.get(key, []))

    @property
    def output(self) -> str:
        return " ".join(["notfit", self.cause, *self.parts]) + "\n"

    def __str__(self) -> str:
        return f"{self.output.rstrip()}: {self.why}"


class TooLongError(FoursaspenError):
    """The text for `check` has more than 4,194,304 bytes."""
    code = 5

    def __init__(self, text: str = "too long: a certificate must have at most 4,194,304 bytes") -> None:
        super().__init__(text)

    @property
    def output(self) -> str:
        return "too long\n"


class OutOfMemoryError(FoursaspenError):
    """There was no memory."""
    code = 8


class WordsError(FoursaspenError, ValueError):
    """An operand can't be handed over: it has a character 0, or no UTF-8."""
    code = 9


class LibraryMissingError(FoursaspenError):
    """There is no library, or it is another version's."""


KINDS: dict[int, type[FoursaspenError]] = {
    1: RefusedError, 2: UsageError, 3: RuleError, 4: NotFitError, 5: TooLongError, 8: OutOfMemoryError, 9: WordsError}
