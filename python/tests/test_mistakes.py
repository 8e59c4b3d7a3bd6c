"""Calls that people write at first, some of them right and most of them wrong: mistakes.txt has each with what it gives, or with the
exception and the words that name the operand and say what it may be."""
from __future__ import annotations

import pathlib
import unittest
from collections.abc import Iterator
from pathlib import Path
from typing import Any

import foursaspen

from .support import ENVIRONMENT, output, python_with

FILE = Path(__file__).with_name("mistakes.txt")
ARRAYS = """from tests import test_mistakes
for call, wanted in test_mistakes.calls():
    if "np." in call:
        assert test_mistakes.said(call, wanted) == wanted, (call, test_mistakes.said(call, wanted))
print("all as they are to be")
"""


class Nothing:
    """What is no operand of anything."""


def calls() -> Iterator[tuple[str, str]]:
    """The calls, and of each what is wanted."""
    lines = FILE.read_text().splitlines()
    for call, wanted in zip(lines[::2], lines[1::2]):
        yield call, wanted.strip()


def said(call: str, wanted: str) -> str:
    """What is wanted, where it comes; else what comes in its place."""
    names: dict[str, Any] = {**{name: getattr(foursaspen, name) for name in foursaspen.__all__}, "foursaspen": foursaspen,
                             "pathlib": pathlib, "Nothing": Nothing, "Tail": foursaspen.Tail}
    if "np." in call:
        names["np"] = __import__("numpy")
    try:
        value = eval(call, names)
    except Exception as fault:
        kind, text = type(fault).__name__, str(fault)
        return wanted if wanted.startswith(f"{kind}: ") and wanted[len(kind) + 2:] in text else f"{kind}: {text}"
    shown = f"gives {len(value)} rules" if isinstance(value, list) else f"gives {value!r}"
    return wanted if wanted in (shown, f"gives {type(value).__name__}") else shown


class Mistakes(unittest.TestCase):
    def test_each_message_says_what_is_wrong(self) -> None:
        count = 0
        for call, wanted in calls():
            count += 1
            if "np." not in call:
                with self.subTest(call=call):
                    self.assertEqual(said(call, wanted), wanted)
        self.assertEqual(count, 149)

    def test_arrays(self) -> None:
        python = python_with("numpy", "python3-numpy")
        self.assertEqual(output([python, "-c", ARRAYS], ENVIRONMENT), "all as they are to be\n")

    def test_words_that_name_nothing(self) -> None:
        """No message is of the inside of the package."""
        for call, wanted in calls():
            if "Error: " in wanted and "np." not in call:
                self.assertNotRegex(wanted, "__init__|not iterable|has no attribute '(?!rule|nope)|ZeroDivision|cannot unpack")


if __name__ == "__main__":
    unittest.main()
