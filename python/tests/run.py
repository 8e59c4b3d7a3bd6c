"""Runs all tests, and ends with how many passed, failed and were skipped.

    python3 python/tests/run.py
"""
from __future__ import annotations

import sys
import unittest
from collections import Counter
from collections.abc import Iterable, Iterator
from pathlib import Path

PYTHON = Path(__file__).resolve().parents[1]


def tests_of(suite: unittest.TestSuite) -> Iterator[unittest.TestCase]:
    for part in suite:
        if isinstance(part, unittest.TestSuite):
            yield from tests_of(part)
        else:
            yield part


def count(results: Iterable[tuple[unittest.TestCase, str]], classes: Counter[str]) -> int:
    """How many tests these are: each once, and all of a class that couldn't be set up."""
    names = {test.id() if test.id().startswith("setUpClass (") else test.id().split(" (")[0] for test, _ in results}
    return sum(classes.get(name.removeprefix("setUpClass (").rstrip(")"), 1) for name in names)


def main() -> int:
    sys.path.insert(0, str(PYTHON))
    suite = unittest.defaultTestLoader.discover(str(PYTHON / "tests"), top_level_dir=str(PYTHON))
    classes = Counter(f"{type(test).__module__}.{type(test).__qualname__}" for test in tests_of(suite))
    result = unittest.TextTestRunner(stream=sys.stderr, verbosity=1).run(suite)
    for why in sorted({why for _, why in result.skipped}):
        print(f"python: {why}: what needs it is skipped")
    skipped, failed = count(result.skipped, classes), count(result.failures + result.errors, classes)
    passed = sum(classes.values()) - failed - skipped
    print(f"{passed} passed, {failed} failed" + (f", {skipped} skipped" if skipped else ""))
    return 0 if result.wasSuccessful() else 1


if __name__ == "__main__":
    sys.exit(main())
