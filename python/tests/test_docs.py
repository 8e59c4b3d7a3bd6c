"""The examples of docs/PYTHON.md and of the package print what stands there."""
from __future__ import annotations

import doctest
import os
import tempfile
import unittest

import foursaspen
from foursaspen import rule_values

from .support import TOP


class Examples(unittest.TestCase):
    def test_the_page(self) -> None:
        """In a folder of its own, into which an example writes."""
        here = os.getcwd()
        with tempfile.TemporaryDirectory() as folder:
            os.chdir(folder)
            try:
                failed, attempted = doctest.testfile(str(TOP / "docs" / "PYTHON.md"), module_relative=False, verbose=False)
            finally:
                os.chdir(here)
            self.assertEqual(os.listdir(folder), ["reversible.csv"])
        self.assertEqual(failed, 0)
        self.assertGreater(attempted, 30)

    def test_the_package(self) -> None:
        self.assertEqual(doctest.testmod(foursaspen, verbose=False), (0, 2))
        self.assertEqual(doctest.testmod(rule_values, verbose=False), (0, 6))


if __name__ == "__main__":
    unittest.main()
