"""The types: of the package, of these tests, and of a program over them."""
from __future__ import annotations

import sys
import tempfile
import unittest
from pathlib import Path

from .support import ENVIRONMENT, TOP, output, tool


def mypy(*files: str) -> str:
    """What mypy says."""
    words = ["--strict", "--config-file", str(TOP / "python" / "pyproject.toml"), "--cache-dir", "/dev/null", *files]
    return output([tool("mypy", "mypy"), *words], dict(ENVIRONMENT, MYPYPATH=str(TOP / "python")), str(TOP / "python"))


class Types(unittest.TestCase):
    def test_package_tests_and_client(self) -> None:
        self.assertIn("no issues", mypy("foursaspen", "tests", "make_wheel.py"))

    def test_the_client_runs(self) -> None:
        told = output([sys.executable, str(TOP / "python" / "tests" / "client.py")])
        self.assertEqual(told.splitlines(), ["0|0|01 from cell -1 on", "nothing: 01010 is an orphan of 5 letters",
                                             "2 cells, as 2:2:-1:t0011", "01010", "<svg 6 True 7", "format notjson"])

    def test_a_program_that_does_not_narrow(self) -> None:
        program = (TOP / "python" / "tests" / "client.py").read_text()
        with tempfile.TemporaryDirectory() as folder:
            file = Path(folder) / "client.py"
            file.write_text(program.replace("    if found:\n", "    if len(str(found)):\n"))
            with self.assertRaisesRegex(AssertionError, "has no attribute .start."):
                mypy(str(file))


if __name__ == "__main__":
    unittest.main()
