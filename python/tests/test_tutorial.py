"""docs/TUTORIAL.md prints what stands there, and docs/tutorial.ipynb is made from it."""
from __future__ import annotations

import doctest
import os
import sys
import tempfile
import unittest

from .support import TOP, output, python_with, retried

PAGE, NOTEBOOK = TOP / "docs" / "TUTORIAL.md", TOP / "docs" / "tutorial.ipynb"
MAKER = TOP / ".ci" / "notebook.py"


class Tutorial(unittest.TestCase):
    def test_the_page(self) -> None:
        """In the top folder, where its checker is. Its files go into a folder of its own."""
        here = os.getcwd()
        os.chdir(TOP)
        try:
            failed, attempted = doctest.testfile(str(PAGE), module_relative=False, verbose=False)
        finally:
            os.chdir(here)
        self.assertEqual(failed, 0)
        self.assertGreater(attempted, 80)

    def test_the_notebook(self) -> None:
        """Its cells are those of the page."""
        output([sys.executable, str(MAKER), str(PAGE), str(NOTEBOOK), "--check"])

    def test_the_notebook_runs(self) -> None:
        """Each cell shows what the page says."""
        python = python_with("nbclient, nbformat, ipykernel", "python3-nbclient, python3-ipykernel")
        with tempfile.TemporaryDirectory() as folder:
            retried(lambda: output([python, str(MAKER), str(PAGE), f"{folder}/tutorial.ipynb", "--run"], folder=str(TOP)))


if __name__ == "__main__":
    unittest.main()
