"""A notebook that is executed: what it shows."""
from __future__ import annotations

import json
import tempfile
import unittest
from pathlib import Path

from .support import output, python_with, retried

CELLS = ("from foursaspen import *\npicture(110)", 'picture(184, "twins")', 'language("2:2:0:t0001")', "decide(184).twins",
         "decide(110).right", "decide(110).right.split", 'preimage(90, "0|1|0")', 'preimage(110, "0|101|0")', "decide(110)",
         "survey(2, 3, 0, 256)")
# That a slow machine loses no output.
PATIENT = [f"--ExecutePreprocessor.{name}_timeout=600" for name in ("startup", "iopub")] + ["--ExecutePreprocessor.timeout=600"]


class Notebook(unittest.TestCase):
    def test_what_it_shows(self) -> None:
        python = python_with("nbconvert, ipykernel", "python3-nbconvert, python3-ipykernel")
        cells: list[dict[str, object]] = [{"cell_type": "code", "execution_count": None, "metadata": {}, "outputs": [], "source": text}
                 for text in CELLS]
        kernel = {"kernelspec": {"name": "python3", "display_name": "Python 3", "language": "python"}}
        with tempfile.TemporaryDirectory() as folder:
            file = Path(folder) / "shown.ipynb"
            file.write_text(json.dumps({"cells": cells, "metadata": kernel, "nbformat": 4, "nbformat_minor": 2}))
            words = [python, "-m", "nbconvert", "--to", "notebook", "--execute", *PATIENT, "--stdout", str(file)]
            shown = json.loads(retried(lambda: output(words)))
        kinds = [set(cell["outputs"][0]["data"]) for cell in shown["cells"]]
        self.assertEqual(kinds, [{"image/svg+xml", "text/plain"}] * 2 + [{"text/html", "text/plain"}] * 8)
        picture = shown["cells"][0]["outputs"][0]["data"]
        self.assertLess(len("".join(picture["text/plain"])), 60)
        self.assertTrue("".join(picture["image/svg+xml"]).startswith("<svg"))


if __name__ == "__main__":
    unittest.main()
