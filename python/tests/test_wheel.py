"""The wheel: unpacked, and installed into fresh environments without a network. Each runs what it holds, with no
variable that names a library."""
from __future__ import annotations

import base64
import csv
import email
import hashlib
import os
import sys
import tempfile
import unittest
import zipfile
from pathlib import Path

import foursaspen

from .support import TOP, output

CODE = """import foursaspen
from foursaspen import library
print(foursaspen.decide(110).orphan, foursaspen.__version__, library.library().path, foursaspen.picture(110)[:4],
      "Garden of Eden" in foursaspen.page(110), len(foursaspen.atlas(2, 2)) > 5000)
"""
# No package index, and no way out of this machine.
ALONE = {name: value for name, value in os.environ.items() if name not in ("CA_LIBRARY", "PYTHONPATH")} | {
    "PIP_NO_INDEX": "1", "PIP_DISABLE_PIP_VERSION_CHECK": "1", "http_proxy": "http://127.0.0.1:9",
    "https_proxy": "http://127.0.0.1:9"}
LIBRARY = str(foursaspen.library.library().path)


class Wheel(unittest.TestCase):
    room: Path
    wheel: Path

    @classmethod
    def setUpClass(cls) -> None:
        room = tempfile.TemporaryDirectory()
        cls.addClassCleanup(room.cleanup)
        cls.room = Path(room.name)
        cls.wheel = Path(output([str(TOP / "wheel"), room.name], dict(ALONE, CA_LIBRARY=LIBRARY)).strip())

    def environment(self, name: str) -> str:
        """The Python of a fresh environment."""
        try:
            output([sys.executable, "-m", "venv", str(self.room / name)], ALONE)
        except AssertionError as fault:
            raise unittest.SkipTest("there is no venv with pip (Debian: python3-venv)") from fault
        return str(self.room / name / "bin" / "python")

    def runs(self, python: str, environment: dict[str, str] = ALONE) -> str:
        """Where the library is that the package finds and runs."""
        orphan, version, library, svg, *pages = output([python, "-c", CODE], environment).split()
        self.assertEqual((orphan, version, svg, pages), ("01010", foursaspen.__version__, "<svg", ["True", "True"]))
        return library

    def test_its_tag(self) -> None:
        self.assertRegex(self.wheel.name, rf"^foursaspen-{foursaspen.__version__}-py3-none-manylinux_2_\d+_\w+\.whl$")

    def test_what_an_index_asks_for(self) -> None:
        """Names and a version in METADATA, a tag as in the file's name, and in RECORD the sum and the size of every file."""
        info = f"foursaspen-{foursaspen.__version__}.dist-info"
        with zipfile.ZipFile(self.wheel) as wheel:
            files = {name: wheel.read(name) for name in wheel.namelist()}
        told = email.message_from_bytes(files[f"{info}/METADATA"])
        self.assertEqual([told[name] for name in ("Metadata-Version", "Name", "Version", "License", "Requires-Python")],
                         ["2.1", "foursaspen", foursaspen.__version__, "MIT", ">=3.10"])
        self.assertEqual(str(told.get_payload()), (TOP / "python" / "README.md").read_text())
        self.assertNotRegex(str(told.get_payload()), r"\]\((?!https?:)")       # an index can't follow a link into the repository
        tags = email.message_from_bytes(files[f"{info}/WHEEL"])
        self.assertEqual((tags["Wheel-Version"], tags["Root-Is-Purelib"]), ("1.0", "false"))
        self.assertEqual(self.wheel.name, f"foursaspen-{foursaspen.__version__}-{tags['Tag']}.whl")
        rows = {name: (told_sum, size) for name, told_sum, size in csv.reader(files[f"{info}/RECORD"].decode().splitlines())}
        self.assertEqual(rows.pop(f"{info}/RECORD"), ("", ""))
        self.assertEqual(rows, {name: ("sha256=" + base64.urlsafe_b64encode(hashlib.sha256(data).digest()).decode().rstrip("="),
                                       str(len(data))) for name, data in files.items() if name != f"{info}/RECORD"})

    def test_the_same_files_make_the_same_wheel(self) -> None:
        with tempfile.TemporaryDirectory() as folder:
            again = Path(output([str(TOP / "wheel"), folder], dict(ALONE, CA_LIBRARY=LIBRARY)).strip())
            self.assertEqual(again.read_bytes(), self.wheel.read_bytes())

    def test_unpacked(self) -> None:
        folder = self.room / "unpacked"
        with zipfile.ZipFile(self.wheel) as wheel:
            wheel.extractall(folder)
            self.assertEqual(len({name for name in wheel.namelist() if ".dist-info/" in name}), 4)
        library = self.runs(sys.executable, dict(ALONE, PYTHONPATH=str(folder)))
        self.assertEqual(library, str((folder / "foursaspen" / "libca_c.so").resolve()))

    def test_installed(self) -> None:
        """By the two commands that docs/PYTHON.md begins with, which end in a picture."""
        commands = [line.strip() for line in (TOP / "docs" / "PYTHON.md").read_text().splitlines()[2:4]]
        self.assertEqual([command.split()[0] for command in commands], ["pip", "python"])
        python = self.environment("installed")
        script = " && ".join(commands).replace("./wheel", f"{TOP}/wheel {self.room}")
        known = dict(ALONE, CA_LIBRARY=LIBRARY, PATH=f"{Path(python).parent}:{ALONE['PATH']}")
        output(["bash", "-c", script], known, str(self.room))
        self.assertEqual((self.room / "rule110.svg").read_text(), (TOP / "docs" / "rule110.svg").read_text())
        self.assertIn("site-packages", self.runs(python))
        shown = output([python, "-m", "pip", "show", "foursaspen"], ALONE)
        for line in (f"Version: {foursaspen.__version__}", "License: MIT", "Summary: Decides properties of one-dimens"):
            self.assertIn(line, shown)
        self.assertEqual(output([python, "-m", "foursaspen", "--version"], ALONE), f"foursaspen {foursaspen.__version__}\n")

    def test_the_repository_installed(self) -> None:
        """By pip, as a copy with the library and to be edited in place."""
        python, known = self.environment("repository"), dict(ALONE, CA_LIBRARY=LIBRARY)
        output([python, "-m", "pip", "install", "-q", str(TOP / "python")], known)
        self.assertIn("site-packages", self.runs(python))
        output([python, "-m", "pip", "install", "-q", "-e", str(TOP / "python")], ALONE)
        self.assertEqual(self.runs(python, known), LIBRARY)


if __name__ == "__main__":
    unittest.main()
