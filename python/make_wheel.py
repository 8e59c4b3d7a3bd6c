"""Makes wheels with the standard library alone: for pip, as PEP 517 and PEP 660 have it, and for ./wheel.

    python3 python/make_wheel.py FOLDER        writes the wheel with the library into the folder, and prints its path
"""
from __future__ import annotations

import base64
import hashlib
import platform
import re
import sys
import zipfile
from pathlib import Path
from typing import Any

HERE = Path(__file__).resolve().parent
sys.path.insert(0, str(HERE))

from foursaspen import __version__  # noqa: E402
from foursaspen.library import NAME, place  # noqa: E402

INFO = f"foursaspen-{__version__}.dist-info"
OLDEST = {"x86_64": (2, 5)}                     # glibc of the first manylinux tags; of other machines 2.17


def build_wheel(folder: str, config_settings: Any = None, metadata_directory: str | None = None) -> str:
    """Writes a wheel of the package with the library inside; its name."""
    library = place().read_bytes()
    files = {f"foursaspen/{file.name}": file.read_bytes() for file in sorted((HERE / "foursaspen").iterdir())
             if file.is_file() and file.name != NAME}
    words = (HERE.parent / "docs" / "EVIDENCE.md").read_bytes()   # which pages show
    return write(Path(folder), {**files, "foursaspen/EVIDENCE.md": words, f"foursaspen/{NAME}": library}, tag_of(library))


def build_editable(folder: str, config_settings: Any = None, metadata_directory: str | None = None) -> str:
    """Writes a wheel that leads to this folder, where the package finds the repository's library; its name."""
    return write(Path(folder), {"foursaspen.pth": f"{HERE}\n".encode()}, "any")


def tag_of(library: bytes) -> str:
    """The platform of a library: the newest version of glibc whose symbols it asks for."""
    machine = platform.machine()
    asked = [(int(major), int(minor)) for major, minor in re.findall(rb"\0GLIBC_(\d+)\.(\d+)", library)]
    if not asked:
        return f"linux_{machine}"
    major, minor = max(*asked, OLDEST.get(machine, (2, 17)))
    return f"manylinux_{major}_{minor}_{machine}"


def write(folder: Path, files: dict[str, bytes], tag: str) -> str:
    """Writes a wheel of these files; its name."""
    head, readme = (HERE / "METADATA").read_text(), (HERE / "README.md").read_text()
    files = {**files,
             f"{INFO}/METADATA": f"{head}Version: {__version__}\n\n{readme}".encode(),
             f"{INFO}/WHEEL": f"Wheel-Version: 1.0\nGenerator: make_wheel\nRoot-Is-Purelib: {str(tag == 'any').lower()}\n"
                              f"Tag: py3-none-{tag}\n".encode(),
             f"{INFO}/LICENSE": (HERE.parent / "LICENSE").read_bytes()}
    record = "".join(f"{name},sha256={digest(data)},{len(data)}\n" for name, data in files.items())
    files[f"{INFO}/RECORD"] = f"{record}{INFO}/RECORD,,\n".encode()
    name = f"foursaspen-{__version__}-py3-none-{tag}.whl"
    with zipfile.ZipFile(folder / name, "w", zipfile.ZIP_DEFLATED) as wheel:
        for path, data in files.items():
            entry = zipfile.ZipInfo(path)       # of one date, so that the same files make the same wheel
            entry.external_attr = 0o644 << 16
            wheel.writestr(entry, data, zipfile.ZIP_DEFLATED)
    return name


def digest(data: bytes) -> str:
    return base64.urlsafe_b64encode(hashlib.sha256(data).digest()).rstrip(b"=").decode()


if __name__ == "__main__":
    print(Path(sys.argv[1]) / build_wheel(sys.argv[1]))
