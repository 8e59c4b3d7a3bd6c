"""Proves and builds the static library in this folder over the libraries below it as `rt ci` left them: over_ci.py BEGUN.

`rt lib` would prove each of these libraries again, since rt ci leaves no stamp next to them. BEGUN is a file that was made directly
before rt ci began. A library is used if its stamp fits. A library without a stamp is used if it was made after BEGUN and no
source has changed since then. If there is any other library, this script builds nothing and ends with 1. Afterwards it removes the
libraries without a stamp: no command of rt uses them, and a later rt ci would put them back in place of its own.
"""
import os
import shutil
import sys
from pathlib import Path

from kit import module_of_rt


def is_newer(path, begun):
    return path.stat().st_mtime_ns > begun


def is_left(crate, begun):
    """Whether the library of the crate is there, and of its sources as they stand."""
    if crate.is_built():
        return True
    rlib, parts = Path(crate.rlib), [Path(crate.folder, part) for part in ["src", "specs", "proofs"]]
    return (rlib / "format").exists() and not (rlib.parent / "stamp").exists() and is_newer(rlib, begun) and not any(
        is_newer(path, begun) for part in parts for path in part.rglob("*"))


def main():
    rtlib = module_of_rt().rtlib
    rtlib.guarded()
    begun = Path(sys.argv[1]).stat().st_mtime_ns
    here = os.getcwd()
    crate = rtlib.Crate(here, rtlib.root_above(here), {})
    rtlib.lock([*crate.below(), crate])
    others = [it.name for it in crate.below() if not is_left(it, begun)]
    if others:
        print(f"rt ci left no library of these as they stand: {' '.join(others)}", file=sys.stderr)
        return 1
    os.makedirs("out", exist_ok=True)
    unstamped = [Path(it.rlib).parent for it in crate.below() if not it.is_built()]
    status = crate.build_static([])
    if status == 0:
        for folder in unstamped:
            shutil.rmtree(folder)
    return status


if __name__ == "__main__":
    sys.exit(main())
