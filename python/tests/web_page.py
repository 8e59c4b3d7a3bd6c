"""What the tests of the page that ./web makes share."""
from __future__ import annotations

import os
import time
from collections.abc import Callable
from pathlib import Path

from .support import TOP, drawn, program

PAGE = Path(os.environ.get("CA_PAGE") or TOP / "crates/ca_c/out/web/foursaspen.html").resolve()
LACKING = f"there is no {PAGE.name}: ./web makes it where there is wasm-opt (Debian: binaryen)"
SOON = 60                                       # seconds until the page has an answer, on any machine
# Rules whose every part is looked at: elementary ones, one of 16 states, and one of 3 states and width 3.
RULES = ["110", "184", "30", "90", "170", "204", "232", "60", "106", drawn(24, seed=74)[23], drawn(24, seed=75)[17]]
WEIGHED = [("184", "1,4"), ("204", "1,2"), ("184", "-1,1"), ("170", "7,7"), ("3:2:1:t012012012", "0,5,1"), ("110", "3,0"), ("240", "2,1")]


def verdicts_of(rule: str) -> list[str]:
    """The six verdicts of the program."""
    return [line.split()[1] for line in program(["decide", rule])[1].decode().splitlines()[2:]]


def wait_until(holds: Callable[[], object], what: str) -> None:
    """Waits until something holds in the page."""
    last = time.monotonic() + SOON
    while not holds():
        if time.monotonic() > last:
            raise AssertionError(what)
        time.sleep(0.02)
