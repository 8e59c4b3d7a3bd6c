"""The program that the tests compare with, and the rules that they draw."""
from __future__ import annotations

import os
import random
import shutil
import signal
import subprocess
import sys
import time
import unittest
from collections.abc import Callable, Sequence
from pathlib import Path

TOP = Path(__file__).resolve().parents[2]
PROGRAM = os.environ.get("CA") or str(TOP / "crates" / "ca" / "out" / "ca")
ENVIRONMENT = dict(os.environ, PYTHONPATH=str(TOP / "python"), PYTHONDONTWRITEBYTECODE="1")
DIGITS = "0123456789abcdef"
SHAPES = ((2, 2), (2, 3), (2, 4), (2, 5), (3, 2), (3, 3), (4, 2), (4, 3), (5, 2), (7, 2), (11, 2), (16, 2))


def program(words: Sequence[str], data: bytes = b"") -> tuple[int, bytes]:
    """The exit status and the output of the program."""
    done = subprocess.run([PROGRAM, *words], input=data, stdout=subprocess.PIPE, check=False)
    return done.returncode, done.stdout


def drawn(count: int, seed: int) -> list[str]:
    """Rules of all shapes. A half has any tables; where the other half has a permutation of the letters for each
    node, a rule is surjective."""
    dice = random.Random(seed)
    rules = []
    for place in range(count):
        states, width = SHAPES[place % len(SHAPES)]
        nodes = states ** (width - 1)
        rows = [dice.sample(range(states), states) if place % 2 else dice.choices(range(states), k=states)
                for _ in range(nodes)]
        table = "".join(DIGITS[letter] for row in rows for letter in row)
        rules.append(f"{states}:{width}:{dice.randint(-3, 3)}:t{table}")
    return rules


def tool(name: str, package: str) -> str:
    """Where a tool is; a test is skipped where it isn't, which names its package of Debian."""
    found = shutil.which(name)
    if found is None:
        raise unittest.SkipTest(f"there is no {name} (Debian: {package})")
    return found


def python_with(modules: str, package: str) -> str:
    """This Python or Debian's, where it has the modules; else a test is skipped."""
    for python in (sys.executable, "/usr/bin/python3"):
        asked = [python, "-c", f"import sys, {modules}; sys.exit(sys.version_info < (3, 10))"]
        if Path(python).exists() and subprocess.run(asked, stderr=subprocess.DEVNULL, check=False).returncode == 0:
            return python
    raise unittest.SkipTest(f"there is no Python with {modules} (Debian: {package})")


def heed_ctrl_c() -> None:
    """Lets Ctrl-C end a process that is about to begin. If a shell runs the tests in the background, they ignore Ctrl-C, and so
    would this process."""
    signal.signal(signal.SIGINT, signal.SIG_DFL)


def patience() -> float:
    """How many seconds a test waits for what takes less than one on a machine with nothing else to do: two, and twenty times
    what this one needs now to start Python with the package."""
    begun = time.monotonic()
    output([sys.executable, "-c", "import foursaspen; foursaspen.decide(110)"])
    return 2 + 20 * (time.monotonic() - begun)


def output(words: Sequence[str], environment: dict[str, str] = ENVIRONMENT, folder: str = "/") -> str:
    """What a program prints that ends well."""
    done = subprocess.run(words, env=environment, cwd=folder, stdout=subprocess.PIPE, stderr=subprocess.PIPE, text=True,
                          check=False)
    if done.returncode:
        raise AssertionError(f"{' '.join(words)} ended with {done.returncode}: {done.stdout}{done.stderr}")
    return done.stdout


def retried(run: Callable[[], str], tries: int = 3) -> str:
    """What a program of others prints, which may fail to start on a busy machine: each failure but the last one is said on
    standard error, and it is tried again."""
    for more in reversed(range(tries)):
        try:
            return run()
        except AssertionError as fault:
            if not more:
                raise
            print(f"python: tried again: {str(fault)[-2000:]}", file=sys.stderr)
    raise ValueError("tries is 1 or more")
