"""Builds the crates below this folder's crate in parallel, then runs a command of rt in this folder: build_below.py WORD..

rt proves the crates one after another, and a second command of rt in a checkout waits for the first. But rt accepts a built
library in any checkout, because the stamp next to it is a checksum of its sources and of the sources below. So this script makes a
few copies of the checkout, and builds each crate in one of them by `rt lib`, as soon as the crates that it uses are built. Of the
crates that are ready, the one with the longest way up from it comes first, by the seconds of .ci/seconds.txt. What an earlier
run left of a crate moves into the copy, and the result moves back here; its library is linked into the other copies. Standard
error shows the progress and an estimate of the time that is left. However the script ends, it stops what it began, removes the
copies, and leaves the seconds that each crate took in out/seconds, from which `.ci/seconds --write` makes that table anew.
"""
import os
import re
import shutil
import signal
import subprocess
import sys
import tempfile
import time
from pathlib import Path

from seconds import crates_below, seconds_of

# The most memory that a crate takes, and the most that each further job takes, in bytes.
MOST_MEMORY = 3_400_000_000
JOB_MEMORY = 900_000_000

here = Path.cwd()
top = here.parent.parent
rt = [sys.executable, str(Path(__file__).with_name("kit.py"))]


def longest_ways(below, seconds):
    """The seconds of each crate and of those on the longest way up from it."""
    above = {name: [it for it in below if name in below[it]] for name in below}
    ways = {}

    def way(name):
        if name not in ways:
            ways[name] = seconds[name] + max(map(way, above[name]), default=0)
        return ways[name]

    return {name: way(name) for name in below}


def how_many():
    """How many crates are built at a time, and by how many jobs each at most: one for each processor, as far as memory goes."""
    free = 1024 * int(re.search(r"MemAvailable:\s+(\d+)", Path("/proc/meminfo").read_text())[1])
    processors = len(os.sched_getaffinity(0))
    crates = max(1, min(processors, free // MOST_MEMORY))
    return crates, max(1, min(processors, 1 + (free // crates - MOST_MEMORY) // JOB_MEMORY))


def copy_into(folder):
    folder.mkdir()
    shutil.copy(top / "crates.txt", folder)
    shutil.copytree(top / "crates", folder / "crates", ignore=shutil.ignore_patterns("out"))


def out_of(checkout, name):
    """The folder in which rt keeps what it made of a crate."""
    return checkout / "crates" / name / "out"


def move(name, begin, end):
    """Moves what rt made of a crate from one checkout into another one."""
    if out_of(begin, name).exists():
        shutil.rmtree(out_of(end, name), ignore_errors=True)
        out_of(begin, name).rename(out_of(end, name))


def link_library(name, folders):
    """Puts the library of a crate into these copies, as links to its files, which rt never writes a second time."""
    for folder in folders:
        shutil.rmtree(out_of(folder, name), ignore_errors=True)
        shutil.copytree(out_of(top, name) / "rlib", out_of(folder, name) / "rlib", copy_function=os.link)


class Builds:
    """The copies, and what is being built in them."""

    def __init__(self, room, below):
        self.below, self.seconds, self.took = below, seconds_of(below), {}
        self.ways = longest_ways(below, self.seconds)
        self.most, self.jobs = how_many()
        self.copies = [room / str(i) for i in range(self.most)]
        self.free = self.copies[:]
        self.built, self.running, self.begun = set(), {}, time.monotonic()
        for folder in self.copies:
            copy_into(folder)

    def ready(self):
        """The crates that can be begun, those with the longest way up first."""
        begun = self.built | {name for name, _, _ in self.running.values()}
        ready = [name for name in self.below if name not in begun and self.built.issuperset(self.below[name])]
        return sorted(ready, key=self.ways.get, reverse=True)

    def begin(self, name, at_once):
        """Begins with a crate, one of this many at a time, which share the processors: a job more than there are processors
        gains nothing, because each job first reads the libraries. The crate with the longest way up gets what is left over."""
        is_first = self.ways[name] == max(self.ways[it] for it in self.below if it not in self.built)
        jobs = self.most - at_once + 1 if is_first else self.most // at_once
        nice = [] if is_first else ["nice", "-n", "5"]
        words = [*nice, *rt, "lib", "--jobs", str(max(1, min(self.jobs, jobs)))]
        folder = self.free.pop()
        move(name, top, folder)
        with open(folder / f"{name}.log", "wb") as log:
            # A process group, and not a session: Linux shares the processors among sessions, whatever their `nice`.
            process = subprocess.Popen(words, cwd=folder / "crates" / name, stdin=subprocess.DEVNULL, stdout=log,
                                       stderr=log, preexec_fn=os.setpgrp)
        self.running[process.pid] = name, folder, process   # which subprocess would wait for if it weren't kept

    def end_one(self):
        """Waits for one of them, and gives whether it was built."""
        pid, status, used = os.wait4(-1, 0)
        name, folder, _ = self.running.pop(pid)
        self.took[name] = used.ru_utime + used.ru_stime
        move(name, folder, top)
        self.free.append(folder)
        if status:
            sys.stdout.write((folder / f"{name}.log").read_text(errors="replace"))
            return False
        link_library(name, self.copies)
        self.built.add(name)
        return True

    def build_all(self):
        """Builds them all, and gives whether they were built."""
        while len(self.built) < len(self.below):
            ready = self.ready()[: len(self.free)]
            at_once = len(self.running) + len(ready)
            for name in ready:
                self.begin(name, at_once)
            self.tell()
            if not self.end_one():
                return False
        return True

    def seconds_left(self, seconds):
        """How long the crates that aren't built will take, if this machine is as many times slower than the table as it was for
        the built ones: the crates on the longest way up one after the other, or all of them on as many processors as there are."""
        built = sum(map(self.seconds.get, self.built))
        left = [name for name in self.below if name not in self.built]
        longest = max(sum(map(self.seconds.get, left)) / self.most, max(map(self.ways.get, left)))
        return seconds * self.most * longest / built

    def tell(self):
        seconds = time.monotonic() - self.begun
        left = f", some {self.seconds_left(seconds) / 60:.0f} more" if len(self.built) >= 3 else ""
        names = " ".join(name for name, _, _ in self.running.values())
        print(f"{len(self.built)} of {len(self.below)} crates, {seconds / 60:.0f} minutes{left}: {names}", file=sys.stderr, flush=True)

    def stop(self):
        for pid in self.running:
            os.killpg(pid, signal.SIGTERM)
        for pid, (name, folder, _) in self.running.items():
            os.waitpid(pid, 0)
            move(name, folder, top)
        (here / "out/seconds").write_text("".join(f"{name} {used:.1f}\n" for name, used in self.took.items()))


def main():
    for it in (signal.SIGTERM, signal.SIGHUP, signal.SIGINT):
        signal.signal(it, lambda number, _: sys.exit(128 + number))
    (here / "out").mkdir(exist_ok=True)
    with tempfile.TemporaryDirectory(prefix="below-", dir=here / "out", ignore_cleanup_errors=True) as room:
        builds = Builds(Path(room), crates_below(here.name))
        try:
            if not builds.build_all():
                return 1
        finally:
            builds.stop()
        return subprocess.run([*rt, *sys.argv[1:]], check=False).returncode


if __name__ == "__main__":
    sys.exit(main())
