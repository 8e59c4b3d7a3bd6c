#!/usr/bin/env python3
"""How long the crates take to be proved and built, and what follows for the first build. The table .ci/seconds.txt has a line for
each crate below a program or the library: its name, and the seconds of processor time that it took on one machine.

    .ci/seconds.py              checks that the table has exactly these crates, once each
    .ci/seconds.py --write      writes the seconds of the last builds here (crates/NAME/out/seconds) into the table
    .ci/seconds.py --simulate   says how long the first build of each program takes by the table, on 2, 4 and 8 processors

In the simulation a crate is begun as .ci/build_below.py begins it. A job reads the libraries before it proves anything, so a
crate with several jobs takes these seconds more often.
"""
import sys

from sources import TOP, below, crates

TABLE = TOP / ".ci/seconds.txt"
BUILT = ["ca", "ca_c", "rules"]

# The seconds that a job takes before it proves anything, on the machine of the table.
START = 6


def crates_below(name):
    """The crates below this one, each with those that it stands on."""
    return {it: crates()[it] for it in below(name)}


def table():
    """The seconds of each crate."""
    return {name: float(seconds) for name, seconds in map(str.split, TABLE.read_text().splitlines())}


def seconds_of(names):
    """The seconds of these crates. A crate without a number gets the mean of the others."""
    known = table()
    mean = sum(known.values()) / len(known)
    return {name: known.get(name, mean) for name in names}


def needed():
    """The crates that stand below a program or the library."""
    return {name for built in BUILT for name in crates_below(built)}


def write():
    known = table() if TABLE.exists() else {}
    for built in BUILT:
        file = TOP / "crates" / built / "out/seconds"
        if file.exists():
            known |= {name: float(used) for name, used in map(str.split, file.read_text().splitlines())}
    TABLE.write_text("".join(f"{name} {known[name]:.0f}\n" for name in sorted(needed() & known.keys())))


def simulate(name, processors):
    """The seconds until all crates below this one are built, with as many crates at a time as there are processors."""
    under = crates_below(name)
    seconds = seconds_of(under)
    above = {it: [other for other in under if it in under[other]] for it in under}
    ways = {}
    for it in sorted(under, key=lambda it: -len(crates_below(it))):
        ways[it] = seconds[it] + max((ways[other] for other in above[it]), default=0)
    now, built, running = 0.0, set(), {}
    while len(built) < len(under):
        ready = [it for it in under if it not in built and it not in running and built.issuperset(under[it])]
        ready = sorted(ready, key=ways.get, reverse=True)[: processors - len(running)]
        at_once = len(running) + len(ready)
        for it in ready:
            first = ways[it] == max(ways[other] for other in under if other not in built)
            jobs = processors - at_once + 1 if first else max(1, processors // at_once)
            running[it] = now + START + max(0, seconds[it] - START) / jobs
        done = min(running, key=running.get)
        now = running.pop(done)
        built.add(done)
    return now


def main():
    if sys.argv[1:] == ["--write"]:
        return write()
    if sys.argv[1:] == ["--simulate"]:
        for name in BUILT:
            work = sum(seconds_of(crates_below(name)).values())
            times = ", ".join(f"{simulate(name, count):.0f} on {count}" for count in (2, 4, 8))
            print(f"{name}: {work:.0f} seconds of processor time; the crates below it are built after {times} processors")
        return 0
    named = [line.split()[0] for line in TABLE.read_text().splitlines()]
    faults = [f"{it} has no number" for it in sorted(needed() - set(named))]
    faults += [f"{it} is no crate below a program or the library" for it in sorted(set(named) - needed())]
    faults += [f"{it} has two numbers" for it in sorted({it for it in named if named.count(it) > 1})]
    for fault in faults:
        print(f"seconds: {fault}", file=sys.stderr)
    print(f"{len(set(named) & needed())} passed, {len(faults)} failed")
    return 1 if faults else 0


if __name__ == "__main__":
    sys.exit(main())
