"""Looks for a false verdict that checkers/judge.py accepts: `small.py PROGRAM EVERY [LIBRARY]`.

It takes the certificates that the program writes for the 16 rules of two states and width 2, and replaces each part by every small
part: 1.4 million certificates in all. Nearly all of them have other claims or splits; of these it draws one in EVERY. The verdicts of
an accepted certificate must be those of truth.py. If LIBRARY is given, its ca_run must give the same answers.
"""
import ctypes
import itertools
import json
import os
import random
import subprocess
import sys
from concurrent.futures import ProcessPoolExecutor
from functools import partial
from pathlib import Path

sys.path.insert(0, str(Path(__file__).resolve().parents[1]))
from judge import judge
from truth import differing, verdicts

CLAIMS = list(itertools.product((None, 0, 1), repeat=4))
PERIODS, MIDDLES = ("0", "1", "01", "10"), ("", "0", "1", "00", "01", "10", "11")
TAILS = ["|".join(parts) for parts in itertools.product(PERIODS, MIDDLES, PERIODS)]
NONE = [None] * 4
NAMES = ("surjective", "injective", "right", "left", "open", "conserving")


def words(least, most):
    for length in range(least, most + 1):
        yield from map("".join, itertools.product("01", repeat=length))


def lists_and_words():
    """What is put into a certificate, by its key: lists of sets and of pairs, orphans and twins."""
    for size in range(5):
        for numbers in map(list, itertools.combinations(range(4), size)):
            for version in (1, 2, 3):
                yield {"version": version, "surjective": {"sets": numbers}}
            yield {"version": 3, "surjective": {"pairs": numbers}}
    for word in words(0, 8):
        yield {"surjective": {"orphan": word}}
    for length in range(5):
        for twins in itertools.product(words(length, length), repeat=2):
            yield {"injective": {"twins": twins}}


def claims_and_splits():
    for forward in CLAIMS:
        for ahead in range(1, 5):
            yield {"ranks": {"backward": NONE, "forward": forward}, "right": {"ahead": ahead}}
            yield {"ranks": {"backward": forward, "forward": NONE}, "left": {"ahead": ahead}}
        for backward in CLAIMS:
            for n in (1, 2, 3):
                for c in range(n + 1):
                    yield {"ranks": {"backward": backward, "forward": forward}, "injective": {"c": c, "n": n}}
    for side in ("right", "left"):
        for split in itertools.product(TAILS, repeat=2):
            yield {side: {"split": split}}


def sums():
    """The same of what conserving needs, for each list of weights."""
    for flux in itertools.product(range(-3, 4), repeat=2):
        yield {"conserving": {"flux": flux}}
    for word in words(0, 6):
        yield {"conserving": {"ring": word}}


def certificates(program, number, draw):
    """The certificates of a rule, where `draw` says which of the many, and the weights that each is about."""
    def written(*weights):
        names = [",".join(map(str, weights))] if weights else []
        done = subprocess.run([program, "certify", f"2:2:0:w{number}", *names], stdout=subprocess.PIPE, check=True)
        return json.loads(done.stdout)
    base = written()
    for part in itertools.chain(lists_and_words(), filter(draw, claims_and_splits())):
        yield {**base, **part}, (0, 1)
    for weights in ((0, 1), (0, 0), (1, 0), (0, 2), (1, 1), (3, 5)):
        base = written(*weights)
        for part in sums():
            yield {**base, **part, "weights": weights}, weights


def asked(path):
    """A function that judges as `ca check` does, by the library."""
    run = ctypes.CDLL(path).ca_run
    text, size = ctypes.c_char_p, ctypes.c_size_t
    run.argtypes, run.restype = [text, size, text, size, text, size, ctypes.POINTER(size)], ctypes.c_uint8
    room, length = ctypes.create_string_buffer(4096), size()

    def judged(data):
        code = run(b"check\0", 6, data, len(data), room, 4096, ctypes.byref(length))
        return code, room.raw[:length.value].decode()
    return judged


def fault(data, answer, number, weights):
    """In words, what is wrong with an answer; nothing where it is refused or true."""
    status, output = answer
    if status != 0:
        return "" if status == 1 else f"the status is {status}"
    told = dict(line.split(" ", 1) for line in output.splitlines()[1:])
    truth = verdicts(2, 2, tuple(number >> w & 1 for w in range(4)), weights)
    return "" if [told[name] for name in NAMES] == ["yes" if holds else "no" for holds in truth] else "a false verdict"


def tried(program, every, library, number):
    """The trials of a rule: how many there were, how many were accepted, and in words what is wrong."""
    chance, library = random.Random(number), library and asked(library)
    count, accepted, faults = 0, 0, []
    for certificate, weights in certificates(program, number, lambda _: chance.random() * every < 1):
        data = json.dumps(certificate, separators=(",", ":")).encode()
        answer = judge(data)
        wrong = fault(data, answer, number, weights)
        if library and library(data) != answer:
            wrong = f"the library says {library(data)}"
        if wrong:
            faults.append(f"trials: {wrong}: {data.decode()}\n  judge.py: {answer}")
        count, accepted = count + 1, accepted + (answer[0] == 0)
    if accepted == 0:
        faults.append(f"trials: of the rule 2:2:0:w{number} nothing is accepted")
    return count, accepted, faults


def main():
    program, every, library = sys.argv[1], int(sys.argv[2]), sys.argv[3] if len(sys.argv) > 3 else None
    for number in differing(2, 2):
        print(f"trials: words and rings say something else of the rule 2:2:0:w{number} than truth.py", file=sys.stderr)
        print("0 passed, 1 failed")
        return 1
    with ProcessPoolExecutor(len(os.sched_getaffinity(0))) as pool:
        counts, accepted, faults = zip(*pool.map(partial(tried, program, every, library), range(16)))
    for line in itertools.chain(*faults):
        print(line, file=sys.stderr)
    failed = sum(map(bool, faults))
    print(f"trials: {sum(counts)} certificates, {sum(accepted)} of them accepted", file=sys.stderr)
    print(f"{16 - failed} passed, {failed} failed")
    return failed > 0


if __name__ == "__main__":
    sys.exit(main())
