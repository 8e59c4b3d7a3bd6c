#!/usr/bin/env python3
"""Lists every rule of a shape that has a property, by trying each table. It was written only from docs/LISTS.md.

    python3 list_rules.py PROPERTY BEGIN

It can try some ten thousand tables: the shapes 2:2, 2:3, 2:4 and 3:2, and parts of other shapes. Nodes are the words of m - 1
letters. A window leads from the node of its first m - 1 letters to the node of its last m - 1 letters. The exit status is 1 if the
words aren't a property and one beginning.
"""
import itertools
import re
import sys

HEX = "0123456789abcdef"


def is_surjective(k, N, f):
    """Whether no word leads from the set of all nodes to the empty set."""
    out = [[sum({1 << w % N for w in range(u * k, u * k + k) if f[w] == c}) for u in range(N)] for c in range(k)]
    seen, todo = {(1 << N) - 1}, [(1 << N) - 1]
    while todo:
        nodes = todo.pop()
        for row in out:
            after = 0
            for u in range(N):
                if nodes >> u & 1:
                    after |= row[u]
            if not after:
                return False
            if after not in seen:
                seen.add(after)
                todo.append(after)
    return True


def steps(k, N, f):
    """All steps of pairs of nodes: along two windows with one letter."""
    sharing = [[(w // k, w % N) for w in range(k * N) if f[w] == c] for c in range(k)]
    return [((u, v), (x, y)) for windows in sharing for u, x in windows for v, y in windows]


def endless(walks):
    """The pairs from which walks go on and on."""
    going = {begin for begin, end in walks}
    while True:
        left = {begin for begin, end in walks if end in going} & going
        if left == going:
            return going
        going = left


def is_injective(k, N, f):
    """Whether no walk without beginning and end passes a pair of different nodes."""
    on = steps(k, N, f)
    return all(u == v for u, v in endless(on) & endless([(end, begin) for begin, end in on]))


def closes(on):
    """Whether no pair goes on and on to which two different windows lead from one node."""
    going = endless(on)
    return not any(begin[0] == begin[1] and end[0] != end[1] and end in going for begin, end in on)


def is_right(k, N, f):
    return closes(steps(k, N, f))


def is_left(k, N, f):
    return closes([(end, begin) for begin, end in steps(k, N, f)])


def is_open(k, N, f):
    return is_right(k, N, f) and is_left(k, N, f)


def is_conserving(k, N, f):
    """Whether each window gives its first letter and what flows into its cell, where zeros stand before the window (Hattori
    and Takesue 1991)."""
    m = next(m for m in itertools.count(1) if k ** m == k * N)
    return f[0] == 0 and all(f[w] == w // N + sum(f[w % N // k ** (i - 1)] - f[w // k ** i] for i in range(1, m))
                             for w in range(k * N))


PROPERTIES = {"surjective": is_surjective, "injective": is_injective, "right": is_right, "left": is_left, "open": is_open,
              "conserving": is_conserving}


def class_of(name, k, m, window):
    """By what windows are ordered before their values."""
    word = [window // k ** place % k for place in reversed(range(m))]
    if name not in ("injective", "conserving"):
        return max(word), m - word.count(0)
    period = next(p for p in range(1, m + 1) if word[p:] == word[:m - p])
    return period, min(word[turn:period] + word[:turn] for turn in range(period))


def listed(name, k, m, begin):
    """The tables in the order of the page."""
    size, N = k ** m, k ** (m - 1)
    tables = (begin + rest for rest in itertools.product(range(k), repeat=size - len(begin)))
    order = sorted(range(size), key=lambda window: (class_of(name, k, m, window), window))
    return sorted(filter(lambda f: PROPERTIES[name](k, N, f), tables), key=lambda f: [f[window] for window in order])


def main(words):
    read = re.fullmatch(r"(([0-9]+):([0-9]+):-?[0-9]+:t)([0-9a-f]*)", words[1]) if len(words) == 2 else None
    if read is None or words[0] not in PROPERTIES:
        print(__doc__, file=sys.stderr)
        return 1
    tables = listed(words[0], int(read[2]), int(read[3]), tuple(HEX.index(digit) for digit in read[4]))
    for f in tables:
        print(read[1] + "".join(HEX[letter] for letter in f))
    print("rules", len(tables))
    return 0


if __name__ == "__main__":
    sys.exit(main(sys.argv[1:]))
