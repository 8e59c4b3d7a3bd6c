#!/usr/bin/env python3
"""Draws calls of the commands of ca, a file for each command, for bench/calls.

usage: bench/draw_calls.py FOLDER [CALLS [SEED]]

Each file NAME.txt has CALLS calls of the command NAME (200 by default), one a line. The rules are of all shapes of 2 to 4, 6, 8,
10, 12 and 16 states, of eleven kinds: functions below, which fill a table. A third of the rules of decide, certify and brief have
weights. Equal operands make equal files, on every machine.
"""
import random
import sys
from pathlib import Path

SHAPES = [(2, 2), (2, 3), (2, 4), (2, 4), (2, 5), (2, 5), (2, 5), (3, 2), (3, 3), (3, 3), (4, 2), (4, 2), (4, 3), (5, 2),
          (6, 2), (7, 2), (8, 2), (9, 2), (10, 2), (12, 2), (16, 2)]
DIGITS = "0123456789abcdef"


def windows(states, width):
    """All windows in the order of their values."""
    return [tuple(value // states ** (width - 1 - place) % states for place in range(width))
            for value in range(states ** width)]


def any_table(draw, states, width):
    return [draw.randrange(states) for _ in range(states ** width)]


def shuffled(draw, states):
    return draw.sample(range(states), states)


def permutive_right(draw, states, width):
    """For each node, the windows that begin there have all letters."""
    return [letter for _ in range(states ** (width - 1)) for letter in shuffled(draw, states)]


def permutive_left(draw, states, width):
    nodes = states ** (width - 1)
    columns = [shuffled(draw, states) for _ in range(nodes)]
    return [columns[value % nodes][value // nodes] for value in range(states ** width)]


def renamed_shift(draw, states, width):
    place, names = draw.randrange(width), shuffled(draw, states)
    return [names[window[place]] for window in windows(states, width)]


def linear(draw, states, width):
    factors = [draw.randrange(states) for _ in range(width)]
    return [sum(factor * letter for factor, letter in zip(factors, window)) % states for window in windows(states, width)]


def balanced(draw, states, width):
    """Each letter stands as often as each other letter."""
    table = list(range(states)) * states ** (width - 1)
    draw.shuffle(table)
    return table


def nearly_constant(draw, states, width):
    table = [draw.randrange(states)] * states ** width
    for value in draw.sample(range(len(table)), 2):
        table[value] = draw.randrange(states)
    return table


def totalistic(draw, states, width):
    letters = [draw.randrange(states) for _ in range(width * (states - 1) + 1)]
    return [letters[sum(window)] for window in windows(states, width)]


def changed_shift(draw, states, width):
    """A shift that changes its letter if a neighbour isn't 0."""
    place = draw.randrange(width)
    other = draw.choice([at for at in range(width) if at != place])
    names = shuffled(draw, states)
    return [names[window[place]] if window[other] else window[place] for window in windows(states, width)]


def traffic(draw, states, width):
    """A cell gives its successor what fits, up to a limit. The windows are wide enough for both neighbours, or the rule is a shift."""
    limit, place = draw.randrange(1, states), draw.randrange(width)
    if width < 3:
        return [window[place] for window in windows(states, width)]

    def flow(left, right):
        return min(left, states - 1 - right, limit)

    return [cell - flow(cell, after) + flow(before, cell) for before, cell, after, *_ in windows(states, width)]


KINDS = [any_table, permutive_right, permutive_left, renamed_shift, linear, balanced, nearly_constant, totalistic,
         changed_shift, traffic, any_table]


def rule(draw, shape):
    """The text of a drawn rule."""
    states, width = shape
    offset = draw.choice([0, -1, draw.randint(-16, 17 - width)])
    table = draw.choice(KINDS)(draw, states, width)
    return f"{states}:{width}:{offset}:t" + "".join(DIGITS[letter] for letter in table)


def weights(draw, states):
    return ",".join(str(draw.choice([0, 1, 2, 3, 5, 200, 255])) for _ in range(states))


def word(draw, states, most):
    return "".join(DIGITS[draw.randrange(states)] for _ in range(draw.randint(1, most)))


def one(draw, command, shape):
    """The words of a drawn call after the name of the command."""
    states, width = shape
    if command in ("survey", "classes", "sample"):
        most = min(states ** states ** width, 2 ** 63)
        count = draw.randint(1, min(40, most))
        start = draw.randrange(1, 1000) if command == "sample" else draw.randrange(most - count + 1)
        return [states, width, start, count]
    first = rule(draw, shape)
    if command in ("decide", "certify", "brief") and draw.randrange(3) == 0:
        return [first, weights(draw, states)]
    if command in ("compose", "same"):
        return [first, rule(draw, shape)]
    if command == "preimage":
        parts = [word(draw, states, 4), draw.choice(["", word(draw, states, 6)]), word(draw, states, 4)]
        return [first, "|".join(parts)]
    if command == "widen":
        return [first, draw.randint(width, 6)]
    if command == "shift":
        return [first, draw.randint(-16, 16)]
    if command == "permute":
        return [first, "".join(DIGITS[letter] for letter in shuffled(draw, states))]
    return [first]


COMMANDS = ["decide", "orphan", "number", "certify", "brief", "erase", "language", "same", "preimage", "inverse", "compose",
            "trim", "widen", "shift", "reflect", "permute", "least", "lift", "unlift", "survey", "sample", "classes"]


def main(folder, calls=200, seed=1):
    Path(folder).mkdir(parents=True, exist_ok=True)
    for command in COMMANDS:
        draw = random.Random(f"{seed} {command}")
        lines = [" ".join(map(str, [command, *one(draw, command, draw.choice(SHAPES))])) for _ in range(int(calls))]
        (Path(folder) / f"{command}.txt").write_text("\n".join(lines) + "\n")


if __name__ == "__main__":
    if not 2 <= len(sys.argv) <= 4:
        sys.exit(__doc__)
    main(*sys.argv[1:])
