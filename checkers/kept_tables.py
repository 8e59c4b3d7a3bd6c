"""Compares the tables of docs/SUMS.md with the library, and lets sums.py judge answers: `kept_tables.py PAGE`."""
import random
import re
import sys
from collections import Counter
from pathlib import Path

import sums
from foursaspen.library import library

RANGES = {2: 4, 3: 2, 4: 2}                     # the most letters of words of so many states; 1 of more
SHAPES = ((2, 2), (2, 3), (2, 4), (2, 5), (3, 2), (3, 3), (4, 2), (4, 3), (5, 2), (7, 2), (11, 2), (16, 2))
DRAWN = 1000


class Tally:
    def __init__(self):
        self.passed = self.failed = 0

    def count(self, name, got, wanted):
        if got == wanted:
            self.passed += 1
        else:
            self.failed += 1
            print(f"sums: {name}\n  got:    {got}\n  wanted: {wanted}", file=sys.stderr)


def found(states, width, table, letters):
    """The rows and the rings of an answer, by the values of their words."""
    answer = library().kept_sums(states, width, bytes(table), letters)
    size = states ** letters
    rows = {place: list(answer.rows[place])[:size] for place in range(16) if any(answer.rows[place])}
    rings = {place: list(answer.rings[place])[:count] for place, count in enumerate(answer.counts) if count}
    return rows, rings


def table_of(states, width, number):
    """The table of a rule with a number, its letters by the values of windows."""
    return [number // states ** window % states for window in range(states ** width)]


def classes(page, tally):
    """The table of classes: how many rows each of their rules has at each range."""
    left = set(range(256))
    for members, *rows in re.findall(r"^\| \d+ \| ([\d, ]+) \| (\d) \| (\d) \| (\d) \| (\d) \|$", page, re.M):
        rules = [int(number) for number in members.split(",")]
        left -= set(rules)
        got = {tuple(len(found(2, 3, table_of(2, 3, number), letters)[0]) for letters in (1, 2, 3, 4)) for number in rules}
        tally.count(f"the class of {members}", got, {tuple(map(int, rows))})
    got = {len(found(2, 3, table_of(2, 3, number), letters)[0]) for number in left for letters in (1, 2, 3, 4)}
    tally.count("the other classes", got, {0})


def shapes(page, tally):
    """The table of shapes: how many rules have so many rows."""
    for states, width, letters, cells in re.findall(r"^\| (\d):(\d) \| (\d) \| ([\d:, ]+) \|$", page, re.M):
        states, width, letters = int(states), int(width), int(letters)
        counted = Counter(rows_of(states, width, table_of(states, width, number), letters)
                          for number in range(states ** states ** width))
        wanted = {int(rows): int(rules.replace(",", "")) for rows, rules in re.findall(r"(\d+): ([\d,]*\d)", cells)}
        tally.count(f"{states}:{width} at range {letters}", dict(counted), wanted)


def rows_of(states, width, table, letters):
    """How many rows an answer has: one for each word that doesn't begin with 0 and has no ring."""
    counts = bytes(library().kept_sums(states, width, bytes(table), letters).counts)
    return states ** letters - states ** (letters - 1) - (16 - counts.count(0))


def judged(states, width, table, letters, tally):
    """The rows and rings by what they say, and the flux of each row; and that no other place alone has one."""
    rule = sums.Rule(states, width, table)
    rows, rings = found(states, width, table, letters)
    units = [[int(place == word) for word in range(states ** letters)] for place in rings]
    asked = [*rows.values(), *units]
    got = [library().flux(states, width, bytes(table), letters, weights) for weights in asked]
    tally.count(f"{states}:{width} {table} at range {letters}", (sums.fault(rule, letters, rows, rings), got),
                (None, [rule.flux(weights, letters) for weights in asked]))


def main():
    page = Path(sys.argv[1]).read_text(encoding="utf-8")
    tally = Tally()
    classes(page, tally)
    shapes(page, tally)
    for number in range(256):
        for letters in (1, 2, 3, 4):
            judged(2, 3, table_of(2, 3, number), letters, tally)
    dice = random.Random(1)
    for place in range(DRAWN):
        states, width = SHAPES[place % len(SHAPES)]
        judged(states, width, drawn(dice, states, width), dice.randint(1, RANGES.get(states, 1)), tally)
    print(f"{tally.passed} passed, {tally.failed} failed")


def drawn(dice, states, width):
    """A table: any letters, or such as keep many sums, which change a cell by one neighbour in few windows."""
    size = states ** width
    if dice.randrange(2):
        return dice.choices(range(states), k=size)
    cell = dice.randrange(width)
    table = [window // states ** cell % states for window in range(size)]
    for _ in range(dice.randrange(3)):
        table[dice.randrange(size)] = dice.randrange(states)
    return table


if __name__ == "__main__":
    main()
