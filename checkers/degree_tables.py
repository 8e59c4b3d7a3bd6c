"""Counts how many rules have which degree, and compares the counts with the library:

    degree_tables.py --write FILE   counts from the definitions, with degrees.py, which takes a minute, and writes the counts
    degree_tables.py FILE PAGE      compares the counts with those of the library and with the tables of docs/DEGREE.md, and lets
                                    degrees.py judge answers

A line of the file has a shape, a property, the fewest last nodes, the degree, the fewest first nodes, and how many rules have these.
The rules of a small shape are found by going through all tables. The open rules of 4:2 and the reversible rules of 2:5 and 3:3 are
those that the library lists.
"""
import json
import random
import re
import sys
from collections import Counter
from itertools import product
from pathlib import Path

import degrees
from foursaspen import Rule, degree, rules

SMALL = ((2, 2), (2, 3), (2, 4), (3, 2))
LISTED = ((4, 2, "open"), (2, 5, "reversible"), (3, 3, "reversible"))
SHAPES = ((2, 2), (2, 3), (2, 4), (2, 5), (3, 2), (3, 3), (4, 2), (4, 3), (5, 2), (7, 2), (11, 2), (16, 2))
DRAWN = 200


class Tally:
    def __init__(self):
        self.passed = self.failed = 0

    def count(self, name, got, wanted):
        if got == wanted:
            self.passed += 1
        else:
            self.failed += 1
            print(f"degrees: {name}\n  got:    {got}\n  wanted: {wanted}", file=sys.stderr)


def balanced(states, width):
    """All tables of a shape that have each letter equally often; a surjective rule has such a table."""
    share = states ** (width - 1)
    return (table for table in product(range(states), repeat=states ** width) if all(table.count(a) == share for a in range(states)))


def written():
    """The counts, from the definitions."""
    counts = Counter()
    for states, width in SMALL:
        for table in balanced(states, width):
            rule = degrees.Rule(states, width, 0, list(table))
            found = degrees.numbers(rule)
            if found is None:
                continue
            key = (f"{states}:{width}", found["right"], found["degree"], found["left"])
            counts[key[0], "surjective", *key[1:]] += 1
            if rule.is_injective():
                counts[key[0], "reversible", *key[1:]] += 1
    for states, width, property in LISTED:
        for listed in rules(property, states, width):
            found = degrees.numbers(degrees.Rule(states, width, 0, list(listed.table)))
            counts[f"{states}:{width}", property, found["right"], found["degree"], found["left"]] += 1
    return counts


def answered():
    """The counts of the library, and the answers of the small shapes."""
    counts, answers = Counter(), []
    for property in ("surjective", "reversible"):
        for states, width in SMALL:
            for rule in rules(property, states, width):
                found = degree(rule)
                counts[f"{states}:{width}", property, found.right, found.degree, found.left] += 1
                answers.append(found)
    for states, width, property in LISTED:
        for place, rule in enumerate(rules(property, states, width)):
            found = degree(rule)
            counts[f"{states}:{width}", property, found.right, found.degree, found.left] += 1
            if place % 8 == 0:
                answers.append(found)
    return counts, answers


def read(lines):
    """The counts of a file."""
    return {(shape, property, int(right), int(one), int(left)): int(count)
            for shape, property, right, one, left, count in map(str.split, lines)}


def of_page(text):
    """The counts in the tables of the page: a shape and a property in bold before each, then rows of right, degree, left and
    count."""
    counts = {}
    for head, body in re.findall(r"^\*\*(\d:\d, \w+)\*\*.*?\n\n(.*?)\n\n", text + "\n\n", re.M | re.S):
        shape, property = head.split(", ")
        for row in re.findall(r"^\| (\d+) \| (\d+) \| (\d+) \| ([\d,]+) \|$", body, re.M):
            right, one, left, count = (int(cell.replace(",", "")) for cell in row)
            counts[shape, property, right, one, left] = count
    return counts


def verdict(answer):
    """What degrees.py says of an answer."""
    try:
        degrees.judge(json.loads(json.dumps(answer)))
    except degrees.Refused as why:
        return f"refused {why}"
    return "accepted"


def spoiled(answer):
    """The answer with one value changed, in each way that must be seen."""
    for path, value in ((("degree",), 3), (("right", "count"), 3), (("left", "word"), "0"), (("right", "nodes"), []),
                        (("multipliers", "left"), 3), (("flow",), "3"), (("rule",), "2:3:-1:t01101001")):
        other = json.loads(json.dumps(answer))
        here = other
        for key in path[:-1]:
            here = here[key]
        here[path[-1]] = value
        yield path, other


def main(words):
    if words[:1] == ["--write"]:
        lines = [" ".join(map(str, (*key, count))) for key, count in sorted(written().items())]
        Path(words[1]).write_text("".join(f"{line}\n" for line in lines), encoding="utf-8")
        return 0
    tally, wanted = Tally(), read(Path(words[0]).read_text(encoding="utf-8").splitlines())
    counts, answers = answered()
    for key in sorted(counts.keys() | wanted.keys()):
        tally.count(key, counts.get(key), wanted.get(key))
    shown = of_page(Path(words[1]).read_text(encoding="utf-8"))
    tally.count("tables of the page", bool(shown), True)
    for key, count in shown.items():
        tally.count(f"the page, {key}", count, wanted.get(key))
    for answer in answers:
        tally.count(answer.rule, verdict(answer.as_dict()), "accepted")
    draw = random.Random(1)
    for place in range(DRAWN):
        states, width = SHAPES[place % len(SHAPES)]
        letters = [letter for letter in range(states) for _ in range(states ** (width - 1))]
        draw.shuffle(letters)
        if place % 2:
            # A permutation for each first letters makes a rule surjective.
            letters = [letter for _ in range(states ** (width - 1)) for letter in draw.sample(range(states), states)]
        found = degree(Rule(states=states, width=width, offset=draw.randrange(-16, 17 - width), table=letters))
        tally.count(found.rule, verdict(found.as_dict()), "accepted")
    for path, other in spoiled(degree(30).as_dict()):
        tally.count(f"a spoiled {'.'.join(path)}", verdict(other).startswith("refused"), True)
    print(f"{tally.passed} passed, {tally.failed} failed")
    return tally.failed != 0


if __name__ == "__main__":
    sys.exit(main(sys.argv[1:]))
