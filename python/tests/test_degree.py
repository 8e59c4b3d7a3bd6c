"""Degrees, by docs/DEGREE.md and from the definitions; and reversible rules as blocks, by going through rings."""
from __future__ import annotations

import doctest
import importlib
import itertools
import json
import pickle
import random
import re
import sys
import unittest
from collections import Counter
from fractions import Fraction
from typing import Any
from xml.etree import ElementTree

import foursaspen as ca
from foursaspen.relations import inverse_of

from .support import TOP, output

sys.path.insert(0, str(TOP / "checkers"))
checker: Any = importlib.import_module("degrees")


def nodes_of(rule: ca.Rule, word: str, first: bool) -> set[str]:
    """The first or last nodes of a word, by listing its preimages."""
    digits, reach = "0123456789abcdef"[:rule.states], rule.width - 1
    whole = ("".join(letters) for letters in itertools.product(digits, repeat=len(word) + reach))
    return {x[:reach] if first else x[len(word):] for x in whole if ca.image(rule, x) == word}


def told(*words: str) -> str:
    """What the command line writes."""
    return output([sys.executable, "-m", "foursaspen", *words])


class Degrees(unittest.TestCase):
    def test_the_page(self) -> None:
        failed, attempted = doctest.testfile(str(TOP / "docs" / "DEGREE.md"), module_relative=False, verbose=False)
        self.assertEqual(failed, 0)
        self.assertGreater(attempted, 4)

    def test_the_command_lines_of_the_page(self) -> None:
        page = (TOP / "docs" / "DEGREE.md").read_text()
        examples = re.findall(r"^    \$ python -m foursaspen (.*)\n((?:    .*\n)*)", page, re.M)
        self.assertEqual(len(examples), 1)
        for words, wanted in examples:
            self.assertEqual(told(*words.split()), wanted.replace("\n    ", "\n").removeprefix("    "))

    def test_numbers(self) -> None:
        """Of surjective elementary rules, by the table of the page, and the nodes by listing preimages."""
        page = (TOP / "docs" / "DEGREE.md").read_text()
        rows = [line.split("|")[1:-1] for line in page.splitlines() if line.count("|") == 8 and line[2].isdigit()]
        seen = 0
        for cells in rows:
            f, d, b, right, left = map(int, cells[:5])
            reversible, _, flow = cells[5].partition(":")
            for number in map(int, filter(None, (part.strip() for part in f"{reversible},{cells[6]}".split(",")))):
                found = ca.degree(number)
                self.assertEqual((found.right, found.degree, found.left, found.multipliers), (f, d, b, (right, left)))
                wanted = Fraction(flow.strip()) if str(number) in reversible.replace(",", " ").split() else None
                self.assertEqual(found.flow, wanted, number)
                self.assertEqual(set(found.right_nodes), nodes_of(found.rule, found.right_word, False))
                self.assertEqual(set(found.left_nodes), nodes_of(found.rule, found.left_word, True))
                seen += 1
        self.assertEqual(seen, 30)

    def test_rules_that_are_not_surjective(self) -> None:
        for number in range(256):
            if not ca.decide(number).surjective:
                found = ca.degree(number)
                self.assertEqual((found.degree, found.right, found.left, found.multipliers, found.flow), (None, 0, 0, None, None))
                self.assertEqual(found.right_word, ca.orphan(number))
                self.assertEqual(found.left_word[::-1], ca.orphan(ca.reflect(number)))
                self.assertEqual((found.right_nodes, found.left_nodes), ((), ()))

    def test_preimages_of_periodic_configurations(self) -> None:
        """A periodic configuration has at least as many preimages as the degree says, some have so many, and only under an open
        rule all have."""
        for number in (30, 45, 60, 90, 102, 106, 150, 166, 204):
            report, found = ca.decide(number), ca.degree(number)
            counts = {len(set(preimages(report.rule, ring))) for n in range(1, 6) for ring in itertools.product((0, 1), repeat=n)}
            self.assertEqual(min(counts), found.degree, number)
            self.assertEqual(len(counts) == 1, report.open, number)

    def test_made_rules(self) -> None:
        draw = random.Random(3)
        onto = [*ca.rules("surjective", 2, 3, -1)]
        for _ in range(60):
            one, two = draw.choice(onto), draw.choice(onto)
            made, first, second = map(ca.degree, (ca.compose(one, two), one, two))
            self.assertEqual(made.degree, (first.degree or 0) * (second.degree or 0))
            self.assertEqual((made.right, made.left), (first.right * second.right, first.left * second.left))
            turned = ca.degree(ca.reflect(one))
            self.assertEqual((turned.degree, turned.right, turned.left), (first.degree, first.left, first.right))
        for rule in ca.rules("reversible", 2, 4, -1):
            there, back = ca.degree(rule).flow, ca.degree(inverse_of(rule) or rule).flow
            assert there is not None and back is not None
            self.assertEqual(there * back, 1)

    def test_offsets(self) -> None:
        for offset in (-16, -1, 0, 14):
            found = ca.degree(ca.shift(240, offset - -1))
            self.assertEqual(found.flow, Fraction(2) ** -(offset))
            self.assertEqual((found.degree, found.right, found.left), (1, 4, 1))

    def test_tracks(self) -> None:
        """Six states, as pairs of one of two states, which moves to the right, and of one of three states, which stays; and one
        cell further to the left."""
        rule = ca.Rule.of(lambda x, y: 3 * (x // 3) + y % 3, states=6, width=2)
        for offset, flow in ((-1, Fraction(2)), (0, Fraction(1, 3))):
            self.assertEqual(ca.degree(ca.shift(rule, offset - rule.offset)).flow, flow)

    def test_answers(self) -> None:
        found = ca.degree(30)
        self.assertEqual(pickle.loads(pickle.dumps(found)), found)
        self.assertEqual(hash(found), hash(ca.degree(30)))
        self.assertEqual(json.loads(found.as_json()), found.as_dict())
        self.assertIn("0010", found._repr_html_())
        self.assertEqual(ca.as_dict(240)["flow"], "2")
        self.assertEqual([ca.as_dict(110)[key] for key in ("degree", "last_nodes", "first_nodes", "flow")], [None, 0, 0, None])
        with self.assertRaises(ca.RuleError):
            ca.degree("2:3:-1:t0")

    def test_the_schema(self) -> None:
        try:
            validator_for: Any = importlib.import_module("jsonschema.validators").validator_for
        except ImportError:
            self.skipTest("there is no jsonschema (Debian's package python3-jsonschema)")
        schema = json.loads((TOP / "docs" / "degree.schema.json").read_text())
        kind = validator_for(schema)
        kind.check_schema(schema)
        judge = kind(schema)
        for number in range(256):
            judge.validate(ca.degree(number).as_dict())
        self.assertFalse(judge.is_valid(ca.degree(30).as_dict() | {"degree": 0}))

    def test_lists(self) -> None:
        """In the order of docs/LISTS.md: the letters of 000, 001, 010 and 100 tell these four rules apart."""
        self.assertEqual([rule.number for rule in ca.rules("surjective", 2, 3, -1, degree=4)], [90, 150, 105, 165])
        self.assertEqual(Counter(len(list(ca.rules("surjective", 2, 3, degree=d))) for d in (1, 2, 4)), Counter([22, 4, 4]))
        with self.assertRaises(ca.UsageError):
            ca.rules("surjective", 2, 3, degree=0)

    def test_command_line(self) -> None:
        self.assertEqual(told("degree", "240"),
                         "degree 1\nright 4 nodes 00 01 10 11\nleft 1 word 00 nodes 00\nmultipliers 4 1\nflow 2\n")
        self.assertEqual(json.loads(told("degree", "110", "--json"))["degree"], None)
        for words in (["degree", "60"], ["blocks", "204"]):
            ElementTree.fromstring(told(*words, "--svg"))

    def test_page_and_atlas(self) -> None:
        self.assertIn("How many preimages", ca.page(60))
        self.assertIn("no degree", ca.page(110))
        self.assertIn("degree,last_nodes,first_nodes", ca.atlas(2, 2, "csv").splitlines()[0])


def preimages(rule: ca.Rule, ring: tuple[int, ...]) -> list[tuple[int, ...]]:
    """The preimages of the configuration that repeats a ring, over twelve of its periods. Under a surjective rule each preimage
    goes through the same node again after at most four periods, if there are four nodes, and so after twelve."""
    nodes = rule.states ** (rule.width - 1)
    ends: dict[tuple[int, int], list[int]] = {}
    for window, letter in enumerate(rule.table):
        ends.setdefault((window // rule.states, letter), []).append(window % nodes)
    found: list[tuple[int, ...]] = []
    for start in range(nodes):
        walks: list[tuple[int, ...]] = [(start,)]
        for letter in ring * 12:
            walks = [(*walk, after) for walk in walks for after in ends.get((walk[-1], letter), [])]
        found += [walk[:-1] for walk in walks if walk[-1] == start]
    return found


class BlockLayers(unittest.TestCase):
    def test_sizes(self) -> None:
        """The least sizes of at least width - 1 cells, as another program found them by going through all pairs of blocks."""
        for states, width, wanted in ((2, 3, {2: 6}), (2, 4, {3: 8, 6: 8}), (3, 2, {1: 12, 2: 36})):
            sizes = Counter(ca.blocks(rule).size for rule in ca.rules("reversible", states, width))
            self.assertEqual(sum(sizes.values()), sum(wanted.values()))
            self.assertEqual(dict(sizes), wanted)

    def test_images(self) -> None:
        draw = random.Random(1)
        for states, width, offset in ((2, 3, -1), (2, 4, -2), (3, 2, 1)):
            for rule in ca.rules("reversible", states, width, offset):
                made = ca.blocks(rule)
                self.assertEqual(made.lefts * made.rights, states ** made.size)
                for periods in range(1, 4):
                    ring = "".join(draw.choice("012"[:states]) for _ in range(made.size * periods))
                    self.assertEqual(made.image(ring), ca.image(rule, ring=ring))

    def test_left_count_gives_the_sizes(self) -> None:
        for rule in ca.rules("reversible", 2, 4):
            made = ca.blocks(rule)
            self.assertEqual(made.lefts, 2 ** made.shift * ca.degree(rule).left)

    def test_refused(self) -> None:
        with self.assertRaises(ca.NotFitError):
            ca.blocks(90)
        with self.assertRaises(ca.UsageError):
            ca.blocks(204).image("011")
        self.assertEqual(json.loads(ca.blocks(204).as_json())["size"], 2)


if __name__ == "__main__":
    unittest.main()
