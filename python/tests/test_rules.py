"""Rules as values: how they are made, what they say, and that they are texts too. Expected values are of docs/COMMANDS.md, of
Wolfram's numbers and codes, and of the functions themselves."""
from __future__ import annotations

import copy
import json
import pickle
import random
import re
import unittest
from itertools import product
from typing import Any

import foursaspen as ca
from foursaspen.library import Library, place
from foursaspen.rule_values import read

from .support import SHAPES, TOP, drawn, output, python_with

RULE110 = "2:3:-1:t01110110"
ARRAYS = """import numpy
from foursaspen import Rule
table = numpy.array(Rule(110).table, dtype=numpy.uint8)
print(table.tolist(), table.dtype, Rule(states=2, offset=-1, table=table) == Rule(110),
      Rule.of(lambda a, b, c: numpy.int64(a ^ c), states=2, offset=-1).number)
"""


class Making(unittest.TestCase):
    def test_each_way_makes_one_rule(self) -> None:
        table = [0, 1, 1, 1, 0, 1, 1, 0]
        ways = [ca.Rule(110), ca.Rule("110"), ca.Rule(RULE110), ca.Rule("2:3:-1:w110"), ca.Rule("02:03:-01:t01110110"),
                ca.Rule(ca.decide(110)), ca.Rule(ca.certify(110)), ca.Rule(ca.Rule(110)),
                ca.Rule(states=2, width=3, offset=-1, table=table), ca.Rule(states=2, offset=-1, table=tuple(table)),
                ca.Rule(states=2, offset=-1, table=bytearray(table)), ca.Rule.from_wolfram("01101110"),
                ca.Rule.from_wolfram([0, 1, 1, 0, 1, 1, 1, 0]),
                ca.Rule.of(lambda a, b, c: (b + c + b * c + a * b * c) % 2, states=2, offset=-1),
                ca.Rule.of(lambda *cells: (b := cells[1]) != (c := cells[2]) or b and c and not cells[0], states=2, width=3, offset=-1)]
        self.assertEqual(set(ways), {ca.Rule(RULE110)})

    def test_a_number_of_any_shape(self) -> None:
        """Digit v of the number is the letter of the window v; by default the cell is in the middle of its window."""
        self.assertEqual(ca.Rule(number=110, states=2, width=3), ca.Rule(110))
        for states, width, offset, number in ((2, 4, -1, 6000), (2, 5, -2, 2 ** 31 + 5), (3, 2, 0, 8229), (4, 3, -1, 4 ** 64 - 1), (6, 2, 0, 7)):
            rule = ca.Rule(number=number, states=states, width=width)
            self.assertEqual((rule.offset, rule.states, rule.width), (offset, states, width))
            self.assertEqual(sum(letter * states ** place for place, letter in enumerate(rule.table)), number)
            self.assertEqual(ca.Rule(number=number, states=states, width=width, offset=3), ca.Rule(f"{states}:{width}:3:w{number}"))
        make: Any = ca.Rule
        for operands, kind, text in (
                ({"number": 6000}, TypeError, "^a number is handed over with states and width, as Rule"),
                ({"number": 6000, "states": 2}, TypeError, "^a number is handed over with states and width"),
                ({"number": 1, "states": 2, "width": 2, "table": [0]}, TypeError, "^a number is handed over with states and width"),
                ({"number": 65536, "states": 2, "width": 4}, ca.RuleError, "from 0 to 65,535, and not 65,536$"),
                ({"number": -1, "states": 2, "width": 4}, ca.RuleError, "from 0 to 65,535, and not -1$"),
                ({"number": 0, "states": 7, "width": 2}, ca.RuleError, "^rule fault 1 kind"),
                ({"number": 0, "states": 3, "width": 4}, ca.RuleError, "^rule fault 1 nodes")):
            with self.assertRaisesRegex(kind, text):
                make(**operands)

    def test_what_it_says(self) -> None:
        rule = ca.Rule("3:2:-2:t012120201")
        self.assertEqual((rule.states, rule.width, rule.offset, rule.number), (3, 2, -2, 8229))     # the number of docs/COMMANDS.md
        self.assertEqual((rule.table, rule.text), ((0, 1, 2, 1, 2, 0, 2, 0, 1), "3:2:-2:t012120201"))
        self.assertEqual(ca.Rule("16:2:0:t" + "0123456789ABCDEF" * 16).table, tuple(range(16)) * 16)
        self.assertIsNone(ca.Rule("7:2:0:t" + "0" * 49).number)
        self.assertEqual(ca.Rule("4:3:-1:t" + "3" * 64).number, 4 ** 64 - 1)

    def test_numbers_are_sums_over_windows(self) -> None:
        for number in range(256):
            rule = ca.Rule(number)
            self.assertEqual(rule.number, number)
            for window, letter in enumerate(rule.table):
                self.assertEqual(letter, number >> window & 1)

    def test_functions(self) -> None:
        for states, width in ((2, 4), (3, 3), (5, 2)):
            rule = ca.Rule.of(lambda *cells: (cells[0] + 2 * cells[-1]) % states, states=states, width=width, offset=-1)
            for window, letter in zip(product(range(states), repeat=width), rule.table):
                self.assertEqual(letter, (window[0] + 2 * window[-1]) % states)
        self.assertEqual(ca.Rule.of(lambda a, b, c: (a + c) % 2, states=2, offset=-1).number, 90)
        self.assertEqual(ca.Rule.of(max, states=3, width=2), ca.Rule("3:2:0:t012112222"))

    def test_rows_of_wolfram(self) -> None:
        """Wolfram writes the window 111 first; our tables begin with 000."""
        for number in range(256):
            self.assertEqual(ca.Rule.from_wolfram(f"{number:08b}"), ca.Rule(number))
        self.assertEqual(ca.Rule.from_wolfram("01101110").table, tuple(map(int, reversed("01101110"))))
        with self.assertRaises(ca.RuleError) as caught:                         # what it advises makes the rule of the row
            ca.decide("01101110")
        advised = re.search(r"from_wolfram\('([01]+)'\).* as (2:3:-1:t[01]+)$", str(caught.exception))
        assert advised
        self.assertEqual((ca.Rule.from_wolfram(advised[1]), ca.Rule(advised[2])), (ca.Rule(110), ca.Rule(110)))
        self.assertEqual(ca.Rule.from_wolfram("201021012", 3, -1), ca.Rule("3:2:-1:t210120102"))

    def test_totalistic_codes(self) -> None:
        """Rule 150 is the sum modulo 2 and rule 232 the majority; code 777 of three colours has the digits 1 0 0 1 2 1 0, for the
        sums 6 to 0 (Wolfram 2002, chapter 3)."""
        self.assertEqual((ca.Rule.totalistic(2, 3, 0b1010), ca.Rule.totalistic(2, 3, 0b1100)), (ca.Rule(150), ca.Rule(232)))
        rule, digits = ca.Rule.totalistic(3, 3, 777), "1001210"
        for window, letter in zip(product(range(3), repeat=3), rule.table):
            self.assertEqual(letter, int(digits[6 - sum(window)]))
        self.assertEqual(rule.offset, -1)

    def test_essential_cells(self) -> None:
        for rule, reads in ((110, (0, 1, 2)), (170, (2,)), (90, (0, 2)), (60, (0, 1)), (0, ())):
            self.assertEqual((ca.Rule(rule).reads, ca.Rule(rule).is_essential), (reads, {0, 2} <= set(reads)))
        for text in drawn(60, seed=21):
            known = ca.Rule(text)
            if known.width > 2:
                self.assertEqual(known.is_essential, ca.trim(known).width == known.width)


class Values(unittest.TestCase):
    def test_they_are_texts(self) -> None:
        rule = ca.Rule(110)
        self.assertIsInstance(rule, str)
        self.assertEqual((rule, str(rule), f"{rule}", rule.split(":")[1], hash(rule)), (RULE110, RULE110, RULE110, "3", hash(RULE110)))
        self.assertEqual((repr(rule), type(str(rule)), type(rule.text)), (f"Rule('{RULE110}')", str, str))
        self.assertEqual((eval(repr(rule), {"Rule": ca.Rule}), json.loads(json.dumps({rule: rule}))), (rule, {RULE110: RULE110}))
        self.assertEqual({RULE110: 1}[rule], 1)

    def test_they_go_between_processes(self) -> None:
        for text in drawn(24, seed=22):
            rule = ca.Rule(text)
            for again in (pickle.loads(pickle.dumps(rule)), copy.deepcopy(rule), copy.copy(rule)):
                self.assertEqual((again, type(again)), (rule, ca.Rule))

    def test_all_that_makes_rules_gives_them(self) -> None:
        shift = ca.Rule("2:2:0:t0101")
        made: list[Any] = [
            ca.decide(110).rule, ca.certify(110).rule, ca.check(ca.brief(110)).rule, ca.inverse(shift).rule, ca.compose(shift, shift),
            ca.trim(shift), ca.widen(shift, 3), ca.shift(shift, 1), ca.reflect(shift), ca.permute(shift, "10"), ca.least(shift),
            ca.lift(shift), ca.unlift(shift), next(ca.rules("open", 2, 3)), ca.kept_sums(110).rule, *ca.class_of(110).members]
        self.assertEqual({type(rule) for rule in made}, {ca.Rule})

    def test_arrays_of_numpy(self) -> None:
        python = python_with("numpy", "python3-numpy")
        told = output([python, "-c", ARRAYS])
        self.assertEqual(told, "[0, 1, 1, 1, 0, 1, 1, 0] uint8 True 90\n")


class Grammar(unittest.TestCase):
    """The package reads a text as the library does, and finds the same fault at the same place."""

    def compare(self, text: str) -> str:
        """What the library says of a text, with which the package agrees: a rule, or a line of a fault."""
        code, output = Library(place()).run(["trim", text]), ""
        try:
            own = read(text)
            output = str(ca.trim(own)) + "\n"
        except ca.RuleError as fault:
            output = fault.output
        self.assertEqual(code.output.decode(), output, text)
        return output

    def test_texts_of_the_tables(self) -> None:
        """All operands of .ci/calls.txt, whatever they are."""
        words = {word for line in (TOP / ".ci" / "calls.txt").read_text().splitlines() if line[:1].isdigit() for word in line.split()[2:]}
        texts = [word for word in words if word.isascii() and "'" not in word and "$" not in word and '"' not in word]
        self.assertGreater(len(texts), 50)
        for text in texts:
            self.compare(text)

    def test_changed_texts(self) -> None:
        dice, seen = random.Random(3), set()
        bases = [*drawn(12, seed=23), "110", "2:3:-1:w110", "3:2:-16:w19682", "17:2:0:t0", "4:3:0:w5", "2:6:0:w0", "7:2:0:w0", "2:3:15:w0"]
        for _ in range(1500):
            text = dice.choice(bases)
            for _ in range(dice.randint(0, 2)):
                at, letter = dice.randrange(len(text) + 1), dice.choice("0123456789:twaF-+ x")
                text = dice.choice([text[:at] + letter + text[at:], text[:at] + text[at + 1:], text[:at] + letter + text[at + 1:]])
            seen.add(" ".join(self.compare(text).split()[:4]) if "fault" in self.compare(text) else "a rule")
        for kind in ("form", "states", "width", "nodes", "offset", "kind", "length", "letter", "number"):
            self.assertIn(f"rule fault 1 {kind}", seen)
        self.assertIn("a rule", seen)

    def test_shapes(self) -> None:
        for states in range(18):
            for width in range(7):
                for offset in (-17, -16, 0, 12, 16):
                    self.compare(f"{states}:{width}:{offset}:t" + "0" * min(states ** width, 300))
        self.assertEqual(len(SHAPES), 12)


if __name__ == "__main__":
    unittest.main()
