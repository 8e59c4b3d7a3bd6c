"""Classes, rules that undo themselves, and lists of several properties. Expected numbers are of docs/LISTS.md and of plain
enumerations that stand here."""
from __future__ import annotations

import csv
import itertools
import tempfile
import unittest
from collections import Counter
from pathlib import Path

import foursaspen as ca

from .support import drawn
from .test_atlas import LEAST


def steps(rule: ca.Rule, ring: tuple[int, ...]) -> tuple[int, ...]:
    """The image of a ring, by what docs/COMMANDS.md says of a table."""
    image = []
    for cell in range(len(ring)):
        window = 0
        for place in range(rule.width):
            window = window * rule.states + ring[(cell + rule.offset + place) % len(ring)]
        image.append(rule.table[window])
    return tuple(image)


def comes_back(rule: ca.Rule, count: int, longest: int) -> bool:
    """Whether all rings of at most so many letters are back after so many steps."""
    for length in range(1, longest + 1):
        for ring in itertools.product(range(rule.states), repeat=length):
            here = ring
            for _ in range(count):
                here = steps(rule, here)
            if here != ring:
                return False
    return True


class Classes(unittest.TestCase):
    def test_the_class_of_rule_110(self) -> None:
        """110, 124, 137 and 193 are one class (Wolfram 2002)."""
        known = ca.class_of(110)
        self.assertEqual([rule.number for rule in known.members], [110, 124, 137, 193])
        self.assertEqual((known.least, {rule.offset for rule in known.members}), (ca.Rule(110), {-1}))
        self.assertEqual(ca.class_of(ca.least(193)).least, ca.least(193))

    def test_rows_of_least_rules(self) -> None:
        """The rows whose rule is the least of its class are the 88 classes, at the offset that the rules have."""
        for offset in (-1, 0, 3):
            rows = [ca.as_dict(ca.Rule(f"2:3:{offset}:w{number}")) for number in range(256)]
            least = [row["number"] for row in rows if row["rule"] == row["least"]]
            self.assertEqual(least, list(map(int, LEAST.split())))
            self.assertEqual({(row["rule"].split(":")[2], row["least"].offset) for row in rows}, {(str(offset), offset)})

    def test_classes_are_whole(self) -> None:
        seen: Counter[ca.Rule] = Counter()
        for number in range(256):
            least, members = ca.class_of(number)
            self.assertEqual((members[0], {ca.least(rule) for rule in members}), (least, {ca.shift(least, 1)}))
            self.assertIn(number, [rule.number for rule in members])
            seen[least] += 1
            self.assertEqual(len({ca.class_of(rule) for rule in members}), 1)
        self.assertEqual((len(seen), sum(seen.values())), (88, 256))
        # Each permutation of three letters is affine: it takes a + b modulo 3 to a + b + v, and the mirror image is the same.
        self.assertEqual({rule.table for rule in ca.class_of("3:2:0:t012120201").members},
                         {tuple((a + b + v) % 3 for a in range(3) for b in range(3)) for v in range(3)})
        with self.assertRaises(ca.NotFitError):
            ca.class_of("7:2:0:t" + "0" * 49)


class Undoing(unittest.TestCase):
    def test_involutions(self) -> None:
        """Rules 51 and 204 undo themselves; so does 2:4:-1:t0010110100001111, which flips b in abcd where a, c, d are 0, 1, 0."""
        self.assertEqual([number for number in range(256) if ca.is_involution(number)], [51, 204])
        self.assertTrue(ca.is_involution("2:4:-1:t0010110100001111"))
        self.assertFalse(ca.is_involution("2:4:0:t0010110100001111"))
        self.assertTrue(ca.is_involution(ca.shift(204, 0)))
        self.assertFalse(ca.is_involution(ca.shift(204, 1)))

    def test_orders(self) -> None:
        self.assertEqual([ca.order(number) for number in (204, 51, 15, 170, 110, 90, 0)], [1, 2, None, None, None, None, None])
        self.assertEqual(ca.order("5:2:0:t" + "".join(f"{(a + 1) % 5}" * 5 for a in range(5))), 5)
        self.assertEqual(ca.order("5:2:0:t" + "".join(f"{(a + 1) % 5}" * 5 for a in range(5)), most=4), None)
        self.assertEqual(ca.order("2:4:-1:t0010110100001111"), 2)

    def test_orders_are_what_rings_say(self) -> None:
        """An order is the least number of steps that brings back all rings that are long enough to hold a window of the power."""
        rules = [rule for rule in map(ca.Rule, drawn(200, seed=26)) if rule.states == 2] + list(ca.rules("injective", 3, 2, -1))
        found = Counter(ca.order(rule) for rule in rules)
        self.assertGreater(len(found), 2)
        for rule in rules:
            told = ca.order(rule)
            short = 6 if rule.states == 2 else 5
            for count in range(1, 5):
                if told is not None and count % told == 0:
                    self.assertTrue(comes_back(rule, count, short), (rule, told))
                elif told is None or told > count:
                    self.assertFalse(comes_back(rule, count, 2 * short if rule.states == 2 else 7), (rule, told, count))


class Lists(unittest.TestCase):
    def test_several_properties(self) -> None:
        for words in (("surjective", "conserving"), ("right", "left"), ("open", "injective", "surjective")):
            lists = [set(ca.rules(word, 2, 4)) for word in words]
            self.assertEqual(set(ca.rules(words, 2, 4)), set.intersection(*lists))
        self.assertEqual(set(ca.rules("open", 2, 3)), set(ca.rules(("right", "left"), 2, 3)))

    def test_other_words(self) -> None:
        for word, other in (("reversible", "injective"), ("bijective", "injective"), ("Injective", "injective"), ("onto", "surjective"),
                            ("right-closing", "right"), ("left-closing", "left"), ("number-conserving", "conserving")):
            self.assertEqual(list(ca.rules(word, 2, 3)), list(ca.rules(other, 2, 3)))
        self.assertEqual(list(ca.rules(ca.Bit.INJECTIVE | ca.Bit.CONSERVING, 2, 3)), list(ca.rules(("conserving", "reversible"), 2, 3)))

    def test_classes_of_lists(self) -> None:
        """As docs/LISTS.md counts them."""
        for name, shape, count in (("injective", (2, 3), 4), ("surjective", (2, 3), 12), ("open", (2, 4), 18), ("injective", (3, 2), 7)):
            classes = list(ca.rules(name, *shape, classes=True))
            self.assertEqual((len(classes), sorted(rule for one in classes for rule in one.members)), (count, sorted(ca.rules(name, *shape))))


class Designer(unittest.TestCase):
    """What a designer of reversible rules of three states and width 3 asks, each in one call."""

    reversible: list[ca.Rule]

    @classmethod
    def setUpClass(cls) -> None:
        cls.reversible = list(ca.rules("reversible", 3, 3))

    def test_classes(self) -> None:
        classes = list(ca.rules("reversible", 3, 3, classes=True))
        self.assertEqual((len(self.reversible), len(classes)), (1800, 172))      # 1,800 is the number of Wolfram (2002)
        self.assertEqual(Counter(len(one.members) for one in classes), {12: 134, 6: 27, 4: 1, 3: 7, 2: 2, 1: 1})
        self.assertEqual(len(list(ca.rules("reversible", 3, 3, classes=True, shifts=True))), 165)

    def test_all_cells(self) -> None:
        """1,800 less those of width 2: of the 48 of 3:2 36 read both cells, which lie at two places, and 6 read one, at three."""
        essential = list(ca.rules("reversible", 3, 3, essential=True))
        self.assertEqual((len(essential), len({ca.least(rule) for rule in essential})), (1710, 158))
        self.assertEqual(len(essential), 1800 - 2 * 36 - 3 * 6)

    def test_sums(self) -> None:
        self.assertEqual(len(list(ca.rules(("injective", "conserving"), 3, 3))), 3)
        self.assertEqual(len(list(ca.rules(("injective", "conserving"), 3, 3, classes=True))), 2)

    def test_inverses(self) -> None:
        self.assertEqual(len(list(ca.rules("reversible", 3, 3, inverse_width=3))), 864)

    def test_own_inverses(self) -> None:
        for offset, count in ((0, 64), (-1, 82)):
            self.assertEqual(sum(map(ca.is_involution, ca.rules("reversible", 3, 3, offset))), count)

    def test_kept_sums(self) -> None:
        counts = Counter(len(ca.kept_sums(rule, 2).rows) for rule in ca.rules("reversible", 3, 3, essential=True))
        self.assertEqual(counts, {0: 894, 1: 360, 2: 321, 3: 93, 4: 27, 5: 15})

    def test_a_file_of_it(self) -> None:
        with tempfile.TemporaryDirectory() as folder:
            file = Path(folder) / "rules.csv"
            self.assertEqual(ca.rules(("reversible", "conserving"), 3, 3, -1).to_csv(file), 3)
            rows = list(csv.DictReader(file.open()))
        self.assertEqual([row["rule"] for row in rows], list(ca.rules(("reversible", "conserving"), 3, 3, -1)))
        self.assertEqual({(row["injective"], row["conserving"]) for row in rows}, {("True", "True")})
        self.assertEqual({row["inverse"] for row in rows}, {str(ca.inverse(row["rule"]).rule) for row in rows})


if __name__ == "__main__":
    unittest.main()
