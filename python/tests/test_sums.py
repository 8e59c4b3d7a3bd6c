"""Sums that rules keep, by docs/SUMS.md."""
from __future__ import annotations

import doctest
import functools
import importlib
import itertools
import json
import math
import pickle
import random
import subprocess
import sys
import unittest
from fractions import Fraction
from typing import Any

import foursaspen as ca

from .support import ENVIRONMENT, TOP, drawn, output

sys.path.insert(0, str(TOP / "checkers"))
checker: Any = importlib.import_module("sums")


def step(rule: ca.Rule, ring: list[int]) -> list[int]:
    """The image of a ring, by what docs/COMMANDS.md says of a rule's table."""
    def window(at: int) -> int:
        return functools.reduce(lambda value, place: value * rule.states + ring[(at + rule.offset + place) % len(ring)],
                                range(rule.width), 0)
    return [rule.table[window(at)] for at in range(len(ring))]


def flow(rule: ca.Rule, current: tuple[int, ...], ring: list[int]) -> list[int]:
    """What flows to the right across the border before each cell of a ring, by docs/EVIDENCE.md: the current of the word that
    begins at the first cell of a window or of the border, whichever is first."""
    letters = round(math.log(len(current), rule.states))
    first = min(rule.offset, 0)
    return [current[functools.reduce(lambda value, place: value * rule.states + ring[(at + first + place) % len(ring)],
                                     range(letters), 0)] for at in range(len(ring))]


class Sums(unittest.TestCase):
    def test_the_page(self) -> None:
        failed, attempted = doctest.testfile(str(TOP / "docs" / "SUMS.md"), module_relative=False, verbose=False)
        self.assertEqual(failed, 0)
        self.assertGreater(attempted, 4)

    def test_letters_and_words(self) -> None:
        cars, pairs = ca.kept_sums(184), ca.kept_sums(14, 2)
        self.assertEqual((cars.rows, cars.rings, cars.range), (({"1": 1},), {}, 1))
        self.assertEqual((pairs.rows, pairs.rings), (({"10": 1},), {"11": "1"}))
        self.assertEqual(ca.kept_sums("2:3:-1:t01110000", 2), pairs)
        self.assertEqual(ca.kept_sums(ca.decide(14), 2), pairs)
        self.assertEqual([ca.kept_sums(n).rows for n in (0, 170, 204)], [(), ({"1": 1},), ({"1": 1},)])

    def test_fluxes(self) -> None:
        """By README's flux of rule 184, and by the one of the report."""
        self.assertEqual(ca.kept_sums(184).fluxes, ({"11": -1},))
        for number in (170, 184, 204, 226, 240):
            flux = ca.decide(number).flux
            assert flux is not None
            self.assertEqual(ca.kept_sums(number).fluxes, ({f"{node:02b}": phi for node, phi in enumerate(flux) if phi},))
        self.assertEqual([len(ca.kept_sums("2:5:0:t" + "01" * 16, letters).fluxes) for letters in (1, 2, 3, 4)], [1, 2, 4, 8])

    def test_currents_are_what_moves(self) -> None:
        """By the definition: what a cell weighs more in the image than before is the current to its left less the one to its
        right, for every conserving rule of three shapes at offsets before, round and behind the cell."""
        seen = 0
        for states, width in ((2, 3), (2, 4), (3, 3)):
            for rule in ca.rules("conserving", states, width):
                for offset in (-width - 1, -1, 2):
                    report = ca.decide(ca.shift(rule, offset))
                    current = report.current
                    assert current is not None
                    self.assert_moves(report.rule, list(range(states)), 1, current)
                    seen += 1
        self.assertEqual(seen, 3 * (5 + 22 + 144))

    def assert_moves(self, rule: ca.Rule, weights: list[int], letters: int, current: tuple[int, ...]) -> None:
        """Of words of letters from the first cell that matters on: the window, the cells that the image's word is at, or both."""
        k, first = rule.states, min(rule.offset, 0)
        long = max(rule.width + rule.offset + letters - 1, letters) - first
        self.assertEqual(len(current), k ** (long - 1))

        def value(word: tuple[int, ...]) -> int:
            return functools.reduce(lambda sum, letter: sum * k + letter, word, 0)
        for cells in itertools.product(range(k), repeat=long):
            image = tuple(rule.table[value(cells[at + rule.offset - first:at + rule.offset - first + rule.width])]
                          for at in range(letters))
            gain = weights[value(image)] - weights[value(cells[-first:letters - first])]
            self.assertEqual(gain, current[value(cells[:-1])] - current[value(cells[1:])], (rule, cells))

    def test_currents_on_rings(self) -> None:
        """What flows on drawn rings, by the definition: each cell gains what flows in on its left less what flows out on its right.
        Nothing flows through a ring of the letter 0, and what flows is the same if all letters weigh 5 more."""
        dice, seen = random.Random(80), 0
        for rule in (rule for shape in ((2, 3), (2, 4), (3, 2), (3, 3)) for rule in ca.rules("conserving", *shape)):
            moved, weights = ca.shift(rule, dice.randint(-3, 3)), [letter + 3 for letter in range(rule.states)]
            current = ca.decide(moved, weights).current
            assert current is not None
            self.assertEqual(current[0], 0, moved)
            self.assertEqual(ca.decide(moved, [weight + 5 for weight in weights]).current, current)
            ring = dice.choices(range(rule.states), k=dice.randint(1, 12))
            flows = flow(moved, current, ring)
            for at, (letter, new) in enumerate(zip(ring, step(moved, ring))):
                self.assertEqual(weights[new] - weights[letter], flows[at] - flows[(at + 1) % len(ring)], (moved, ring))
                seen += 1
        self.assertGreater(seen, 500)

    def test_currents_of_sums_of_words(self) -> None:
        dice, seen = random.Random(4), 0
        known: list[ca.RuleLike] = [14, 12, 15, 43, 142, 170, 184, 204, 240, "3:2:-1:t001112220", *drawn(12, seed=24)]
        for rule in known:
            text = ca.shift(ca.Rule(rule), dice.randint(-2, 2))
            for letters in range(1, 5 if text.states == 2 and text.width < 4 else 2):
                kept = ca.kept_sums(text, letters)
                for row, current in zip(kept.rows, kept.currents):
                    words = ["".join(word) for word in itertools.product("0123456789abcdef"[:text.states], repeat=letters)]
                    long = len(next(iter(current), "0" * max(text.width + letters - 2, 1)))
                    if not current:
                        continue
                    numbers = tuple(current.get("".join(word), 0)
                                    for word in itertools.product("0123456789abcdef"[:text.states], repeat=long))
                    self.assert_moves(text, [row.get(word, 0) for word in words], letters, numbers)
                    seen += 1
        self.assertGreater(seen, 30)

    def test_currents_of_known_rules(self) -> None:
        """A car of rule 184 crosses where 10 stands; under 204 nothing moves, and 170 and 240 move all to a side."""
        self.assertEqual([ca.decide(number).current for number in (184, 204, 170, 240, 110)],
                         [(0, 0, 1, 0), (0, 0, 0, 0), (0, -1, 0, -1), (0, 0, 1, 1), None])
        self.assertEqual((ca.kept_sums(184).currents, ca.kept_sums(204).currents), (({"10": 1},), ({},)))
        self.assertEqual(ca.decide(184, {0: 1, 1: 4}).current, (0, 0, 3, 0))    # a 4 goes right and a 1 goes left
        self.assertEqual(ca.decide(184, [-1, 1]).current, (0, 0, 2, 0))
        identities: list[ca.RuleLike] = [204, "2:3:-2:w170", "2:2:0:t0011", "2:5:-3:t" + "0011" * 8]
        for weights in ([1, 2], [-1, 1], [7, 0]):
            for rule in identities:
                self.assertEqual(set(ca.decide(rule, weights).current or ()), {0}, (rule, weights))
        with self.assertRaisesRegex(ca.UsageError, "the current of offset 15 has a number for each word of 16 letters"):
            ca.decide(ca.shift("3:2:0:t000111222", 15)).current

    def test_sums_that_somebody_has_in_mind(self) -> None:
        """Rule 14 keeps how often 10 stands in a ring, and so 01; it keeps no sum of letters but their number."""
        third = Fraction(1, 3)
        asked: list[tuple[dict[str, Any], bool]] = [
            ({"10": 2, "01": -1}, True), ({"10": 1}, True), ({"01": 1}, True), ({"11": 1}, False), ({"1": 1}, False),
            ({"0": 3, "1": 3}, True), ({"010": third, "110": third}, True)]
        for weights, kept in asked:
            found = ca.keeps(14, weights)
            self.assertEqual((bool(found), found.flux is None, found.ring is None), (kept, not kept, kept), weights)
            self.assertEqual(found.flux, ca.flux(14, weights))
        self.assertEqual(ca.flux(184, {"1": 1}), {"11": -1})
        self.assertEqual(ca.flux(184, {"1": Fraction(-1, 2)}), {"11": Fraction(1, 2)})
        self.assertEqual(ca.flux(184, {"0": 1, "1": 4}), {"11": -3})
        self.assertIsNone(ca.flux(110, {"1": 1}))
        for text in drawn(24, seed=25):
            rule = ca.Rule(text)
            judge = checker.Rule(rule.states, rule.width, list(rule.table))
            letters = 2 if rule.states < 5 else 1
            words = ["".join(word) for word in itertools.product("0123456789abcdef"[:rule.states], repeat=letters)]
            for row in (*ca.kept_sums(rule, letters).rows, {words[-1]: 1}):
                told = judge.flux([row.get(word, 0) for word in words], letters)
                numbers = ["".join(word) for word in
                           itertools.product("0123456789abcdef"[:rule.states], repeat=rule.width + letters - 2)]
                wanted = None if told is None else {word: number for word, number in zip(numbers, told) if number}
                self.assertEqual(ca.flux(rule, row), wanted)

    def test_sums_modulo_a_number(self) -> None:
        """By going through rings up to the length that tells (docs/SUMS.md), the least ring that loses the sum, and the condition of a
        flux at each window."""
        dice, kept = random.Random(13), 0
        asked = [(ca.Rule(150), {"1": 1}, 2), (ca.Rule(90), {"1": 1}, 2), (ca.Rule(105), {"1": 1}, 2), (ca.Rule(184), {"1": 1}, 5)]
        for _ in range(150):
            states, width, letters = dice.choice([(2, 2, 1), (2, 3, 1), (2, 3, 2), (3, 2, 1)])
            multiples = dice.choices(range(states), k=width)
            table = [sum(a * b for a, b in zip(multiples, window)) % states for window in itertools.product(range(states), repeat=width)]
            if dice.random() < 0.5:
                table = dice.choices(range(states), k=states ** width)
            words = ["".join(map(str, word)) for word in itertools.product(range(states), repeat=letters)]
            asked.append((ca.Rule(states=states, width=width, offset=dice.randint(-2, 1), table=table),
                          {word: dice.randint(-3, 3) for word in words}, dice.randint(2, 4)))
        for rule, weights, modulo in asked:
            letters = len(next(iter(weights)))
            longest = 2 * (rule.width + letters) - 3

            def total(ring: str) -> int:
                around = ring * (1 + letters)
                return sum(weights.get(around[place:place + letters], 0) for place in range(len(ring)))
            rings = ["".join(map(str, ring)) for length in range(1, longest + 1)
                     for ring in itertools.product(range(rule.states), repeat=length)]
            lost = next((ring for ring in rings if (total(ca.image(rule, ring=ring)) - total(ring)) % modulo), None)
            found = ca.keeps(rule, weights, modulo=modulo)
            self.assertEqual((bool(found), found.ring, found.modulo), (lost is None, lost, modulo), (rule, weights, modulo))
            self.assertEqual(found.flux, ca.flux(rule, weights, modulo=modulo))
            if found.flux is not None:
                kept += 1
                for word in map("".join, itertools.product("0123"[:rule.states], repeat=rule.width + letters - 1)):
                    change = weights.get(ca.image(rule, word), 0) - weights.get(word[:letters], 0)
                    self.assertEqual((found.flux.get(word[:-1], 0) - found.flux.get(word[1:], 0) - change) % modulo, 0)
        self.assertGreater(kept, 40)
        with self.assertRaisesRegex(ca.UsageError, "^modulo is 2 to "):
            ca.keeps(150, {"1": 1}, modulo=1)
        with self.assertRaisesRegex(ca.UsageError, "^modulo goes with weights that are whole"):
            ca.keeps(150, {"1": Fraction(1, 2)}, modulo=2)

    def test_the_ring_that_loses_a_sum(self) -> None:
        """Of letters it is what `decide` has, which is proved to be the least one."""
        for rule in map(ca.Rule, drawn(60, seed=9)):
            weights = {letter: 3 * letter % 7 for letter in range(rule.states)}
            report, found = ca.decide(rule, weights), ca.keeps(rule, weights)
            self.assertEqual((found.ring, bool(found)), (report.ring, report.conserving), rule)
        self.assertEqual(ca.keeps(184, {"11": 1}), ca.Keeps(None, "0011"))
        self.assertEqual((str(ca.keeps(184, {"11": 1})), str(ca.keeps(184, {1: 1}))), ("keeps no 0011\n", "keeps yes\n"))

    def test_the_current_of_a_sum(self) -> None:
        """What the current of a row of kept sums is, and of letters that of the report."""
        asked: list[tuple[ca.RuleLike, int]] = [(14, 2), (184, 1), (142, 2), (ca.shift(184, 3), 1), (ca.shift(14, -4), 2)]
        for rule, letters in asked:
            found = ca.kept_sums(rule, letters)
            self.assertEqual(tuple(ca.current(rule, row) for row in found.rows), found.currents)
        self.assertEqual(ca.current(184, {"1": Fraction(1, 2)}), {"10": Fraction(1, 2)})
        self.assertIsNone(ca.current(110, {"1": 1}))

    def test_flow_on_a_ring(self) -> None:
        """The cars of rule 184 that have a free cell in front, of all cells."""
        road = ca.decide(184)
        for length in range(1, 8):
            for ring in map("".join, itertools.product("01", repeat=length)):
                self.assertEqual(road.flow(ring), Fraction((ring + ring[0]).count("10"), length))
        self.assertIsNone(ca.decide(110).flow("01"))

    def test_answers_are_values(self) -> None:
        kept = ca.kept_sums(14, 2)
        self.assertEqual((len({kept, ca.kept_sums(14, 2), ca.kept_sums(14)}), pickle.loads(pickle.dumps(kept))), (2, kept))
        self.assertEqual(json.loads(kept.as_json()), {"rule": "2:3:-1:t01110000", "range": 2, "rows": [{"10": 1}], "rings": {"11": "1"},
                                                      "fluxes": [dict(kept.fluxes[0])]})

    def test_the_checker_judges_what_is_written(self) -> None:
        def judged(text: str) -> tuple[int, str]:
            done = subprocess.run([sys.executable, str(TOP / "checkers" / "sums.py")], input=text, text=True, stdout=subprocess.PIPE,
                                  check=False)
            return done.returncode, done.stdout
        asked: list[tuple[ca.RuleLike, int]] = [(14, 2), (204, 3), (110, 1), ("3:2:0:t000111222", 2)]
        for rule, letters in asked:
            text = output([sys.executable, "-m", "foursaspen", "kept", str(rule), str(letters), "--json"])
            known = ca.kept_sums(rule, letters)
            self.assertEqual(judged(text), (0, f"accepted {known.rule} range {letters} rows {len(known.rows)} rings {len(known.rings)}\n"))
        good = ca.kept_sums(14, 2).as_dict()
        changes: list[tuple[dict[str, Any], str]] = [
            ({"rows": [{"10": 2}]}, "refused row 2 doesn't begin as it should"), ({"rule": "2:3"}, "refused format"),
            ({"rows": [{"11": 1}], "rings": {"10": "1"}}, "refused "), ({"rings": {"11": "01"}}, "refused "),
            ({"rows": []}, "refused places"), ({"range": 9}, "refused format"),
            ({"fluxes": [{"100": -1}]}, "refused flux of the row 10")]
        for change, said in changes:
            code, line = judged(json.dumps({**good, **change}))
            self.assertEqual((code, line[:len(said)]), (1, said))
        self.assertEqual(judged("a letter to a friend"), (1, "refused format\n"))

    def test_text_and_table(self) -> None:
        pairs = ca.kept_sums(14, 2)
        self.assertEqual(str(pairs), "rows 1\nrow 10:1\nring 11 1\n")
        self.assertEqual(pairs._repr_html_().count("<tr>"), 3)
        told = subprocess.run([sys.executable, "-m", "foursaspen", "kept", "14", "2"], env=ENVIRONMENT, text=True,
                              stdout=subprocess.PIPE, check=True)
        self.assertEqual(told.stdout, str(pairs))

    def test_faults(self) -> None:
        cases: list[tuple[int | str, int]] = [(14, 0), (14, 5), (14, -1), (14, 1 << 70), ("3:2:0:t000000000", 3),
                                              ("5:2:0:t" + "0" * 25, 2)]
        for rule, letters in cases:
            with self.assertRaisesRegex(ca.UsageError, "^range is 1 to "):
                ca.kept_sums(rule, letters)
        with self.assertRaises(TypeError):
            ca.kept_sums(14, True)
        with self.assertRaises(ca.RuleError):
            ca.kept_sums("2:3:-1:t0111000", 2)
        with self.assertRaises(ca.RuleError):
            ca.kept_sums(256)


if __name__ == "__main__":
    unittest.main()
