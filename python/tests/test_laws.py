"""Laws between rules, by images of rings and by tables made here."""
from __future__ import annotations

import random
import unittest
from itertools import permutations, product

import foursaspen as ca
from foursaspen.rule_values import DIGITS

from .support import drawn


def rings_of(states: int, most: int) -> list[str]:
    """The rings of up to so many letters."""
    return ["".join(ring) for length in range(1, most + 1) for ring in product(DIGITS[:states], repeat=length)]


def image(rule: ca.Rule, ring: str) -> str:
    """The image of a ring, from the definition."""
    k, letters, table = rule.states, [int(letter, 16) for letter in ring], rule.table
    made = ""
    for cell in range(len(ring)):
        window = 0
        for place in range(rule.offset, rule.offset + rule.width):
            window = window * k + letters[(cell + place) % len(ring)]
        made += DIGITS[table[window]]
    return made


class Laws(unittest.TestCase):
    def test_every_inverse_of_3_3(self) -> None:
        """`undoes` confirms the inverse of each reversible rule, as a rule or as a wider map; not with another table."""
        wide = 0
        for rule in ca.rules("reversible", 3, 3, -1, essential=True):
            back = ca.inverse(rule)
            self.assertTrue(ca.undoes(back, rule) and ca.undoes(rule, back), rule)
            wide += back.rule is None
        self.assertGreater(wide, 800)
        wrong = ca.Inverse(back.window, back.offset, back.map[1:] + back.map[0], None)
        self.assertFalse(ca.undoes(wrong, rule))

    def test_compose_of_inverses(self) -> None:
        """A rule and its inverse make the identity where the program says notfit, in either order; by COMMANDS.md's way."""
        done = 0
        for rule in ca.rules("reversible", 3, 3, -1, essential=True, inverse_width=3):
            back = ca.inverse(rule).rule
            if back is None:
                continue
            for made in (ca.compose(rule, back), ca.compose(back, rule)):
                self.assertEqual((ca.trim(made).table, made.reads, made.width + made.offset > 0 >= made.offset),
                                 ((0, 0, 0, 1, 1, 1, 2, 2, 2) if ca.trim(made).offset == 0 else (0, 1, 2) * 3, (-made.offset,), True), rule)
            done += 1
        self.assertEqual(done, 774)
        sums = ca.Rule.of(lambda a, b, c: (a + b + c) % 3, states=3)
        with self.assertRaisesRegex(ca.NotFitError, "^notfit nodes"):
            ca.compose(sums, sums)
        self.assertEqual(ca.trim(ca.compose(170, 170, 240, 240)), ca.trim(204))
        with self.assertRaisesRegex(ca.NotFitError, "^notfit states"):
            ca.compose("3:3:0:t000001111111110000222222222", 110)

    def test_compositions_are_those_of_rings(self) -> None:
        """Of drawn rules, whether the program makes them or the second try."""
        dice, seen = random.Random(8), 0
        texts = [rule for rule in drawn(300, 11) if rule.split(":")[0] in "23"]
        for _ in range(200):
            first, second = (ca.Rule(dice.choice(texts)) for _ in range(2))
            if first.states != second.states:
                continue
            try:
                both = ca.compose(first, second)
            except ca.NotFitError:
                continue
            seen += 1
            for ring in rings_of(first.states, 5):
                self.assertEqual(image(both, ring), image(second, image(first, ring)), (first, second))
        self.assertGreater(seen, 20)

    def test_commuting_rules(self) -> None:
        """Two elementary rules commute exactly if they do on each ring of five to seven cells, which has each word of five letters."""
        rings = ["".join(ring) for length in (5, 7) for ring in product("01", repeat=length)]
        dice = random.Random(3)
        pairs = [(dice.randrange(256), dice.randrange(256)) for _ in range(300)] + [(90, 150), (30, 30), (204, 30), (51, 90), (170, 110)]
        seen = 0
        for one, other in pairs:
            first, second = ca.Rule(one), ca.Rule(other)
            wanted = all(image(first, image(second, ring)) == image(second, image(first, ring)) for ring in rings)
            self.assertEqual(ca.commutes(one, other), wanted, (one, other))
            seen += wanted
        self.assertGreater(seen, 5)

    def test_symmetries(self) -> None:
        """Those changes that leave the image of each ring what it is when the ring is changed, too."""
        dice = random.Random(4)
        asked = [ca.Rule(number) for number in (0, 30, 90, 105, 110, 150, 184, 204, 232, 23)]
        asked += [ca.Rule(states=3, width=2, offset=-1, table=dice.choices(range(3), k=9)) for _ in range(10)]
        asked += [ca.Rule.of(lambda a, b, c: (a + b + c) % 3, states=3, offset=-1)]
        for rule in asked:
            rings, wanted = rings_of(rule.states, 5), []
            for mirrored in (False, True):
                for names in permutations(DIGITS[:rule.states]):
                    def changed(ring: str) -> str:
                        named = "".join(names[int(letter)] for letter in ring)
                        return named[0] + named[:0:-1] if mirrored else named       # cell i goes to cell -i
                    if all(image(rule, changed(ring)) == changed(image(rule, ring)) for ring in rings):
                        wanted.append(ca.Change(mirrored, "".join(names)))
            self.assertEqual(ca.symmetries(rule), tuple(wanted), rule)
            self.assertEqual([change.of(rule) for change in wanted if change.mirrored is False], [rule] * len([
                change for change in wanted if change.mirrored is False]))
        with self.assertRaisesRegex(ca.NotFitError, "^notfit colours"):
            ca.symmetries("7:2:0:t" + "0" * 49)

    def test_time_reversal(self) -> None:
        """What it says turns a step back on each ring, and where it says that there is nothing, no involution does."""
        found = 0
        for rule in [*ca.rules("reversible", 2, 4, -1), *list(ca.rules("reversible", 3, 3, -1))[::40]]:
            said, rings = ca.time_reversal(rule), rings_of(rule.states, 5)
            working = []
            for mirrored in (False, True):
                for names in permutations(DIGITS[:rule.states]):
                    if any(names[int(name)] != letter for letter, name in zip(DIGITS, names)):
                        continue

                    def changed(ring: str) -> str:
                        named = "".join(names[int(letter)] for letter in ring)
                        return named[0] + named[:0:-1] if mirrored else named
                    if all(changed(image(rule, changed(image(rule, ring)))) == ring for ring in rings):
                        working.append(ca.Change(mirrored, "".join(names)))
            self.assertEqual(said, working[0] if working else None, rule)
            found += said is not None
        self.assertGreater(found, 10)
        self.assertEqual(str(ca.time_reversal(170)), "names 01 in the mirror")
        with self.assertRaisesRegex(ca.NotFitError, "^notfit twins 0 1"):
            ca.time_reversal(110)

    def test_linear_rules(self) -> None:
        """The sixteen affine elementary rules, by every choice of multiples and constant."""
        wanted = {ca.Rule.of(lambda a, b, c: (p * a + q * b + r * c + s) % 2, states=2, offset=-1)
                  for p, q, r, s in product(range(2), repeat=4)}
        self.assertEqual({ca.Rule(number) for number in range(256) if ca.is_linear(number)}, wanted)
        self.assertEqual(sum(map(ca.is_linear, ca.rules("all", 3, 2))), 27)


if __name__ == "__main__":
    unittest.main()
