"""Preimages of words and of rings, by going through all words."""
from __future__ import annotations

import random
import unittest
from collections.abc import Callable
from itertools import product

import foursaspen as ca
from foursaspen.rule_values import DIGITS

SHAPES = ((2, 2), (2, 3), (2, 4), (2, 5), (3, 2), (3, 3), (4, 2), (5, 2))


class Preimages(unittest.TestCase):
    def test_by_enumeration(self) -> None:
        dice, rings, words = random.Random(6), 0, 0
        for place in range(240):
            states, width = SHAPES[place % len(SHAPES)]
            rule = ca.Rule(states=states, width=width, offset=dice.randint(-6, 4), table=dice.choices(range(states), k=states ** width))
            letters = DIGITS[:states]
            length = dice.randint(1, 6 if states < 4 else 4)
            for ring in ("".join(dice.choices(letters, k=length)), ca.image(rule, ring="".join(dice.choices(letters, k=length)))):
                wanted = [one for one in map("".join, product(letters, repeat=length)) if ca.image(rule, ring=one) == ring]
                self.assertEqual(list(ca.preimages(rule, ring=ring)), wanted, (rule, ring))
                self.assertEqual(ca.count_preimages(rule, ring=ring), len(wanted))
                rings += len(wanted)
            length = dice.randint(0, 3)
            for word in ("".join(dice.choices(letters, k=length)), ca.image(rule, "".join(dice.choices(letters, k=length + width - 1)))):
                wanted = [one for one in map("".join, product(letters, repeat=length + width - 1)) if ca.image(rule, one) == word]
                self.assertEqual(list(ca.preimages(rule, word)), wanted, (rule, word))
                self.assertEqual(ca.count_preimages(rule, word), len(wanted))
                words += len(wanted)
        self.assertGreater(min(rings, words), 500)

    def test_counts(self) -> None:
        """A surjective rule has four preimages of each word (Hedlund 1969). Of the ring of 10 under rule 184 they are the Lucas numbers:
        the rings of cars in which each 10 is a car that moves."""
        dice = random.Random(1)
        for number in (30, 90, 105, 150, 170):
            word = "".join(dice.choices("01", k=500))
            self.assertEqual(ca.count_preimages(number, word), 4)
            self.assertEqual(len(list(ca.preimages(number, word))), 4)
        lucas = [2, 1]
        while len(lucas) < 101:
            lucas.append(lucas[-1] + lucas[-2])
        self.assertEqual([ca.count_preimages(184, ring="10" * times) for times in (1, 2, 8, 100)], [lucas[times] for times in (1, 2, 8, 100)])

    def test_the_proved_command(self) -> None:
        """`preimage(ring=..)` is what the program says of the configuration that repeats the ring."""
        for number, ring in ((110, "0110"), (90, "0111"), (184, "1010"), (110, "01010")):
            self.assertEqual(ca.preimage(number, ring=ring), ca.preimage(number, ca.Tail.ring(ring)))
            self.assertEqual(ca.preimage(number, ring=[int(letter) for letter in ring]), ca.preimage(number, ring=ring))
        found = ca.preimage(184, ring="1010")
        assert isinstance(found, ca.Preimage)
        self.assertEqual(ca.image(184, ca.Image(found.start, found.tail)).cells(0, 12), "101010101010")
        self.assertIsInstance(ca.preimage(110, ring="01010"), ca.Gap)

    def test_what_is_refused(self) -> None:
        cases: list[tuple[Callable[[], object], type[Exception], str]] = [
                (lambda: ca.preimages(110), TypeError, "^it takes a word, or ring=WORD$"),
                (lambda: ca.preimages(110, "0", ring="0"), TypeError, "^it takes a word, or ring=WORD$"),
                (lambda: ca.preimages(110, ring=""), ca.UsageError, "^ring has at least one letter, and not none$"),
                (lambda: ca.count_preimages(110, "012"), ca.UsageError, "^word has letters from 0 to 1, and not '2'$"),
                (lambda: ca.preimages(110, [0, 2]), ca.UsageError, "^a letter of word is 0 to 1, and not 2$"),
                (lambda: ca.preimages(110, 7), TypeError, "^word is a text of digits or a list of letters, and not 7 of type int$"),  # type: ignore
                (lambda: ca.preimage(110), TypeError, "^preimage takes a configuration, or ring=WORD$"),
                (lambda: ca.preimage(110, "0|1|0", ring="0"), TypeError, "^preimage takes a configuration, or ring=WORD$")]
        for call, kind, text in cases:
            with self.assertRaisesRegex(kind, text):
                call()


if __name__ == "__main__":
    unittest.main()
