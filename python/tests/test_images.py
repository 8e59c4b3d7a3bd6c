"""One step of a rule: by the definition of an image in docs/COMMANDS.md, and by what is known of rule 184."""
from __future__ import annotations

import random
import sys
import unittest
from collections.abc import Callable
from typing import Any

import foursaspen as ca

from .support import drawn, output
from .test_pictures import image_at


def drawn_tail(dice: random.Random, states: int) -> ca.Tail:
    parts = ["".join(dice.choices("0123456789abcdef"[:states], k=dice.randint(low, 4))) for low in (1, 0, 1)]
    return ca.Tail(*parts)


class Images(unittest.TestCase):
    def test_words_and_rings(self) -> None:
        self.assertEqual([ca.image(110, word) for word in ("01100", "000", "00", "110")], ["110", "0", "", "1"])
        self.assertEqual((ca.image(184, ring="0011"), ca.image(184, ring="0101"), ca.image(232, ring="001")), ("1010", "1010", "000"))
        self.assertEqual(ca.image("2:3:-16:t00001111", ring="001"), "".join("001"[(place - 16) % 3] for place in range(3)))
        self.assertEqual(ca.image("16:2:0:t" + "0123456789abcdef" * 16, "0123F"), "123f")

    def test_words_by_the_table(self) -> None:
        dice = random.Random(6)
        for text in drawn(60, seed=28):
            rule = ca.Rule(text)
            word = "".join(dice.choices("0123456789abcdef"[:rule.states], k=rule.width + 6))
            self.assertEqual(ca.image(rule, word), image_at(str(ca.shift(rule, -rule.offset)), f"0|{word}|0", range(7)))
            turned = ca.Tail.ring(word)
            self.assertEqual(ca.image(rule, ring=word), image_at(rule, str(turned), range(len(word))))

    def test_configurations_by_the_table(self) -> None:
        dice = random.Random(7)
        for text in drawn(120, seed=29):
            rule = ca.Rule(text)
            tail = drawn_tail(dice, rule.states)
            found = ca.image(rule, tail)
            self.assertEqual(found.cells(-20, 21), image_at(rule, str(tail), range(-20, 21)))
            again = ca.image(rule, found)
            placed = ca.Tail(found.tail.left, found.tail.middle, found.tail.right)
            self.assertEqual(again.cells(-12, 13), image_at(rule, str(placed), range(-12 - found.start, 13 - found.start)))
            self.assertTrue(not found.tail.middle or found.tail.middle[0] != found.tail.left[0])
            self.assertTrue(not found.tail.middle or found.tail.middle[-1] != found.tail.right[-1])

    def test_evidence_by_hand(self) -> None:
        """The twins and the splits of rules share an image, and a preimage maps to what it is one of."""
        for number in range(0, 256, 3):
            report = ca.decide(number)
            if report.twins:
                self.assertEqual(ca.image(number, ring=report.twins.first), ca.image(number, ring=report.twins.second))
            if report.right.split:
                split = report.right.split
                first, second = ca.image(number, split.first), ca.image(number, split.second)
                self.assertEqual(first.cells(-30, 30), second.cells(-30, 30))
            if report.ring:
                self.assertNotEqual(report.ring.count("1"), ca.image(number, ring=report.ring).count("1"))

    def test_steps(self) -> None:
        """So many steps are one after another, of words, rings and configurations, as texts or as lists of letters."""
        word, ring, tail = "0110100110010110", "0010111", ca.Tail("0", "1", "01")
        here: tuple[str, str, ca.Image] = word, ring, ca.Image(0, tail)
        for steps in range(6):
            self.assertEqual(ca.image(110, word, steps=steps), here[0])
            self.assertEqual(ca.image(110, ring=ring, steps=steps), here[1])
            self.assertEqual(ca.image(110, ring=[int(letter) for letter in ring], steps=steps), here[1])
            self.assertEqual(ca.image(110, bytearray(map(int, word)), steps=steps), here[0])
            self.assertEqual(ca.image(110, tail, steps=steps), here[2])
            here = ca.image(110, here[0]), ca.image(110, ring=here[1]), ca.image(110, here[2])
        with self.assertRaisesRegex(ca.UsageError, "^word has at least 6 letters, one fewer than a window for each step, and not 4$"):
            ca.image(110, "0110", steps=3)

    def test_text(self) -> None:
        found = ca.image(110, ca.Tail("0", "1", "0"))
        self.assertEqual((found.start, str(found.tail), str(found)), (-1, "0|11|0", "image -1 0|11|0\n"))

    def test_command_line(self) -> None:
        ask = [sys.executable, "-m", "foursaspen", "image"]
        for words, told in ((["110", "01100"], "110\n"), (["184", "--ring", "0011"], "1010\n"), (["110", "0|1|0"], "image -1 0|11|0\n"),
                            (["2:2:0:t0110", ""], None), (["110", "0"], None)):
            if told is None:
                with self.assertRaisesRegex(AssertionError, "ended with 1: word has at least"):
                    output([*ask, *words])
            else:
                self.assertEqual(output([*ask, *words]), told)

    def test_mistakes(self) -> None:
        image: Any = ca.image
        wrong: list[tuple[Callable[[], object], type[Exception], str]] = [
            (lambda: image(110, "0"), ca.UsageError, "word has at least 2 letters, one fewer than a window, and not 1"),
            (lambda: image(110, "012"), ca.UsageError, "word has letters from 0 to 1, and not '2'"),
            (lambda: image(110, ring=""), ca.UsageError, "ring has at least one letter, and not none"),
            (lambda: image(110, "0|1|0"), ca.UsageError, "word is a text of digits, and a configuration is Tail.of('0|1|0')"),
            (lambda: image(110, ca.Tail("", "1", "0")), ca.NotFitError, "the left period of a configuration must have a letter"),
            (lambda: image(110, 3), TypeError, "word is a text of digits or a list of letters, and not 3 of type int"),
            (lambda: image(110), TypeError, "image takes a word or a configuration, or ring=WORD")]
        for asked, kind, said in wrong:
            with self.assertRaises(kind) as raised:
                asked()
            self.assertIn(said, str(raised.exception))


if __name__ == "__main__":
    unittest.main()
