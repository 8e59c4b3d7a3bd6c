"""What a rule only moves, by plain enumeration from the definition, and by the second computation in checkers/."""
from __future__ import annotations

import functools
import importlib
import pickle
import random
import sys
import unittest
from itertools import islice, product
from typing import Any

import foursaspen as ca

from .support import SHAPES, TOP, drawn, output

sys.path.insert(0, str(TOP / "checkers"))
checker: Any = importlib.import_module("moved")
Word = tuple[int, ...]


def parts(word: Word, width: int) -> frozenset[Word]:
    """The windows of a word."""
    return frozenset(word[place:place + width] for place in range(len(word) - width + 1))


class Enumeration:
    """Rings of up to so many letters, and words, for all rules of a shape at once. A rule moves a configuration by the cell at a place
    of the window if and only if it gives for each of its windows the letter at this place. So what matters of a ring or of a
    word is the set of its windows."""

    def __init__(self, states: int, width: int, longest: int) -> None:
        letters, nodes = range(states), states ** (width - 1)
        self.rings: dict[frozenset[Word], list[Word]] = {}
        for length in range(1, longest + 1):
            for ring in product(letters, repeat=length):
                around = ring * (2 + width // length)
                self.rings.setdefault(parts(around[:length + width - 1], width), []).append(ring)
        # A word that goes on for as many letters as there are nodes comes to one of them twice, and so can go on for ever.
        self.words: dict[frozenset[Word], set[Word]] = {}
        for word in product(letters, repeat=width + 2 * nodes):
            self.words.setdefault(parts(word, width), set()).add(word[nodes:nodes + width])

    @functools.cache
    def moved(self, good: frozenset[Word]) -> tuple[list[Word], set[Word]]:
        """The rings with good windows only, shortest first, and the windows that occur."""
        rings = [ring for windows, found in self.rings.items() if windows <= good for ring in found]
        seen = [window for windows, found in self.words.items() if windows <= good for window in found]
        return sorted(rings, key=lambda ring: (len(ring), ring)), set(seen)


def digits(word: Word) -> str:
    return "".join(map(str, word))


class Moved(unittest.TestCase):
    def test_all_rules_of_small_shapes(self) -> None:
        """Each rule of 2:2, 2:3 and 3:2 with each cell of the window, by rings of up to ten letters."""
        nothing = 0
        for states, width in ((2, 2), (2, 3), (3, 2)):
            known = Enumeration(states, width, 10)
            windows = list(product(range(states), repeat=width))
            for at, table in enumerate(product(range(states), repeat=len(windows))):
                offset = at % 5 - 3
                rule = ca.Rule(states=states, width=width, offset=offset, table=table)
                for place in range(width):
                    good = frozenset(window for window, letter in zip(windows, table) if letter == window[place])
                    rings, seen = known.moved(good)
                    found = ca.moved(rule, offset + place)
                    self.assertEqual(found.windows, tuple(map(digits, sorted(seen))), (rule, place))
                    self.assertEqual(found.ring, digits(rings[0]) if rings else None, (rule, place))
                    nothing += not found
        self.assertEqual(nothing, 6 + 117 + 7936)

    def test_rings_and_words(self) -> None:
        """The rings and the words of each length, and how many there are, for the elementary rules and some of 3:2."""
        dice = random.Random(5)
        asked = [(2, 3, table) for table in product(range(2), repeat=8)]
        asked += [(3, 2, tuple(dice.choices(range(3), k=9))) for _ in range(200)]
        known = {(states, width): Enumeration(states, width, 7) for states, width in ((2, 3), (3, 2))}
        for states, width, table in asked:
            windows = list(product(range(states), repeat=width))
            rule = ca.Rule(states=states, width=width, table=table)
            place = dice.randrange(width)
            good = frozenset(window for window, letter in zip(windows, table) if letter == window[place])
            rings, seen = known[states, width].moved(good)
            found = ca.moved(rule, place)
            for length in range(1, 8):
                wanted = [digits(ring) for ring in rings if len(ring) == length]
                self.assertEqual(list(found.rings(length)), wanted)
                self.assertEqual(found.count_rings(length), len(wanted))
            for length in range(7):
                wanted = [digits(word) for word in product(range(states), repeat=length)
                          if (parts(word, width) <= seen if length >= width else
                              any(window[:length] == word for window in seen))]
                self.assertEqual(list(found.words(length)), wanted)
                self.assertEqual(found.count_words(length), len(wanted))
                self.assertTrue(all(word in found for word in wanted))
            self.assertEqual(sum(digits(word) in found for word in product(range(states), repeat=4)), found.count_words(4))

    def test_the_rings_are_moved(self) -> None:
        """By one step of the library, for drawn rules of all shapes; and what the second computation says of them."""
        seen = 0
        for rule in map(ca.Rule, drawn(240, 3)):
            for by in range(rule.offset, rule.offset + rule.width):
                found = ca.moved(rule, by)
                self.assertEqual(str(found), checker.said(checker.Rule(str(rule)), by), (rule, by))
                for length in (1, 2, 3, 5):
                    for ring in islice(found.rings(length), 20):
                        turn = by % length
                        self.assertEqual(ca.image(rule, ring=ring), ring[turn:] + ring[:turn], (rule, by))
                        seen += 1
        self.assertGreater(seen, 1000)
        self.assertEqual({tuple(map(int, rule.split(":")[:2])) for rule in drawn(240, 3)}, set(SHAPES))

    def test_known_rules(self) -> None:
        """Rule 184 is traffic: what waits is 0s and then 1s, and single cars move. Rule 204 leaves all, and rule 51 nothing."""
        waits, drives = ca.moved(184), ca.moved(184, -1)
        self.assertEqual(waits.windows, ("000", "001", "011", "111"))
        self.assertEqual(drives.windows, ("000", "001", "010", "100", "101", "111"))
        self.assertEqual(list(waits.words(4)), ["0000", "0001", "0011", "0111", "1111"])
        self.assertEqual([drives.count_rings(length) for length in range(1, 8)], [2, 4, 5, 8, 12, 19, 30])      # Lucas, and 1..1
        self.assertEqual([waits.count_rings(length) for length in (1, 2, 3000)], [2, 2, 2])
        self.assertEqual(("01" in waits, "10" in waits, "1101" in drives, "" in waits, [0, 1, 1] in waits),
                         (True, False, False, True, True))
        self.assertEqual((ca.moved(204).windows, ca.moved(204).ring), (tuple(f"{window:03b}" for window in range(8)), "0"))
        nothing = ca.moved(51)
        self.assertEqual((bool(nothing), str(nothing), nothing.windows), (False, "none\n", ()))
        self.assertEqual((list(nothing.words(0)), list(nothing.rings(2)), nothing.count_words(3), "" in nothing), ([], [], 0, False))
        self.assertEqual((ca.moved(51, 1).ring, ca.moved(105).ring, ca.moved(90, 1).ring), ("01", "0011", "0"))

    def test_an_answer(self) -> None:
        found = ca.moved(184, -1)
        self.assertEqual(str(found), "ring 0\nwindows 000 001 010 100 101 111\n")
        self.assertEqual(found.as_dict(), {"rule": "2:3:-1:t00011101", "by": -1, "windows": "000 001 010 100 101 111", "ring": "0"})
        self.assertEqual((pickle.loads(pickle.dumps(found)), len({found, ca.moved(184, -1), ca.moved(184)})), (found, 2))
        self.assertIn("<td style='text-align:left'>-1</td>", found._repr_html_())

    def test_command_line(self) -> None:
        ask = [sys.executable, "-m", "foursaspen"]
        self.assertEqual(output([*ask, "moved", "184", "-1"]), "ring 0\nwindows 000 001 010 100 101 111\n")
        self.assertEqual((output([*ask, "moved", "30"]), output([*ask, "moved", "51"])), ("ring 0\nwindows 000 010 101\n", "none\n"))
        self.assertEqual(output([*ask, "picture", "184", "moved", "--by", "-1"]), ca.picture(184, "moved", by=-1))

    def test_what_is_refused(self) -> None:
        for by in (-2, 2, 127, -128, 10 ** 30):
            with self.assertRaisesRegex(ca.UsageError, f"^by is -1 to 1, a cell of the window of cell 0, and not {by:,}$"):
                ca.moved(184, by)
        with self.assertRaisesRegex(TypeError, "^by is a whole number, and not 'x' of type str$"):
            ca.moved(184, "x")      # type: ignore[arg-type]
        found = ca.moved(184)
        with self.assertRaisesRegex(ca.UsageError, "^word has letters from 0 to 1, and not '2'$"):
            "012" in found
        for call in (found.rings, found.count_rings):
            with self.assertRaisesRegex(ca.UsageError, "^length is 1 to 4,096, and not 0$"):
                call(0)


if __name__ == "__main__":
    unittest.main()
