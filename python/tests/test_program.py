"""The package beside the program, byte for byte."""
from __future__ import annotations

import unittest
from collections.abc import Callable
from concurrent.futures import ThreadPoolExecutor

import foursaspen as ca

from .support import TOP, drawn, program

Asked = list[tuple[Callable[[], object], str]]

LONG = "0" * 1025
# A rule whose inverse reads 15 cells.
WIDE = next(row.split()[2] for row in (TOP / ".ci" / "calls.txt").read_text().splitlines() if row.startswith("4 inverse 16:"))
# One command line a line; the words of a line stand between blanks.
LINES = f"""
decide 110
decide 184 1,4
decide 110 0,1,2
decide 110 256,0
decide 16:2:0:t{"0123456789abcdef" * 16}
decide
decide 110 30
orphan 110
orphan 30
orphan 256
orphan 2:3
orphan 2:3:-1:t01110112
orphan 1:2:0:t00
orphan 2:6:0:t0
orphan 5:3:0:t0
orphan 2:2:17:t0110
orphan 7:2:0:w0
orphan 2:2:0:t011
orphan 110 30
number 2:3:-1:t01110110
number 7:2:0:t{"0123456" * 7}
survey 2 3 0 256
survey 2 2 10 7
survey 7 2 0 1
survey 2 3 0 0
survey 2 3 0 4097
sample 2 2 0 1
sample 16 2 7 50
sample 2 6 0 1
classes 2 3 0 256
classes 7 2 0 1
certify 2:2:0:t0110
certify 2:2:0:t0101 0,2
certify 2:2:0:t0101 0
brief 2:2:0:t0011
brief 110 1,1
language 2:2:0:t0001
language 90
language 256
same 2:2:0:t0001 2:2:0:t0111
same 110 2:3:0:t01110110
same 110 3:2:0:w0
same 3:2:0:w0 256
preimage 90 0|1|0
preimage 204 011|01|0
preimage 110 0|101|0
preimage 110 |1|0
preimage 110 0|1|
preimage 110 0|{LONG}|0
preimage 110 0|1|2
preimage 110 0|1
erase 0
erase 90
inverse 170
inverse 90
inverse 2:2:0:t0101
compose 90 90
compose 110 3:2:0:w0
compose 2:5:0:w0 110
trim 170
widen 2:2:0:t0110 3
widen 110 2
widen 2:2:15:w0 3
shift 204 1
shift 110 -16
reflect 110
permute 110 10
permute 110 11
least 193
least 7:2:0:t{"0" * 49}
lift 2:2:0:t0110
lift 2:4:0:w0
lift 5:2:0:w0
lift 2:2:1:t0110
unlift 2:2:0:t0110
unlift 2:2:-2:t0110
unlift 256
check 110
nothing
"""


class Lines(unittest.TestCase):
    """Command lines, every command and every kind of fault among them."""

    def compare(self, words: list[str], data: bytes = b"") -> None:
        with self.subTest(words=words):
            self.assertEqual(tuple(ca.run(words, data)), program(words, data))

    def test_lines(self) -> None:
        for line in LINES.strip().splitlines():
            self.compare(line.split(" "))

    def test_no_word_and_empty_words(self) -> None:
        lines: list[list[str]] = [[], [""], ["", ""], ["decide", ""], ["decide", "110", ""], ["decid\u00e9", "110"]]
        for words in lines:
            self.compare(words)

    def test_inputs_of_check(self) -> None:
        good = str(ca.certify("2:2:0:t0101", [0, 2]))
        for text in (good, good.replace("[0,2]", "[0,1]"), good.replace("3,1,2", "3,1"), "", "[]", "{", "\0"):
            self.compare(["check"], text.encode())
        self.compare(["check"], b" " * 4194304)
        self.compare(["check"], b" " * 4194305)

    def test_a_long_output(self) -> None:
        """x + 2y modulo 16 has an inverse that reads four letters, and so 65,536 entries: more than the first
        buffer has room for."""
        table = "".join(f"{(x + 2 * y) % 16:x}" for x in range(16) for y in range(16))
        self.compare(["inverse", f"16:2:0:t{table}"])
        self.compare(["decide", "110"])         # and the next is a short one


class Drawn(unittest.TestCase):
    """300 drawn rules."""

    def test_drawn_rules(self) -> None:
        surjective = 0
        for rule in drawn(300, seed=33):
            with self.subTest(rule=rule):
                report, (code, output) = ca.decide(rule), program(["decide", rule])
                self.assertEqual((0, str(report).encode()), (code, output))
                surjective += report.surjective
                certificate = ca.brief(rule)
                text = str(certificate).encode()
                self.assertEqual((0, text), program(["brief", rule]))
                self.assertEqual((0, str(ca.check(certificate)).encode()), program(["check"], text))
        self.assertTrue(50 < surjective < 250, surjective)


class Threads(unittest.TestCase):
    def test_calls_of_threads_do_not_meet(self) -> None:
        rules: list[ca.RuleLike] = [n % 256 for n in range(1000)]
        with ThreadPoolExecutor(8) as pool:
            self.assertEqual(list(pool.map(ca.decide, rules)), [ca.decide(rule) for rule in rules])


class Functions(unittest.TestCase):
    """Each function asks for the command of its name, and hands its operands over."""

    TEXTS: Asked = [
        (lambda: ca.decide(110), "decide 110"),
        (lambda: ca.decide("110", [3, 4]), "decide 110 3,4"),
        (lambda: ca.decide(110, "3,4"), "decide 110 3,4"),
        (lambda: ca.certify(30), "certify 30"),
        (lambda: ca.brief(30, (1, 2)), "brief 30 1,2"),
        (lambda: ca.language(54), "language 54"),
        (lambda: ca.same(110, 124), "same 110 124"),
        (lambda: ca.same(110, 110), "same 110 110"),
        (lambda: ca.preimage(90, "0|1|0"), "preimage 90 0|1|0"),
        (lambda: ca.preimage(110, ca.Tail("0", "101", "0")), "preimage 110 0|101|0"),
        (lambda: ca.inverse(170), "inverse 170"),
        (lambda: ca.survey(2, 3, 7, 100), "survey 2 3 7 100"),
        (lambda: ca.sample(4, 3, 5, 20), "sample 4 3 5 20"),
        (lambda: ca.classes(2, 3, 7, 100), "classes 2 3 7 100"),
    ]
    RULES: Asked = [
        (lambda: ca.compose(90, 30), "compose 90 30"),
        (lambda: ca.trim(170), "trim 170"),
        (lambda: ca.widen(170, 4), "widen 170 4"),
        (lambda: ca.shift(170, -3), "shift 170 -3"),
        (lambda: ca.reflect(110), "reflect 110"),
        (lambda: ca.permute(110, "10"), "permute 110 10"),
        (lambda: ca.permute(110, [1, 0]), "permute 110 10"),
        (lambda: ca.least(193), "least 193"),
        (lambda: ca.lift("2:2:0:t0110"), "lift 2:2:0:t0110"),
        (lambda: ca.unlift("2:2:0:t0110"), "unlift 2:2:0:t0110"),
    ]

    FAULTS: Asked = [
        (lambda: ca.orphan(256), "orphan 256"),
        (lambda: ca.orphan("2:3"), "orphan 2:3"),
        (lambda: ca.decide("2:3:-1:t01110112"), "decide 2:3:-1:t01110112"),
        (lambda: ca.same("3:2:0:w0", "256"), "same 3:2:0:w0 256"),
        (lambda: ca.survey(2, 2, 10, 7), "survey 2 2 10 7"),
        (lambda: ca.survey(7, 2, 0, 1), "survey 7 2 0 1"),
        (lambda: ca.inverse(90), "inverse 90"),
        (lambda: ca.decide(110, [1]), "decide 110 1"),
        (lambda: ca.same(110, "3:2:0:w0"), "same 110 3:2:0:w0"),
        (lambda: ca.preimage(110, "|1|0"), "preimage 110 |1|0"),
        (lambda: ca.preimage(110, f"0|{LONG}|0"), f"preimage 110 0|{LONG}|0"),
        (lambda: ca.preimage(110, "0|1|2"), "preimage 110 0|1|2"),
        (lambda: ca.compose("2:5:0:t01010101010101011010101010101010", 90), "compose 2:5:0:t01010101010101011010101010101010 90"),
        (lambda: ca.permute(110, "11"), "permute 110 11"),
        (lambda: ca.least("7:2:0:t" + "0" * 49), "least 7:2:0:t" + "0" * 49),
        (lambda: ca.lift("2:2:1:t0110"), "lift 2:2:1:t0110"),
        (lambda: ca.check(""), "check"),
        (lambda: ca.inverse(WIDE), f"inverse {WIDE}"),
    ]

    def test_texts_are_what_the_program_prints(self) -> None:
        for asked, line in self.TEXTS:
            with self.subTest(line=line):
                self.assertEqual((0, str(asked()).encode()), program(line.split()))

    def test_rules_are_the_line_that_the_program_prints(self) -> None:
        for asked, line in self.RULES:
            with self.subTest(line=line):
                self.assertEqual((0, f"{asked()}\n".encode()), program(line.split()))

    def test_plain_values(self) -> None:
        rules: list[ca.RuleLike] = [0, 30, 90, 110, "3:2:0:t012120201", "7:2:0:t" + "0123456" * 7]
        for rule in rules:
            with self.subTest(rule=rule):
                orphan = ca.orphan(rule)
                self.prints(["orphan", str(rule)], f"surjective no orphan {orphan}" if orphan else "surjective yes")
                number = ca.number(rule)
                self.prints(["number", str(rule)], f"number {'none' if number is None else number}")
                pair = ca.erase(rule)
                self.prints(["erase", str(rule)], f"erase {pair.first} {pair.second}" if pair else "erase none")

    def prints(self, words: list[str], line: str) -> None:
        self.assertEqual(program(words), (0, f"{line}\n".encode()))

    def test_counts(self) -> None:
        """The lines of a summary, which are its own."""
        for words, summary in ((["survey", "2", "3", "7", "100"], ca.survey(2, 3, 7, 100)),
                               (["sample", "4", "3", "5", "20"], ca.sample(4, 3, 5, 20))):
            self.assertEqual(program(words), (0, str(summary).encode()))

    def test_exceptions_say_what_the_program_prints(self) -> None:
        for asked, line in self.FAULTS:
            with self.subTest(line=line), self.assertRaises(ca.FoursaspenError) as caught:
                asked()
            fault = caught.exception
            self.assertEqual((fault.code, fault.output.encode()), program(line.split()))
            self.assertEqual(str(fault).split(":")[0], fault.output.rstrip())


if __name__ == "__main__":
    unittest.main()
