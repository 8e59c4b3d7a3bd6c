"""Lists of all rules with a property: in one piece, in parts over each kind of executor, and on the command line."""
from __future__ import annotations

import io
import sys
import tempfile
import threading
import unittest
from concurrent.futures import ProcessPoolExecutor, ThreadPoolExecutor
from multiprocessing import get_context
from pathlib import Path
from typing import Any
from unittest import mock

import foursaspen as ca
from foursaspen import lists
from foursaspen.library import Library

from .support import output
from .test_surveys import AtOnce

# How many rules are surjective, injective, right-closing, left-closing, open and conserving, as docs/LISTS.md has them.
COUNTS = {(2, 3): (30, 6, 22, 22, 14, 5), (2, 4): (582, 16, 314, 314, 46, 22), (3, 2): (420, 48, 240, 240, 60, 4)}
REVERSIBLE = ["2:3:-1:t00001111", "2:3:-1:t01010101", "2:3:-1:t00110011", "2:3:-1:t11001100", "2:3:-1:t10101010",
              "2:3:-1:t11110000"]


class Lists(unittest.TestCase):
    def test_each_list_has_each_rule_once(self) -> None:
        for (states, width), counts in COUNTS.items():
            for name, count in zip(lists.PROPERTIES, counts):
                found = list(ca.rules(name, states, width))
                self.assertEqual((len(found), len(set(found))), (count, count))

    def test_the_rules_have_the_property(self) -> None:
        for name, bit in lists.PROPERTIES.items():
            for rule in ca.rules(name, 3, 2):
                self.assertTrue(bit in ca.verdicts(3, 2, [int(letter) for letter in rule[len("3:2:0:t"):]]))

    def test_the_order_is_that_of_the_page(self) -> None:
        self.assertEqual(list(ca.rules("injective", 2, 3, -1)), REVERSIBLE)
        self.assertEqual(list(ca.rules("injective", 2, 3, -1, "0")), REVERSIBLE[:3])
        self.assertEqual(list(ca.rules("injective", 2, 3, -1, "01010101")), REVERSIBLE[1:2])
        self.assertEqual(list(ca.rules("injective", 2, 3, -1, "01010100")), [])

    def test_parts_of_a_beginning_add_up(self) -> None:
        parts = [set(ca.rules("surjective", 3, 2, 0, f"{first}{second}")) for first in range(3) for second in range(3)]
        self.assertEqual(sum(map(len, parts)), 420)
        self.assertEqual(set[str]().union(*parts), set(ca.rules("surjective", 3, 2)))

    def test_each_executor_lists_the_same(self) -> None:
        wanted = list(ca.rules("surjective", 2, 3))
        with ThreadPoolExecutor(3) as threads, ProcessPoolExecutor(2, mp_context=get_context("spawn")) as processes:
            for executor in (threads, processes, AtOnce()):
                self.assertEqual(list(ca.rules("surjective", 2, 3, executor=executor)), wanted)
                self.assertEqual(list(ca.rules("surjective", 2, 3, begin="0110", executor=executor)),
                                 [rule for rule in wanted if rule.startswith("2:3:0:t0110")])

    def test_a_task(self) -> None:
        """A part has its tables, the first of them where it is stopped; what goes wrong in its thread is raised."""
        order, free, stop = bytes(range(4)), bytes([lists.OPEN] * 4), lists.Stop()
        wanted = list(lists.tables(ca.Bit.SURJECTIVE, 2, 2, order, free))
        self.assertEqual((lists.part(ca.Bit.SURJECTIVE, 2, 2, order, free, stop), len(wanted)), (wanted, 6))
        with self.assertRaisesRegex(AssertionError, "ca_next_rule gives"):
            lists.part(ca.Bit.SURJECTIVE, 2, 2, bytes(4), free, stop)
        stop.set()
        found = lists.part(ca.Bit.SURJECTIVE, 2, 2, order, free, stop)
        self.assertEqual(found, wanted[:len(found)])

    def test_the_parts_fix_all_letters_that_can_stand(self) -> None:
        for states, size, begin, least in ((2, 8, b"", 64), (3, 9, b"\1\2", 64), (16, 16, b"", 64), (2, 4, b"\0\1\1\0", 64),
                                           (2, 8, b"", 1)):
            order = bytes(reversed(range(size)))
            parts = list(lists.parts(states, order, begin, least))
            ranks = [[part[window] for window in order] for part in parts]
            self.assertEqual(ranks, sorted(ranks))
            self.assertEqual(len(set(map(bytes, parts))), len(parts))
            self.assertTrue(all(part.startswith(begin) and len(part) == size for part in parts))
            free = sum(letter != lists.OPEN for letter in parts[0]) - len(begin)
            self.assertEqual(len(parts), states ** free)
            self.assertTrue(len(parts) >= least or free == size - len(begin))

    def test_progress_adds_up(self) -> None:
        for executor in (None, AtOnce()):
            seen: list[ca.Listing] = []
            self.assertEqual(len(list(ca.rules("surjective", 2, 3, executor=executor, progress=seen.append))), 30)
            self.assertEqual([one.parts for one in seen], list(range(1, seen[-1].of + 1)))
            self.assertEqual([one.rules for one in seen], sorted(one.rules for one in seen))
            self.assertEqual(seen[-1].rules, 30)
            self.assertIn("64 of 64 parts, 30 rules", str(seen[-1]))

    def test_all_rules(self) -> None:
        """By their numbers, and with a beginning those of it."""
        self.assertEqual([rule.number for rule in ca.rules("all", 2, 3, -1)], list(range(256)))
        self.assertEqual([rule.number for rule in ca.rules("all", 3, 2)], list(range(3 ** 9)))
        begun = [rule for rule in ca.rules("all", 2, 3) if rule.startswith("2:3:0:t0110")]
        self.assertEqual((list(ca.rules("ALL", 2, 3, begin="0110")), len(begun)), (begun, 16))
        seen: list[ca.Listing] = []
        self.assertEqual((len(list(ca.rules("all", 2, 2, begin="0110", progress=seen.append))), seen[-1].parts, seen[-1].rules), (1, 1, 1))
        self.assertEqual(len(list(ca.rules("all", 2, 3, progress=seen.append))), 256)
        self.assertEqual((seen[-1].parts, seen[-1].of, seen[-1].rules), (64, 64, 256))
        self.assertEqual(len(list(ca.rules("all", 2, 3, classes=True))), 88)

    def test_rules_that_keep_a_sum(self) -> None:
        """Of two states and width 4 there are 584 that keep the number of 10, and all of a list keep it."""
        self.assertEqual(len(list(ca.rules("all", 2, 4, keeps={"10": 1}))), 584)
        cars = list(ca.rules("all", 2, 4, keeps={1: 1}))
        self.assertEqual(set(cars), set(ca.rules("conserving", 2, 4)))
        self.assertEqual(sum(1 for _ in ca.rules("reversible", 3, 3, keeps={"2": 1})),
                         sum(bool(ca.keeps(rule, {"2": 1})) for rule in ca.rules("reversible", 3, 3)))

    def test_rules_that_read_every_cell(self) -> None:
        found = list(ca.rules("reversible", 3, 3, every_cell=True, inverse_width=3))
        self.assertEqual(len(found), 738)
        self.assertTrue(all(len(rule.reads) == 3 and rule.reads_every_cell for rule in found))

    def test_a_line_without_tqdm(self) -> None:
        """It says how far the list is, and ends with how far it came."""
        with mock.patch.dict(sys.modules, {"tqdm": None}), mock.patch("sys.stderr", new_callable=io.StringIO) as said, \
                mock.patch("foursaspen.progress.OFTEN", 0.0):
            self.assertEqual(len(list(ca.rules("open", 2, 3, bar=True))), 14)
        lines = said.getvalue().split("\r")
        self.assertTrue(lines[1].startswith("1 of 64 parts, 0 s"), lines[1])
        self.assertTrue(lines[-1].startswith("64 of 64 parts, ") and lines[-1].endswith("\n"), lines[-1])

    def test_a_bar(self) -> None:
        tqdm = mock.MagicMock()
        with mock.patch.dict(sys.modules, {"tqdm": tqdm}):
            self.assertEqual(len(list(ca.rules("open", 2, 3, bar=True))), 14)
        tqdm.tqdm.assert_called_once_with(total=64, initial=0, unit=" parts", unit_scale=True)
        tqdm.tqdm.return_value.close.assert_called_once_with()

    def test_a_list_is_asked_for_rule_by_rule(self) -> None:
        begun = ca.rules("injective", 3, 3)
        first = next(begun)
        begun.close()
        self.assertTrue(ca.decide(first).injective)

    def test_the_library_searches_in_another_thread(self) -> None:
        """A call of it can't be stopped, so who waits hears Ctrl-C only if another thread calls."""
        callers: set[threading.Thread] = set()
        next_rule = Library.next_rule

        def called(*operands: Any) -> Any:
            callers.add(threading.current_thread())
            return next_rule(*operands)
        with mock.patch.object(Library, "next_rule", called):
            self.assertEqual(len(list(ca.rules("surjective", 2, 4))), 582)
        self.assertEqual((len(callers), threading.main_thread() in callers), (1, False))

    def test_a_list_that_is_left_leaves_its_tasks(self) -> None:
        executor = AtOnce()
        with mock.patch.object(lists, "AHEAD", 1):              # one task a step
            begun = ca.rules("surjective", 2, 3, executor=executor)
            next(begun)
            begun.close()
        self.assertLess(executor.calls, 64)

    def test_refusals_come_at_once(self) -> None:
        over: Any = ca.rules
        for words in (("undoable", 2, 3), ("", 2, 3), ((), 2, 3), (ca.Bit(0), 2, 3), ("injective", 1, 3), ("injective", 2, 6),
                      ("injective", 17, 2), ("injective", 2, 3, 0, "2"), ("injective", 2, 3, 0, "000000000"),
                      ("injective", 2, 3, 0, "x"), ("injective", 2, 3, 0, "\u0661"), ("injective", 2, 3, 0, "0\n")):
            with self.assertRaises(ca.UsageError):
                over(*words)
        for words, kind in ((("injective", 3, 4), "nodes"), (("injective", 2, 3, 15), "offset"),
                            (("injective", 2, 3, -17), "offset")):
            with self.assertRaises(ca.RuleError) as caught:
                over(*words)
            self.assertEqual(caught.exception.kind, kind)
        for words in (("injective", "2", 3), ("injective", 2, 3, 0, 1), ("injective", 2, 3, "0"), ("injective", 2, 3, 0, b"0"),
                      (2, 2, 3), ([2], 2, 3), ({"injective"}, 2, 3), ("injective", 2, 3, 0, "", 4)):
            with self.assertRaises(TypeError):
                over(*words)
        self.assertEqual(list(ca.rules("injective", 2, 3, 14, "0"))[0], "2:3:14:t00001111")
        shift = "0123456789A" * 11
        self.assertEqual(list(ca.rules("injective", 11, 2, 0, shift)), [f"11:2:0:t{shift.lower()}"])


class Listing(unittest.TestCase):
    def setUp(self) -> None:
        room = tempfile.TemporaryDirectory()
        self.addCleanup(room.cleanup)
        self.folder = Path(room.name) / "certificates"

    def listed(self, *words: str) -> list[str]:
        """The lines of a list."""
        return output([sys.executable, "-m", "foursaspen", "list", *words]).splitlines()

    def test_the_lines_are_those_of_the_program(self) -> None:
        self.assertEqual(self.listed("injective", "2:3:-1:t"), [*REVERSIBLE, "rules 6"])
        self.assertEqual(self.listed("injective", "2:3:-1:t1"), [*REVERSIBLE[3:], "rules 3"])
        self.assertEqual(self.listed("injective", "2:3:-1:t0110"), ["rules 0"])

    def test_each_rule_has_its_certificate(self) -> None:
        self.assertEqual(self.listed("open", "2:3:0:t", "--certificates", str(self.folder))[-1], "rules 14")
        files = sorted(self.folder.iterdir())
        self.assertEqual(len(files), 14)
        for file in files:
            with file.open("rb") as text:
                told = ca.check(text)
            self.assertTrue(told.open)
            self.assertEqual(file.name, told.rule.replace(":", "_") + ".json")
            self.assertEqual(file.read_text(), str(ca.brief(told.rule)))

    def test_what_is_refused(self) -> None:
        for words, line in ((("injective", "110"), "BEGIN is STATES:WIDTH:OFFSET:t"), (("injective", "2:3:-1:w1"), "BEGIN is"),
                            (("injective", "2:3:-1:t2"), "begin is at most 8"), (("injective", "2:3:15:t"), "rule fault 1 offset"),
                            (("undoable", "2:3:0:t"), "property is one of surjective, ")):
            with self.assertRaisesRegex(AssertionError, line):
                self.listed(*words, "--certificates", str(self.folder))
            self.assertFalse(self.folder.exists())
        self.folder.write_text("a letter to a friend")
        with self.assertRaisesRegex(AssertionError, "ended with 1: .*certificates"):
            self.listed("injective", "2:3:0:t", "--certificates", str(self.folder))


if __name__ == "__main__":
    unittest.main()
