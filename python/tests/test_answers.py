"""The parts of answers, by what docs/COMMANDS.md and docs/CERTIFICATES.md show, and the exceptions."""
from __future__ import annotations

import copy
import dataclasses
import json
import os
import pickle
import re
import shutil
import subprocess
import sys
import tempfile
import unittest
import unittest.mock
from collections.abc import Callable
from ctypes import CDLL as cdll
from pathlib import Path
from unittest import mock

import foursaspen as ca
from foursaspen import calls, faults, library

from .support import TOP, output


def cells(answer: object) -> list[list[str]]:
    """The cells of the table of an answer."""
    shown: str = getattr(answer, "_repr_html_")()
    return [re.findall("<t[hd][^>]*>(.*?)</t[hd]>", row) for row in re.findall("<tr>(.*?)</tr>", shown)]


class Reports(unittest.TestCase):
    def test_parts_of_a_no(self) -> None:
        report = ca.decide(110)
        self.assertEqual((report.rule, report.number), ("2:3:-1:t01110110", 110))
        self.assertEqual((report.surjective, report.orphan), (False, "01010"))
        self.assertEqual((report.injective, report.window, report.twins), (False, None, ca.Pair("0", "1")))
        self.assertEqual(report.right, ca.Closing(None, ca.Split(ca.Tail("0", "100", "0"), ca.Tail("0", "111", "1"))))
        self.assertEqual(str(report.left.split and report.left.split.second), "110|11|0")
        self.assertEqual((bool(report.right), report.open, report.conserving), (False, False, False))
        self.assertEqual((report.flux, report.ring), (None, "1"))

    def test_parts_of_a_yes(self) -> None:
        report = ca.decide("2:2:0:t0101", weights=[0, 2])
        self.assertEqual((report.surjective, report.orphan, report.injective), (True, None, True))
        self.assertEqual((report.window, report.twins), (ca.Window(1, 1), None))
        self.assertEqual((report.right, report.left), (ca.Closing(1, None), ca.Closing(2, None)))
        self.assertEqual((report.open, report.conserving, report.flux, report.ring), (True, True, (0, -2), None))

    def test_weights_go_with_a_report(self) -> None:
        """The rule that exchanges 0 and 2 keeps a sum exactly where they weigh the same."""
        rule = ca.Rule.of(lambda a, b: {0: 2, 1: 1, 2: 0}[a], states=3)
        self.assertFalse(ca.decide(rule).conserving)
        report = ca.decide(rule, [5, 9, 5])
        self.assertEqual((report.conserving, report.flux, report.weights), (True, (0, 0, 0), (5, 9, 5)))
        self.assertEqual((ca.decide(report), ca.decide(report, [0, 1, 2]).conserving), (report, False))
        for certificate in (ca.certify(report), ca.brief(report)):
            verdicts = ca.check(certificate)
            self.assertEqual((verdicts.weights, verdicts.conserving, certificate.weights), ((5, 9, 5), True, (5, 9, 5)))
            self.assertEqual([ca.decide(verdicts), ca.decide(certificate)], [report, report])
        self.assertIn("conserving: <b>yes</b>", ca.page(report))
        self.assertEqual(ca.page(report), ca.page(rule, "5,9,5"))
        self.assertIn("conserving: <b>no</b>", ca.page(rule))
        self.assertEqual(ca.picture(report, "flux"), ca.picture(rule, "flux", {0: 5, 1: 9, 2: 5}))
        self.assertEqual(ca.picture(report, "current")[:4], "<svg")
        self.assertRaises(ValueError, ca.picture, rule, "flux")
        ask = [sys.executable, "-m", "foursaspen"]
        self.assertEqual(output([*ask, "picture", rule, "flux", "--weights", "5,9,5"]), ca.picture(report, "flux"))
        self.assertEqual(output([*ask, "page", rule, "5,9,5"]), ca.page(report))

    def test_reports_of_other_sums_differ(self) -> None:
        reports = [ca.decide(0), ca.decide(0, [0, 1]), ca.decide(0, [1, 1]), ca.decide(0, [2, 2]), ca.decide(0, [1, 2])]
        self.assertEqual([report.weights for report in reports], [None, None, (1, 1), (2, 2), (1, 2)])
        self.assertEqual(len(set(reports)), 4)
        self.assertEqual(pickle.loads(pickle.dumps(reports[3])), reports[3])

    def test_values_in_one_row(self) -> None:
        """By the report of README, and by docs/COMMANDS.md."""
        row = ca.decide(110).as_dict()
        self.assertEqual(row, json.loads(json.dumps(row)))
        self.assertEqual(row, {
            "rule": "2:3:-1:t01110110", "number": 110, "surjective": False, "orphan": "01010", "injective": False, "window": None,
            "twins": "0 1", "right": False, "right_ahead": None, "right_split": "0|100|0 0|111|1", "left": False,
            "left_ahead": None, "left_split": "011|01|0 110|11|0", "open": False, "conserving": False, "flux": None, "ring": "1",
            "weights": None})
        more = ca.as_dict(170)
        self.assertEqual({name: more[name] for name in ("window", "right_ahead", "left_ahead", "flux", "inverse", "least", "kept_sums")},
                         {"window": "1 2", "right_ahead": 1, "left_ahead": 3, "flux": "0 -1 -1 -2", "inverse": "2:2:-1:t0011",
                          "least": "2:3:-1:t01010101", "kept_sums": "1 2 4 8"})
        for answer in (ca.survey(2, 2, 0, 16), ca.classes(2, 2, 0, 16), ca.inverse(170), ca.same(110, 90), ca.certify(30),
                       ca.preimage(204, "1|0|1"), ca.language(110), ca.check(ca.brief(30))):
            self.assertEqual(answer.as_dict(), json.loads(json.dumps(answer.as_dict())))

    def test_certificates_say_what_they_are(self) -> None:
        certificate = ca.certify("2:2:0:t0101")
        self.assertEqual(repr(certificate), f"Certificate('2:2:0:t0101', version=2, {len(certificate.text)} bytes)")
        self.assertIs(certificate.data, certificate.data)
        self.assertEqual(repr(ca.brief(110))[:47], "Certificate('2:3:-1:t01110110', version=3, 393 ")

    def test_answers_are_frozen(self) -> None:
        with self.assertRaises(dataclasses.FrozenInstanceError):
            ca.decide(110).orphan = ""          # type: ignore[misc]

    def test_notebooks_show_tables(self) -> None:
        shown = ca.decide("2:2:0:t0101")._repr_html_()
        self.assertEqual(shown.count("<tr>"), 8)
        self.assertIn("<td style='text-align:left'>yes window 1 1</td>", shown)
        self.assertEqual(cells(ca.language("2:2:0:t0001")), [
            ["class", "after 0", "after 1"], ["0", "0", "1"], ["1", "2", "1"], ["2", "0", "3"],
            ["3, of the orphans", "3", "3"]])
        self.assertEqual(cells(ca.preimage(90, "0|1|0")), [["preimage", "0|0|01"], ["its middle begins at cell", "-1"]])
        self.assertEqual(cells(ca.preimage(110, "0|101|0")), [
            ["preimage", "none"], ["orphan", "01010"], ["left periods in it", "1"], ["right periods in it", "1"]])
        report = ca.decide(110)
        self.assertEqual(cells(ca.decide(184).twins), [["first", *"0011"], ["second", *"0101"]])
        self.assertEqual(cells(report.right), [["closes", "no"], ["split", "0|100|0", "0|111|1"]])
        self.assertEqual(cells(report.right.split), [["first", "0|100|0"], ["second", "0|111|1"]])
        self.assertEqual(cells(ca.decide(30).left), [["closes", "yes"], ["look-ahead", "1"]])

    def test_a_long_language_is_cut(self) -> None:
        language = ca.language("2:4:0:w30309")
        rows = cells(language)
        self.assertEqual(len(rows), min(language.classes, 64) + 1 + (language.classes > 64))

    def test_no_number_and_no_rule(self) -> None:
        self.assertIsNone(ca.decide("7:2:0:t" + "0" * 49).number)
        wide = "".join(f"{(x + 2 * y) % 16:x}" for x in range(16) for y in range(16))
        self.assertIsNone(ca.inverse(f"16:2:0:t{wide}").rule)

    def test_verdicts_of_a_certificate(self) -> None:
        verdicts = ca.check(ca.certify("2:2:0:t0101", [0, 2]))
        self.assertEqual((verdicts.rule, verdicts.open, verdicts.weights), ("2:2:0:t0101", True, (0, 2)))
        self.assertEqual(ca.check(str(ca.brief(110)).encode()).weights, None)
        self.assertEqual(ca.certify("2:2:0:t0101").data["surjective"], {"sets": [3, 1, 2]})

    def test_languages(self) -> None:
        language = ca.language("2:2:0:t0001")
        self.assertEqual(language.after, ((0, 1), (2, 1), (0, 3), (3, 3)))
        self.assertEqual([language.class_of(word) for word in ("", "1", "10", "101", "1011")], [0, 1, 2, 3, 3])
        self.assertIn("0110", language)
        self.assertNotIn("01010", language)
        self.assertIn("01010", ca.language(90))

    def test_preimages(self) -> None:
        found, gap = ca.preimage(204, "011|01|0"), ca.preimage(110, "0|101|0")
        self.assertEqual((found.text, bool(found)), ("preimage -1 101|101|0\n", True))
        assert isinstance(found, ca.Preimage) and isinstance(gap, ca.Gap)
        self.assertEqual((found.start, found.tail), (-1, ca.Tail("101", "101", "0")))
        self.assertEqual((gap.left, gap.right, gap.word, bool(gap)), (1, 1, "01010", False))


class Texts(unittest.TestCase):
    """The text of an answer, which is made of its values."""

    ANSWERS: tuple[Callable[[], ca.Answer], ...] = (
        lambda: ca.decide(110), lambda: ca.language(54), lambda: ca.same(110, 124), lambda: ca.preimage(90, "0|1|0"),
        lambda: ca.inverse(170), lambda: ca.classes(2, 3, 7, 100), lambda: ca.check(ca.brief(30)))

    def test_it_needs_no_library(self) -> None:
        called = AssertionError("the library is called")
        for asked in self.ANSWERS:
            answer = asked()
            with mock.patch.object(library.Library, "run", side_effect=called), \
                    mock.patch.object(library.Library, "run_json", side_effect=called):
                self.assertEqual((str(answer)[-1], str(answer)), ("\n", getattr(answer, "text")))

    def test_answers_go_between_processes(self) -> None:
        for asked in self.ANSWERS:
            answer, same = asked(), asked()
            again = pickle.loads(pickle.dumps(answer))
            self.assertEqual((again, hash(again)), (answer, hash(answer)))
            self.assertEqual((str(again), copy.deepcopy(answer)), (str(answer), answer))
            self.assertEqual((same, len({same, again, answer})), (answer, 1))
        certificate = ca.certify(110)
        self.assertEqual((pickle.loads(pickle.dumps(certificate)), len({certificate, ca.certify(110)})), (certificate, 1))

    def test_answers_are_values_alone(self) -> None:
        made = ca.Preimage(-1, ca.Tail("0", "0", "01"))
        self.assertEqual((ca.preimage(90, "0|1|0"), str(made)), (made, "preimage -1 0|0|01\n"))
        values = json.loads(json.dumps(dataclasses.asdict(ca.decide(170))))
        self.assertEqual((values["window"], values["flux"]), ({"letters": 1, "place": 2}, [0, -1, -1, -2]))
        self.assertEqual(set(values), {field.name for field in dataclasses.fields(ca.Report)})


class Replies(unittest.TestCase):
    def test_the_example_of_the_page(self) -> None:
        """The whole reply that docs/ANSWERS.md shows."""
        page = (TOP / "docs" / "ANSWERS.md").read_text()
        shown = json.loads(page.split("```json\n")[1].split("```")[0])
        self.assertEqual(json.loads(library.library().run_json(["decide", "110"]).output), shown)


class Bytes(unittest.TestCase):
    def test_counts_of_whole_shapes(self) -> None:
        """By docs/COMMANDS.md."""
        for states, width, rules, counts in ((2, 3, 256, (30, 6, 22, 22, 14, 5)), (2, 4, 65536, (582, 16, 314, 314, 46, 22)),
                                             (3, 2, 19683, (420, 48, 240, 240, 60, 4))):
            found = ca.verdict_bytes(states, width, 0, rules)
            self.assertEqual(len(found), rules)
            self.assertEqual(tuple(sum(byte & bit != 0 for byte in found) for bit in ca.Bit), counts)

    def test_of_a_table(self) -> None:
        for number, byte in enumerate(ca.verdict_bytes(2, 3, 0, 256)):
            self.assertEqual(ca.verdicts(2, 3, [number >> window & 1 for window in range(8)]), byte)
        with self.assertRaises(ca.RuleError) as caught:
            ca.verdicts(2, 3, [0] * 7)
        self.assertEqual(caught.exception.kind, "length")
        for states, width, table in ((2, 3, [0] * 7 + [2]), (2, 6, [0]), (17, 2, [0])):
            with self.assertRaises(ca.UsageError):
                ca.verdicts(states, width, table)

    def test_parts_join(self) -> None:
        with unittest.mock.patch("foursaspen.bits.PART", 100):
            self.assertEqual(ca.verdict_bytes(2, 4, 40000, 1234), ca.verdict_bytes(2, 4, 40000, 234) + ca.verdict_bytes(2, 4, 40234, 1000))
        self.assertEqual(ca.verdict_bytes(2, 3, 170, 1), bytes([63]))
        self.assertEqual(ca.verdict_bytes(2, 3, 7, 0), b"")

    def test_faults(self) -> None:
        for asked, kind in (((3, 4, 0, 1), "nodes"), ((7, 2, 0, 1), "kind"), ((2, 3, 255, 2), "number"),
                            ((2, 3, 0, 1 << 128), "number"), ((7, 2, (1 << 128) - 1, 2), "kind")):
            with self.assertRaises(ca.RuleError) as caught:
                ca.verdict_bytes(*asked)
            self.assertEqual((caught.exception.operand, caught.exception.kind), (1, kind))
        for asked in ((1, 2, 0, 1), (2, 6, 0, 1), (2, 3, -1, 1), (2, 3, 0, -1), (2, 3, 1 << 128, 1)):
            with self.assertRaises(ca.UsageError):
                ca.verdict_bytes(*asked)


class Faults(unittest.TestCase):
    def test_each_status_has_its_exception(self) -> None:
        with self.assertRaises(ca.UsageError) as usage:
            calls.reply("preimage", 110, "0|1")
        self.assertEqual((str(usage.exception), usage.exception.output), ("usage error", "usage error\n"))
        with self.assertRaises(ca.RuleError) as rule:
            ca.same("3:2:0:w0", "2:3")
        self.assertEqual((rule.exception.operand, rule.exception.kind, rule.exception.place), (2, "form", 3))
        self.assertEqual((str(rule.exception).split(":")[0], rule.exception.output),
                         ("rule fault 2 form 3", "rule fault 2 form 3\n"))
        with self.assertRaises(ca.RuleError) as kind:
            ca.decide("-1")
        self.assertEqual((kind.exception.kind, kind.exception.place, kind.exception.code), ("form", 0, 3))
        with self.assertRaises(ca.RuleError) as number:
            ca.decide(256)
        self.assertEqual((number.exception.kind, number.exception.place), ("number", None))
        with self.assertRaises(ca.TooLongError) as long:
            ca.check(" " * 4194305)
        self.assertEqual(long.exception.output, "too long\n")

    def test_causes_and_reasons(self) -> None:
        with self.assertRaises(ca.NotFitError) as twins:
            ca.inverse(90)
        self.assertEqual((twins.exception.cause, twins.exception.parts), ("twins", ("0", "1")))
        with self.assertRaises(ca.NotFitError) as tail:
            ca.preimage(110, "|1|0")
        self.assertEqual((tail.exception.cause, tail.exception.parts), ("tail", ("leftempty",)))
        with self.assertRaises(ca.RefusedError) as refused:
            ca.check("")
        self.assertEqual((refused.exception.reason, refused.exception.output),
                         ("format notjson", "refused format notjson\n"))

    def test_words_that_cannot_be_handed_over(self) -> None:
        for word in ("1\0", "\udc80"):
            with self.assertRaises(ca.WordsError):
                ca.decide(word)

    def test_faults_go_between_processes(self) -> None:
        lines = {ca.RefusedError("orphan"): "refused orphan", ca.UsageError(): "usage error",
                 ca.RuleError(1, "form", 3, "and not this"): "rule fault 1 form 3", ca.RuleError(2, "number"): "rule fault 2 number",
                 ca.NotFitError("wide", "17"): "notfit wide 17", ca.NotFitError("twins", "0", "1"): "notfit twins 0 1",
                 ca.NotFitError("states"): "notfit states", ca.TooLongError(): "too long",
                 ca.OutOfMemoryError("there was no memory"): ""}
        for fault, line in lines.items():
            again = pickle.loads(pickle.dumps(fault))
            self.assertEqual((type(again), vars(again), str(again)), (type(fault), vars(fault), str(fault)))
            self.assertEqual((again.output, str(again)[:len(line)]), (line and line + "\n", line))

    def test_no_library(self) -> None:
        """In the repository, and where the package is installed without a library."""
        code = "import foursaspen\ntry: foursaspen.decide(110)\nexcept foursaspen.LibraryMissingError as m: print(m)"
        with tempfile.TemporaryDirectory() as folder:
            shutil.copytree(TOP / "python" / "foursaspen", Path(folder) / "foursaspen")
            for path, named in ((str(TOP / "python"), "/nowhere/libca_c.so"), (folder, "/nowhere/libca_c.so"), (folder, "")):
                environment = dict(os.environ, CA_LIBRARY=named, PYTHONPATH=path)
                done = subprocess.run([sys.executable, "-c", code], env=environment, capture_output=True, text=True,
                                      check=True, cwd="/")
                self.assertIn(f"CA_LIBRARY names {named}, which isn't there" if named else "there is no library", done.stdout)
                self.assertIn("install the wheel" if path == folder else f"run ./library in {TOP},", done.stdout)
                self.assertNotIn("crates", done.stdout)

    def test_the_heap_is_tuned_where_it_is_asked_for(self) -> None:
        heap = mock.MagicMock()
        with mock.patch("ctypes.CDLL", side_effect=lambda name: heap if name is None else cdll(name)):
            library.Library(library.place()).run(["decide", "110"])
            heap.mallopt.assert_not_called()
            ca.keep_freed_memory()
            self.assertEqual(heap.mallopt.call_count, 2)

    def test_all_are_faults(self) -> None:
        for kind in [*faults.KINDS.values(), ca.LibraryMissingError]:
            self.assertTrue(issubclass(kind, ca.FoursaspenError))
            self.assertTrue(kind.__name__.endswith("Error"))

    def test_each_kind_of_a_rule_error_is_explained(self) -> None:
        page = (TOP / "docs" / "COMMANDS.md").read_text()
        table = page[page.index("| Kind | The text |"):page.index("    $ ./ca orphan 256")]
        kinds = [line.split("`")[1].split()[0] for line in table.splitlines()[2:] if line.startswith("| `")]
        self.assertEqual(kinds, list(faults.MEANINGS))


if __name__ == "__main__":
    unittest.main()
