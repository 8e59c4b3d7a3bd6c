"""The parts of the page that ./web makes, under node: they answer as the library does, draw as the package does, and refuse what it
refuses, in the same words."""
from __future__ import annotations

import json
import random
import re
import subprocess
import unittest
import xml.etree.ElementTree as tree
from collections.abc import Callable, Sequence
from functools import partial
from typing import Any

import foursaspen as ca
from foursaspen.calls import finding
from foursaspen.library import place
from foursaspen.moves import Moved, all_moved
from foursaspen.operands import weight_numbers, weights_word
from foursaspen.pictures import SHOWN, drawn as picture_of, drawn_moved
from foursaspen.relations import class_of
from foursaspen.rule_values import mirror
from foursaspen.sums import ranges

from . import raw_calls
from .drawn_calls import answers, drawn_calls
from .support import TOP, drawn, tool
from .web_page import LACKING, PAGE, RULES, WEIGHED

NUMBER = re.compile(r"-?\d+\.\d+|-?\d+")


def asked_of_node(asked: Sequence[Sequence[object]], *pages: int) -> list[Any]:
    """What the parts of the page answer under node, with so much memory at most if that is said."""
    words = [tool("node", "nodejs"), str(TOP / "tests/page.mjs"), str(PAGE), *map(str, pages)]
    done = subprocess.run(words, input=json.dumps(asked).encode(), stdout=subprocess.PIPE, check=True)
    made: list[Any] = json.loads(done.stdout)
    return made


def fault_of(made: Callable[[], object]) -> str:
    """The text of what goes wrong, or none."""
    try:
        made()
    except (ca.FoursaspenError, ValueError) as fault:
        return str(fault)
    return ""


def report_of(report: ca.Report) -> Any:
    """The report as the program gives it."""
    return finding("decide", report.rule, *([weights_word(report.weights)] if report.weights else []))["report"]


def moved_of(found: Moved) -> dict[str, Any]:
    """What a rule only moves, as the page has it."""
    return {"by": found.by, "windows": [int(window, found.rule.states) for window in found.windows]}


def side_of(rule: ca.Rule, count: int, word: str, nodes: Sequence[str]) -> dict[str, Any]:
    """A side of a degree, as the worker gives it."""
    return {"count": count, "nodes": [int(node, rule.states) for node in nodes], "word": [int(letter, 16) for letter in word]}


def parts_of(svg: str) -> list[tuple[str, str, list[str], list[float]]]:
    """The elements of a picture, but for its style: the name, the text, and the words and the numbers of the attributes."""
    made = []
    for part in tree.fromstring(svg).iter():
        if not part.tag.endswith("style"):
            words = [f"{name}={NUMBER.sub('', value)}" for name, value in sorted(part.attrib.items()) if not value.startswith("#")]
            colours = [f"{name}={value}" for name, value in sorted(part.attrib.items()) if value.startswith("#")]
            numbers = [float(number) for name, value in sorted(part.attrib.items()) if not value.startswith("#")
                       for number in NUMBER.findall(value)]
            made.append((part.tag, (part.text or "").strip("\n"), words + colours, numbers))
    return made


def found_of(rule: ca.Rule, tail: str) -> Any:
    """What the page hands over to a picture beyond the report."""
    left, middle, right = tail.split("|")
    return {"erased": finding("erase", rule)["erased"],
            "asked": {"tail": {"left": left, "middle": middle, "right": right}, **finding("preimage", rule, tail)}}


@unittest.skipUnless(PAGE.exists(), LACKING)
class Parts(unittest.TestCase):
    """Under node."""

    def test_the_same_pictures(self) -> None:
        """Of 280 rules, and of rules with weights, both draw the same cells, marks, labels and lines, or say the same why not."""
        asked: list[list[object]] = []
        wanted: list[Callable[[], str]] = []
        names: list[tuple[object, ...]] = []
        for rule, weights in [*((str(number), None) for number in range(256)), *((rule, None) for rule in drawn(24, seed=74)), *WEIGHED]:
            report = ca.decide(rule, weights)
            known, states = report_of(report), report.rule.states
            tail = f"0|{'01'[:states]}{states - 1:x}0|1"
            for show in (*SHOWN, "preimage"):
                own = tail if show == "preimage" else show
                with_graph = show in ("graph", "flux", "current") or int(report.rule.number or 0) % 4 == 0
                more = found_of(report.rule, tail) if show in ("erase", "preimage") else {}
                asked.append(["picture", known, report.weights, show, with_graph, more])
                wanted.append(partial(picture_of, report, own, with_graph))
                names.append((rule, weights, show))
        for rule in [*map(str, range(0, 256, 5)), *drawn(24, seed=74)]:
            for found in all_moved(rule):
                asked.append(["pictureOfMoved", found.rule, moved_of(found)])
                wanted.append(partial(drawn_moved, found))
                names.append((rule, found.by, "moved"))
        seen = 0
        for name, made, python in zip(names, asked_of_node(asked), wanted, strict=True):
            with self.subTest(name):
                fault = fault_of(python)
                if fault or isinstance(made, dict):
                    self.assertEqual(made, {"fault": fault})
                    continue
                seen += 1
                self.compare(made, python())
        self.assertGreater(seen, 1500)

    def test_what_is_only_moved(self) -> None:
        """It is what the package finds, and what is found otherwise doesn't fit."""
        found = [one for rule in [*map(str, range(256)), *drawn(24, seed=79)] for one in all_moved(rule)]
        for one, made in zip(found, asked_of_node([["moved", one.rule, one.by] for one in found]), strict=True):
            with self.subTest(rule=one.rule, by=one.by):
                self.assertEqual(made, [moved_of(one)["windows"], [int(letter, 16) for letter in one.ring or ""]])
        fits = [["areMoved", one.rule, one.by, {**moved_of(one), "ring": one.ring or ""}] for one in found]
        self.assertEqual(set(asked_of_node(fits)), {True})
        wrong = [["areMoved", "184", 0, {"windows": windows, "ring": ring}] for windows, ring in (
            ([0, 1, 3], "0"), ([0, 1, 3, 7], "01"), ([0, 1, 2, 3, 7], "0"), ([0, 1, 3, 7], ""))]
        self.assertEqual(asked_of_node(wrong), [False] * 4)

    def test_degrees(self) -> None:
        """They are what the package finds, what is found otherwise doesn't fit, and both draw the same cut."""
        rules = [rule for rule in [*map(str, range(0, 256, 3)), *RULES, *drawn(24, seed=80)] if ca.decide(rule).surjective]
        found = [ca.degree(rule) for rule in rules]
        asked = [["pictureOfDegree", one.rule, one.right_word, one.left_word] for one in found]
        for one, made, svg in zip(found, asked_of_node([["degree", one.rule] for one in found]), asked_of_node(asked), strict=True):
            with self.subTest(rule=one.rule):
                sides = [side_of(one.rule, one.right, one.right_word, one.right_nodes),
                         side_of(one.rule, one.left, one.left_word, one.left_nodes)]
                self.assertEqual(made, [one.degree, *sides])
                fault = fault_of(one.picture)
                if fault:
                    self.assertEqual(svg, {"fault": fault})
                else:
                    self.compare(svg, one.picture())
        sides = [{"count": 4, "nodes": [0, 1, 2, 3], "word": ""}, {"count": 1, "nodes": [3], "word": "0010"}]
        fits = [["isDegree", "30", 1, *sides], ["isDegree", "30", 2, *sides], ["isDegree", "30", 1, sides[0], {**sides[1], "word": "001"}],
                ["isDegree", "30", 1, sides[0], {**sides[1], "nodes": [2]}], ["isDegree", "30", 1, *reversed(sides)]]
        self.assertEqual(asked_of_node(fits), [True, False, False, False, False])

    def compare(self, made: str, python: str) -> None:
        one, other = parts_of(made), parts_of(python)
        self.assertEqual(len(one), len(other))
        for at, ((*part, numbers), (*wanted, places)) in enumerate(zip(one, other)):
            slack = 1.01 if at < 3 else 0.26    # the page has the places with one digit, and a size is a whole number
            self.assertEqual(part, wanted)
            self.assertTrue(all(abs(a - b) < slack for a, b in zip(numbers, places, strict=True)), (part, numbers, places))

    def test_evidence_that_does_not_fit(self) -> None:
        """Each kind of evidence is refused if it is changed."""
        def changed(rule: str, key: str, **parts: object) -> list[object]:
            report = finding("decide", ca.Rule(rule))["report"]
            return ["fits", {**report, key: {**report[key], **parts} if parts else not report[key]}, None]
        zero, one = ({"left": "0", "middle": middle, "right": "0"} for middle in ("", "1"))
        wrong = [changed("110", "surjective", orphan="0101"), changed("110", "surjective", holds=True),
                 changed("184", "injective", twins=["0011", "0110"][:1] * 2), changed("170", "injective", window=[1, 1]),
                 changed("30", "right", split=[zero, one]), changed("30", "left", ahead=2), changed("60", "right", ahead=1),
                 changed("90", "open"),
                 changed("184", "conserving", flux=[0, 0, 1, -1]), changed("232", "conserving", ring="01")]
        for question, made in zip(wrong, asked_of_node(wrong)):
            self.assertIn("doesn't fit the table of", str(made), question)
        self.assertEqual(asked_of_node([["fits", finding("decide", ca.Rule(rule))["report"], None] for rule in RULES]), [True] * len(RULES))

    def test_currents(self) -> None:
        """They are what docs/EVIDENCE.md says: a cell gains the number to its left less that to its right."""
        for rule, weights in [(rule, None) for rule in ("184", "204", "170", "240", "226", "2:3:-2:t00011101", "2:3:1:t00011101", "2:3:3:t00110011",
                                                        "2:3:-5:t00110011")] + WEIGHED[:4]:
            report = ca.decide(rule, weights)
            given = report.weights or range(report.rule.states)
            [current] = asked_of_node([["current", report_of(report), report.weights]])
            letters, numbers = current["letters"], current["numbers"]
            with self.subTest(rule=rule, weights=weights):
                for ring in ("0", "1", "01", "0011", "0010111", "110100010"):
                    image = ca.image(report.rule, ring=ring)
                    for cell in range(len(ring)):
                        def across(border: int) -> int:
                            """The current across the border before a cell: its word begins at the first letter of the window, or of the cell."""
                            first = border + min(report.rule.offset, 0)
                            return int(numbers[int("".join(ring[(first + place) % len(ring)] for place in range(letters)), 2)])
                        self.assertEqual(given[int(image[cell])] - given[int(ring[cell])], across(cell) - across(cell + 1))

    def test_what_is_refused(self) -> None:
        """The page says of a wrong rule, of wrong weights and of a wrong configuration what the package says."""
        wrong = ["", "x", "256", "01101110", "11x", "2:", "2:3", "2:3:-1:t0111011", "2:3:-1:t011101101", "2:3:-1:t01110112",
                 "17:2:0:t0", "1:2:0:t0", "2:6:0:t0", "5:3:0:t0", "2:3:-17:w1", "2:3:15:w1", "7:2:0:w1", "2:3:-1:w300",
                 "3:2:0:w19683", "2:3:-1:x", "2:3:-1:t0111 0110", " 110", "110 ",
                 "2:3:-1:t" + "01" * 40, "it's", "1" * 60, "2:3:-1:w" + "9" * 39, "2:3:--1:t01110110", "2:3:-1:T01110110", "2:3:-1:t0111011G"]
        made = asked_of_node([["rule", text] for text in wrong])
        for text, (value, (code, output)) in zip(wrong, zip(made, answers([(["decide", text], "") for text in wrong]))):
            with self.subTest(text=text):
                said, package = (fault.split("; ") for fault in (value["fault"], fault_of(lambda: ca.Rule(text))))
                self.assertEqual(said[0], package[0])
                self.assertEqual([it[-19:] for it in said[1:]], [it[-19:] for it in package[1:]])
                self.assertEqual((code, str(output)), (3, value["fault"].split(":")[0] + "\n"))
        places = ("2:3:-1:t01110112", "2:3:-1:t0111011", "2:3:-1:t011101101", "17:2:0:t0", "256", "11x")
        self.assertEqual([made[wrong.index(text)]["span"] for text in places],
                         [[15, 16], [15, 16], [16, 17], [0, 2], [0, 3], [2, 3]])
        self.assertEqual(asked_of_node([["rule", "110"], ["rule", "16:2:-3:t" + "0F" * 128]]), ["2:3:-1:t01110110", "16:2:-3:t" + "0f" * 128])
        weights = ["0", "0,1,2", "0,256", "-1,255", "0;1", "a", "0,", "0,1 ", "1234567890,0"]
        for text, value in zip(weights, asked_of_node([["weights", text, 2] for text in weights])):
            self.assertEqual(value["fault"], fault_of(lambda: weight_numbers(2, text)))
        self.assertEqual(asked_of_node([["weights", text, 2] for text in ("", "0,255", "-7,0")]), [None, [0, 255], [-7, 0]])
        tails = ["", "0|1", "0|1|0|1", "|1|0", "0|1|", "0|2|1", "x|1|0", "0|" + "1" * 1025 + "|0"]
        for text, value in zip(tails, asked_of_node([["tail", text, 2] for text in tails])):
            self.assertEqual(value["fault"], fault_of(lambda: ca.preimage(110, text)))

    def test_structs(self) -> None:
        """The functions without words give the same results and the same bytes as in the library."""
        dice = random.Random(9002)
        calls = [call for _ in range(600) for call in raw_calls.drawn(dice)]
        for (name, operands), made in zip(calls, asked_of_node([["raw", *call] for call in calls]), strict=True):
            self.assertEqual(raw_calls.known(name, made), raw_calls.called(place(), name, operands), (name, operands))

    def test_a_long_output_is_computed_once(self) -> None:
        """The buffer has room for it at once: a rule whose automaton has more than ten thousand classes."""
        dice = random.Random(1)
        for _ in range(20):
            rows = [dice.sample(range(16), 16) for _ in range(16)]
            rows[dice.randrange(16)][dice.randrange(16)] = dice.randrange(16)
            words = ["language", "16:2:0:t" + "".join(f"{letter:x}" for row in rows for letter in row)]
            if len(ca.run(words).output) > 1 << 20:
                break
        self.assertEqual(asked_of_node([["counted", words]]), [[len(ca.run(words).output), 1]])
        self.assertGreater(len(ca.run(words).output), 1 << 20)

    def test_little_memory(self) -> None:
        """With less memory than a call needs the page says so: no other answer is wrong, and nothing traps."""
        calls = drawn_calls(300, seed=78)
        wanted = answers(calls)

        def right(pages: int) -> int:
            """How many answers there are with so much memory, which are all right."""
            made = asked_of_node([["call", *call] for call in calls], pages)
            there = [(it, own) for it, own in zip(made, wanted, strict=True) if it != "The module failed: there is no memory"]
            self.assertEqual([it for it in there if it[0] != it[1]], [], pages)
            return len(there)

        few, enough = 256, 1024
        self.assertEqual((right(few), right(enough)), (0, len(calls)))
        while enough - few > 1:                 # the least memory with which some calls have an answer
            middle = (few + enough) // 2
            few, enough = (few, middle) if right(middle) else (middle, enough)
        self.assertIn(right(enough), range(1, len(calls)))

    def test_mirrors_and_classes(self) -> None:
        rules = [ca.Rule(rule) for rule in [*RULES, *drawn(12, seed=76)]]
        self.assertEqual(asked_of_node([["mirror", rule] for rule in rules]), [mirror(rule) for rule in rules])
        small = [rule for rule in rules if rule.states <= 5]
        self.assertEqual(asked_of_node([["kin", rule] for rule in small]), [list(class_of(rule).members) for rule in small])

    def test_kept_sums(self) -> None:
        asked = [(ca.Rule(rule), letters) for rule in [*RULES, *drawn(24, seed=77)] for letters in ranges(ca.Rule(rule).states)[:3]]
        for (rule, letters), (rows, rings) in zip(asked, asked_of_node([["sums", rule, letters] for rule, letters in asked])):
            kept = ca.kept_sums(rule, letters)
            words = [f"{value:0{letters}b}" if rule.states == 2 else "" for value in range(rule.states ** letters)]
            with self.subTest(rule=rule, letters=letters):
                self.assertEqual([sorted(filter(None, row)) for row in rows], [sorted(row.values()) for row in kept.rows])
                self.assertEqual(["".join(f"{letter:x}" for letter in ring) for _, ring in rings], list(kept.rings.values()))
                if rule.states == 2:
                    self.assertEqual([{words[at]: weight for at, weight in enumerate(row) if weight} for row in rows], list(kept.rows))
                    self.assertEqual([words[at] for at, _ in rings], list(kept.rings))
