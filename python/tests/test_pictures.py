"""Pictures: what they show is so, they can be read, and docs/ has what the package makes."""
from __future__ import annotations

import functools
import itertools
import math
import random
import re
import tempfile
import unittest
import xml.etree.ElementTree as tree
from collections.abc import Iterator
from pathlib import Path

import foursaspen as ca
from foursaspen import node_sets
from foursaspen.drawing import DARK, FIRST, GREY, MARK, NIGHT, ONE, PAPER, SECOND, ZERO
from foursaspen.graphs import Graph
from foursaspen.layout import RADII, RADIUS, fits, ring
from foursaspen.pictures import SHOWN, walks_of

from .support import TOP, drawn

SVG = "{http://www.w3.org/2000/svg}"


def texts(svg: str) -> list[str]:
    """The texts of a picture."""
    return [part.text or "" for part in tree.fromstring(svg).iter(f"{SVG}text")]


def blank(states: int, width: int) -> Graph:
    """The graph of the rule of this shape that gives 0 everywhere."""
    return Graph(f"{states}:{width}:0:t" + "0" * states ** width)


def rows_of(svg: str) -> dict[str, str]:
    """The rows of letters beneath a graph, by what stands before each: texts at one height, from left to right."""
    rows: dict[str, list[tuple[float, str]]] = {}
    for part in tree.fromstring(svg).iter(f"{SVG}text"):
        rows.setdefault(part.get("y", ""), []).append((float(part.get("x", 0)), part.text or ""))
    ordered = [[text for _, text in sorted(row)] for row in rows.values()]
    return {row[0]: "".join(row[1:]) for row in ordered if row[0] in ("first", "second", "preimage", "image")}


def cell(tail: str, place: int) -> int:
    """The letter of a cell of a configuration, by what docs/COMMANDS.md says of its text."""
    left, middle, right = tail.split("|")
    if place < 0:
        return int(left[place % len(left)], 16)
    return int((middle + right * (place + 1))[place], 16)


def image_at(rule: str, tail: str, cells: range) -> str:
    """The image at these cells, by what docs/COMMANDS.md says of a rule's table."""
    states, width, offset, table = rule.split(":")
    letters = ""
    for place in cells:
        window = 0
        for read in range(int(width)):
            window = window * int(states) + cell(tail, place + int(offset) + read)
        letters += table[1 + window]
    return letters


def pairs_of(report: ca.Report) -> Iterator[tuple[str, list[str], range]]:
    """For each thing of two configurations that a rule has: its name, the configurations, and the cells to be shown:
    periods and middles, and where windows lie off their cells so many more that each of these is in a window."""
    _, width, offset, _ = report.rule.split(":")
    before, behind = max(int(offset), 0), max(1 - int(width) - int(offset), 0)
    if report.twins:
        words = report.twins.first, report.twins.second
        yield "twins", [f"{word}||{word}" for word in words], range(len(words[0]))
    for side, split in (("right", report.right.split), ("left", report.left.split)):
        if split:
            parts = [str(tail).split("|") for tail in (split.first, split.second)]
            left, middle, right = (max(map(len, part)) for part in zip(*parts))
            yield side, [str(split.first), str(split.second)], range(-left - before, middle + right + behind)


def words(states: int, letters: int) -> Iterator[str]:
    """All words of so many letters."""
    return map("".join, itertools.product("0123456789abcdef"[:states], repeat=letters))


def writes(rule: ca.Rule, word: str) -> str:
    """What the rule's table gives on the windows of a word."""
    digits, states, width = rule.text.split(":t")[1], rule.states, rule.width
    return "".join(digits[int_of(states, word[at:at + width])] for at in range(len(word) - width + 1))


def int_of(states: int, word: str) -> int:
    return functools.reduce(lambda value, letter: value * states + int(letter, 16), word, 0)


@functools.cache
def told_by(rule: ca.Rule, side: str, ahead: int) -> dict[tuple[str, str], set[str]]:
    """The letters of which a word of width - 1 letters beside them and so many letters of the image tell, by these two."""
    known: dict[tuple[str, str], set[str]] = {}
    ends = rule.width - 1
    for word in words(rule.states, ends + ahead):
        beside, letter = (word[:ends], word[ends]) if side == "right" else (word[-ends:], word[-ends - 1])
        known.setdefault((beside, writes(rule, word)), set()).add(letter)
    return known


def are_few(report: ca.Report, side: ca.Closing) -> bool | None:
    """Whether the cases of a look-ahead are drawn; None where it would take long to count them."""
    name, ahead = "right" if side is report.right else "left", side.ahead or 0
    tried = report.rule.states ** (report.rule.width - 1 + ahead)
    if not ahead or tried > 65536:
        return False
    return len(told_by(report.rule, name, ahead)) <= 256 if tried <= 4096 else None


def sets_of(rule: ca.Rule) -> set[frozenset[str]]:
    """The sets of words of width - 1 letters at which a walk may be that has written any word: what follows of them all. They
    are cut off where there are more than 64."""
    letters = list(words(rule.states, 1))
    ways = {node: [((node + read)[1:], writes(rule, node + read)) for read in letters] for node in words(rule.states, rule.width - 1)}
    seen: set[frozenset[str]] = set()
    waiting = [frozenset(ways)]
    while waiting and len(seen) <= 64:
        here = waiting.pop()
        if here not in seen:
            seen.add(here)
            waiting += [frozenset(to for node in here for to, image in ways[node] if image == letter) for letter in letters]
    return seen


def tables(shape: str, dice: random.Random) -> Iterator[list[str]]:
    """Tables of a shape that have a permutation of the letters for each node: of the first m - 1 letters, or of the last."""
    states, width = map(int, shape.split(":")[:2])
    letters, nodes = "0123456789abcdef"[:states], states ** (width - 1)
    for place in range(24):
        rows = [dice.sample(letters, states) for _ in range(nodes)]
        yield [letter for row in (rows if place % 2 else zip(*rows)) for letter in row]


def told_in(svg: str) -> list[tuple[str, str, str]]:
    """The cases that a picture draws: the cells, a blank for each that has no letter, the letter that is marked, and the letters
    of the image below."""
    cases = []
    for group in tree.fromstring(svg).iter(f"{SVG}g"):
        boxes = [(float(box.get("y", 0)), float(box.get("x", 0)), box.get("fill")) for box in group.iter(f"{SVG}rect")]
        letters = {(round(float(text.get("x", 0)) - 9, 1), float(text.get("y", 0))): text.text or "" for text in group.iter(f"{SVG}text")}
        if " tells " in (group[0].text or ""):
            rows: dict[float, str] = {}
            marked = ""
            for y, x, fill in sorted(boxes):
                letter = next((text for (left, base), text in letters.items() if abs(left - x) < 1 and 0 < base - y < 18), " ")
                rows[y] = rows.get(y, "") + letter
                marked += letter if fill == MARK else ""
            above, below = (rows[y] for y in sorted(rows))
            cases.append((above, marked, below))
    return cases


def below_in(svg: str) -> list[tuple[str, int, list[tuple[int, str]]]]:
    """The same cases: the cells, the place of the marked one, and each letter of the image with the place of the cell above it."""
    cases = []
    for group in tree.fromstring(svg).iter(f"{SVG}g"):
        if " tells " not in (group[0].text or ""):
            continue
        boxes = sorted((float(box.get("y", 0)), float(box.get("x", 0)), box.get("fill")) for box in group.iter(f"{SVG}rect"))
        letters = {(round(float(text.get("x", 0)) - 9), round(float(text.get("y", 0)) - 13.3)): text.text or ""
                   for text in group.iter(f"{SVG}text")}
        top, columns = boxes[0][0], [round(x) for y, x, _ in boxes if y == boxes[0][0]]
        cells = "".join(letters.get((x, round(top)), " ") for x in columns)
        image = [(columns.index(round(x)), letters[round(x), round(y)]) for y, x, _ in boxes if y != top]
        cases.append((cells, [fill for y, _, fill in boxes if y == top].index(MARK), image))
    return cases


class Pictures(unittest.TestCase):
    def test_the_pictures_of_the_docs(self) -> None:
        """Each is what the line of docs/EVIDENCE.md or docs/DEGREE.md makes that names its file."""
        lines = [line.split() for page in ("EVIDENCE", "DEGREE") for line in (TOP / "docs" / f"{page}.md").read_text().splitlines()
                 if re.match("    PYTHONPATH=python python3 -m foursaspen .* > docs/", line)]
        files = sorted(f"docs/{path.name}" for path in (TOP / "docs").glob("*.svg"))
        self.assertEqual(sorted(line[-1] for line in lines), files)
        for line in lines:
            with self.subTest(line[-1]):
                made = ca.degree(line[5]).picture() if line[4] == "degree" else ca.picture(*line[5:-2])
                self.assertEqual((TOP / line[-1]).read_text(), made)

    def test_edges_of_rule_110(self) -> None:
        """Its eight labels, as the README's report of rule 110 has the table."""
        labels = sorted(text for text in texts(ca.picture(110)) if "/" in text and len(text) == 3)
        self.assertEqual(labels, sorted(["0/0", "1/1", "0/1", "1/1", "0/0", "1/1", "0/1", "1/0"]))

    def test_each_edge_has_a_title(self) -> None:
        groups = [part[0].text for part in tree.fromstring(ca.picture(30)).iter(f"{SVG}g")]
        for said in ("00 reads 1, writes 1 and leads to 01", "11 reads 0, writes 0 and leads to 10"):
            self.assertEqual(groups.count(said), 2, said)       # of the line and of its label
        self.assertEqual(len(groups), 16)

    def test_windows(self) -> None:
        """They ascend, each has the letter of the table at its value, and those below each other have one last letter."""
        for rule in drawn(24, seed=7):
            states, width, _, table = rule.split(":")
            below: dict[str, set[str]] = {}
            drawing = tree.fromstring(ca.windows(rule))
            for value, group in enumerate(drawing.iter(f"{SVG}g")):
                window, letter = (group[0].text or "").split(" gives ")
                self.assertEqual((len(window), letter), (int(width), table[1 + value]))
                self.assertEqual(sum(int(read, 16) * int(states) ** place for place, read in enumerate(window[::-1])), value)
                self.assertEqual("".join(part.text or "" for part in group.iter(f"{SVG}text")), window + letter)
                below.setdefault(group[1].get("x", ""), set()).add(window[-1])
            self.assertEqual({len(last) for last in below.values()}, {1})
            self.assertLessEqual(int(drawing.get("width", 0)), 1200)

    def test_pictures_are_well_formed(self) -> None:
        for rule in drawn(24, seed=5):
            report = ca.decide(rule)
            for show in (None, *SHOWN):
                with self.subTest(rule=rule, show=show):
                    there = {None: True, "graph": True, "orphan": report.orphan, "erase": report.orphan, "twins": report.twins,
                             "right": bool(report.right.split) or are_few(report, report.right),
                             "left": bool(report.left.split) or are_few(report, report.left),
                             "window": bool(report.window and report.rule.states ** report.window.letters <= 256 and
                                            report.rule.states ** (report.window.letters + report.rule.width - 1) <= 65536),
                             "sets": report.surjective and len(sets_of(report.rule)) <= 64, "flux": report.flux, "ring": report.ring,
                             "current": report.flux and 0 <= -report.rule.offset < report.rule.width}[show]
                    if there is None and show:
                        continue
                    if not there:
                        self.assertRaises(ValueError, ca.picture, rule, show)
                        continue
                    drawing = tree.fromstring(ca.picture(rule, show))
                    self.assertEqual(drawing.tag, f"{SVG}svg")
                    long = max(map(len, rows_of(ca.picture(rule, show)).values()), default=0)
                    self.assertLessEqual(int(drawing.get("width", 0)), max(1200, 170 + 16 * long))

    def test_a_long_orphan_fits(self) -> None:
        rule = "2:5:0:t00110011001111001100110011000110"
        self.assertEqual(len(ca.orphan(rule) or ""), 19)
        self.assertLessEqual(int(tree.fromstring(ca.picture(rule)).get("width", 0)), 1200)

    def test_another_word_for_show(self) -> None:
        self.assertRaises(ValueError, ca.picture, 110, "loop")

    def test_a_picture_is_shown_and_saved(self) -> None:
        shown = ca.picture(90)
        self.assertEqual((shown._repr_svg_(), str(shown)), (shown, shown))
        self.assertLess(len(repr(shown)), 60)
        with tempfile.TemporaryDirectory() as folder:
            shown.save(Path(folder) / "rule90.svg")
            self.assertEqual((Path(folder) / "rule90.svg").read_text(), shown)


class Cells(unittest.TestCase):
    """Letters stand at their cells, and the image at those that have it: held against the rule's table alone."""

    def compare(self, rule: ca.RuleLike) -> int:
        """How many pictures of two configurations a rule has, each of which is looked at."""
        report, seen = ca.decide(rule), 0
        for show, (first, second), cells in pairs_of(report):
            with self.subTest(rule=report.rule, show=show):
                rows = rows_of(ca.picture(rule, show))
                self.assertEqual(rows["first"], "".join(f"{cell(first, place):x}" for place in cells))
                self.assertEqual(rows["second"], "".join(f"{cell(second, place):x}" for place in cells))
                self.assertEqual(rows["image"], image_at(report.rule, first, cells))
                self.assertEqual(rows["image"], image_at(report.rule, second, cells))
                seen += 1
        return seen

    def test_every_elementary_rule(self) -> None:
        self.assertEqual(sum(map(self.compare, range(256))), 250 + 468)

    def test_drawn_rules_of_all_shapes(self) -> None:
        self.assertGreater(sum(map(self.compare, drawn(120, seed=8))), 100)

    def test_rule_184_moves_cars(self) -> None:
        self.assertEqual(rows_of(ca.picture(184, "twins")), {"first": "0011", "second": "0101", "image": "1010"})

    def test_an_erasable_pair(self) -> None:
        """The pair of rule 110 is that of docs/COMMANDS.md, and its two configurations share an image."""
        rows = rows_of(ca.picture(110, "erase"))
        self.assertEqual((rows["first"], rows["second"]), ("010110", "011010"))
        for word in ("0|010110|0", "0|011010|0"):
            self.assertEqual(rows["image"], image_at("2:3:-1:t01110110", word, range(6)))
        self.assertRaises(ValueError, ca.picture, 90, "erase")

    def test_differing_cells_are_marked(self) -> None:
        fills = [part.get("fill") for part in tree.fromstring(ca.picture(184, "twins")).iter(f"{SVG}rect")]
        self.assertEqual(fills.count(MARK), 2)

    def test_the_second_walk_is_broken(self) -> None:
        shown: list[tuple[ca.RuleLike, str]] = [(184, "twins"), (110, "right"), ("16:2:0:t" + "0" * 256, "left")]
        for rule, show in shown:
            lines = list(tree.fromstring(ca.picture(rule, show)).iter(f"{SVG}polyline"))
            for color, broken in ((FIRST, False), (SECOND, True)):
                walk = [line.get("stroke-dasharray") for line in lines if line.get("stroke") == color]
                self.assertEqual({dashes is not None for dashes in walk}, {broken}, (rule, show))

    def test_a_preimage_stands_above_its_configuration(self) -> None:
        dice = random.Random(9)
        seen = 0
        for rule in drawn(60, seed=9):
            states = int(rule.split(":")[0])
            tail = "|".join("".join(f"{dice.randrange(states):x}" for _ in range(size)) for size in (1, 2, 1))
            found = ca.preimage(rule, tail)
            rows = rows_of(ca.picture(rule, tail))
            if not found:
                self.assertEqual(rows, {"image": found.word})
                continue
            length, own = len(rows["image"]), found.tail
            start = min(found.start - len(own.left), -1)
            cells = range(start, start + length)
            self.assertGreaterEqual(cells.stop, 3)
            self.assertEqual(rows["image"], "".join(f"{cell(tail, place):x}" for place in cells))
            self.assertEqual(rows["preimage"], "".join(f"{cell(str(own), place - found.start):x}" for place in cells))
            seen += 1
        self.assertGreater(seen, 20)

    def test_the_flux_is_at_nodes_and_edges(self) -> None:
        numbers = sorted(text for text in texts(ca.picture(184, "flux")) if text.lstrip("+-").isdigit())
        nodes, edges = ["00", "0", "01", "0", "10", "0", "11", "-1"], ["+1", "-1", *"000000"]
        self.assertEqual(numbers, sorted(nodes + edges))


class Told(unittest.TestCase):
    """What tells a letter, and the sets of nodes: each picture has all cases, held against the rule's table alone."""

    def test_windows_tell_the_marked_cell(self) -> None:
        rules = [*(str(rule) for rule in ca.rules("injective", 2, 3, -1)), *(str(rule) for rule in ca.rules("injective", 2, 4, -2)),
                 *(str(rule) for rule in ca.rules("injective", 3, 2)), "5:2:3:t" + "01234" * 5]
        for rule in rules:
            report = ca.decide(rule)
            assert report.window is not None
            letters, place = report.window.letters, report.window.place
            cases = told_in(ca.picture(rule, "window"))
            self.assertEqual(sorted(image for _, _, image in cases), sorted(words(report.rule.states, letters)))
            told = {image: (marked, cells.strip(), cells.index(marked)) for cells, marked, image in cases}
            for word in words(report.rule.states, letters + report.rule.width - 1):
                self.assertEqual(told[writes(report.rule, word)], (word[place], word[place], place), (rule, word))

    def test_look_aheads_tell_the_marked_cell(self) -> None:
        seen = 0
        for rule in [*map(str, range(0, 256, 3)), *drawn(60, seed=31)]:
            report = ca.decide(rule)
            for side, closing in (("right", report.right), ("left", report.left)):
                if closing.ahead and are_few(report, closing):
                    wanted = told_by(report.rule, side, closing.ahead)
                    self.assertEqual({len(letters) for letters in wanted.values()}, {1})
                    found = {}
                    for cells, marked, image in told_in(ca.picture(rule, side)):
                        known = cells.strip()
                        beside = known[:-1] if side == "right" else known[1:]
                        self.assertEqual(known[-1] if side == "right" else known[0], marked)
                        self.assertEqual(len(cells) - len(known), closing.ahead - 1)
                        found[beside, image] = {marked}
                    self.assertEqual(found, wanted, (rule, side))
                    seen += 1
        self.assertGreater(seen, 60)

    def test_the_image_stands_below_its_cells(self) -> None:
        """Whatever stands in the blank cells and in the marked one: if the rule writes the drawn letters at the cells above them, the
        marked cell has the drawn letter. No drawn letter depends on a cell that isn't drawn, and some letters give the drawn ones.
        By the rule's table alone, for windows that hold their own cells."""
        seen = {"right": 0, "left": 0, "window": 0}
        shapes = ("2:2:0", "2:2:-1", "3:2:0", "3:2:-1", "2:3:-2", "2:3:-1", "2:3:0", "2:4:-2")
        dice = random.Random(8)
        for rule in map(ca.Rule, [*range(256), *(f"{shape}:t{''.join(table)}" for shape in shapes for table in tables(shape, dice))]):
            report = ca.decide(rule)
            for show, there in (("right", bool(report.right)), ("left", bool(report.left)), ("window", report.injective)):
                if not there:
                    continue
                try:
                    drawing = ca.picture(rule, show)
                except ValueError as fault:
                    self.assertIn("a picture has at most 256 cases", str(fault))
                    continue
                cases = below_in(drawing)
                self.assertTrue(cases)
                for case in cases:
                    self.assert_told(rule, *case)
                seen[show] += 1
        self.assertGreater(min(seen.values()), 40)

    def assert_told(self, rule: ca.Rule, cells: str, marked: int, image: list[tuple[int, str]]) -> None:
        for place, _ in image:
            self.assertLessEqual(0, place + rule.offset, (rule, cells, image))
            self.assertLess(place + rule.offset + rule.width - 1, len(cells), (rule, cells, image))
        told = set()
        free = [place for place, letter in enumerate(cells) if letter == " " or place == marked]
        for word in words(rule.states, len(free)):
            known = dict(zip(free, word))
            whole = "".join(known.get(place, letter) for place, letter in enumerate(cells))
            if all(writes(rule, whole[place + rule.offset:][:rule.width]) == letter for place, letter in image):
                told.add(whole[marked])
        self.assertEqual(told, {cells[marked]}, (rule, cells, image))

    def test_the_list_of_sets(self) -> None:
        """Those of the table, each followed by listed ones. A certificate has the full set and those that contain no other one; a
        node is the bit of its value."""
        seen = 0
        for rule in [*map(str, range(256)), *drawn(40, seed=32)]:
            report = ca.decide(rule)
            if not report.surjective:
                self.assertRaisesRegex(ValueError, "isn't surjective", ca.picture, rule, "sets")
                continue
            listed = node_sets.sets_of(Graph(rule)) if len(sets_of(report.rule)) <= 64 else None
            if listed is None:
                self.assertRaisesRegex(ValueError, "more than 64 sets", ca.picture, rule, "sets")
                continue
            graph = Graph(rule)
            self.assertEqual({frozenset(map(graph.name, nodes)) for nodes in listed}, sets_of(report.rule))
            least = {nodes for nodes in listed if len(nodes) == graph.nodes or not any(other < nodes for other in listed)}
            self.assertEqual({sum(1 << node for node in nodes) for nodes in least}, set(ca.certify(rule).data["surjective"]["sets"]))
            numbers = {nodes: str(place) for place, nodes in enumerate(listed, 1)}
            shown = texts(ca.picture(rule, "sets"))[-len(listed) * (1 + graph.states):]
            self.assertEqual(shown, [text for nodes, after in listed.items() for text in (numbers[nodes], *map(numbers.__getitem__, after))])
            for nodes, after in listed.items():
                for letter, there in enumerate(after):
                    self.assertEqual(set(map(graph.name, there)), {(graph.name(node) + read)[1:] for node in nodes for read in
                                     words(graph.states, 1) if writes(report.rule, graph.name(node) + read) == f"{letter:x}"})
            seen += 1
        self.assertGreater(seen, 20)

    def test_too_many_cases(self) -> None:
        wide = "16:2:0:t" + "".join(f"{(x + 2 * y) % 16:x}" for x in range(16) for y in range(16))
        for show in ("window", "right", "left"):
            if show == "window" or (getattr(ca.decide(wide), show).ahead or 0) > 1:
                self.assertRaisesRegex(ValueError, ": a picture has at most 256 cases", ca.picture, wide, show)
        self.assertRaisesRegex(ValueError, "isn't injective: it has no window", ca.picture, 110, "window")


class Walks(unittest.TestCase):
    """What is drawn proves what is said: checked by the graph alone, with no call of the library."""

    def test_orphans_are_read_to_nowhere(self) -> None:
        for rule in drawn(60, seed=6):
            orphan = ca.orphan(rule)
            if orphan:
                steps = Graph(ca.decide(rule).rule).reading(orphan)
                self.assertTrue(all(nodes for nodes, edges in steps[:-1]))
                self.assertEqual(steps[-1], (set(), []))

    def test_walks_have_one_image(self) -> None:
        seen = 0
        for rule in drawn(60, seed=7):
            report = ca.decide(rule)
            for show, _, _ in pairs_of(report):
                first, second = walks_of(report, show).edges(Graph(report.rule))
                self.assertEqual([edge.image for edge in first], [edge.image for edge in second])
                self.assertNotEqual(first, second)
                for walk in (first, second):
                    self.assertTrue(all(a.target == b.source for a, b in zip(walk, walk[1:])))
                seen += 1
        self.assertGreater(seen, 60)


class Colours(unittest.TestCase):
    def test_the_two_walks_are_told_apart_on_grey(self) -> None:
        """Twice as bright as the other or more, by day and by night, and readable on the ground (WCAG 2.1, 1.4.3)."""
        for first, second, ground in ((FIRST, SECOND, PAPER), (NIGHT[FIRST], NIGHT[SECOND], NIGHT[PAPER])):
            self.assertGreater(contrast(first, second), 2)
            for color in (first, second):
                self.assertGreater(contrast(color, ground), 4.5)

    def test_letters_can_be_read(self) -> None:
        """On marked cells, and on black and white ones; a 1 is darker than a 0, by day and by night."""
        for ink, ground in ((FIRST, MARK), (SECOND, MARK), (DARK, MARK), (ZERO, ONE), (GREY, PAPER)):
            self.assertGreater(contrast(ink, ground), 4.5)
            self.assertGreater(contrast(NIGHT[ink], NIGHT[ground]), 4.5)
        for zero, one in ((ZERO, ONE), (NIGHT[ZERO], NIGHT[ONE])):
            self.assertLess(int(one[1:], 16), int(zero[1:], 16))


def contrast(one: str, other: str) -> float:
    """How many times as bright as the other one of two colours is, as WCAG 2.1 reckons it."""
    def luminance(color: str) -> float:
        parts = [int(color[at:at + 2], 16) / 255 for at in (1, 3, 5)]
        linear: list[float] = [part / 12.92 if part <= 0.03928 else ((part + 0.055) / 1.055) ** 2.4 for part in parts]
        return sum(weight * part for weight, part in zip((0.2126, 0.7152, 0.0722), linear))
    dark, bright = sorted((luminance(one), luminance(other)))
    return (bright + 0.05) / (dark + 0.05)


class Layouts(unittest.TestCase):
    def test_labels_are_clear(self) -> None:
        """No label lies on another one, on an edge or on a node."""
        for states, width in RADII:
            graph, placed = blank(states, width), ring(states, width)
            with self.subTest(states=states, width=width):
                self.assertTrue(fits(graph))
                self.assertEqual(set(placed.labels), {edge.way for edge in graph.edges()})
                self.assertGreater(min(placed.room(place, edge) for edge, place in placed.labels.items()), 0)

    def test_edges_pass_nodes_by(self) -> None:
        for states, width in RADII:
            placed = ring(states, width)
            for edge in blank(states, width).edges():
                others = [place for node, place in placed.nodes.items() if node not in (edge.source, edge.target)]
                line = placed.lines[edge.way]
                nearest = min((math.dist(point, place) for point in line for place in others), default=99)
                self.assertGreater(nearest, RADIUS, (states, width, edge))

    def test_a_cycle_meets_each_node_once(self) -> None:
        for states, width in ((2, 2), (2, 5), (3, 3), (4, 3), (16, 2)):
            graph = blank(states, width)
            cycle = graph.cycle()
            self.assertEqual(sorted(cycle), list(range(graph.nodes)))
            for node, after in zip(cycle, cycle[1:] + cycle[:1]):
                self.assertIn(after, [graph.edge(node, letter).target for letter in range(states)])

    def test_sixteen_states_are_a_table(self) -> None:
        rule = "16:2:0:t" + "0123456789abcdef" * 16
        self.assertFalse(fits(Graph(rule)))
        self.assertEqual(sum(text.count("/") == 1 and len(text) == 3 for text in texts(ca.picture(rule))), 256)


if __name__ == "__main__":
    unittest.main()
