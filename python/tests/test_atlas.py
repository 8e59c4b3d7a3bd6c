"""The atlas: docs/ELEMENTARY.md is what it makes, and says what the literature says."""
from __future__ import annotations

import csv
import io
import re
import tempfile
import unittest
from pathlib import Path

import foursaspen as ca
from foursaspen import atlases

from .support import TOP

# The 88 least numbers, as in Wolfram, A New Kind of Science, 2002, and Li and Packard 1990.
LEAST = """0 1 2 3 4 5 6 7 8 9 10 11 12 13 14 15 18 19 22 23 24 25 26 27 28 29 30 32 33 34 35 36 37 38 40 41 42 43 44 45
46 50 51 54 56 57 58 60 62 72 73 74 76 77 78 90 94 104 105 106 108 110 122 126 128 130 132 134 136 138 140 142 146 150
152 154 156 160 162 164 168 170 172 178 184 200 204 232"""
# Those of which no ring of up to four cells stays as it is, by going through these rings.
NOT_STILL = {1, 3, 9, 11, 19, 25, 27, 33, 35, 41, 43, 51, 57}
INJECTIVE = {15, 51, 85, 170, 204, 240}
CONSERVING = {170, 184, 204, 226, 240}


def numbers(entry: atlases.Entry) -> list[int]:
    """The numbers of the rules of a class."""
    return [int(name) for name in entry.names]


class Elementary(unittest.TestCase):
    entries: list[atlases.Entry]

    @classmethod
    def setUpClass(cls) -> None:
        cls.entries = list(atlases.entries_of(2, 3))

    def having(self, name: str) -> set[int]:
        """The rules of the classes that have a property."""
        return {number for entry in self.entries if getattr(entry.report, name) for number in numbers(entry)}

    def test_the_page(self) -> None:
        self.assertEqual((TOP / "docs" / "ELEMENTARY.md").read_text(), ca.atlas(form="markdown"))

    def test_classes(self) -> None:
        self.assertEqual([numbers(entry)[0] for entry in self.entries], list(map(int, LEAST.split())))
        self.assertEqual(sorted(number for entry in self.entries for number in numbers(entry)), list(range(256)))
        self.assertIn([110, 124, 137, 193], list(map(numbers, self.entries)))

    def test_members_are_mirrors_and_complements(self) -> None:
        for entry in self.entries:
            rule = entry.members[0]
            mirror = ca.reflect(rule)
            alike = [ca.reflect(mirror), mirror, ca.permute(rule, "10"), ca.permute(mirror, "10")]
            self.assertEqual(numbers(entry), sorted({ca.number(text) or 0 for text in alike}))

    def test_facts_of_the_literature(self) -> None:
        self.assertEqual(len(self.having("surjective")), 30)
        self.assertEqual(self.having("injective"), INJECTIVE)
        self.assertEqual(self.having("conserving"), CONSERVING)

    def test_rows(self) -> None:
        """They are the classes of the page as values, and the names of their values those of `as_dict`."""
        rows = list(ca.atlas_rows(2, 3))
        self.assertEqual([[rule.number for rule in row.members] for row in rows], list(map(numbers, self.entries)))
        self.assertEqual({row.least.offset for row in rows}, {-1})
        row = next(row for row in rows if row.least.number == 184)
        self.assertEqual((row.report, row.kept_sums, row.moved), (ca.decide(184), (1, 1, 1, 1), ("0", "0", "0")))
        self.assertLessEqual(set(row.report.as_dict()), set(row.as_dict()))
        self.assertEqual((row.as_dict()["moved"], row.as_dict()["kept_sums"], row.as_dict()["members"].split()[0]), ("0 0 0", "1 1 1 1", row.least))
        self.assertEqual({row.least.number for row in rows if row.moved[1] is None}, NOT_STILL)
        self.assertEqual(sum(len(row.members) for row in ca.atlas_rows(2, 2, 0)), 16)

    def test_classes_of_a_whole_shape(self) -> None:
        """Counted by Burnside's lemma, they are as many as there are rows."""
        self.assertEqual(ca.classes(2, 3), ca.classes(2, 3, 0, 256))
        self.assertEqual((ca.classes(2, 2).classes, ca.classes(3, 2).classes), (7, len(list(ca.rules("all", 3, 2, classes=True)))))
        self.assertEqual((ca.classes(2, 4).classes, ca.survey(2, 4).surjective), (16704, 582))
        with self.assertRaisesRegex(ca.UsageError, "^classes takes start and count, or neither"):
            ca.classes(2, 3, 5)
        with self.assertRaisesRegex(ca.UsageError, "survey_over takes any shape$"):
            ca.survey(2, 5)

    def test_kept_sums(self) -> None:
        """By the table of docs/SUMS.md, which is another program's."""
        page = (TOP / "docs" / "SUMS.md").read_text()
        told = {int(least): counts.replace(" |", "").strip() for least, counts in
                re.findall(r"^\| (\d+) \| [\d, ]+ \|((?: \d \|){4})$", page, re.M)}
        self.assertEqual(len(told), 29)
        for entry in self.entries:
            self.assertEqual(" ".join(map(str, entry.kept_sums)), told.get(numbers(entry)[0], "0 0 0 0"))

    def test_a_class_has_the_verdicts_of_each_member(self) -> None:
        for entry in self.entries:
            for rule in entry.members:
                report, first = ca.decide(rule), entry.report
                self.assertEqual((report.surjective, report.injective, report.open, report.conserving),
                                 (first.surjective, first.injective, first.open, first.conserving))
                self.assertEqual({bool(report.right), bool(report.left)}, {bool(first.right), bool(first.left)})


class Csv(unittest.TestCase):
    def test_two_states_of_width_two(self) -> None:
        rows = list(csv.DictReader(io.StringIO(ca.atlas(2, 2, "csv"))))
        self.assertEqual(len(rows), 7)
        self.assertEqual(sum(len(row["members"].split()) for row in rows), 16)
        self.assertEqual(sum(len(row["members"].split()) for row in rows if row["surjective"] == "True"), 6)
        mod2 = next(row for row in rows if row["number"] == "6")
        self.assertEqual((mod2["twins"], mod2["right_ahead"], mod2["right_split"], mod2["open"]), ("0 1", "1", "", "True"))

    def test_one_form(self) -> None:
        """The line of a class is that of its least rule in the file of a list, and the members."""
        for rows, shape in ((list(csv.DictReader(io.StringIO(ca.atlas(*shape, "csv")))), shape) for shape in ((2, 2), (2, 3))):
            with tempfile.TemporaryDirectory() as folder:
                ca.rules("all", *shape, 0 if shape == (2, 2) else -1).to_csv(Path(folder) / "all")
                lines = {line["rule"]: line for line in csv.DictReader((Path(folder) / "all").read_text().splitlines())}
            for row in rows:
                members = row.pop("members").split()
                self.assertEqual(row, lines[row["rule"]])
                self.assertEqual({lines[member]["least"] for member in members}, {row["rule"]})
            self.assertEqual(len(lines), 2 ** 2 ** shape[1])

    def test_words_are_no_numbers(self) -> None:
        """No reader takes a word for a number, whose zeros it would drop: in the CSV of an atlas and in that of a list."""
        def look_at(name: str, cell: str, word: str | None) -> None:
            self.assertEqual(cell.strip("|") or None, word, name)
            if cell:
                self.assertRaises(ValueError, float, cell)
        rows = list(csv.DictReader(io.StringIO(ca.atlas(2, 3, "csv"))))
        for row in rows:
            report = ca.decide(row["rule"])
            look_at("orphan", row["orphan"], report.orphan)
            look_at("ring", row["ring"], report.ring)
        with tempfile.TemporaryDirectory() as folder:
            listed: list[dict[str, str]] = []
            for wanted in ("right", "conserving"):
                ca.rules(wanted, 2, 3).to_csv(Path(folder) / wanted)
                listed += csv.DictReader((Path(folder) / wanted).read_text().splitlines())
        for row in listed:
            report = ca.decide(row["rule"])
            look_at("orphan", row["orphan"], report.orphan)
            look_at("ring", row["ring"], report.ring)
        self.assertGreater(sum(row["orphan"].startswith("|0") for row in rows), 10)
        self.assertGreater(sum(row["ring"] != "" for row in listed), 10)

    def test_a_shape_without_numbers(self) -> None:
        self.assertRaises(ca.RuleError, ca.atlas, 7, 2, "csv")


if __name__ == "__main__":
    unittest.main()
