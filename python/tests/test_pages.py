"""Pages: their evidence is held against the table, and in a browser they do what they say."""
from __future__ import annotations

import csv
import dataclasses
import functools
import html
import io
import re
import subprocess
import sys
import tempfile
import time
import unittest
import xml.etree.ElementTree as tree
from collections.abc import Callable, Iterator
from pathlib import Path
from typing import Any
from unittest import mock
from urllib.parse import unquote

import foursaspen as ca
from foursaspen import atlases, pages
from foursaspen.evidence import EvidenceError, is_split, work_out
from foursaspen.graphs import Graph
from foursaspen.smaller import smaller

from .browser import Browser
from .support import ENVIRONMENT, drawn, output

RULES: tuple[ca.RuleLike, ...] = (110, 184, 30, "2:2:0:t0101")
WINDOWS = "3:3:-1:t001110220001112222110001222"     # reversible, and 5 letters of the image tell a cell
WIDE = "".join(f"{(x + 2 * y) % 16:x}" for x in range(16) for y in range(16))


def altered(report: ca.Report) -> Iterator[ca.Report]:
    """The report with one piece of its evidence changed, each time so that it isn't so any more."""
    change: Any = functools.partial(dataclasses.replace, report)
    yield change(open=not report.open)
    yield change(orphan=report.orphan[:-1] if report.orphan else "0")
    if report.orphan:
        yield change(orphan=None)
    if report.twins:
        yield change(twins=ca.Pair(report.twins.first, report.twins.first))
        yield change(twins=ca.Pair(report.twins.first, report.twins.second + "0"))
    if report.window and report.window.letters == 1:
        yield change(window=ca.Window(1, report.window.place + (1 if report.window.place == 0 else -1)))
    for side in ("right", "left"):
        closing: ca.Closing = getattr(report, side)
        if closing.split:
            yield change(**{side: ca.Closing(1, None)})
            yield change(**{side: ca.Closing(None, ca.Split(closing.split.first, closing.split.first))})
        else:
            for by in (-1, 1):
                yield change(**{side: ca.Closing((closing.ahead or 0) + by, None)})
    if report.flux:
        yield change(flux=(*report.flux[:-1], report.flux[-1] + 1))
    if report.ring:
        yield change(ring=None, flux=(0,) * len(report.rule))
        yield change(ring="")


class Evidence(unittest.TestCase):
    def test_all_evidence_fits(self) -> None:
        for rule in [*map(str, range(256)), *drawn(100, seed=12), f"16:2:0:t{WIDE}"]:
            with self.subTest(rule=rule):
                work_out(ca.decide(rule))

    def test_other_evidence_does_not(self) -> None:
        seen = 0
        for rule in [*map(str, range(0, 256, 5)), *drawn(24, seed=13), "204", "170"]:
            for wrong in altered(ca.decide(rule)):
                with self.subTest(rule=rule, wrong=wrong):
                    self.assertRaises(EvidenceError, work_out, wrong)
                    seen += 1
        self.assertGreater(seen, 400)

    def test_splits_by_hand(self) -> None:
        """Under rule 204, which copies cells, no two configurations share an image; under rule 0 all do."""
        first, second, third = ca.Tail("0", "1", "0"), ca.Tail("0", "0", "0"), ca.Tail("1", "1", "0")
        for rule, pair, side, there in ((204, (first, second), "right", False), (0, (first, second), "right", True),
                                        (0, (first, second), "left", True), (0, (first, first), "right", False),
                                        (0, (first, third), "right", False), (0, (first, third), "left", True)):
            self.assertEqual(is_split(Graph(ca.decide(rule).rule), ca.Split(*pair), side), there, (rule, pair, side))

    def test_no_page_where_it_does_not_fit(self) -> None:
        wrong = dataclasses.replace(ca.decide(110), orphan="0101")
        with mock.patch.object(pages, "decide", return_value=wrong):
            self.assertRaises(EvidenceError, ca.page, 110)
        with mock.patch.object(pages, "erase", return_value=ca.Pair("00000", "00000")):
            self.assertRaises(EvidenceError, ca.page, 110)
        with mock.patch.object(pages, "check", return_value=ca.check(ca.certify(90))):
            self.assertRaises(EvidenceError, ca.page, 110)


class Texts(unittest.TestCase):
    def test_pages_of_all_shapes(self) -> None:
        for rule in [*drawn(24, seed=14), f"16:2:0:t{WIDE}"]:
            text = ca.page(rule)
            self.assertIn(ca.decide(rule).rule, text)
            self.assertNotIn("<script", text)
            self.assertNotIn("http", text.replace("http://www.w3.org/2000/svg", ""))
            for part in text.split("<svg")[1:]:
                tree.fromstring("<svg" + part.partition("</svg>")[0] + "</svg>")

    def test_the_heading(self) -> None:
        """The number of an elementary rule, a text that isn't long, or else how many states there are and how wide the rule is."""
        known: list[tuple[ca.RuleLike, str]] = [
            (110, "Rule 110"), ("3:2:0:t012120201", "3:2:0:t012120201"), (f"16:2:0:t{WIDE}", "A rule of 16 states and width 2")]
        for rule, name in known:
            text = ca.page(rule)
            self.assertIn(f"<title>{name}</title>", text)
            self.assertIn(f"<h1>{name}</h1>\n<p class='note mono'>{ca.Rule(rule)}</p>", text)

    def test_what_windows_and_look_aheads_tell(self) -> None:
        """Where there is room for it."""
        known: list[tuple[ca.RuleLike, int, int]] = [(170, 3, 0), (30, 1, 0), (110, 0, 0), (f"16:2:0:t{WIDE}", 0, 2)]
        for rule, count, note in known:
            text = ca.page(rule)
            self.assertEqual((text.count(" the marked cell</title>"), text.count(": a picture has at most 256 cases.</p>")), (count, note), rule)

    def test_a_table_stands_once_on_a_page(self) -> None:
        """Of 16 states the table of the graph has all windows, so they aren't drawn again, and it shows that the rule closes on the
        left: f(x, y) is x + 2y, so it takes each value once where y is fixed."""
        text = ca.page(f"16:2:0:t{WIDE}")
        self.assertIn("In the table of the graph no letter stands twice behind a / in one column.", text)
        self.assertNotIn("in one row.", text)
        for rule, there in ((f"16:2:0:t{WIDE}", False), ("110", True)):
            self.assertEqual("Each window with the letter that it gives, in the order" in ca.page(rule), there)

    def test_words_lead_to_what_they_mean(self) -> None:
        for rule in RULES:
            text = ca.page(rule)
            for heading in ("Surjective", "Injective", "Closing on the right", "Closing on the left", "Open", "Conserving"):
                self.assertRegex(text, f"<h2 id=[a-z]+><a class=term href='#[a-z-]+'>{heading}</a>: ")
            for name in set(re.findall("href='#([a-z-]+)'", text)):
                self.assertEqual(len(re.findall(f"id={name}[ >]", text)), 1, name)

    def test_what_there_is_none_of(self) -> None:
        """Rules 90 and 170 have no pairs that walks from one node come to; no sum changes by +0."""
        plain: tuple[ca.RuleLike, ...] = (90, 170, "3:2:0:t012120201")
        for rule in plain:
            text = ca.page(rule)
            self.assertIn("don't exist: the edges from a node write different letters.", text)
            self.assertNotIn("are these", text)
            self.assertNotIn("The pairs", text)
        self.assertIn("The pairs", ca.page(30))
        self.assertNotIn("+0", ca.page(204))

    def test_certificates_are_whole(self) -> None:
        for rule in RULES:
            links = [link.split("'")[0] for link in ca.page(rule).split("href='data:application/json,")[1:]]
            self.assertEqual([unquote(html.unescape(link)) for link in links], [str(ca.certify(rule)), str(ca.brief(rule))])

    def test_an_atlas_that_does_not_end_is_refused(self) -> None:
        for shape, size in (((2, 5), "4,294,967,296"), ((4, 2), "4,294,967,296"), ((3, 3), "7,625,597,484,987")):
            for form in ("html", "csv"):
                with self.assertRaisesRegex(ca.UsageError, f"have {size} rules"):
                    ca.atlas(*shape, form)

    def test_command_lines(self) -> None:
        ask = [sys.executable, "-m", "foursaspen"]
        self.assertEqual(output([*ask, "page", "110"]), ca.page(110))
        self.assertEqual(output([*ask, "atlas", "2", "2", "--html"]), ca.atlas(2, 2))
        self.assertEqual(output([*ask, "picture", "90", "0|1|0"]), ca.picture(90, "0|1|0"))
        for words, said in (("atlas 2 5 --csv", "2 states and width 5 have 4,294,967,296 rules"), ("picture 110 loop", "show is "),
                            ("page 256", "rule fault 1 number: "), ("picture 110 ring|", "tail is LEFT|MIDDLE|RIGHT")):
            done = subprocess.run([*ask, *words.split()], env=ENVIRONMENT, cwd="/", capture_output=True, text=True, check=False)
            self.assertEqual((done.returncode, done.stdout, done.stderr[:len(said)]), (1, "", said))


def cells_of(text: str) -> tuple[list[tuple[float, float, str]], list[tuple[float, float, str]]]:
    """The boxes of all cells of a page's pictures with their colours, and the letters, where they are drawn. What is used is drawn
    where it is used."""
    space = "{http://www.w3.org/2000/svg}"
    boxes: list[tuple[float, float, str]] = []
    letters: list[tuple[float, float, str]] = []
    pictures = [tree.fromstring("<svg" + part.partition("</svg>")[0] + "</svg>") for part in text.split("<svg")[1:]]
    shapes = {shape.get("id"): shape for picture in pictures for shape in picture.iter(space + "g") if shape.get("id")}

    def draw(part: tree.Element, left: float, top: float) -> None:
        x, y = left + float((part.get("x") or "0").split()[0]), top + float(part.get("y") or 0)
        color = part.get("fill") or re.sub(r"^.*?fill:var\(--([0-9a-f]+)\).*$", r"#\1", part.get("style") or "")
        if part.tag == space + "use":
            draw(shapes[(part.get("href") or "")[1:]], x, y)
        elif part.tag == space + "rect" and part.get("width") in ("18", "18.0"):
            boxes.append((round(x, 1), round(y, 1), color))
        elif part.tag == space + "text":
            places = [left + float(place) for place in (part.get("x") or "0").split()]
            letters.extend((round(place, 1), round(y, 1), letter) for place, letter in zip(
                places, part.text or "" if len(places) > 1 or len(part.text or "") == 1 else ""))
        elif part.tag != space + "defs":
            for inner in part:
                draw(inner, left, top)
    for picture in pictures:
        draw(picture, 0, 0)
    return sorted(boxes), sorted(letters)


class Smaller(unittest.TestCase):
    """The pictures of a page are written shorter, and show the same."""

    def test_the_same_is_drawn(self) -> None:
        seen = 0
        for rule in [*map(str, (30, 60, 110, 170, 184)), *drawn(16, seed=23), f"16:2:0:t{WIDE}", WINDOWS]:
            sections = "\n".join(pages.Sections(ca.decide(rule)).all())
            plain, short = cells_of(sections), cells_of(smaller(sections))
            self.assertEqual(short, plain, rule)
            seen += len(plain[0])
        self.assertGreater(seen, 5000)

    def test_the_page_is_small(self) -> None:
        """A window of 5 letters has 243 cases, and with a box for each cell the page takes 1.2 MB."""
        self.assertEqual(ca.decide(WINDOWS).window, ca.Window(5, 3))
        self.assertLess(len(ca.page(WINDOWS)), 130_000)


class Clicks(unittest.TestCase):
    browser: Browser
    room: Path

    @classmethod
    def setUpClass(cls) -> None:
        room = tempfile.TemporaryDirectory()
        cls.addClassCleanup(room.cleanup)
        cls.room = Path(room.name)
        cls.browser = Browser()
        cls.addClassCleanup(cls.browser.close)

    def file(self, name: str, text: str) -> str:
        """The address of a page."""
        file = self.room / name
        file.write_text(text)
        return file.as_uri()

    def comes(self, asked: Callable[[], object], wanted: object) -> None:
        """What is asked becomes what is wanted, at once or within a minute, since a page may answer later than it is clicked."""
        last = time.monotonic() + 60
        while (seen := asked()) != wanted and time.monotonic() < last:
            time.sleep(0.05)
        self.assertEqual(seen, wanted)

    def shows(self, expression: str, wanted: object) -> None:
        """The value of an expression of the page becomes this one."""
        self.comes(lambda: self.browser.get(expression), wanted)

    def look(self, address: str) -> None:
        """By day and by night, wide and narrow: the colours follow, and nothing is beyond the edge."""
        for dark, ground in ((False, "rgb(255, 255, 255)"), (True, "rgb(21, 24, 28)")):
            for width in (1280, 360):
                self.browser.open(address, width, dark)
                get = self.browser.get
                self.assertEqual(get("getComputedStyle(document.body).backgroundColor"), ground)
                self.assertEqual(get("[...document.querySelectorAll('svg > rect')].filter(r => r.width.baseVal.value === "
                                     "r.ownerSVGElement.width.baseVal.value).length"), 0)       # the ground is that of the page
                # What is used elsewhere follows by itself, since the style of a picture doesn't reach it.
                self.assertEqual(get("document.querySelectorAll('defs [fill], defs [stroke]').length"), 0)
                self.assertEqual(get("[...document.querySelectorAll('defs rect')].filter(r => getComputedStyle(r).fill === '" +
                                     ("rgb(255, 255, 255)" if dark else "rgb(21, 24, 28)") + "').length"), 0)
                self.assertLessEqual(get("document.documentElement.scrollWidth"), width)
                self.assertEqual(get("[...document.querySelectorAll('svg')].filter(svg => Math.abs("
                                     "svg.getBoundingClientRect().width - svg.width.baseVal.value) > 1).length"), 0)
                self.assertEqual(get("[...document.querySelectorAll('td code')].filter(code => code.textContent && "
                                     "code.getClientRects().length > 1 || code.getBoundingClientRect().height > 30).length"), 0)
        self.assertEqual(self.browser.console, [])

    def named(self) -> None:
        """Who doesn't see the pictures and the tables is told what each is."""
        get = self.browser.get
        names = get("[...document.querySelectorAll('svg')].map(svg => svg.role + ' ' + svg.ariaLabel)")
        self.assertEqual([name.split()[0] for name in names], ["img"] * len(names))
        self.assertEqual(len(set(names)), len(names))
        self.assertEqual(get("[...document.querySelectorAll('table')].filter(table => !table.caption || "
                             "[...table.querySelectorAll('th')].some(head => !head.scope)).length"), 0)
        self.assertEqual(get("document.querySelectorAll('main').length"), 1)

    def test_the_page_of_a_rule(self) -> None:
        for rule in RULES:
            report, address = ca.decide(rule), self.file(f"{rule}.html".replace(":", "_"), ca.page(rule))
            self.look(address)
            self.browser.open(address)
            get = self.browser.get
            if rule != RULES[-1]:
                self.named()
            shown = get("[...document.querySelectorAll('.badge')].map(badge => badge.textContent)")
            self.assertEqual(shown, [f"{key}: {'yes' if getattr(report, key) else 'no'}" for key in pages.VERDICTS])
            self.browser.click("document.querySelector('.badge[href=\"#left\"]')")
            self.shows("location.hash", "#left")
            self.shows("Math.abs(document.getElementById('left').getBoundingClientRect().top) < 900", True)
            self.shows("document.querySelector('details').open", True)
            self.browser.click("document.querySelector('summary')")
            self.shows("document.querySelector('details').open", False)
            self.assertEqual(self.browser.console, [])

    def links(self, folder: Path) -> int:
        """How many links the pages of a folder have, each of which leads to a page and to a part of it that are there."""
        parts, links = {}, []
        for file in folder.iterdir():
            self.browser.open(file.as_uri())
            parts[file.name] = set(self.browser.get("[...document.querySelectorAll('[id]')].map(it => it.id)"))
            links += [(file.name, href) for href in self.browser.get("[...document.querySelectorAll('a')].map(a => a.getAttribute('href'))")]
        for here, href in links:
            if not href.startswith("data:") and href != "#":
                page, _, part = href.partition("#")
                self.assertIn(page or here, parts, href)
                if part:
                    self.assertIn(part, parts[page or here], href)
        return len(links)

    def test_links_of_a_page(self) -> None:
        folder = self.room / "alone"
        folder.mkdir()
        (folder / "rule.html").write_text(ca.page(184, [1, 4]))
        self.assertGreater(self.links(folder), 20)

    def test_a_site(self) -> None:
        folder = self.room / "site"
        self.assertEqual(ca.site(2, 2, folder), 7 + 2)
        self.assertGreater(self.links(folder), 100)
        get, index = self.browser.get, (folder / "index.html").as_uri()
        for name in ("index.html", "evidence.html", "2_2_0_t0110.html"):
            self.look((folder / name).as_uri())
        self.browser.open(index)
        self.browser.follow("document.querySelector('#body a')", "/2_2_0_t0000.html")
        self.shows("document.querySelectorAll('#kin a').length + document.querySelectorAll('nav a').length", 3 + 6)
        self.browser.follow("[...document.querySelectorAll('nav a')].find(a => a.textContent === 'the next class')",
                            "/2_2_0_t1000.html")
        self.assertEqual(get("document.querySelector('h1').textContent"), "2:2:0:t1000")
        self.browser.follow("document.querySelector('a.term')", "/evidence.html#the-graph")
        self.assertGreater(get("document.querySelectorAll('svg').length"), 5)
        self.assertEqual(self.browser.console, [])

    def test_a_site_of_a_list(self) -> None:
        folder, file = self.room / "listed", self.room / "rules.txt"
        file.write_text("".join(f"{rule}\n" for rule in ca.rules("injective", 3, 2)) + "rules 48\n")
        told = output([sys.executable, "-m", "foursaspen", "site", "--from", str(file), str(folder)])
        self.assertEqual((told.split()[:2], len(list(folder.glob("*.html"))), (folder / "style.css").exists()), (["9", "pages,"], 9, True))
        self.links(folder)

    def test_headings_stay(self) -> None:
        self.browser.open(self.file("atlas.html", ca.atlas(2, 3)))
        get = self.browser.get
        get("(it => it.scrollTop = 1500)(document.querySelector('.scroll'))")
        self.shows("document.querySelector('.scroll').scrollTop > 1000", True)
        places = get("['#head th', '.scroll'].map(name => document.querySelector(name).getBoundingClientRect().top)")
        self.assertLess(abs(places[0] - places[1]), 2)

    def test_large_graphs_and_long_tables(self) -> None:
        """At 360 pixels they scroll in boxes of their own. Those of tables are no higher than the screen, and their headings stay; a
        picture isn't cut below."""
        get = self.browser.get
        for name, rule in (("wide.html", f"16:2:0:t{WIDE}"), ("long.html", "2:5:0:t00101111001011011101000011010010")):
            address = self.file(name, ca.page(rule))
            self.look(address)
            self.browser.open(address, 360)
            self.named()
            boxes = get("[...document.querySelectorAll('.scroll')].map(box => [box.clientWidth, box.clientHeight, box.scrollWidth,"
                        "box.scrollHeight, box.tabIndex, box.querySelector('thead') !== null])")
            self.assertTrue(all(wide <= 360 and (high <= 0.9 * 900 if table else high == deep)
                                for wide, high, _, deep, _, table in boxes), boxes)
            self.assertGreater(sum(whole > wide for wide, _, whole, *_ in boxes), 1)
            self.assertEqual({stop for wide, high, whole, deep, stop, _ in boxes if whole > wide or deep > high}, {0})
            if name == "wide.html":
                continue
            self.assertGreater(sum(whole > high for _, high, _, whole, *_ in boxes), 0)     # 120 pairs of nodes
            get("(window.high = [...document.querySelectorAll('.scroll')].find(box => box.querySelector('thead') && "
                "box.scrollHeight > box.clientHeight + 200)).scrollTop = 150")
            self.shows("high.scrollTop", 150)
            self.assertLess(abs(get("high.querySelector('thead th').getBoundingClientRect().top - high.getBoundingClientRect().top")), 2)

    def test_the_keyboard(self) -> None:
        self.browser.open(self.file("small.html", ca.atlas(2, 2)))
        get, seen = self.browser.get, []
        for _ in range(40):
            self.browser.press("Tab")
            seen.append(get("document.activeElement.id || document.activeElement.textContent.slice(0, 12)"))
            if seen[-1] == "members":
                break
        self.assertEqual([name for name in seen if name in pages.VERDICTS or name in ("kept", "rule")][:8], [*pages.VERDICTS, "kept", "rule"])
        self.browser.press("Enter")
        self.shows("location.hash", "#sort=members")
        self.comes(lambda: self.counts()[0][0], "0")
        count = get("history.length")
        get("document.getElementById('rule').focus()")
        self.browser.write("2:2:1:t0110")
        self.comes(lambda: (get("history.length"), self.counts()[0]), (count, ["6"]))
        self.browser.open(self.file("small.html", ca.atlas(2, 2)) + "#surjective=maybe&kept=7")
        self.comes(lambda: (self.counts()[1], get("document.getElementById('surjective').value")), ("7 of 7 classes, 16 rules", ""))
        self.browser.open(self.file("small.html", ca.atlas(2, 2)) + "#kept=1")
        self.comes(self.counts, (["10"], "1 of 7 classes, 2 rules"))

    def test_on_paper(self) -> None:
        """Headings stay with what they head, and nothing is cut off."""
        self.browser.open(self.file("paper.html", ca.page(110)), 700)
        self.browser.call("Emulation.setEmulatedMedia", media="print")
        get = self.browser.get
        self.assertEqual(get("[...document.querySelectorAll('.scroll')].filter(it => it.scrollWidth > it.clientWidth + 1).length"), 0)
        self.assertEqual(set(get("[...document.querySelectorAll('h2, summary')].map(it => getComputedStyle(it).breakAfter)")), {"avoid"})
        self.browser.call("Emulation.setEmulatedMedia", media="")

    def counts(self) -> tuple[list[str], str]:
        """The first cells of the rows that are shown, and the line that counts."""
        return (self.browser.get("[...document.querySelectorAll('#body tr')].map(row => row.cells[0].textContent)"),
                self.browser.get("document.getElementById('count').textContent"))

    def test_an_atlas(self) -> None:
        rows = list(csv.DictReader(io.StringIO(ca.atlas(2, 3, "csv"))))
        address = self.file("atlas.html", ca.atlas(2, 3))
        self.look(address)
        self.browser.open(address)
        get = self.browser.get
        self.comes(self.counts, ([row["number"] for row in rows], "88 of 88 classes, 256 rules"))
        get("(it => { it.value = 'yes'; it.dispatchEvent(new Event('change')) })(document.getElementById('injective'))")
        self.comes(self.counts, (["15", "51", "170", "204"], "4 of 88 classes, 6 rules"))
        self.browser.click("document.querySelector('#head th:nth-child(1) button')")
        self.shows("document.querySelector('#head th').ariaSort", "ascending")
        self.browser.click("document.querySelector('#head th:nth-child(1) button')")
        self.comes(lambda: self.counts()[0], ["204", "170", "51", "15"])
        self.shows("location.hash", "#injective=yes&sort=least&down=1")
        self.shows("document.querySelector('#head th').ariaSort", "descending")
        self.browser.open(f"{address}#surjective=no&sort=surjective&down=1")
        having = [row["orphan"].strip("|") for row in rows if row["surjective"] == "False"]
        self.comes(lambda: self.counts()[1], f"{len(having)} of 88 classes, 226 rules")
        self.shows("document.querySelector('#body td:nth-child(3) code').textContent.length", max(map(len, having)))
        self.browser.open(f"{address}#rule=124")
        self.comes(self.counts, (["110"], "1 of 88 classes, 4 rules"))
        self.browser.call("Page.setDownloadBehavior", behavior="allow", downloadPath=str(self.room))
        self.browser.click("document.getElementById('down')")
        file = self.room / "classes.csv"
        # The same names and values but for those that a page hasn't.
        wanted = [{name: value for name, value in row.items() if name not in ("weights", "inverse", "least", "flow")}
                  for row in rows if row["number"] == "110"]
        self.comes(lambda: list(csv.DictReader(io.StringIO(file.read_text()))) if file.exists() else [], wanted)
        self.assertEqual(self.browser.console, [])


if __name__ == "__main__":
    unittest.main()
