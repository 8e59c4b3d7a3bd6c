"""A page of one rule in one file: its windows, its verdicts, each piece of evidence step by step with its picture, its kin, the
sums that it keeps, both certificates to download, and what the words mean. The evidence is worked out again from the rule's
table first, and where it doesn't fit there is no page. It has no script and asks for nothing.
"""
from __future__ import annotations

import os
from collections.abc import Iterable, Iterator
from html import escape
from pathlib import Path
from urllib.parse import quote

from . import prose
from .commands import brief, certify, check, decide, erase, inverse
from .degrees import Degree, degree
from .drawing import Picture
from .evidence import EvidenceError, is_erasable, left_after, mirrored, reached, undecided, work_out
from .faults import NotFitError, UsageError
from .graphs import Edge, Graph, written
from .layout import fits
from .moved_field import heading as heading_moved
from .moves import all_moved, in_words
from .operands import Weights
from .pictures import drawn, drawn_moved, part_of, signed, title, walks_of, windows
from .relations import class_of
from .report import Closing, Report, Window
from .rule_values import NUMBERED, Rule, RuleLike, mirror
from .smaller import colours, smaller
from .sums import kept_sums, ranges

VERDICTS = ("surjective", "injective", "right", "left", "open", "conserving")
LONGEST = 200                                   # letters of a word that is drawn, and steps of a table
SHOWN = 24                                      # rules of a class that are named
HEADED = 40                                     # letters of a heading
WINDOWS = 32                                    # windows of moved configurations that are named
MOVES = 3                                       # pictures of moved configurations
MARKED = 16                                     # edges of a graph that such a picture has
PLAIN = '{}[]":,|'                              # what stands in the address of a certificate as it is
STYLE = Path(__file__).with_name("style.css")
PAGE = """<!doctype html>
<html lang=en>
<meta charset=utf-8>
<meta name=viewport content="width=device-width">
<link rel=icon href="data:,">
<title>{title}</title>
{style}
<body>
{top}<main>
<h1>{title}</h1>
{sections}
</main>
</body>
</html>
"""


class Page(str):
    """An HTML text, which a notebook shows as a page of its own."""

    def _repr_html_(self) -> str:
        return f"<iframe srcdoc='{escape(self)}' style='width: 100%; height: 600px; border: 1px solid'></iframe>"

    def __repr__(self) -> str:
        return f"<Page: {len(self):,} characters of HTML>"

    def save(self, path: str | os.PathLike[str]) -> None:
        """Writes the page to a file."""
        Path(path).write_text(self, encoding="utf-8", newline="")


def page(rule: RuleLike, weights: Weights | None = None) -> Page:
    """The page of a rule as an HTML text; EvidenceError where evidence doesn't fit the rule's table. Where weights are given, or a
    report has them, the sums are of these."""
    sections = Sections(decide(rule, weights))
    return whole_page(sections.name, "\n".join([*sections.all(), *sections.words()]))


def whole_page(name: str, sections: str, top: str = "", style: str | None = None) -> Page:
    """A page with this title, with its style or with the file that has it."""
    said = f"<style>\n{whole_style()}</style>" if style is None else f"<link rel=stylesheet href={style}>"
    return Page(PAGE.format(title=escape(name), style=said, sections=smaller(sections), top=top))


def whole_style() -> str:
    """The style of pages and of their pictures."""
    return STYLE.read_text(encoding="utf-8") + colours()


def heading(report: Report) -> str:
    """The name of a rule as a heading: where its text is long, how many states it has and how wide it is."""
    rule, name = report.rule, title(report)
    return name[0].upper() + name[1:] if len(name) <= HEADED else f"A rule of {rule.states} states and width {rule.width}"


def said(report: Report, key: str) -> str:
    return "yes" if getattr(report, key) else "no"


def counted(number: int, thing: str) -> str:
    return f"{number:,} {thing}" + ("" if number == 1 else "s")


def code(word: str) -> str:
    return f"<code>{escape(word)}</code>"


def steps(summary: str, head: Iterable[str], rows: Iterable[Iterable[object]]) -> str:
    """A table that opens and closes, cut where it is long."""
    lines = ["".join(f"<td class=mono>{escape(str(cell))}</td>" for cell in row) for row in rows]
    body = "".join(f"<tr>{line}</tr>" for line in lines[:LONGEST])
    more = f"<p class=note>and {len(lines) - LONGEST:,} more steps</p>" if len(lines) > LONGEST else ""
    heads = "".join(f"<th scope=col>{cell}</th>" for cell in head)
    return (f"<details open><summary>{summary}</summary><div class=scroll tabindex=0><table><caption>{summary}</caption>"
            f"<thead><tr>{heads}</tr></thead><tbody>{body}</tbody></table>{more}</div></details>")


def boxed(picture: Picture) -> str:
    """A picture that scrolls where it is wider than the page, and is as high as it is."""
    return f"<div class='scroll whole' tabindex=0>{picture}</div>"


class Sections:
    """The parts of a page. `evidence` is the page that explains words, or empty where this one does."""

    def __init__(self, report: Report, evidence: str = "", pages: dict[Rule, str] | None = None) -> None:
        work_out(report)
        self.report, self.graph, self.evidence, self.pages = report, Graph(report.rule, report.weights), evidence, pages or {}
        self.name = heading(report)

    def all(self) -> Iterator[str]:
        report = self.report
        yield f"<p class='note mono'>{report.rule}</p>{self.weights()}"
        yield f"<nav class=row aria-label=verdicts>{''.join(map(self.badge, VERDICTS))}</nav>"
        yield self.rule()
        yield self.head("surjective", "Surjective")
        yield self.orphan(report.orphan) if report.orphan else self.apart()
        yield self.head("injective", "Injective")
        yield self.inverse(report.window) if report.window else self.pair(
            "twins", f"Two different {self.term('ring', 'rings')} have one image: they are {self.term('twins')}.")
        for side, other in (("right", "left"), ("left", "right")):
            closing: Closing = getattr(report, side)
            yield self.head(side, f"Closing on the {side}")
            yield self.ahead(closing.ahead, side, other) if closing.ahead else self.pair(
                side, f"Two configurations have one image and agree to the {other}: a {self.term('split')}. Beyond the cells that "
                "are shown their periods go on for ever.")
        yield self.head("open", "Open")
        yield (f"<p>It {self.term('closes')} on both sides, so it is {self.term('open')}.</p>" if report.open else
               f"<p>It doesn't {self.term('closes', 'close')} on both sides, so it isn't {self.term('open')}.</p>")
        yield self.head("conserving", "Conserving")
        yield self.ring(report.ring) if report.ring else self.flux(report.flux or ())
        yield self.sums()
        yield self.preimages()
        yield self.moves()
        yield self.kin()
        yield self.certificates()

    def words(self) -> Iterator[str]:
        """What the words of the page mean."""
        yield f"<h2 id=words>What the words mean</h2>{prose.written()}"

    def term(self, word: str, shown: str | None = None) -> str:
        return prose.link(word, self.evidence, shown)

    def badge(self, key: str) -> str:
        """A verdict that leads to its section."""
        verdict = said(self.report, key)
        return f"<a class='badge {verdict}' href='#{key}'>{key}: <b>{verdict}</b></a>"

    def weights(self) -> str:
        weights = self.report.weights
        return "" if weights is None else f"<p class=note>The letters weigh {', '.join(map(str, weights))}.</p>"

    def rule(self) -> str:
        """The table, and the graph."""
        table = self.has_table()                # has each window already, with the letter that it gives
        return "".join([
            "<h2 id=rule>The rule</h2>", "" if table else f"<p>Each window with the letter that it gives, in the order of the windows' "
            f"values, as the table has them. Wolfram writes the letters in the reverse order.</p>{boxed(windows(self.report.rule))}",
            f"<p>In the graph a {self.term('node')} is what is read last, and each edge reads a letter and writes one. A "
            f"configuration is a {self.term('walk')}, and what that writes is its image.</p>", self.drawn("graph")])

    def has_table(self) -> bool:
        """Whether the graph is a table with a row for each first letter of a window and a column for each last one."""
        return not fits(self.graph) and self.graph.width == 2

    def head(self, key: str, name: str) -> str:
        verdict = said(self.report, key)
        word = key if key in prose.PARTS else "closes"
        return f"<h2 id={key}>{self.term(word, name)}: <span class={verdict}>{verdict}</span></h2>"

    def drawn(self, show: str, long: int = 0) -> str:
        """The graph, with numbers or without, or what stands beneath it alone."""
        if long > LONGEST:
            return f"<p class=note>It has {long:,} letters, too many for a picture.</p>"
        made = drawn(self.report, show, with_graph=show in ("graph", "flux", "current"), headed=False)
        return boxed(made)

    def told(self, show: str) -> str:
        """What a window or a look-ahead tells, where there is room for it."""
        try:
            return self.drawn(show)
        except ValueError as fault:
            return f"<p class=note>{fault}.</p>"

    def names(self, nodes: Iterable[int]) -> str:
        return " ".join(self.graph.name(node) for node in sorted(nodes))

    def windows(self, *walks: list[Edge]) -> Iterator[list[str]]:
        """The windows of walks that write one image, with its letters."""
        for edges in zip(*walks):
            yield [*map(self.graph.window, edges), written([edges[0]])]

    # Surjective

    def orphan(self, orphan: str) -> str:
        reading = self.graph.reading(orphan)
        rows = [(place + 1, letter, self.names(before), self.names(after) or "nowhere")
                for place, (letter, (before, _), (after, _)) in enumerate(zip(orphan, reading, reading[1:]))]
        return "".join([
            f"<p>No word has the image {code(orphan)}, and it is the first such word: an {self.term('orphan')}.</p>",
            self.drawn("orphan", len(orphan)),
            steps("Letter by letter", ("step", "letter written", "a walk may be at", "and then at"), rows), self.erasable()])

    def erasable(self) -> str:
        pair = erase(self.report)
        if pair is None or not is_erasable(self.graph, pair):
            raise EvidenceError(f"the erasable pair doesn't fit the table of {self.report.rule}")
        walks = [self.graph.within(word) for word in (pair.first, pair.second)]
        table = steps(f"{code(pair.first)} and {code(pair.second)} begin and end alike and have one image: each may stand for "
                      "the other everywhere", ("window of the first", "of the second", "letter of the image"),
                      self.windows(*walks))
        return f"<p>So there is an {self.term('erasable pair')}, too.</p>{self.drawn('erase', len(pair.first))}{table}"

    def apart(self) -> str:
        pairs = sorted({(min(pair), max(pair)) for pair in reached(self.graph)})
        begin = (f"<p>Every word has a preimage, and exactly {self.graph.nodes} of them, so there is no {self.term('orphan')}. Two "
                 f"{self.term('walk', 'walks')} that begin at one node, read different letters first and write the same letters ")
        if not pairs:
            return begin + "don't exist: the edges from a node write different letters.</p>"
        return "".join([
            begin, f"never meet: the pairs of nodes that they come to are these {len(pairs):,}, and none has two equal "
            "nodes.</p>" if len(pairs) > 1 else "never meet: they come to one pair of nodes, which are different.</p>",
            steps("The pairs", ("nodes",), ([self.names(pair)] for pair in pairs))])

    # Injective, and closing

    def pair(self, show: str, text: str) -> str:
        walks = walks_of(self.report, show)
        rows = ([cell, *row] for cell, row in zip(walks.cells, self.windows(*walks.edges(self.graph))))
        return "".join([
            f"<p>{text} Marked cells differ.</p>", self.drawn(show, len(walks.cells)),
            steps("Cell by cell", ("cell", "window of the first", "of the second", "letter of the image"), rows)])

    def inverse(self, window: Window) -> str:
        try:
            back = inverse(self.report).rule
        except NotFitError:
            back = None
        return "".join([
            f"<p>Of any {window.letters + self.graph.width - 1} neighbouring cells the image has {counted(window.letters, 'letter')}, "
            f"and {'this tells' if window.letters == 1 else 'these tell'} {self.which(window)}: a {self.term('window')}.</p>",
            self.told("window"),
            steps("Two walks that differ at that place and write the same letters",
                  ("letters of the image", "pairs of nodes that are left"), enumerate(undecided(self.graph, window))),
            f"<p>The {self.term('inverse')} is {self.to(back) if back else 'wider than a rule may be'}.</p>"])

    def which(self, window: Window) -> str:
        """The cell that a window tells."""
        last = window.letters + self.graph.width - 2
        if window.place == 0:
            return "the first one"
        if window.place == last:
            return "the last one"
        return f"{'the middle one' if 2 * window.place == last else 'one of them'} (place {window.place}, from 0 on)"

    def ahead(self, ahead: int, side: str, other: str) -> str:
        counts = left_after(self.graph if side == "right" else mirrored(self.graph), ahead)
        line = "row" if side == "right" else "column"
        shown = (f"<p>In the table of the graph no letter stands twice behind a / in one {line}.</p>"
                 if ahead == 1 and self.has_table() else self.told(side))
        return "".join([
            f"<p>Where two configurations agree to the {other} of a cell, that cell is told by {counted(ahead, 'letter')} of "
            f"their image, and by no fewer: the {self.term('look-ahead')} is {ahead}.</p>", shown,
            steps("Two walks from one node that read different letters first and write the same ones",
                  ("letters written", "pairs of nodes that are left"), enumerate(counts, 1))])

    # Conserving

    def ring(self, ring: str) -> str:
        walk = self.graph.ring(ring)
        return "".join([
            f"<p>The {self.term('ring')} {code(ring)} has the sum {self.graph.total(ring)}, and its image {code(written(walk))} "
            f"has the sum {self.graph.total(written(walk))}.</p>",
            self.drawn("ring"), steps("Cell by cell", ("cell", "window", "letter of the image"),
                                      ([cell, *row] for cell, row in enumerate(self.windows(walk))))])

    def flux(self, flux: tuple[int, ...]) -> str:
        rows = ((self.graph.window(edge), written([edge]), signed(self.graph.change(edge)), flux[edge.source],
                 flux[edge.target]) for edge in self.graph.edges())
        holds_cell = 0 <= -self.graph.offset < self.graph.width
        current = (f"<p>What moves between neighbours is the {self.term('current')}: what a cell gains is the number at its "
                   f"window's first letters less that at its last letters.</p>{self.drawn('current')}") if holds_cell else ""
        return "".join([
            f"<p>What a window adds to the sum is the {self.term('flux')} at its first letters less that at its last letters. "
            "Round a ring these differences add up to 0, so the sum stays.</p>", self.drawn("flux"),
            steps("Window by window", ("window", "gives", "adds", "flux before", "flux behind"), rows), current])

    # More

    def sums(self) -> str:
        """How many sums of words of each length it keeps, and what the first ones weigh."""
        rows = []
        for letters in ranges(self.graph.states):
            kept = kept_sums(self.report.rule, letters)
            shown = "; ".join(" ".join(f"{word}:{weight}" for word, weight in row.items()) for row in kept.rows[:4])
            rows.append((letters, len(kept.rows), shown + (" .." if len(kept.rows) > 4 else "")))
        return "".join([
            f"<h2 id=sums>Kept sums</h2><p>Weigh each word of so many letters, and add up round a {self.term('ring')} the weights "
            "of the words in it. So many of these sums stay whatever the ring is, apart from those that say no more than how long "
            "it is, and none of them is a combination of the others.</p>",
            steps("Sums that are kept", ("letters", "sums", "what the words of each weigh"), rows)])

    def preimages(self) -> str:
        """The degree with the walks that show it."""
        found, nodes = degree(self.report.rule), self.graph.nodes
        head = "<h2 id=degree>How many preimages</h2>"
        if found.degree is None:
            return f"{head}<p>Some word has no preimage, so it has no degree.</p>"
        if found.right * found.left != found.degree * nodes:
            raise EvidenceError(f"the degree doesn't fit the table of {self.report.rule}")
        rows = [("last", found.right_word and code(found.right_word), found.right, " ".join(found.right_nodes)),
                ("first", found.left_word and code(found.left_word), found.left, " ".join(found.left_nodes))]
        text = "".join(
            f"<p>The preimages of {word if word else 'the empty word'} have {counted(count, f'{which} node')}, {code(names)}, and no "
            "word has fewer.</p>" for which, word, count, names in rows)
        text += (f"<p>So the degree is {found.right} times {found.left} divided by {nodes}, the number of all nodes: {found.degree}. "
                 + ("Each configuration has so many preimages.</p>" if self.report.open else
                    "Some periodic configuration has so many preimages, and none has fewer.</p>"))
        if found.flow is not None:
            text += f"<p>Its flow is {found.flow}: so many times as much flows to the right as to the left.</p>"
        return f"{head}{text}{self.cut(found)}"

    def cut(self, found: Degree) -> str:
        """The walks that show the degree, where there is room for them."""
        try:
            return boxed(found.picture())
        except UsageError as fault:
            return f"<p class=note>{fault}.</p>"

    def moves(self) -> str:
        """What the rule only moves, for each cell of the window, and pictures of what is more than one letter everywhere."""
        found = list(all_moved(self.report.rule))
        rows = [(in_words(one.by), one.ring or "none", " ".join(one.windows[:WINDOWS]) + (" .." if one.windows[WINDOWS:] else ""))
                for one in found]
        shown = [one for one in found if any(len(set(window)) > 1 for window in one.windows)]
        small = len(self.graph.edges()) <= MARKED   # a large graph stands once on the page
        pictures = "".join(
            f"<p>{heading_moved(one) if small else part_of(one)[0].upper() + part_of(one)[1:]}.</p>"
            f"{boxed(drawn_moved(one, with_graph=small, headed=False))}" for one in sorted(shown, key=lambda one: abs(one.by))[:MOVES])
        return "".join([
            f"<h2 id=moved>What it only moves</h2><p>Some configurations are {self.term('moved', 'only moved')}: their image is the "
            "configuration itself, so many cells further on. A configuration is moved so exactly if it has only these windows.</p>",
            steps("For each cell of the window", ("the rule ..", "least ring", "windows"), rows), pictures])

    def kin(self) -> str:
        """The mirrored rule, and the class."""
        rule = self.report.rule
        text = f"<h2 id=kin>Its kin</h2><p>The mirrored rule is {self.to(mirror(rule))}.</p>"
        if rule.states > NUMBERED:
            return text
        known = class_of(rule)
        names = ", ".join(map(self.to, known.members[:SHOWN]))
        more = f" and {len(known.members) - SHOWN:,} more" if len(known.members) > SHOWN else ""
        return (f"{text}<p>With other names of the letters, in the mirror or both, and at its own offset, it is one of "
                f"{counted(len(known.members), 'rule')}: {names}{more}. The first has the least number of them.</p>")

    def to(self, rule: Rule) -> str:
        """A rule, with its number where it has a short one; it leads to its page where there is one."""
        number = rule.number
        name = code(rule) + (f" (Wolfram number {number})" if number is not None and rule.states ** rule.width <= 9 else "")
        place = self.pages.get(rule) or self.pages.get(at_zero(rule))
        return f"<a href='{place}'>{name}</a>" if place else name

    def certificates(self) -> str:
        links = []
        for version, made in ((2, certify(self.report)), (3, brief(self.report))):
            verdicts, text = check(made), str(made)
            if any(getattr(verdicts, key) != bool(getattr(self.report, key)) for key in VERDICTS):
                raise EvidenceError(f"the certificate of version {version} doesn't fit the report of {self.report.rule}")
            file = f"{self.report.rule[:60]} version {version}.json".replace(":", "_").replace(" ", "_")
            links.append(f"<p><a download='{file}' href='data:application/json,{quote(text, safe=PLAIN)}'>the certificate of version "
                         f"{version}, {len(text):,} bytes</a></p><details><summary>its text</summary><pre>{escape(text)}</pre></details>")
        return "".join([
            f"<h2 id=certificates>Certificates</h2><p>Each {self.term('certificate')} has all that is needed to check these "
            "verdicts without trust in this page or in who made it: by <code>ca check</code>, by <code>checkers/judge.py</code> of the "
            "repository, or by a checker of your own. Compare the rule that it names with yours. Version 2 shows that a rule is "
            "surjective by sets of nodes, and version 3 by pairs.</p>", *links])


def at_zero(rule: Rule) -> Rule:
    """The rule of the same table at offset 0."""
    return Rule(states=rule.states, table=rule.table)

