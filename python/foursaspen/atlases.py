"""An atlas of a shape or of a list: each class of rules with its verdicts and their least evidence, as Markdown for the
elementary rules, and as CSV or a page to sort and filter for any shape that isn't too large. Verdicts and evidence
are those of the class's least rule: of the mirrored ones right and left are exchanged, and whether a sum is kept is a
matter of each rule alone.
"""
from __future__ import annotations

import csv
import io
import json
from collections.abc import Callable, Iterable, Iterator
from dataclasses import dataclass
from pathlib import Path
from typing import Any, SupportsIndex

from .commands import class_count, decide, numbered, survey
from .degrees import degree
from .faults import UsageError
from .moves import moved_rings, rings_of
from .pages import STYLE, Page
from .relations import RuleClass, classes_in, row_of, shape_classes, write_rows
from .progress import shown
from .report import Closing, Report
from .rule_values import Rule, RuleLike, centred, index, look_at, of_number, refuse, rule_of
from .sums import kept_counts

HEAD = ("least", "members", "surjective", "orphan", "injective", "window", "twins", "right", "right evidence", "left",
        "left evidence", "open", "conserving", "conserving evidence", "kept sums", "moved", "degree", "last nodes", "first nodes")

FORMS = ("markdown", "csv", "html")
MOST = 2 ** 20                                  # rules of a shape: these take some minutes
LONG = 10                                       # digits of a number that is a rule's name
TEMPLATE = Path(__file__).with_name("atlas.html")
Told = Callable[[str], object]


@dataclass(frozen=True)
class AtlasRow:
    """A class of rules that differ by a mirror and by names of the letters: its rules that are there, and the report of the
    least one."""
    members: tuple[Rule, ...]
    report: Report

    @property
    def least(self) -> Rule:
        """The least rule."""
        return self.report.rule

    @property
    def names(self) -> list[str]:
        return list(map(name, self.members))

    @property
    def kept_sums(self) -> tuple[int, ...]:
        """How many sums the least rule keeps apart from the trivial ones, of words of 1 letter, of 2 and so on."""
        return kept_counts(self.report.rule)

    @property
    def moved(self) -> tuple[str | None, ...]:
        """The least ring that the least rule only moves, for each cell of its window; None where it moves nothing so."""
        return moved_rings(self.report.rule)

    def as_dict(self) -> dict[str, Any]:
        """What `as_dict` says of the least rule, and the rules of the class."""
        return {**row_of(self.report), "members": " ".join(self.members)}


Entry = AtlasRow


def name(rule: Rule) -> str:
    """A rule by its number, or by its text where that is long."""
    number = rule.number
    return str(rule) if number is None or len(str(number)) > LONG else str(number)


def atlas(states: SupportsIndex = 2, width: SupportsIndex = 3, form: str = "html", *, bar: bool = False) -> str:
    """The atlas of a shape as a text: a page to sort and filter, `csv`, or of the elementary rules `markdown`, which is
    docs/ELEMENTARY.md. `bar` shows how many classes there are so far. `atlas_rows` has the same as values."""
    if not isinstance(form, str):
        raise refuse("form is", f"one of {', '.join(FORMS)}", form)
    if form not in FORMS:
        raise UsageError(f"form is one of {', '.join(FORMS)}, and not {form!r}")
    k, m, _, _ = numbered(states, width, 0, 1)
    if form == "markdown":
        if (k, m) != (2, 3):
            raise UsageError("Markdown is made of the elementary rules alone: form is csv or html for other shapes")
        return elementary()
    entries = shown(entries_of(k, m, centred(m)), bar, class_count(k, m) if bar else None, " classes")
    return as_csv(entries) if form == "csv" else as_html(entries, title_of(k, m))


def atlas_rows(states: SupportsIndex = 2, width: SupportsIndex = 3, offset: SupportsIndex | None = None, *,
               bar: bool = False) -> Iterator[AtlasRow]:
    """The classes of all rules of a shape, by their least numbers, each when it is asked for. By default windows lie round their
    cells. `bar` shows how many there are so far."""
    k, m, _, _ = numbered(states, width, 0, 1)
    begin = centred(m) if offset is None else index("offset is", "a whole number", offset)
    look_at(k, m, begin)
    return shown(entries_of(k, m, begin), bar, class_count(k, m), " classes")


def title_of(states: int, width: int) -> str:
    return f"Rules of {states} states and width {width}"


def entries_of(states: SupportsIndex, width: SupportsIndex, offset: int = 0, told: Told | None = None) -> Iterator[Entry]:
    """The classes of all rules of a shape, by their least numbers."""
    k, m, _, _ = numbered(states, width, 0, 1)  # a shape that is refused is refused here
    size: int = k ** k ** m
    if size > MOST:
        raise UsageError(f"{k} states and width {m} have {size:,} rules, and an atlas has room for {MOST:,}")
    return entries_from(shape_classes(k, m, offset), told)


def entries_in(found: Iterable[RuleLike], told: Told | None = None) -> Iterator[Entry]:
    """The classes of the rules of a list."""
    return entries_from(classes_in(counting(map(rule_of, found), told)), told)


def entries_from(classes: Iterable[RuleClass], told: Told | None) -> Iterator[Entry]:
    """Classes with the reports of their least rules."""
    for place, one in enumerate(classes):
        if told is not None and place % 100 == 0:
            told(f"class {place:,}")
        yield Entry(one.members, decide(first_of(one)))


def counting(rules: Iterable[Rule], told: Told | None) -> Iterator[Rule]:
    """The rules, while somebody is told how many there are so far."""
    for place, rule in enumerate(rules):
        if told is not None and place % 1000 == 0:
            told(f"rule {place:,}")
        yield rule


def first_of(one: RuleClass) -> Rule:
    """The least rule at the offset of the class's rules, or where that isn't in the list the first of these."""
    least = Rule(states=one.least.states, table=one.least.table, offset=one.members[0].offset)
    return least if least in one.members else one.members[0]


def said(verdict: bool | Closing) -> str:
    return "yes" if verdict else "no"


def closing(side: Closing) -> str:
    """The evidence for a side."""
    return str(side.ahead) if side.split is None else str(side.split)


def row(entry: Entry) -> list[str]:
    """The cells of a class, as HEAD names them."""
    report, numbers = entry.report, ["", "", ""]
    if report.surjective:
        found = degree(report.rule)
        numbers = [str(found.degree), str(found.right), str(found.left)]
    return [name(report.rule), " ".join(entry.names), said(report.surjective), report.orphan or "",
            said(report.injective), str(report.window or ""), str(report.twins or ""), said(report.right),
            closing(report.right), said(report.left),
            closing(report.left), said(report.open), said(report.conserving),
            report.ring or " ".join(map(str, report.flux or ())), " ".join(map(str, entry.kept_sums)),
            rings_of(entry.moved), *numbers]


def as_csv(entries: Iterable[Entry]) -> str:
    """An atlas as CSV, a line for each class: the least rule as `to_csv` of a list has it, and the rules of the class."""
    text = io.StringIO()
    write_rows(csv.writer(text, lineterminator="\n"), (entry.as_dict() for entry in entries))
    return text.getvalue()


def as_html(entries: Iterable[Entry], title: str, pages: dict[Rule, str] | None = None) -> Page:
    """An atlas as a page in one file, to sort and filter. What is chosen stands in the page's address. With pages a class leads to
    the page of its least rule."""
    rows: list[list[str]] = []
    rules, begin = 0, ""
    for entry in entries:                       # each with its cells, so that who is told sees how far it is
        rows.append([*row(entry), (pages or {}).get(entry.report.rule, "")])
        rules, begin = rules + len(entry.members), begin or entry.report.rule.partition("t")[0] + "t"
    about = (f"The {rules:,} rules are in {len(rows):,} classes of rules that "
             "differ by a mirror and by names of the letters. Verdicts and evidence are those of the class's least "
             "rule: of its mirrored ones right and left are exchanged, and whether sums are kept is a matter of each.")
    parts = {"@TITLE@": title, "@STYLE@": STYLE.read_text(encoding="utf-8"), "@ABOUT@": about,
             "@EVIDENCE@": "<p>The <a href='evidence.html'>words</a> are explained with pictures.</p>" if pages else "",
             "@HEAD@": json.dumps(HEAD), "@BEGIN@": json.dumps(begin),
             "@ROWS@": json.dumps(rows, separators=(",", ":"))}
    text = TEMPLATE.read_text(encoding="utf-8")
    for part, made in parts.items():
        text = text.replace(part, made)
    return Page(text)


# The page of the elementary rules

INTRODUCTION = """# The elementary rules

This page is an atlas of the 256 elementary rules, which have two states and width 3. A rule is named by its Wolfram number. The
rules form 88 classes. Two rules are in the same class if one becomes the other by a mirror, by an exchange of 0 and 1, or by
both. The command `python -m foursaspen atlas` makes this page. It calls the proved library for each rule, and the tests compare
this page with its output.

The second table has a row for each class. The verdicts are those of the least rule of the class; a "yes" is bold. After a verdict
comes its evidence, as `decide` prints it. [EVIDENCE.md](EVIDENCE.md) explains these kinds of evidence:

| Verdict | Evidence of a yes | Evidence of a no |
|---|---|---|
| surjective | | the least orphan |
| injective | the least window N C | the least twins |
| right-closing, left-closing | the least look-ahead | the least normal split |
| conserving | the flux | the least ring that doesn't keep its sum |

The other rules of a class have the same verdicts, except that right and left are exchanged for a mirrored rule. Conserving is
the same for all rules of a class: if a rule keeps the number of ones, it also keeps the number of zeros.

The column "kept sums" has four numbers, for words of 1, 2, 3 and 4 letters. Each says how many sums of weights of such words the
rule keeps. Sums that every rule keeps don't count, and none of the counted sums is a combination of the others
([SUMS.md](SUMS.md)). All rules of a class have the same four numbers.

The column "moved" has three rings: the least ring that the rule [only moves](EVIDENCE.md#only-moved) one cell to the right, the
least ring that it leaves as it is, and the least ring that it moves one cell to the left. If the rule moves no configuration
so, the column has the word none.

The last column has the degree of a surjective rule, then the least number of last nodes that a word has, and the least number
of first nodes ([DEGREE.md](DEGREE.md)). All rules of a class have the same degree, and the other two numbers are exchanged for
a mirrored rule.

"""


def summary_lines(entries: list[Entry]) -> Iterator[str]:
    """For each property how many rules and classes have it, and which these are."""
    properties = {"surjective": "surjective", "injective": "injective", "right": "right-closing",
                  "left": "left-closing", "open": "open", "conserving": "conserving the number of ones"}
    counts = survey(2, 3, 0, 256)
    yield "| Property | Rules | Classes | The least rules of these |"
    yield "|---|---|---|---|"
    for name, title in properties.items():
        having = [entry for entry in entries if getattr(entry.report, name)]
        firsts = " ".join(entry.names[0] for entry in having)
        yield f"| {title} | {getattr(counts, name)} | {len(having)} | {firsts} |"


def cell(verdict: bool | Closing, evidence: str) -> str:
    """A cell of the page: yes in bold, and the evidence as code."""
    code = " ".join("`" + word.replace("|", "\\|") + "`" for word in evidence.split())
    return f"{'**yes**' if verdict else 'no'} {code}".rstrip()


def page_row(entry: Entry) -> str:
    """The row of a class."""
    report = entry.report
    cells = dict(zip(HEAD, row(entry)))
    return "| " + " | ".join([
        f"**{cells['least']}**", ", ".join(entry.names),
        cell(report.surjective, cells["orphan"]), cell(report.injective, cells["window"] or cells["twins"]),
        cell(report.right, cells["right evidence"]), cell(report.left, cells["left evidence"]),
        cell(report.open, ""), cell(report.conserving, cells["conserving evidence"]),
        cells["kept sums"], cells["moved"],
        f"{cells['degree']} `{cells['last nodes']}` `{cells['first nodes']}`" if cells["degree"] else ""]) + " |"


def elementary() -> str:
    """docs/ELEMENTARY.md."""
    entries = list(entries_of(2, 3))
    lines: Iterable[str] = [
        *summary_lines(entries), "",
        "| Least | Members | Surjective | Injective | Right-closing | Left-closing | Open | Conserving | Kept sums | Moved | Degree |",
        "|---|---|---|---|---|---|---|---|---|---|---|", *map(page_row, entries)]
    return INTRODUCTION + "\n".join(lines) + "\n"
