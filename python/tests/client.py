"""A program over the package, as mypy --strict has it: a test narrows what is found."""
from __future__ import annotations

from foursaspen import (Picture, RefusedError, Rule, RuleLike, Summary, Tail, check, decide, inverse, orphan, picture, preimage,
                        rules, same, survey_over)


def told(rule: RuleLike, tail: Tail | str) -> str:
    """What a configuration comes from."""
    found = preimage(rule, tail)
    if found:
        return f"{found.tail} from cell {found.start} on"
    return f"nothing: {found.word} is an orphan of {len(found.word)} letters"


def report_of(rule: RuleLike) -> str:
    """A line on a rule."""
    report = decide(rule)
    if report.orphan is not None:
        return f"no word has the image {report.orphan}"
    if report.twins is not None:
        return f"{report.twins.first} and {report.twins.second} are twins"
    undone: Rule | None = inverse(report).rule
    return f"{undone.width} cells, as {undone.text}" if undone else "it has a wide inverse"


def of_lists() -> int:
    """How many rules are in two lists."""
    least: list[Rule] = [one.least for one in rules("injective", 2, 3, classes=True)]
    return len(least) + len([rule.table for rule in rules(("open", "conserving"), 2, 3)])


def main() -> None:
    print(told(90, "0|1|0"), told(110, Tail("0", "101", "0")), report_of(170), orphan(decide(110)), sep="\n")
    drawing: Picture = picture(90)
    total = Summary()
    for done in survey_over(None, 2, 3):
        total = done.summary
    print(drawing[:4], total.injective, bool(same(110, 110)), of_lists())
    try:
        check(b"")
    except RefusedError as fault:
        print(fault.reason)


if __name__ == "__main__":
    main()
