"""Makes the text of each answer from its JSON, and compares it with the text of the library: answers.py WORDS.

The file WORDS has command lines. Each is the number of its words and then the words, each followed by a 0 byte. The writer of the
text follows only docs/COMMANDS.md, docs/CERTIFICATES.md and docs/ANSWERS.md, and uses neither the package nor the library. The texts
of the answers and exceptions of the package are compared too.
"""
import json
import operator
import random
import re
import sys
from itertools import chain
from pathlib import Path

import listed
from foursaspen import report as answers
from foursaspen.faults import KINDS as FAULTS
from foursaspen.library import Library, place

DOCS = Path(__file__).resolve().parents[1] / "docs"
DIGITS = "0123456789abcdef"
SHAPES = ((2, 2), (2, 3), (2, 4), (2, 5), (3, 2), (3, 3), (4, 2), (4, 3), (5, 2), (6, 2), (7, 2), (11, 2), (16, 2))
OF_A_RULE = ("decide", "orphan", "number", "certify", "brief", "language", "erase", "inverse", "reflect", "trim", "least",
             "lift", "unlift")
DRAWN = 60
LONGEST = 4194304


# Lines

def line(*words):
    return " ".join(map(str, words)) + "\n"


def tail(value):
    return f"{value['left']}|{value['middle']}|{value['right']}"


# The words of each kind of evidence.
EVIDENCE = {"orphan": lambda word: [word], "window": list, "twins": list, "ahead": lambda letters: [letters],
            "split": lambda tails: map(tail, tails), "flux": list, "ring": lambda ring: [ring]}


def verdict(name, holds, **evidence):
    """A verdict with its evidence."""
    words = [[kind, *EVIDENCE[kind](value)] for kind, value in evidence.items()]
    return line(name, "yes" if holds else "no", *chain(*words))


def report(value):
    parts = [verdict(name, **value[name]) for name in ("surjective", "injective", "right", "left")]
    return line("rule", value["rule"]) + number(value["number"]) + "".join(parts) + verdict("open", value["open"]) + \
        verdict("conserving", **value["conserving"])


def number(value):
    return line("number", "none" if value is None else value)


def inverse(value):
    return line("window", *value["window"]) + line("offset", value["offset"]) + line("map", value["map"]) + \
        line("rule", value["rule"] or "none")


def automaton(value):
    rows = [line(*(row[letter] for letter in range(value["states"]))) for row in value["next"]]
    return line("classes", value["classes"]) + line("dead", "none" if value["dead"] is None else value["dead"]) + "".join(rows)


def summary(value):
    names = ("rules", "surjective", "injective", "right", "left", "open", "conserving")
    return "".join(line(name, value[name]) for name in names)


FINDINGS = {
    "report": report, "number": number, "inverse": inverse, "automaton": automaton, "summary": summary,
    "certificate": lambda value: json.dumps(value, separators=(",", ":")),
    "orphan": lambda word: verdict("surjective", True) if word is None else verdict("surjective", False, orphan=word),
    "rule": line,
    "same": lambda word: line("same yes") if word is None else line("same no", word),
    "erased": lambda pair: line("erase", *(["none"] if pair is None else pair)),
    "preimage": lambda value: line("preimage", value["at"], tail(value["tail"])),
    "gap": lambda value: line("no preimage", value["before"], value["after"], value["word"]),
    "classes": lambda number: line("classes", number),             # behind a summary
}
CAUSES = {
    "twins": lambda pair: ["twins", *pair], "wide": lambda letters: ["wide", letters], "tail": lambda fault: ["tail", fault],
    "lift": lambda fault: [fault], "algebra": lambda fault: [fault], "colours": lambda _: ["colours"],
    "weights": lambda _: ["weights"], "states": lambda _: ["states"],
}


def done(reply):
    if "verdicts" in reply:
        return accepted(reply["verdicts"])
    finding = reply["finding"]
    return "".join(write(finding[name]) for name, write in FINDINGS.items() if name in finding)


def accepted(value):
    names = ("surjective", "injective", "right", "left", "open", "conserving")
    weights = value["weights"]
    return line("accepted", value["rule"]) + "".join(verdict(name, value[name]) for name in names) + (
        "" if weights == list(range(len(weights))) else line("weights", ",".join(map(str, weights))))


def fault(value):
    """The kind of a fault, and its place where it has one."""
    return [value["fault"], *([value["place"]] if "place" in value else [])]


def not_fit(reply):
    [(name, value)] = reply["cause"].items()
    return line("notfit", *CAUSES[name](value))


def refusal(reply):
    """The first condition that a certificate fails, and what is said of it."""
    if reply["cause"] == "format":
        said = [reply["because"], *(reply[name] for name in ("key", "fault") if name in reply)]
    else:
        said = [reply[name] for name in ("side", "because") if name in reply]
    return [reply["cause"], *said, *reply["at"]]


STATUSES = {
    "done": (0, done),
    "refused": (1, lambda reply: line("refused", *refusal(reply))),
    "usage": (2, lambda reply: line("usage error")),
    "rulefault": (3, lambda reply: line("rule fault", reply["operand"], *fault(reply))),
    "notfit": (4, not_fit),
    "toolong": (5, lambda reply: line("too long")),
}


# The package

# What it makes of a finding, where that is more than a word or a number.
MADE = {
    "report": answers.Report._of, "automaton": answers.Language._of, "inverse": answers.Inverse._of,
    "certificate": answers.Certificate._of, "same": answers.Same,
}


def of_package(reply, code):
    """The text of the package's answer, or what its exception says that the program prints; None where it has a plain value."""
    if code:
        return FAULTS[code]._of(reply).output
    if "verdicts" in reply:
        return str(answers.Verdicts._of(reply["verdicts"]))
    finding = reply["finding"]
    if "summary" in finding:
        counts = answers.Summary(**finding["summary"])
        return str(answers.ClassSummary(counts, finding["classes"]) if "classes" in finding else counts)
    if "preimage" in finding or "gap" in finding:
        return str(answers.preimage_of(finding))
    return next((str(MADE[name](value)) for name, value in finding.items() if name in MADE), None)


# Calls

def written(file):
    """The command lines of a file."""
    words = Path(file).read_bytes().decode().split("\0")[:-1]
    while words:
        count = int(words[0])
        yield words[1:count + 1], b""
        del words[:count + 1]


def certificates():
    """The rows of checkers/certificates.txt, and an input that is too long."""
    for text, _ in listed.listed()[1]:
        yield ["check"], text.encode()
    yield ["check"], b" " * (LONGEST + 1)


def drawn():
    """Rules of all shapes, of which each second one is surjective; and for each of them weights, a rule to compare and to
    compose it with, and a configuration."""
    dice = random.Random(2)
    for place in range(DRAWN):
        states, width = SHAPES[place % len(SHAPES)]
        rows = [dice.sample(range(states), states) if place % 2 else dice.choices(range(states), k=states)
                for _ in range(states ** (width - 1))]
        rule = f"{states}:{width}:{dice.randint(-3, 3)}:t" + "".join(DIGITS[letter] for row in rows for letter in row)
        weights = ",".join(str(dice.randint(0, 255)) for _ in range(states))
        parts = ["".join(dice.choices(DIGITS[:states], k=dice.randint(1, 3))) for _ in range(3)]
        other = f"{states}:2:0:t" + "".join(dice.choices(DIGITS[:states], k=states ** 2))
        yield rule, weights, other, "|".join(parts)


def asked():
    """Each command of the elementary rules and of the drawn ones."""
    for rule in map(str, range(256)):
        yield from ([command, rule] for command in OF_A_RULE)
        yield ["classes", "2", "3", rule, str(256 - int(rule))]
    for rule, weights, other, configuration in drawn():
        yield from ([command, rule] for command in OF_A_RULE)
        yield from ([command, rule, weights] for command in ("decide", "certify", "brief"))
        yield from ([command, rule, other] for command in ("same", "compose"))
        yield from (["preimage", rule, configuration], ["shift", rule, "-2"], ["widen", rule, "3"], ["permute", rule, "10"])
        yield ["sample", *rule.split(":")[:2], "7", "20"]
    yield from (["preimage", "110", "|1|0"], ["preimage", "110", "0|1|2"], ["orphan", "2:3:-1:t01110112"])


# What is counted

# What is to come up: findings, with and without a value, and the lines of other statuses without their numbers.
KINDS = {
    "usage error", "too long", "accepted", *(f"found {name}" for name in FINDINGS),
    *(f"found no {name}" for name in ("orphan", "number", "same", "erased")),
    *(f"rule fault {kind}" for kind in "form states width nodes offset kind length letter number".split()),
    *(f"notfit {cause}" for cause in "twins wide colours weights states width nodes offset permutation centre".split()),
    *(f"notfit tail {fault}" for fault in "leftempty rightempty long letter".split()),
    *(f"refused {cause}" for cause in "nofull emptyset notclosed nofirst diagonal leaves orphan window flux ring".split()),
    *(f"refused {cause} {side}" for cause in ("rank", "ahead") for side in ("right", "left")),
    *(f"refused twins {cause}" for cause in "length same image".split()),
    *(f"refused split {side} {cause}" for side in ("right", "left") for cause in "same apart image".split()),
    *(f"refused format {fault}" for fault in "notjson version".split()),
    *(f"refused format rule {kind}" for kind in "form states letter number".split()),
    *(f"refused format shape {key}" for key in "top version rule surjective injective right left conserving weights ranks "
      "unknown".split()),
}


def kinds(reply, text):
    """What comes up in an answer."""
    if "finding" in reply:
        return {f"found no {name}" if value is None else f"found {name}" for name, value in reply["finding"].items()}
    words = ["accepted"] if "verdicts" in reply else text.split()
    return {" ".join(word for word in words if not word.isdigit())}


def weights(words, reply):
    """What the letters weigh by the words of `decide`, and by its answer."""
    found = reply["finding"]["report"]
    own = range(int(found["rule"].split(":")[0]))
    return list(map(int, words[2].split(",")) if words[2:] else own), found["weights"]


def wrong(words, text, form):
    """What is wrong with the JSON form of an answer of this status and text."""
    reply = json.loads(form.output)
    status, made = STATUSES[reply["status"]]
    if (form.code, made(reply)) != (status, text.output.decode()) or text.code != status:
        yield f"the status {form.code} and the text {made(reply)!r}, and not {text.code} and {text.output.decode()!r}"
    own = of_package(reply, form.code)
    if own not in (None, text.output.decode()):
        yield f"the package says {own!r}, and not {text.output.decode()!r}"
    if json.dumps(reply, separators=(",", ":"), sort_keys=True) != form.output.decode():
        yield "it has blanks, a key twice, or keys out of order"
    if "report" in reply.get("finding", {}) and operator.ne(*weights(words, reply)):
        yield "the weights are others"


def validator():
    """What judges by answers.schema.json, with the schema of certificates that it names inside; None where jsonschema isn't
    there."""
    try:
        from jsonschema.validators import validator_for
    except ImportError:
        return None
    schema, inner = (json.loads((DOCS / f"{name}.schema.json").read_text()) for name in ("answers", "certificate"))
    schema["$id"], inner["$id"] = (f"file:{DOCS}/{name}.schema.json" for name in ("answers", "certificate"))
    schema["$defs"]["certificate"] = inner
    kind = validator_for(schema)
    kind.check_schema(schema)
    return kind(schema)


def examples():
    """The lines of the program in docs/ANSWERS.md, each with its JSON."""
    return re.findall("^\\| `([^`]*)` \\| `([^`]*)` \\|$", (DOCS / "ANSWERS.md").read_text(), re.MULTILINE)


class Tally:
    """What is counted: calls, that each kind came up, examples, and that all forms fit the schema, where that can be judged."""

    def __init__(self):
        self.count = self.failed = 0

    def well(self, name, faults):
        self.count, self.failed = self.count + 1, self.failed + bool(faults)
        if faults:
            print(f"answers: {name[:300]}\n  {'; '.join(faults)[:2000]}", file=sys.stderr)


def main(file):
    library, judge = Library(place()), validator()
    tally, missing, unfit = Tally(), set(KINDS), []
    for words, data in chain(written(file), certificates(), ((words, b"") for words in asked())):
        text, form = library.run(words, data), library.run_json(words, data)
        tally.well(f"{' '.join(words)} {data[:200]!r}", list(wrong(words, text, form)))
        missing -= kinds(json.loads(form.output), text.output.decode())
        if judge is not None:
            unfit += (f"{' '.join(words)}: {fault.message}" for fault in judge.iter_errors(json.loads(form.output)))
    tally.well("what didn't come up", sorted(missing))
    for text, form in examples():
        reply = json.loads(form)
        tally.well(f"docs/ANSWERS.md: {text}", [form] * (STATUSES[reply["status"]][1](reply) != f"{text}\n"))
    if judge is not None:
        tally.well("by answers.schema.json", unfit)
    print(f"{tally.count - tally.failed} passed, {tally.failed} failed")


if __name__ == "__main__":
    main(sys.argv[1])
