"""Images, pictures, pages, atlases, sites, lists, kept sums and degrees on the command line, and the program's own commands.

    python -m foursaspen decide RULE [WEIGHTS]        and every other command of docs/COMMANDS.md: the program's output and status
    python -m foursaspen check FILE                   whether the certificate in a file is accepted; - is the input

    python -m foursaspen image RULE WORD              one step: of a word, of a ring by --ring, or of LEFT|MIDDLE|RIGHT
    python -m foursaspen picture RULE [SHOW]          an SVG text; SHOW is graph, orphan, sets, erase, twins, window, right, left,
                                                      flux, current, ring, moved, or a configuration LEFT|MIDDLE|RIGHT;
                                                      --weights 1,4 for the sums, --by -1 for moved
    python -m foursaspen dot RULE                     the graph in the language of graphviz
    python -m foursaspen page RULE [WEIGHTS]          an HTML page of a rule
    python -m foursaspen site STATES WIDTH FOLDER     an atlas with a page for each class, linked; --from FILE for a list
    python -m foursaspen kept RULE [RANGE]            all sums of words of RANGE letters, or of one, that a rule keeps; with
                                                      --json as checkers/sums.py judges them
    python -m foursaspen moved RULE [BY]              the configurations that a rule only moves by BY cells, or by 0: their least
                                                      ring and their windows
    python -m foursaspen degree RULE                  how many preimages a configuration has, the multipliers and the flow; with
                                                      --json as checkers/degrees.py judges it; --svg for a picture of the cut
    python -m foursaspen blocks RULE                  a reversible rule as two layers of block permutations; --json, or --svg
    python -m foursaspen atlas                        docs/ELEMENTARY.md
    python -m foursaspen atlas STATES WIDTH --csv     the classes of a shape as CSV; --from FILE for a list
    python -m foursaspen atlas STATES WIDTH --html    and as a page to sort and filter
    python -m foursaspen list PROPERTY BEGIN          all rules with a property, as ./rules of the repository lists them
    python -m foursaspen list PROPERTY BEGIN --certificates FOLDER
                                                      and the brief certificate of each
"""
from __future__ import annotations

import argparse
import difflib
import os
import re
import sys
from collections.abc import Iterator
from pathlib import Path

from . import __version__, atlases, commands, sites
from .block_layers import Blocks, blocks
from .degrees import Degree, degree
from .exports import to_dot
from .faults import FoursaspenError, WordsError
from .images import image
from .library import keep_freed_memory
from .lists import write_list
from .moves import moved
from .pages import page
from .pictures import MOVED, SHOWN, picture
from .report import Tail
from .rule_values import centred
from .sums import kept_sums

# The program's commands, by docs/COMMANDS.md, each with its operands by the names that the functions of `commands` give them.
PROGRAM = {
    "decide": "RULE [WEIGHTS]", "orphan": "RULE", "number": "RULE", "survey": "STATES WIDTH START COUNT",
    "sample": "STATES WIDTH SEED COUNT", "classes": "STATES WIDTH START COUNT", "certify": "RULE [WEIGHTS]", "brief": "RULE [WEIGHTS]",
    "check": "[FILE]", "language": "RULE", "same": "RULE OTHER", "preimage": "RULE TAIL", "erase": "RULE", "inverse": "RULE",
    "compose": "RULE THEN", "trim": "RULE", "widen": "RULE WIDTH", "shift": "RULE CELLS", "reflect": "RULE", "permute": "RULE DIGITS",
    "least": "RULE", "lift": "RULE", "unlift": "RULE"}
NUMBERS = ("STATES", "WIDTH", "START", "COUNT", "SEED", "CELLS")
# The package's own commands.
OWN = ("image", "picture", "dot", "page", "site", "kept", "moved", "degree", "blocks", "atlas", "list")
NEGATIVE = re.compile(r"-[0-9]+(,-?[0-9]+)*")   # weights, and not an option


def arguments() -> argparse.ArgumentParser:
    """The command lines of the package's own commands."""
    parser = argparse.ArgumentParser(prog="python -m foursaspen", description=__doc__,
                                     formatter_class=argparse.RawDescriptionHelpFormatter)
    parser.add_argument("--version", action="version", version=f"foursaspen {__version__}")
    own = parser.add_subparsers(dest="command", required=True, metavar="COMMAND")
    stepped = own.add_parser("image", help="what a rule makes of a word, of a ring or of a configuration in one step")
    stepped.add_argument("rule")
    stepped.add_argument("word", help="letters, or a configuration LEFT|MIDDLE|RIGHT")
    stepped.add_argument("--ring", action="store_true", help="the word is closed to a ring")
    drawn = own.add_parser("picture", help="the de Bruijn graph of a rule, as SVG")
    drawn.add_argument("rule")
    drawn.add_argument("show", nargs="?", help=f"what stands beneath it: {', '.join((*SHOWN, MOVED))}, or a configuration LEFT|MIDDLE|RIGHT")
    drawn.add_argument("--weights", type=str.strip, help="what each letter weighs, as 1,4")
    drawn.add_argument("--by", type=int, default=0, help="by how many cells the rule only moves what is shown")
    dotted = own.add_parser("dot", help="the de Bruijn graph of a rule, in the language of graphviz")
    dotted.add_argument("rule")
    paged = own.add_parser("page", help="a rule's verdicts, evidence and certificates, as HTML")
    paged.add_argument("rule")
    paged.add_argument("weights", nargs="?", type=str.strip, help="what each letter weighs, as 1,4")
    kept = own.add_parser("kept", help="all sums that a rule keeps, a line for each, and rings that show that there are no more")
    kept.add_argument("rule")
    kept.add_argument("range", type=int, nargs="?", default=1, help="how many letters the weighed words have")
    kept.add_argument("--json", action="store_true", help="with the flux of each sum, as checkers/sums.py judges it")
    still = own.add_parser("moved", help="the configurations that a rule only moves: their least ring and their windows")
    still.add_argument("rule")
    still.add_argument("by", type=int, nargs="?", default=0, help="by how many cells to the left, or to the right where it is negative")
    for name, said in (("degree", "how many preimages a configuration has, the multipliers and the flow"),
                       ("blocks", "a reversible rule as two layers of block permutations")):
        numbered = own.add_parser(name, help=said)
        numbered.add_argument("rule")
        written = numbered.add_mutually_exclusive_group()
        written.add_argument("--json", action="store_true")
        written.add_argument("--svg", action="store_true", help="a picture")
    listed = own.add_parser("atlas", usage="python -m foursaspen atlas [STATES WIDTH | --from FILE] [--csv | --html]", help="the classes of a shape; of the elementary rules as Markdown")
    listed.add_argument("shape", type=int, nargs="*", metavar="STATES WIDTH", help="2 3 where nothing is named")
    listed.add_argument("--from", dest="file", metavar="FILE", help="the rules of a file, as ./rules writes them; - is the input")
    form = listed.add_mutually_exclusive_group()
    form.add_argument("--csv", action="store_true")
    form.add_argument("--html", action="store_true", help="a page to sort and filter")
    whole = own.add_parser("site", usage="python -m foursaspen site (STATES WIDTH | --from FILE) FOLDER",
                           help="an atlas with a page for each class, in a folder")
    whole.add_argument("shape", type=int, nargs="*", metavar="STATES WIDTH", help="both, or with --from neither")
    whole.add_argument("folder")
    whole.add_argument("--from", dest="file", metavar="FILE", help="the rules of a file, as ./rules writes them; - is the input")
    wanted = own.add_parser("list", help="all rules that have a property and whose text begins so")
    wanted.add_argument("property", help="surjective, injective, right, left, open or conserving, or another word for one of them")
    wanted.add_argument("begin", help="STATES:WIDTH:OFFSET:t and the first digits of the table, or none")
    wanted.add_argument("--certificates", metavar="FOLDER", help="where the brief certificate of each rule is written")
    return parser


def read_list(file: str) -> Iterator[str]:
    """The rules of a file, a line for each; blank lines are left out, and the last one of ./rules, which has their number."""
    text = sys.stdin.read() if file == "-" else Path(file).read_text(encoding="utf-8")
    for line in text.splitlines():
        if line.strip() and not line.startswith("rules "):
            yield line.strip()


def told(text: str) -> None:
    """Says at a terminal how far it is."""
    if sys.stderr.isatty():
        print(f"\r{text:<30}", end="", file=sys.stderr, flush=True)


def stepped(rule: str, word: str, ring: bool) -> str:
    """The line of an image."""
    if ring:
        return image(rule, ring=word) + "\n"
    return str(image(rule, Tail.of(word))) if "|" in word else image(rule, word) + "\n"


def answer(asked: argparse.Namespace, parser: argparse.ArgumentParser) -> Iterator[str]:
    """What is written, piece by piece."""
    if asked.command == "image":
        yield stepped(asked.rule, asked.word, asked.ring)
    elif asked.command == "picture":
        yield picture(asked.rule, asked.show, asked.weights, by=asked.by)
    elif asked.command == "dot":
        yield to_dot(asked.rule)
    elif asked.command == "page":
        yield page(asked.rule, asked.weights)
    elif asked.command == "list":
        yield from write_list(asked.property, asked.begin, asked.certificates)
    elif asked.command == "kept":
        found = kept_sums(asked.rule, asked.range)
        yield found.as_json() + "\n" if asked.json else str(found)
    elif asked.command == "moved":
        yield str(moved(asked.rule, asked.by))
    elif asked.command in ("degree", "blocks"):
        made: Degree | Blocks = degree(asked.rule) if asked.command == "degree" else blocks(asked.rule)
        yield made.as_json() + "\n" if asked.json else made.picture() if asked.svg else str(made)
    elif asked.command == "site":
        if len(asked.shape) != (0 if asked.file else 2):
            parser.error("site takes STATES WIDTH FOLDER, or --from FILE FOLDER")
        states, width = asked.shape or (2, 3)
        count = sites.site(asked.folder, states, width, found=read_list(asked.file) if asked.file else None, told=told)
        yield f"{count:,} pages, which begin with {Path(asked.folder) / sites.INDEX}\n"
    else:
        yield atlas_of(asked, parser)


def atlas_of(asked: argparse.Namespace, parser: argparse.ArgumentParser) -> str:
    """An atlas of a shape or of a list."""
    if asked.shape and (len(asked.shape) != 2 or asked.file):
        parser.error("atlas takes STATES WIDTH, --from FILE, or neither for the elementary rules")
    states, width = asked.shape or (2, 3)
    if not asked.csv and not asked.html:
        if (states, width) != (2, 3) or asked.file:
            parser.error("Markdown is made of the elementary rules alone: name --csv or --html for other ones")
        return atlases.elementary()
    entries = (atlases.entries_in(read_list(asked.file), told) if asked.file else
               atlases.entries_of(states, width, centred(width), told))
    title = f"Rules of {asked.file}" if asked.file else atlases.title_of(states, width)
    return atlases.as_csv(entries) if asked.csv else atlases.as_html(entries, title)


def of_program(words: list[str]) -> int:
    """A command of the program: its output and its status, and on standard error what a fault means."""
    data = b""
    if words[0] == "check" and len(words) < 3:
        file = words[1] if words[1:] else "-"
        try:
            data = sys.stdin.buffer.read() if file == "-" else Path(file).read_bytes()
        except OSError as fault:                # for the program an input that can't be read
            print(fault, file=sys.stderr)
            return 6
        words = ["check"]
    try:
        code, output = commands.run(words, data)
    except WordsError as fault:
        print(fault, file=sys.stderr)
        return 9
    try:
        sys.stdout.write(output.decode())
        sys.stdout.flush()
    except OSError as fault:
        if not isinstance(fault, BrokenPipeError):
            print(fault, file=sys.stderr)
        nowhere()
        return 7
    if code:
        print(meaning(words, data), file=sys.stderr)
    return code


def meaning(words: list[str], data: bytes) -> str:
    """What a fault means. The function of the same name says it, which takes more than the program does: other weights, and numbers
    in other forms."""
    name, *operands = words
    wanted = PROGRAM[name].split()
    if name != "check" and not len([one for one in wanted if one[0] != "["]) <= len(operands) <= len(wanted):
        return f"after {name} comes {PROGRAM[name]}, but here {' '.join(operands) or 'nothing'}"
    values: list[object] = [data] if name == "check" else []
    for operand, word in zip(wanted, operands):
        if operand in NUMBERS and not re.fullmatch("-?[0-9]{1,4000}", word):
            return f"{operand.lower()} is a whole number, and not {word!r}"
        values.append(int(word) if operand in NUMBERS else word)
    try:
        getattr(commands, name)(*values)
    except (FoursaspenError, TypeError) as fault:
        return str(fault) or "there wasn't enough memory"
    if "[WEIGHTS]" in wanted:
        return "the program's weights are 0 to 255: add one number to all weights, which changes no verdict and no flux"
    return f"the program takes no such form of an operand: after {name} comes {PROGRAM[name]}, numbers without zeros in front"


def unknown(word: str) -> str:
    """Says that there is no command of this name, and what may be meant."""
    near = difflib.get_close_matches(word.lower(), [*PROGRAM, *OWN], 1)
    if not near and re.match("[0-9]", word):
        near = ["decide"]
    meant = f"; is it {near[0]}?" if near else "."
    return f"there is no command {word!r}{meant} There are {', '.join([*PROGRAM, *OWN])}"


def nowhere() -> None:
    """Sends what is still to be written nowhere, so that Python doesn't fail over it at its end."""
    os.dup2(os.open(os.devnull, os.O_WRONLY), sys.stdout.fileno())


def main(words: list[str] | None = None) -> int:
    """Writes what is asked for; the status is 1 where a rule is refused or hasn't what is to be shown."""
    given = sys.argv[1:] if words is None else words
    keep_freed_memory()                         # an atlas decides many rules, and the process is its own
    try:
        if given and given[0] in PROGRAM and not {"-h", "--help"} & set(given):
            return of_program(given)
        parser = arguments()
        if given and not given[0].startswith("-") and given[0] not in OWN:
            parser.error(unknown(given[0]))
        if given and given[0] in ("page", "picture"):           # a blank keeps negative weights from being an option
            given = [f" {word}" if NEGATIVE.fullmatch(word) else word for word in given]
        for piece in answer(parser.parse_args(given), parser):
            sys.stdout.write(piece)
        sys.stdout.flush()
    except BrokenPipeError:                     # whoever reads has read enough
        nowhere()
    except (FoursaspenError, ValueError, OSError) as fault:
        print(fault, file=sys.stderr)
        if isinstance(fault, OSError):
            nowhere()
        return 1
    except KeyboardInterrupt:
        print("stopped", file=sys.stderr)
        return 130
    return 0


if __name__ == "__main__":
    sys.exit(main())
