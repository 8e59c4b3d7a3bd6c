"""Writes the page for browsers, one file: make_page.py MODULE.wasm > PAGE.html. make_page.py --sum prints the sum of its sources.

The page shares with the Python package its style, its pictures' words and sizes, where the nodes and edges of graphs lie, and what
it says of mistakes. From the docs it has EVIDENCE.md, and of COMMANDS.md the section of each command.
"""
import base64
import gzip
import hashlib
import json
import re
import sys
from collections.abc import Iterable
from pathlib import Path

here = Path(__file__).resolve().parent
top = here.parent
sys.path.insert(0, str(top / "python"))
from foursaspen import faults, layout, prose  # noqa: E402

DRAWING = ("values", "graph", "canvas", "evidence", "pictures")        # what needs no page
PAGE = ("sections", "page")
# What an answer or the page is made of. Of a crate this is its code, and not its definitions and proofs.
SOURCES = ("crates.txt", "crates/*/src/**/*.rt", "web-page/*", ".ci/wasm.py", "python/foursaspen/*.css", "python/foursaspen/*.json",
           "python/foursaspen/faults.py", "python/foursaspen/layout.py", "python/foursaspen/prose.py", "docs/COMMANDS.md",
           "docs/EVIDENCE.md")


def sum_of_sources() -> str:
    known = hashlib.sha256()
    for file in sorted({file for pattern in SOURCES for file in top.glob(pattern) if file.is_file()}):
        data = file.read_bytes()
        known.update(f"{file.relative_to(top)} {len(data)}\n".encode() + data)
    return known.hexdigest()[:16]


def text_of(file: Path) -> str:
    return file.read_text(encoding="utf-8")


def scripts(names: Iterable[str]) -> str:
    return "".join(text_of(here / f"{name}.js") for name in names)


def as_json(value: object) -> str:
    """JSON that may stand in a script of a page."""
    return json.dumps(value, separators=(",", ":")).replace("<", "\\u003c")


def forms() -> str:
    """The forms of all commands, without `./ca`."""
    found = re.search(r"^## All forms\n\n((?:    .*\n)+)", text_of(top / "docs/COMMANDS.md"), re.M)
    assert found
    return found[1].replace("    ./ca ", "")


def help_texts() -> dict[str, str]:
    """For each command its sections of docs/COMMANDS.md, as HTML."""
    names = {line.split()[0] for line in forms().splitlines()}
    made = dict.fromkeys(sorted(names), "")
    for section in text_of(top / "docs/COMMANDS.md").split("\n## ")[1:]:
        heading, *blocks = re.split(r"\n{2,}", section.split("\n### ")[0].strip("\n"))
        for name in names & {part.split()[0] for part in heading.split(", ")}:
            made[name] += "".join(prose.part(f"help-{name}-{len(made[name])}", [heading, *blocks], {}, 3))
    assert all(made.values()), made
    return made


def layouts() -> dict[str, object]:
    """Where the nodes, the edges and the labels of the graphs lie, by states and width: each node with its value, in the order in which
    they are drawn; edges and labels by their windows."""
    def point(place: tuple[float, float]) -> list[float]:
        return [round(number, 1) for number in place]

    made: dict[str, object] = {}
    for states, width in layout.RADII:
        ring = layout.ring(states, width)
        made[f"{states}:{width}"] = {
            "middle": ring.middle, "nodes": [[node, point(place)] for node, place in ring.nodes.items()],
            "lines": [[*map(point, ring.lines[way])] for way in sorted(ring.lines)],
            "labels": [point(ring.labels[way]) for way in sorted(ring.labels)]}
    return made


def main() -> None:
    if sys.argv[1] == "--sum":
        print(sum_of_sources())
        return
    module = gzip.compress(Path(sys.argv[1]).read_bytes(), mtime=0)
    texts = {"faults": faults.MEANINGS, "reasons": faults.REASONS, "causes": faults.CAUSES, "parts": prose.PARTS, "help": help_texts()}
    parts = {
        "STYLE": text_of(top / "python/foursaspen/style.css"), "OWN": text_of(here / "page.css"),
        "FORMS": forms().replace("&", "&amp;").replace("<", "&lt;"), "MEANINGS": prose.written(), "SUM": sum_of_sources(),
        "WORKER": text_of(here / "worker.js"), "MODULE": base64.b64encode(module).decode(), "TEXTS": as_json(texts),
        "PICTURES": as_json(json.loads(text_of(top / "python/foursaspen/pictures.json"))), "LAYOUTS": as_json(layouts()),
        "DRAWING": scripts(DRAWING), "PAGE": scripts(PAGE),
    }
    sys.stdout.write(re.sub(r"@([A-Z]+)@", lambda found: parts[found[1]], text_of(here / "page.html")))


if __name__ == "__main__":
    main()
