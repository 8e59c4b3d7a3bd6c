"""What the sources of the crates declare, for the scripts of the gate: the crates of crates.txt, the functions and types of src/ with
the clauses of their contracts, and the names of specs/."""
import functools
import re
from pathlib import Path

TOP = Path(__file__).resolve().parent.parent
CRATES = TOP / "crates"
LINE = re.compile(r"(\w+)[^:#]*:([^#]*)")
CLAUSE = re.compile(r"\b(requires|ensures)(?:\s*\*)?\s*([A-Za-z_]\w*)?\*?\s*\{")
DECLARED = re.compile(r"\b(fn|struct|enum|trait|impl|mod|const|static|type)\b|\bghost\s+(use)\b")


@functools.cache
def crates():
    """The crates of crates.txt, each with those that it stands on directly, without the crates of the kit."""
    lines = (TOP / "crates.txt").read_text(encoding="utf-8").splitlines()
    rows = {found[1]: found[2].split() for found in map(LINE.match, lines) if found}
    return {name: [it for it in uses if it in rows] for name, uses in rows.items()}


@functools.cache
def below(crate):
    """All crates that a crate stands on."""
    direct = crates()[crate]
    return frozenset(direct).union(*map(below, direct))


def plain(text):
    """Rattle without comments, and with empty strings and characters."""
    return re.sub(r"//[^\n]*|/\*.*?\*/|\"(?:\\.|[^\"\\])*\"|'(?:\\.|[^\\'\n])'",
                  lambda found: " " if found[0][0] == "/" else found[0][0] * 2, text, flags=re.DOTALL)


def close(text, place):
    """The place behind the brace that closes the one here."""
    depth = 0
    for found in re.finditer(r"[{}]", text[place:]):
        depth += 1 if found[0] == "{" else -1
        if depth == 0:
            return place + found.end()
    raise ValueError(f"no brace closes {text[place:place + 60]!r}")


class Function:
    """A function: its crate and file, its type or trait where it is a method, its name, whether it is public, whether it has code, and
    the names of its clauses."""

    def __init__(self, crate, file, owner, text, place):
        self.crate, self.file, self.owner = crate, file, owner
        self.name = re.match(r"fn\s+(\w+)", text[place:])[1]
        before = text[max(0, place - 60):place]
        self.public = bool(re.search(r"\bpub\s+(?:const\s+|unsafe\s+|extern\s+\"\"\s+)*$", before))
        self.exported = bool(re.search(r"extern\s+\"\"\s+$", before))
        self.takes_nothing = re.match(r"fn\s+\w+\(\)\s*(?:ensures|requires)\b", text[place:]) is not None
        self.clauses, self.required, self.end = [], [], place
        depth = 0
        for found in re.finditer(r"[()\[\]{};]|\b(?:requires|ensures)\b", text[place:]):
            at = place + found.start()
            if at < self.end:
                continue
            if found[0] in "([":
                depth += 1
            elif found[0] in ")]":
                depth -= 1
            elif depth == 0 and found[0][0] in "re":
                clause = CLAUSE.match(text, at)
                if clause:
                    (self.clauses if clause[1] == "ensures" else self.required).append(clause[2] or "")
                    self.end = close(text, clause.end() - 1)
            elif depth == 0 and found[0] in "{;":
                self.end = close(text, at) if found[0] == "{" else at + 1
                self.body = text[at:self.end]
                break

    @property
    def is_law(self):
        """Whether it takes nothing and returns nothing, so that its contract is a theorem."""
        return self.takes_nothing and bool(self.clauses)

    def __str__(self):
        return f"{self.owner}::{self.name}" if self.owner else self.name


def owner_of(head):
    """The type of an impl or the trait of a trait."""
    head = re.sub(r"^impl\s*<[^>]*>", "impl", head)
    return re.match(r"(?:impl|trait)\s+(?:[\w:]+(?:<.*?>)?\s+for\s+)?(?:\w+::)*(\w+)", head)[1]


def functions_in(crate, file, text, owner="", begin=0, end=None):
    """The functions of a part of a file."""
    end = len(text) if end is None else end
    place = begin
    while (found := DECLARED.search(text, place, end)) is not None:
        if found[2] or found[1] in ("const", "static", "type") or (found[1] == "mod" and "{" not in text[found.start():].split(";")[0]):
            place = found.end() if re.match(r"\s*fn\b", text[found.end():]) else text.find(";", found.end()) + 1 or end
        elif found[1] == "fn":
            function = Function(crate, file, owner, text, found.start())
            yield function
            place = function.end
        elif found[1] in ("impl", "trait"):
            brace = text.index("{", found.end())
            place = close(text, brace)
            yield from functions_in(crate, file, text, owner_of(" ".join(text[found.start():brace].split())), brace + 1, place - 1)
        elif found[1] == "mod":
            place = text.index("{", found.end()) + 1
        else:
            brace, stop = (text.find(mark, found.end()) % (len(text) + 1) for mark in "{;")
            place = close(text, brace) if brace < stop else stop + 1


@functools.cache
def texts(crate):
    """The files of src/ of a crate, each as plain text."""
    return {path.name: plain(path.read_text(encoding="utf-8")) for path in sorted((CRATES / crate / "src").glob("*.rt"))}


@functools.cache
def functions():
    """All functions of all crates."""
    return [function for crate in crates() for file, text in texts(crate).items() for function in functions_in(crate, file, text)]


@functools.cache
def declared_in_source(crate):
    """The names of types, fields, variants, constants and models of src/ of a crate."""
    names = set()
    for text in texts(crate).values():
        for found in re.finditer(r"\b(?:struct|enum|trait|type|const|static|union|ghost)\s+(\w+)", text):
            names.add(found[1])
        for found in re.finditer(r"\b(?:struct|enum)\s+\w+[^;{]*\{", text):
            names.update(re.findall(r"\b(\w+)\b(?=\s*[:,({}])", text[found.end():close(text, found.end() - 1)]))
    return names


# A line of a declaration of specs/, and a field or a variant in it.
WORD = r"[^\s:(){}=|,.;`]+"
SPEC = re.compile(rf"^\s*(?:(?:pub|abbrev|record|enum|data|section|unfoldable|irreducible) +)*({WORD})|(?:pub|\|) +({WORD})")


@functools.cache
def declared_in_specs(crate):
    """The names that the definitions of a crate declare, with their fields and variants."""
    names = set()
    for path in (CRATES / crate / "specs").rglob("*.antt"):
        for line in path.read_text(encoding="utf-8").splitlines():
            if not line.startswith(("--", "use ", "pub use ")):
                names.update(name for pair in SPEC.findall(line) for name in pair if name)
    return names
