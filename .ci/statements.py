"""Puts the definitions that a promise uses on one page, without imports: each declaration that the promise leads to comes after
the declarations that it uses. A declaration is parsed only by its layout: it begins in the first column, and the lines below it
are indented, or are equations that begin with its name."""

import re
from dataclasses import dataclass, field
from pathlib import Path

CRATES = Path(__file__).resolve().parent.parent / "crates"
IMPORT = re.compile(r"^(?:pub )?use Rattle\.(\w+)\.specs\.(?!declared\.)(\w+)(?:\.\{(.*)\}| as (\S+))")
WORD = re.compile(r"[^\s:(){}\[\]=|,;`]+")
KEYWORDS = {"pub", "abbrev", "record", "data"}


@dataclass
class Declaration:
    """A definition: its lines, with the comment above it, and what its constructors and fields are called."""

    file: str
    name: str
    lines: list[str]
    parts: set[str] = field(default_factory=set)

    def words(self, part=None):
        """The words of its code; with a part, those of that constructor and of the lines below it."""
        code = [line for line in self.lines if not line.lstrip().startswith("--")]
        return {word for line in (case(code, part) if part else code) for word in WORD.findall(line)} - {part}


def case(lines, part):
    """The lines of one constructor of a declaration, or of the equation for it."""
    found, inside = [], False
    for line in lines:
        begins = re.match(r"  (?:pub )?(\w+)(?: \w+)* :|\S+ \(?(?:\w+\.)?(\w+)\b", line)
        if begins:
            inside = part in begins.groups()
        if inside:
            found.append(line)
    return found


def name_of(line):
    """The name that a line in the first column declares or defines, if it doesn't only close what is above it."""
    return next((word for word in WORD.findall(line) if word not in KEYWORDS), None)


class Files:
    """The files of definitions that were read."""

    def __init__(self):
        self.read = {}

    def of(self, file):
        """The declarations of a file in their order, and where its imports lead: a name to a file, an alias to a file."""
        if file not in self.read:
            self.read[file] = parsed(file, (CRATES / file).read_text(encoding="utf-8").splitlines())
        return self.read[file]

    def declaration(self, file, word):
        """The declaration that a word of a file leads to, there or in a file that it imports."""
        declarations, names, aliases = self.of(file)
        head, _, tail = word.partition(".")
        for one in declarations:
            if word == one.name or word in one.parts or head == one.name:
                return one
        if tail and head in aliases:
            return self.declaration(aliases[head], tail)
        return self.declaration(names[head], head) if head in names else None


def parsed(file, lines):
    declarations, names, aliases, comment = [], {}, {}, []
    for line in lines:
        imported = IMPORT.match(line)
        if imported:
            crate, module, given, alias = imported.groups()
            target = f"{crate}/specs/{module}.antt"
            if (CRATES / target).is_file():
                names.update({name.strip(): target for name in (given or "").split(",") if name.strip()})
                aliases.update({alias: target} if alias else {})
        elif line.startswith("--"):
            comment.append(line)
        elif not line.strip():
            comment = []
        elif not line.startswith(("use ", "pub use ", "pub mod ", "mod ")):
            if not line.startswith(" ") and name_of(line) not in (None, declarations[-1].name if declarations else ""):
                declarations.append(Declaration(file, name_of(line), list(comment)))
            declarations[-1].lines.append(line)
            comment = []
            part = re.match(r"  (?:pub )?((?:\w+ )+): ", line)
            declarations[-1].parts |= set(part[1].split()) if part else set()
    return declarations, names, aliases


def led_to(files, roots):
    """All declarations to which these lead. A root is a file, a name and one case of what it names. A constructor that is named
    behind its type, as in `Reply.Usage`, is only a name: the other constructors of that type say nothing of the promise."""
    found, waiting = {}, [(files.declaration(file, name), part) for file, name, part in roots]
    given = {(file, name) for file, name, _ in roots}
    while waiting:
        one, part = waiting.pop()
        for word in one.words(part):
            other = files.declaration(one.file, word)
            if other and (other.file, other.name) not in {*found, *given} and not ("." in word and word.split(".")[1] in other.parts):
                found[other.file, other.name] = other
                waiting.append((other, None))
    return found


def in_order(files, found):
    """The declarations by files, each file behind those that it imports, and in a file as they stand there."""
    ordered, begun = [], set()

    def visit(file):
        if file in begun:
            return
        begun.add(file)
        declarations, names, aliases = files.of(file)
        for other in sorted({*names.values(), *aliases.values()}):
            visit(other)
        here = [one for one in declarations if (file, one.name) in found]
        ordered.extend([(file, here)] if here else [])

    for file in sorted({file for file, _ in found}):
        visit(file)
    return ordered


def page(title, text, roots):
    """A page in Markdown: the definitions to which the roots lead, by files, and then the cases that are the promise itself."""
    files = Files()
    out = [f"# {title}", "", text.strip(), ""]
    for file, declarations in in_order(files, led_to(files, roots)):
        out += [f"## {file}", ""]
        for one in declarations:
            out += [*(f"    {line}" for line in one.lines), ""]
    out += ["## The promise", ""]
    for file, name, part in roots:
        lines = case(files.declaration(file, name).lines, part)
        out += [f"`{name}` of {file}:", "", *(f"    {line}" for line in lines), ""]
    return "\n".join(out).rstrip() + "\n"
