"""Writes the pages that ./install installs: `python3 .ci/man.py PREFIX INTO`.

INTO is the folder that becomes PREFIX. It gets share/doc/ca, which has the pages of docs/ and their pictures, and share/man/man1 with
a page for `man` of ca, made from docs/COMMANDS.md, and one of rules, made from docs/LISTS.md. The installed COMMANDS.md and LISTS.md
speak of `ca` and `rules` and not of `./ca` and `./rules`. A link to a file that isn't installed becomes its words.

For `man` it knows only the parts of Markdown that these two pages use: headings, paragraphs, numbered lists, lists with a dash,
tables, blocks that are indented by four blanks, and in a line code and links.
"""
import re
import shutil
import sys
from pathlib import Path

DOCS = Path(__file__).resolve().parent.parent / "docs"
# Of each program: the page that becomes its page for man, and what NAME says.
PAGES = {"ca": ("COMMANDS.md", "decides what holds of one-dimensional cellular automata"),
         "rules": ("LISTS.md", "lists the one-dimensional cellular automata that have a property")}


def installed(text):
    """A page as it is installed: a link to a file that isn't installed, one outside of docs, becomes its words."""
    return re.sub(r"\[([^]]*)\]\(\.\./[^)]*\)", r"\1", text)


def with_names(text, prefix):
    """A page with the names that the programs have where they are installed."""
    text = text.replace("crates/ca/out/ca", f"{prefix}/libexec/ca/ca")
    return re.sub(r"(?<![\w.])\./(ca|rules)\b", r"\1", text)


def escaped(text):
    """The text as roff reads it."""
    for old, new in [("\\", r"\e"), ("-", r"\-"), ("^", r"\(ha"), ("~", r"\(ti"), ("'", r"\(aq"), ("`", r"\(ga")]:
        text = text.replace(old, new)
    return r"\&" + text if text.startswith(".") else text


def inline(text):
    """A line with its code in bold, its emphasis in italics, and of its links the words."""
    text = re.sub(r"\[([^]]*)\]\([^)]*\)", r"\1", text)
    parts = [escaped(part) for part in text.split("`")]
    return "".join(re.sub(r"\*([a-z]+)\*", r"\\fI\1\\fR", part) if place % 2 == 0 else rf"\fB{part}\fR"
                   for place, part in enumerate(parts))


def cells(row):
    return [cell.strip() for cell in row.strip().strip("|").split("|")]


def table(rows):
    """A list with a row's first cell as its tag; where there are more than two columns each of the others has its head."""
    heads = cells(rows[0])
    for row in rows[2:]:
        tag, *others = cells(row)
        others = [(head, cell) for head, cell in zip(heads[1:], others) if cell]
        if not tag:
            tag = " ".join(others.pop(0))
        lines = [inline(cell if len(heads) == 2 else f"{head}: {cell}") for head, cell in others]
        yield from [".TP", inline(tag), "\n.br\n".join(lines)]


def items(lines):
    """A list with its numbers or its dashes as tags. A line without one belongs to the item before it."""
    for line in lines:
        mark, _, rest = line.partition(" ")
        if mark[:-1].isdecimal() or mark == "-":
            yield from [rf".IP {mark if mark != '-' else chr(92) + '(bu'} 4", inline(rest)]
        else:
            yield inline(line.strip())


def blocks(text):
    """The parts of a page that blank lines part: each a list of lines. A heading stands alone."""
    for block in re.split(r"\n{2,}", text.strip("\n")):
        yield block.split("\n")


def written(block):
    first = block[0]
    if first.startswith("## "):
        yield ".SH " + inline(first[3:])
    elif first.startswith("### "):
        yield ".SS " + inline(first[4:])
    elif first.startswith("|"):
        yield from table(block)
    elif first.startswith(("1. ", "- ")):
        yield from items(block)
    elif first.startswith("    "):
        yield from [".PP", ".RS 4", ".nf", *[escaped(line[4:]) for line in block], ".fi", ".RE"]
    else:
        yield from [".PP", *[inline(line) for line in " ".join(block).split("\n")]]


def man_page(program, does, prefix, text):
    """The page for man of a program, from its installed page."""
    title, synopsis, *body = blocks(text)
    assert title[0].startswith("# ") and synopsis[0].startswith(f"    {program} "), f"the page of {program} begins otherwise"
    return "\n".join([
        r'.\" Made by .ci/man.py of the source.', f".TH {program.upper()} 1", ".SH NAME", rf"{program} \- {escaped(does)}",
        ".SH SYNOPSIS", f".B {program}", f".I {synopsis[0].split(maxsplit=1)[1]}", ".SH DESCRIPTION",
        *[line for block in body for line in written(block)],
        ".SH SEE ALSO", f"The pages whose names end in .md are in {escaped(f'{prefix}/share/doc/ca')}.", ""])


def main():
    if len(sys.argv) != 3:
        sys.exit(__doc__)
    prefix, into = sys.argv[1], Path(sys.argv[2])
    pages, manuals = into / "share" / "doc" / "ca", into / "share" / "man" / "man1"
    for folder in (pages, manuals):
        folder.mkdir(parents=True, exist_ok=True)
    for file in sorted(DOCS.iterdir()):
        text = file.read_text(encoding="utf-8")
        (pages / file.name).write_text(installed(text) if file.suffix == ".md" else text, encoding="utf-8")
    for program, (page, does) in PAGES.items():
        text = with_names((pages / page).read_text(encoding="utf-8"), prefix)
        (pages / page).write_text(text, encoding="utf-8")
        (manuals / f"{program}.1").write_text(man_page(program, does, prefix, text), encoding="utf-8")


if __name__ == "__main__":
    main()
