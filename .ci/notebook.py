#!/usr/bin/env python3
"""Makes docs/tutorial.ipynb from docs/TUTORIAL.md, so that the page is the only source.

    .ci/notebook.py PAGE NOTEBOOK           writes the notebook, with the outputs that the page shows
    .ci/notebook.py PAGE NOTEBOOK --run     also executes it, so that it has pictures and tables (nbclient, ipykernel)
    .ci/notebook.py PAGE NOTEBOOK --check   fails if the cells of the notebook aren't those of the page

An executed notebook must print what the page says. Run this in the top folder, with the package on the path.
"""
from __future__ import annotations

import ast
import doctest
import json
import sys
from pathlib import Path
from typing import Any

NOTE = "*This notebook is made from [TUTORIAL.md](TUTORIAL.md). Change the page, and make the notebook again.*\n"
KERNEL = {"kernelspec": {"name": "python3", "display_name": "Python 3", "language": "python"}}


def cells_of(page: str) -> list[dict[str, Any]]:
    """Returns a cell for each text between examples, and a code cell that ends at each example with an output."""
    cells: list[dict[str, Any]] = [{"cell_type": "markdown", "metadata": {}, "source": NOTE}]
    code = ""

    def add(source: str, want: str) -> None:
        shown = [{"output_type": "stream", "name": "stdout", "text": want}] if want else []
        cells.append({"cell_type": "code", "execution_count": None, "metadata": {}, "outputs": shown, "source": source.rstrip("\n")})

    for part in doctest.DocTestParser().parse(page):
        if isinstance(part, str):
            if part.strip():
                if code:
                    add(code, "")
                    code = ""
                cells.append({"cell_type": "markdown", "metadata": {}, "source": part.strip("\n") + "\n"})
            continue
        code += part.source
        if part.want:
            add(code, part.want)
            code = ""
    if code:
        add(code, "")
    return cells


def words(text: str) -> str:
    """Returns what a text says, whatever its blanks and however IPython breaks its lines."""
    try:
        return repr(ast.literal_eval(text.strip()))
    except (ValueError, SyntaxError):
        return "".join(text.split())


def said(cell: dict[str, Any]) -> str:
    """Returns the text that a code cell shows."""
    return "".join("".join(one["text"] if one["output_type"] == "stream" else one["data"]["text/plain"])
                   for one in cell["outputs"] if one["output_type"] in ("stream", "execute_result"))


def run(notebook: dict[str, Any], folder: Path) -> dict[str, Any]:
    """Returns the executed notebook. Fails if a cell shows something else than the page."""
    import nbformat
    from nbclient import NotebookClient

    wanted = [said(cell) for cell in notebook["cells"] if cell["cell_type"] == "code"]
    made = nbformat.from_dict(notebook)
    NotebookClient(made, timeout=600, startup_timeout=600, iopub_timeout=600, resources={"metadata": {"path": str(folder)}}).execute()
    for cell in made["cells"]:
        cell["metadata"].pop("execution", None)             # times
    cells = [cell for cell in made["cells"] if cell["cell_type"] == "code"]
    for cell, want in zip(cells, wanted):
        if words(said(cell)) != words(want):
            sys.exit(f"{cell['source']}\nshows\n{said(cell)}\nand the page says\n{want}")
    return json.loads(nbformat.writes(made))


def main(page: str, file: str, how: str = "") -> None:
    made: dict[str, Any] = {"cells": cells_of(Path(page).read_text(encoding="utf-8")), "metadata": KERNEL, "nbformat": 4,
                            "nbformat_minor": 4}
    if how == "--check":
        there = json.loads(Path(file).read_text(encoding="utf-8"))
        sources = [[(cell["cell_type"], "".join(cell["source"])) for cell in one["cells"]] for one in (made, there)]
        if sources[0] != sources[1]:
            sys.exit(f"{file} isn't made from {page}: run {Path(__file__).name}")
        return
    if how == "--run":
        made = run(made, Path.cwd())
    Path(file).write_text(json.dumps(made, indent=1, ensure_ascii=False) + "\n", encoding="utf-8")


if __name__ == "__main__":
    main(*sys.argv[1:])
