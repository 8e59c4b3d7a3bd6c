"""Compares a page for browsers with the library: web.py PAGE WORDS. Under node, the page carries out the command lines of the file WORDS,
as .ci/answers.py reads them, all other calls of .ci/answers.py, and 2,000 calls that are drawn. web.py --sum PAGE prints the sum of the
sources that a page was made from.
"""
import json
import re
import subprocess
import sys
from itertools import chain
from pathlib import Path

TOP = Path(__file__).resolve().parents[1]
DRAWN, SEED = 2000, 9001


def sum_of(page):
    return re.search("<code id=sum>([0-9a-f]*)</code>", Path(page).read_text())[1]


def calls(file):
    """The words and the input of each call."""
    import answers
    from tests.drawn_calls import drawn_calls
    listed = chain(answers.written(file), answers.certificates(), ((words, b"") for words in answers.asked()))
    return [(words, data.decode()) for words, data in listed] + drawn_calls(DRAWN, SEED)


def main(page, file):
    from tests.drawn_calls import answers
    asked = calls(file)
    done = subprocess.run(["node", TOP / "tests/page.mjs", page], input=json.dumps([["call", *call] for call in asked]).encode(),
                          stdout=subprocess.PIPE, check=True)
    failed = 0
    for (words, data), made, wanted in zip(asked, json.loads(done.stdout), answers(asked), strict=True):
        if made != wanted:
            failed += 1
            if failed < 5:
                print(f"web: {' '.join(words)[:300]} {data[:200]!r}\n  got:    {str(made)[:300]}\n  wanted: {str(wanted)[:300]}",
                      file=sys.stderr)
    print(f"{len(asked) - failed} passed, {failed} failed")


if __name__ == "__main__":
    if sys.argv[1] == "--sum":
        print(sum_of(sys.argv[2]))
    else:
        main(*sys.argv[1:])
