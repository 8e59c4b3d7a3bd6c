"""Prints the certificates of certificates.txt as JSON, one object on each line: the text, the status, and the output.

    python3 checkers/listed.py > certificates.jsonl
"""
import json
import re
from pathlib import Path

VERDICTS = ("surjective", "injective", "right", "left", "open", "conserving")


def answer(said):
    """The status, and what is printed, where a row ends with these words."""
    first, *words = said.split(" ")
    if first != "accepted":
        return 1, f"refused {said}\n"
    rule, verdicts, weights = words[0], words[1:7], words[7:]
    lines = [f"accepted {rule}", *(f"{name} {verdict}" for name, verdict in zip(VERDICTS, verdicts, strict=True))]
    return 0, "\n".join(lines + [" ".join(weights)] * bool(weights)) + "\n"


def listed():
    """The certificates that have a name, by it, and for each version of each row its text and its answer."""
    named, rows = {}, []
    for line in Path(__file__).with_name("certificates.txt").read_text().splitlines():
        if line.startswith("= "):
            name, text = line[2:].split(" ", 1)
            named[name] = text
        elif line[:1].isdigit():
            versions, base, *changes, said = re.split(" {2,}", line)
            text = named.get(base, base)
            for old, new in (change.split(" =>") for change in changes):
                assert text.count(old) == 1, (old, text)
                text = text.replace(old, new.strip())
            rows += [(text.replace(":V", f":{version}"), answer(said)) for version in versions]
    return named, rows


if __name__ == "__main__":
    for text, (status, output) in listed()[1]:
        print(json.dumps({"text": text, "status": status, "output": output}))
