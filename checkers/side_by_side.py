"""Compares judge.py with `ca check`: `side_by_side.py PROGRAM RULES BROKEN`.

Each case is an input for both. RULES is the number of random rules that get certificates, besides the elementary rules. BROKEN is
the number of certificates that are broken by one change each.
"""
import json
import os
import re
import shutil
import subprocess
import sys
import tempfile
from pathlib import Path

from judge import judge
from listed import listed

ROOT = Path(__file__).resolve().parent.parent


class Draw:
    """Numbers that are the same at each run."""

    def __init__(self, seed):
        self.state = seed

    def below(self, bound):
        self.state = (self.state * 6364136223846793005 + 1442695040888963407) % 2**64
        return (self.state >> 33) % bound

    def one(self, items):
        return items[self.below(len(items))]

    def shuffled(self, items):
        items = list(items)
        return [items.pop(self.below(len(items))) for _ in range(len(items))]


class Tally:
    """Runs the program, and counts where both answers are one."""

    def __init__(self, program):
        self.program, self.passed, self.failed = program, 0, 0

    def call(self, words, data=b""):
        done = subprocess.run([self.program, *words], input=data, capture_output=True, close_fds=False)
        return done.returncode, done.stdout

    def case(self, name, data):
        """An input of both. What the Python stumbles on counts as a difference."""
        try:
            status, output = judge(data)
            judged = status, output.encode()
        except Exception as fault:
            judged = repr(fault)
        self.same(name, judged, self.call(["check"], data), data)

    def same(self, name, judged, checked, data=b""):
        if judged == checked:
            self.passed += 1
            return
        self.failed += 1
        print(f"compare: {name}: {data[:600]!r}\n  judge.py: {judged}\n  program:  {checked}", file=sys.stderr)


# Certificates of the docs, and those of the list.

def documented():
    """All certificates that stand in the docs on a line of their own."""
    lines = [line for page in sorted((ROOT / "docs").glob("*.md")) for line in page.read_text().splitlines()]
    return [line.strip() for line in lines if re.fullmatch(r' {4}\{"conserving":.*\}', line)]


NAMED, ROWS = listed()
SHIFT, BOTH = (NAMED[name].replace(":V", ":1") for name in ["shift", "both"])
WEIGHTS, PAIRS = NAMED["weighed"].replace(":V", ":2"), NAMED["pairs"].replace(":V", ":3")

# What stands in place of the shift's rule.
RULE_TEXTS = [
    "", "2", "15", "10", "256", "255", "9" * 39, "9" * 40, "0" * 38 + "10", "2:", "2:3", "2:2:0:", "2:2:0",
    "2:2:0:t",
    "2:2:0:w", "2:2:0:w10", "2:2:0:w16", "2:2:0:w010", "02:02:00:t0101", "2:2:-0:t0101", "2:2:-16:t0101",
    "2:2:-17:t0101", "2:2:15:t0101", "2:2:16:t0101", "2:2:+1:t0101", "2:2:--1:t0101", "2:2:0:t01012",
    "2:2:0:t010g",
    "1:2:0:t0", "17:2:0:t0", "2:1:0:t01", "2:6:0:t0", "3:4:0:t0", "5:3:0:t0", "99:99:99:t", "7:2:0:w0",
    "6:2:0:w0",
    "100:2:0:t0101", "2:2:100:t0101", "2:2:0:x0101", " 2:2:0:t0101", "2:2:0:t0101 ", "2:2:0:t0A01",
    "2:2:0:t0101\\n",
    "\\u0032:2:0:t0101", "\u0662:2:0:t0101", "2:2:0:t010\u0661", "é", "-1", "2:2:-:t0101", ":2:0:t0101",
    "2::0:t0101",
    "16:2:0:t" + "0123456789abcdef" * 16, "16:2:0:t" + "0123456789ABCDEF" * 16, "2:2:0:w" + "9" * 40,
]

# Inputs about JSON itself; %s stands for the certificate of the shift without its first brace.
NEST = "[" * 126 + "]" * 126
JSON_TEXTS = [
    "", " ", "[]", "{}", "null", "1", '"a"', "{", "}", '{"version":1}', '{"version":null}', "nul", "truex",
    "NaN", "Infinity",
    "\ufeff{%s", "{%s\ufeff", " \t\r\n{%s\n\n", "\x0b{%s", "{%s{}", "{%s\x00",
    '{"x":' + NEST + ",%s", '{"x":[' + NEST + "],%s", '{"x":"' + "[" * 300 + '",%s',
    '{"x":' + '{"":' * 126 + "0" + "}" * 126 + ",%s",
    '{"x":' + '{"":' * 127 + "0" + "}" * 127 + ",%s", "[" * 128, "[" * 127 + "]" * 127,
    '{"version":2,%s', '{"version":[1e5],%s', '{"version":1e999,%s', '{"v\\u0065rsion":7,%s', '{"\\u0076":7,%s',
    '{"surjective":{"sets":[3,1,2],"sets":[3,1]},"x":1,%s', '{"x":"\\ud83d\\ude00",%s', '{"x":"\\ud83d",%s',
    '{"x":"\\ude00",%s', '{"x":"\\ude00\\ud83d",%s', '{"x":"\\ud83d\\ud83d\\ude00",%s',
    '{"x":"\\ud83dx\\ude00",%s',
    '{"x":"\\ud83d\\n",%s', '{"\\ud83d":1,%s', '{"x":"\\uD83D\\uDE00\\u0000",%s', '{"x":"\\u00e",%s',
    '{"x":"\\u00eg",%s',
    '{"x":"\\x41",%s', '{"x":"\\",%s', '{"x":"\\/\\b\\f\\n\\r\\t\\"\\\\",%s', '{"x":"\t",%s',
    '{"x":"\x7f",%s', "{'x':1,%s",
    '{"x":"\\\n",%s', '{"x":"😀",%s',
    '{"x":"\\ud83d😀",%s', '{"x":"😀\\ude00",%s', '{x:1,%s', '{"x" : 1 ,%s',
    '{"x":1,,%s', '{,%s',
    '{"x":[1,],%s', '{"x":[,1],%s', '{"x":[1 2],%s', '{"x":[1}],%s', '{"x":{"a"},%s', '{"x":{"a":},%s',
    '{"x":{"a":1,},%s',
    '{"x":[],%s', '{"x":[ ],%s', '{"x":{ },%s', '{"x":[ 1 , 2 ],%s', '{"x":tru,%s', '{"x":True,%s',
    '{"x":[true,false,null],%s',
] + ['{"x":%s,%%s' % number for number in [
    "1e400", "-1e400", "1e308", "1e309", "0e999", "0.0e999999999999999999999", "1e-400",
    "1e-99999999999999999999", "1E+2", "1e+", "1e",
    "1.", ".5", "-", "-0", "-0.0", "01", "-01", "+1", "0x10", "1_000", "1.5e3", "9" * 308, "9" * 309,
    "1" + "0" * 400,
    "1" + "0" * 5000 + "e-5000", "0." + "0" * 400 + "1e500", "179769313486231570" + "0" * 291,
    "179769313486231580" + "0" * 291,
    str(2**1024 - 2**970), str(2**1024 - 2**970 - 1), str(-(2**1024 - 2**970)), str(2**1024 - 2**970 - 1) + ".999",
    "١",
]]


def made():
    """Names and bytes of all inputs that are made by hand."""
    for text in documented():
        yield "docs", text.encode()
    for text, _ in ROWS:
        yield "listed", text.encode()
    for text in RULE_TEXTS:
        yield "rule text", SHIFT.replace("2:2:0:t0101", text).encode()
    for text in JSON_TEXTS:
        yield "json", text.replace("%s", SHIFT[1:]).encode()
    for key in json.loads(WEIGHTS):
        for value in ["null", "[]", "{}", "1", '"1"', "true"]:
            yield "another value", (WEIGHTS[:-1] + f',"{key}":{value}}}').encode()
    for data in [b"\xff", b"\xef\xbb\xbf{}", b'"\xc0\x80"', b'"\xed\xa0\x80"', b'"\xf4\x90\x80\x80"',
                 b'"\xe2\x82"', SHIFT.encode("utf-16"), SHIFT.encode("utf-32")]:
        yield "bytes", data
        yield "bytes", b'{"x":' + data + b"," + SHIFT[1:].encode()
    for end in range(len(SHIFT)):
        yield "prefix", SHIFT[:end].encode()


def long():
    """Inputs of the greatest length."""
    yield "longest", b" " * 4_194_304
    yield "too long", b" " * 4_194_305
    yield "too long", (SHIFT + " " * (4_194_305 - len(SHIFT))).encode()
    yield "longest certificate", (SHIFT + " " * (4_194_304 - len(SHIFT))).encode()
    yield "brackets", b"[" * 4_000_000
    many = "3,1,2," * 333_333 + "3"
    for version in "123":
        text = SHIFT.replace(":1}", f":{version}}}")
        yield "a million sets", text.replace("3,1,2", many).encode()
        yield "a million sets, one of them empty", text.replace("3,1,2", many + ",0").encode()
    yield "a million pairs", PAIRS.replace("1,2", "1,2," * 500_000 + "2").encode()
    yield "a million pairs, one of them equal nodes", PAIRS.replace("1,2", "1,2," * 500_000 + "0").encode()
    right = '"0||00","0||10"'
    for x, y in [(f"0|{'0' * 1024}|0", f"0|{'0' * 1023}1|0"), (f"0|{'0' * 1025}|0", "0||10"),
                 (f"{'01' * 512}|0|{'10' * 512}", f"{'01' * 510}|10|{'01' * 500}")]:
        yield "long parts", BOTH.replace(right, f'"{x}","{y}"').encode()
    yield "a long orphan", BOTH.replace("101", "1" * 3_000_000 + "01").encode()
    yield "long twins", BOTH.replace('"00","01"', f'"{"0" * 2_000_000}","{"0" * 1_999_999}1"').encode()
    yield "a long ring", BOTH.replace('"ring":"01"', f'"ring":"{"01" * 1_500_000}"').encode()
    yield "a long string", ('{"x":"' + "\\n" * 2_000_000 + '",' + SHIFT[1:]).encode()
    yield "long numbers", ('{"x":[' + "9" * 2_000_000 + "],%s" % SHIFT[1:]).encode()


# Certificates that the program writes.

SHAPES = [(2, 2), (2, 3), (2, 4), (2, 5), (3, 2), (3, 3), (4, 2), (4, 3)] + [(k, 2) for k in range(5, 17)]


def drawn_rule(draw):
    """The text of a rule: any one; one whose last or first letter alone is permuted by each node, which is
    surjective; or one that permutes one of its letters, which is injective."""
    k, m = draw.one(SHAPES)
    size, kind = k ** (m - 1), draw.below(4)
    columns = [draw.shuffled(range(k)) for _ in range(size)]
    place = draw.below(m)
    table = {
        0: [draw.below(k) for _ in range(k**m)],
        1: [columns[w // k][w % k] for w in range(k**m)],
        2: [columns[w % size][w // size] for w in range(k**m)],
        3: [columns[0][w // k**place % k] for w in range(k**m)],
    }[kind]
    return f"{k}:{m}:{draw.below(9) - 4}:t" + "".join(f"{letter:x}" for letter in table)


def written(tally, count, draw):
    """The certificates that the program writes: for each rule by each command, with weights and without."""
    rules = [str(number) for number in range(256)] + [drawn_rule(draw) for _ in range(count)]
    for rule in rules:
        k = int(rule.split(":")[0]) if ":" in rule else 2
        weights = ",".join(str(draw.below(256)) for _ in range(k))
        for words in [[command, rule, *more] for command in ["certify", "brief"] for more in [[], [weights]]]:
            status, output = tally.call(words)
            tally.same(" ".join(words), 0, status)
            yield " ".join(words), output


# Mutations.

class Members(list):
    """The members of an object, as pairs: so a key may stand twice."""


def dump(value):
    if isinstance(value, Members):
        return "{" + ",".join(f"{json.dumps(key)}:{dump(item)}" for key, item in value) + "}"
    if isinstance(value, list):
        return "[" + ",".join(map(dump, value)) + "]"
    return json.dumps(value)


def containers(value):
    """All objects and arrays in a value with something in them."""
    if isinstance(value, list) and value:
        yield value
        for item in value:
            yield from containers(item[1] if isinstance(value, Members) else item)


def with_number(text, draw):
    """One number of a text, in strings too, made another one."""
    number = draw.one(list(re.finditer("-?[0-9]+", text)))
    value = int(number[0])
    another = draw.one([value + 1, abs(value - 1), draw.below(2), draw.below(4), draw.below(16), draw.below(70_000),
                        -value, "-0", f"{value}.0", "null"])
    return text[:number.start()] + str(another) + text[number.end():]


def with_byte(data, draw):
    """A byte cut, or made another one."""
    place = draw.below(len(data))
    return data[:place] + draw.one([b"", bytes([draw.below(256)])]) + data[place + 1:]


def with_items(inside, draw):
    """In an object or an array: something dropped, two exchanged, or something twice or in place of another."""
    i, j, kind = draw.below(len(inside)), draw.below(len(inside)), draw.below(4)
    if kind == 0:
        del inside[i]
    elif kind == 1 and isinstance(inside, Members):
        inside[i], inside[j] = (inside[i][0], inside[j][1]), (inside[j][0], inside[i][1])
    elif kind == 1:
        inside[i], inside[j] = inside[j], inside[i]
    elif isinstance(inside, Members):
        inside.insert(j + draw.below(2), (inside[i][0], draw.one([inside[j][1], None, 1, [], ""])))
    elif kind == 2:
        inside[i] = inside[j]
    else:
        inside.insert(j, inside[i])


def mutated(text, draw):
    value, kind = json.loads(text, object_pairs_hook=Members), draw.below(5)
    if kind == 0:
        return with_byte(text.encode(), draw)
    if kind == 1:
        members = [f"{json.dumps(key)}:{dump(item)}" for key, item in value]
        i = draw.one([i for i, member in enumerate(members) if re.search("[0-9]", member)])
        members[i] = with_number(members[i], draw)
        return ("{" + ",".join(members) + "}").encode()
    part = draw.one([value] + [item for _, item in value if isinstance(item, list)])
    with_items(draw.one(list(containers(part))), draw)
    return dump(value).encode()


# The scripts themselves, with their exit status.

def scripts(tally):
    words = [sys.executable, ROOT / "checkers" / "judge.py"]
    both = [words, [tally.program, "check"]]
    for data in [SHIFT.encode(), SHIFT.replace("[3,1,2]", "[3,1]").encode(), b" " * 4_194_305]:
        done = subprocess.run(words, input=data, capture_output=True)
        tally.same("judge.py as a script", (done.returncode, done.stdout), tally.call(["check"], data))
    answers = []
    for command in both:
        with open(os.devnull, "wb") as unreadable:
            done = subprocess.run(command, stdin=unreadable, capture_output=True)
        answers.append((done.returncode, done.stdout))
    tally.same("an input that can't be read", *answers)
    for name, path, mode in [("an output that is full", "/dev/full", "wb"), ("one that can't be written", os.devnull, "rb")]:
        with open(path, mode) as unwritable:
            ended = [subprocess.run(command, input=SHIFT.encode(), stdout=unwritable).returncode for command in both]
        tally.same(name, [7, 7], ended)
    done = subprocess.run([*words, "certificate.json"], stdin=subprocess.DEVNULL, capture_output=True)
    tally.same("judge.py with an operand", (70, b"", True), (done.returncode, done.stdout, b"usage:" in done.stderr))
    # One file is enough: it is copied alone into an empty folder, and Python looks nowhere else for a part of it.
    with tempfile.TemporaryDirectory() as folder:
        alone = shutil.copy(ROOT / "checkers" / "judge.py", folder)
        for data in (SHIFT.encode(), SHIFT.encode()[:-2]):
            done = subprocess.run([sys.executable, "-I", alone], cwd=folder, input=data, capture_output=True)
            tally.same("judge.py alone in a folder", (done.returncode, done.stdout), tally.call(["check"], data))
    # A fault of Python's own, here that what judges is no function, is never taken for an answer.
    fault = "import sys, judge; judge.judge = None; sys.exit(judge.ended())"
    done = subprocess.run([sys.executable, "-c", fault], cwd=ROOT / "checkers", input=b"", capture_output=True)
    tally.same("a fault of Python's own", (70, b""), (done.returncode, done.stdout))


def main():
    tally, draw = Tally(sys.argv[1]), Draw(29)
    for cases in [made(), long()]:
        for name, data in cases:
            tally.case(name, data)
    for text, wanted in ROWS:
        tally.same("listed", judge(text.encode()), wanted, text.encode())
    certificates = []
    for name, data in written(tally, int(sys.argv[2]), draw):
        tally.case(name, data)
        certificates.append(data.decode())
    certificates.extend(documented())
    for _ in range(int(sys.argv[3])):
        tally.case("broken", mutated(draw.one(certificates), draw))
    scripts(tally)
    print(f"{tally.passed} passed, {tally.failed} failed")
    return 1 if tally.failed else 0


if __name__ == "__main__":
    sys.exit(main())
