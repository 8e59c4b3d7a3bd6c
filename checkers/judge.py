#!/usr/bin/env python3
"""Judges a certificate of a cellular automaton. It was written only from docs/CERTIFICATES.md.

    python3 judge.py < certificate.json

The exit status is 0 if the certificate is accepted, 1 if it is refused, 5 if it is too long, 6 if it can't be read, 7 if the answer
can't be written, and 8 if there is no memory. It is 70 if the program is called with an operand, or if Python fails otherwise. The
steps of the shape and the conditions are in the order of the tables of that page.
"""
import contextlib
import math
import os
import re
import sys
import traceback

LIMIT = 4194304                                 # bytes of the input
PART = 1024                                     # digits of a part of a TAIL
TABLE = re.compile(r"([0-9]{1,2}):([0-9]{1,2}):(-?[0-9]{1,2}):(?:t([0-9a-fA-F]*)|w([0-9]{1,39}))")
BARE = re.compile(r"[0-9]{1,39}")
BEGUN = [re.compile(r"[0-9]{0,39}"),            # what begins a text of some form
         re.compile(r"[0-9]{1,2}(:([0-9]{1,2}(:(-?([0-9]{1,2}(:(t[0-9a-fA-F]*|w[0-9]{0,39})?)?)?)?)?)?)?|")]
HEX = "0123456789abcdef"
VALUE = bytes(int(chr(c), 16) if chr(c) in HEX + HEX.upper() else 255 for c in range(256))

DEPTH = 127                                     # brackets and braces that may be open at one place
BLANKS = re.compile(r"[ \t\n\r]*")
NUMBER = re.compile(r"-?(?:0|[1-9][0-9]*)(?:\.[0-9]+)?(?:[eE][+-]?[0-9]+)?")
WHOLE = re.compile(r"-?[0-9]{1,20}")
LISTED = re.compile(r"(0|[1-9][0-9]{0,17})[ \t\n\r]*,[ \t\n\r]*")
PLAIN = re.compile(r'[^"\\\x00-\x1f]*')
ESCAPE = re.compile(r'\\(?:(["\\/bfnrt])'
                    r"|u([dD][89abAB][0-9a-fA-F]{2})\\u([dD][c-fC-F][0-9a-fA-F]{2})"
                    r"|u([0-9a-fA-F]{4}))")
SHORT = {'"': '"', "\\": "\\", "/": "/", "b": "\b", "f": "\f", "n": "\n", "r": "\r", "t": "\t"}
NAMES = {"true": True, "false": False, "null": None}


class Refused(Exception):
    """The certificate is refused with these words."""


class Misshapen(Exception):
    """A part of the certificate hasn't its shape."""


class NotJson(Exception):
    """The bytes aren't the text of a JSON value."""


def ask(holds, *refusal):
    """Refuses with these words where something doesn't hold."""
    if not holds:
        raise Refused(" ".join(map(str, refusal)))


def need(holds):
    if not holds:
        raise Misshapen


# JSON, with the rules of docs/CERTIFICATES.md. Python's own reader has other rules. It accepts NaN and Infinity, numbers that are too
# large for a double, escaped surrogates without their other half, and encodings other than UTF-8. It has other limits for the length
# of a whole number and for nested brackets, and it takes -0 for a whole number. As in Python's reader, the last of several members
# with the same key counts.

def read_json(data):
    """The value of bytes: a dict, list, str, True, False, None, int or float. A signed whole number becomes an int. Every other number
    (1.0, 1e0, -0, 2^64) becomes a float, which no caller uses."""
    try:
        text = data.decode("utf-8")             # strict, and a byte order mark stays: it isn't a blank
    except UnicodeDecodeError:
        raise NotJson
    value, place = read_value(text, skip(text, 0), 0)
    if skip(text, place) != len(text):
        raise NotJson
    return value


def skip(text, place):
    return BLANKS.match(text, place).end()


# Each reader below takes the place where its value begins, and gives the value and the place behind it;
# depth counts the brackets and braces that are open there.

def read_value(text, place, depth):
    first = text[place:place + 1]
    if first == '"':
        return read_string(text, place)
    if first in ("[", "{"):
        if depth == DEPTH:
            raise NotJson
        return (read_array if first == "[" else read_object)(text, place, depth + 1)
    for name, value in NAMES.items():
        if text.startswith(name, place):
            return value, place + len(name)
    return read_number(text, place)


def read_number(text, place):
    match = NUMBER.match(text, place)
    if not match:
        raise NotJson
    digits = match[0]
    if WHOLE.fullmatch(digits) and digits != "-0" and abs(int(digits)) < 2 ** 64:
        return int(digits), match.end()
    value = float(digits)                       # the nearest double
    if math.isinf(value):
        raise NotJson
    return value, match.end()


def read_string(text, place):
    parts = []
    place += 1
    while True:
        run = PLAIN.match(text, place)
        parts.append(run[0])
        place = run.end()
        if text[place:place + 1] == '"':
            return "".join(parts), place + 1
        escape = ESCAPE.match(text, place)
        if not escape:
            raise NotJson
        short, high, low, single = escape.groups()
        if short:
            parts.append(SHORT[short])
        elif high:
            parts.append(chr(0x10000 + (int(high, 16) - 0xD800) * 0x400 + int(low, 16) - 0xDC00))
        elif 0xD800 <= int(single, 16) <= 0xDFFF:
            raise NotJson
        else:
            parts.append(chr(int(single, 16)))
        place = escape.end()


def read_array(text, place, depth):
    items = []
    place = skip(text, place + 1)
    if text[place:place + 1] == "]":
        return items, place + 1
    while True:
        match = LISTED.match(text, place)       # a short cut for long lists: short whole numbers, each
        while match:                            # with the comma behind it
            items.append(int(match[1]))
            place = match.end()
            match = LISTED.match(text, place)
        item, place = read_value(text, place, depth)
        items.append(item)
        place, more = read_comma(text, place, "]")
        if not more:
            return items, place


def read_object(text, place, depth):
    members = {}
    place = skip(text, place + 1)
    if text[place:place + 1] == "}":
        return members, place + 1
    while True:
        if text[place:place + 1] != '"':
            raise NotJson
        key, place = read_string(text, place)
        place = skip(text, place)
        if text[place:place + 1] != ":":
            raise NotJson
        members[key], place = read_value(text, skip(text, place + 1), depth)    # the last one counts
        place, more = read_comma(text, place, "}")
        if not more:
            return members, place


def read_comma(text, place, close):
    """Behind a comma the place of the next item and True, behind the closing bracket its place and False."""
    place = skip(text, place)
    mark = text[place:place + 1]
    if mark == close:
        return place + 1, False
    if mark != ",":
        raise NotJson
    return skip(text, place + 1), True


# The rule

class Rule:
    def __init__(self, k, m, offset, f):
        self.k, self.m, self.offset, self.f = k, m, offset, f
        self.N = N = k ** (m - 1)
        letters, nodes = range(k), range(N)
        # leads[P]: all (a, b, Q) such that on the letters a and b the pair P leads to the pair Q
        self.leads = [[(a, b, (u * k + a) % N * N + (v * k + b) % N) for a in letters for b in letters
                       if f[u * k + a] == f[v * k + b]] for u in nodes for v in nodes]
        self.first_right = sorted({Q for u in nodes for a, b, Q in self.leads[u * N + u] if a != b})
        rest = N // k                           # the nodes u and v differ in their first letter alone
        self.first_left = [u * N + v for u in nodes for v in nodes if u != v and u % rest == v % rest
                           and any(a == b for a, b, Q in self.leads[u * N + v])]

    def text(self):
        return "%d:%d:%d:t%s" % (self.k, self.m, self.offset, "".join(HEX[a] for a in self.f))

    def steps(self):
        """A table for each letter: the step of each set on it.  The sets of the nodes 0 to u are those of
        the nodes below u, first without u and then with it."""
        tables = []
        for label in range(self.k):
            table = [0]
            for u in range(self.N):
                ends = 0
                for a in range(self.k):
                    if self.f[u * self.k + a] == label:
                        ends |= 1 << (u * self.k + a) % self.N
                table += [step | ends for step in table]
            tables.append(table)
        return tables

    def image(self, word):
        k, N, f = self.k, self.N, self.f
        labels, node = bytearray(), 0
        for a in word:
            window = node * k + a
            labels.append(f[window])
            node = window % N
        return labels[self.m - 1:]              # before that the windows aren't full

    def ring_image(self, word):
        return self.image(word + bytes(word[i % len(word)] for i in range(self.m - 1)))


def read_rule(text):
    form = TABLE.fullmatch(text) or BARE.fullmatch(text) and TABLE.fullmatch("2:3:-1:w" + text)
    ask(form, "format rule form", max(begun.match(text).end() for begun in BEGUN))
    k, m, offset = int(form[1]), int(form[2]), int(form[3])
    digits, number = form[4], form[5]
    ask(2 <= k <= 16, "format rule states")
    ask(2 <= m <= 5, "format rule width")
    ask(k ** (m - 1) <= 16, "format rule nodes")
    ask(-16 <= offset and offset + m - 1 <= 16, "format rule offset")
    if digits is None:
        ask(k < 7, "format rule kind")
        ask(int(number) < k ** k ** m, "format rule number")
        return Rule(k, m, offset, [int(number) // k ** w % k for w in range(k ** m)])
    ask(len(digits) == k ** m, "format rule length")
    f = [int(digit, 16) for digit in digits]
    for place, letter in enumerate(f):
        ask(letter < k, "format rule letter", form.start(4) + place)
    return Rule(k, m, offset, f)


# The shape: each reader gives the evidence of a value, or raises Misshapen

def whole(value, least, most):
    need(type(value) is int and least <= value <= most)
    return value


def array(value, length=None):
    need(type(value) is list and length in (None, len(value)))
    return value


def numbers(value, least, most, length=None):
    need(all(type(item) is int and least <= item <= most for item in array(value, length)))
    return value


def word(value, k):
    need(type(value) is str and value.isascii())
    letters = value.encode().translate(VALUE)
    need(max(letters, default=0) < k)
    return letters


def tail(value, k):
    need(type(value) is str)
    parts = [word(part, k) for part in value.split("|")]
    need(len(parts) == 3 and all(len(part) <= PART for part in parts) and parts[0] and parts[2])
    return parts


def keys(value, *sets):
    """The keys of an object that has exactly the keys of one of the sets."""
    need(type(value) is dict and set(value) in [set(names.split()) for names in sets])
    return value


def read_surjective(value, rule, version):
    keys(value, "sets", "orphan", *["pairs"] * (version == 3))
    if "sets" in value:
        return {"sets": numbers(value["sets"], 0, 2 ** rule.N - 1)}
    if "pairs" in value:
        return {"pairs": numbers(value["pairs"], 0, rule.N ** 2 - 1)}
    return {"orphan": word(value["orphan"], rule.k)}


def read_injective(value, rule):
    if "twins" in keys(value, "c n", "twins"):
        return {"twins": [word(item, rule.k) for item in array(value["twins"], 2)]}
    n = whole(value["n"], 1, 65535)
    return {"n": n, "c": whole(value["c"], 0, min(n + rule.m - 2, 65535))}


def read_closing(value, rule):
    if "ahead" in keys(value, "ahead", "split"):
        return {"ahead": whole(value["ahead"], 1, 65535)}
    return {"split": [tail(item, rule.k) for item in array(value["split"], 2)]}


def read_conserving(value, rule):
    if "flux" in keys(value, "flux", "ring"):
        return {"flux": numbers(value["flux"], -1000000, 1000000, rule.N)}
    return {"ring": word(value["ring"], rule.k)}


def read_ranks(value, rule):
    for side in keys(value, "backward forward").values():
        for claim in array(side, rule.N ** 2):
            need(claim is None or whole(claim, 0, 65535) is not None)
    return value


class Certificate:
    def __init__(self, data):
        try:
            top = read_json(data)
        except NotJson:
            raise Refused("format notjson")
        ask(type(top) is dict, "format shape top")

        def shape(key, read, *more):
            try:
                need(key in top)
                return read(top[key], *more)
            except Misshapen:
                raise Refused("format shape " + key)

        self.version = version = shape("version", whole, 0, 2 ** 64 - 1)
        ask(version in (1, 2, 3), "format version", version)
        ask(type(top.get("rule")) is str, "format shape rule")
        self.rule = rule = read_rule(top["rule"])
        self.surjective = shape("surjective", read_surjective, rule, version)
        self.injective = shape("injective", read_injective, rule)
        self.right = shape("right", read_closing, rule)
        self.left = shape("left", read_closing, rule)
        self.conserving = shape("conserving", read_conserving, rule)
        known = {"version", "rule", "surjective", "injective", "right", "left", "conserving", "ranks"}
        self.weights = list(range(rule.k))
        if version >= 2 and "weights" in top:
            self.weights = shape("weights", numbers, 0, 255, rule.k)
            known.add("weights")
        self.ranks = shape("ranks", read_ranks, rule)
        ask(set(top) <= known, "format shape unknown")


# The conditions

def below(claim, number):
    return claim is not None and claim < number


def judge_ranks(rule, forward, backward):
    behind = [{Q for a, b, Q in leads} for leads in rule.leads]
    for P, r in enumerate(forward):
        ask(r is None or all(below(forward[Q], r) for Q in behind[P]), "rank right", P)
    for P, r in enumerate(backward):
        ask(r is None or all(below(backward[Q], r) for Q in range(rule.N ** 2) if P in behind[Q]),
            "rank left", P)


def judge_sets(rule, sets, version):
    full = 2 ** rule.N - 1
    ask(full in sets, "nofull")
    if 0 in sets:
        raise Refused("emptyset %d" % sets.index(0))
    good = bytearray(full + 1)                  # the sets that a step may be
    for s in sets:
        good[s] = 1
    if version >= 2:
        for u in range(rule.N):
            for s in range(full + 1):
                if s >> u & 1 and good[s ^ 1 << u]:
                    good[s] = 1
    steps = rule.steps()
    for s in dict.fromkeys(sets):               # each set once, by its first place
        for a in range(rule.k):
            if not good[steps[a][s]]:
                raise Refused("notclosed %d %d" % (sets.index(s), a))


def judge_pairs(rule, pairs):
    place = {}                                  # each pair once, with its first place
    for i, P in enumerate(pairs):
        place.setdefault(P, i)
    for P in rule.first_right:
        ask(P in place, "nofirst", P)
    for P in place:
        ask(P // rule.N != P % rule.N, "diagonal", place[P])
    for P in place:
        for a, b, Q in rule.leads[P]:
            ask(Q in place, "leaves", place[P], a, b)


def judge_orphan(rule, orphan):
    steps, s = rule.steps(), 2 ** rule.N - 1
    for a in orphan:
        s = steps[a][s]
    ask(s == 0, "orphan")


def judge_window(rule, c, n, forward, backward):
    j = min(c, n)
    power = rule.k ** (rule.m - 2 - (c - j))    # letter c - j of node u is u // power % k
    for P in range(rule.N ** 2):
        u, v = divmod(P, rule.N)
        ask(u // power % rule.k == v // power % rule.k or below(backward[P], j) or below(forward[P], n - j),
            "window", P)


def judge_twins(rule, x, y):
    ask(len(x) == len(y) != 0, "twins length")
    ask(x != y, "twins same")
    ask(rule.ring_image(x) == rule.ring_image(y), "twins image")


def judge_closing(rule, side, evidence, first_pairs, claims):
    if "ahead" in evidence:
        for P in first_pairs:
            ask(below(claims[P], evidence["ahead"] - 1), "ahead", side, P)
        return
    # Before cell 0 and from cell PART on both configurations have periods p, q <= PART, and so have their
    # images, but for m - 1 <= 4 cells before 0.  So 2*PART cells on each side tell of all.
    before, behind = 2 * PART + 4, 3 * PART + 4
    x, y = [(L * before)[-before:] + (M + R * behind)[:behind] for L, M, R in evidence["split"]]
    apart = slice(0, before) if side == "right" else slice(before + PART, None)
    ask(x != y, "split", side, "same")
    ask(x[apart] == y[apart], "split", side, "apart")
    ask(rule.image(x) == rule.image(y), "split", side, "image")


def judge_flux(rule, phi, weights):
    for w, letter in enumerate(rule.f):
        ask(weights[letter] - weights[w // rule.N] == phi[w // rule.k] - phi[w % rule.N], "flux", w)


def judge_ring(rule, ring, weights):
    def total(letters):
        return sum(weights[a] for a in letters)
    ask(ring and total(ring) != total(rule.ring_image(ring)), "ring")


def conditions(it):
    """Judges a certificate by all conditions, and gives the lines that accept it."""
    rule, forward, backward = it.rule, it.ranks["forward"], it.ranks["backward"]
    judge_ranks(rule, forward, backward)
    if "sets" in it.surjective:
        judge_sets(rule, it.surjective["sets"], it.version)
    elif "pairs" in it.surjective:
        judge_pairs(rule, it.surjective["pairs"])
    else:
        judge_orphan(rule, it.surjective["orphan"])
    if "n" in it.injective:
        judge_window(rule, it.injective["c"], it.injective["n"], forward, backward)
    else:
        judge_twins(rule, *it.injective["twins"])
    judge_closing(rule, "right", it.right, rule.first_right, forward)
    judge_closing(rule, "left", it.left, rule.first_left, backward)
    if "flux" in it.conserving:
        judge_flux(rule, it.conserving["flux"], it.weights)
    else:
        judge_ring(rule, it.conserving["ring"], it.weights)
    verdicts = [("surjective", "orphan" not in it.surjective), ("injective", "n" in it.injective),
                ("right", "ahead" in it.right), ("left", "ahead" in it.left),
                ("open", "ahead" in it.right and "ahead" in it.left), ("conserving", "flux" in it.conserving)]
    lines = ["accepted " + rule.text()] + [name + (" yes" if holds else " no") for name, holds in verdicts]
    if it.weights != list(range(rule.k)):
        lines.append("weights " + ",".join(map(str, it.weights)))
    return lines


def judge(data):
    """The exit status for these bytes, and what is printed."""
    if len(data) > LIMIT:
        return 5, "too long\n"
    try:
        lines, status = conditions(Certificate(data)), 0
    except Refused as refusal:
        lines, status = [f"refused {refusal}"], 1
    return status, "\n".join(lines) + "\n"


def main():
    # Where standard input is a folder, Python itself ends before this, with 1.
    data = bytearray()
    try:
        if sys.stdin is None:                   # the input was closed before we began
            return 6
        while len(data) <= LIMIT:
            block = os.read(0, LIMIT + 1 - len(data))
            if not block:
                break
            data += block
    except OSError:
        return 6
    status, output = judge(bytes(data))
    left = output.encode()
    try:
        while left:
            left = left[os.write(1, left):]
    except OSError:
        return 7
    return status


def ended():
    """The exit status of main; where Python itself fails 8 for want of memory and 70 else, so that it's never an answer's."""
    if len(sys.argv) > 1:
        # A name of a file isn't read, so an answer would be about something else.
        with contextlib.suppress(Exception):
            print(f"usage: python3 {sys.argv[0]} < CERTIFICATE (it reads standard input only)", file=sys.stderr)
        return 70
    try:
        return main()
    except MemoryError:
        return 8
    except Exception:
        with contextlib.suppress(Exception):
            traceback.print_exc()
        return 70


if __name__ == "__main__":
    sys.exit(ended())
