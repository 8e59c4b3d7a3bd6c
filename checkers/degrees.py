#!/usr/bin/env python3
"""Judges an answer that claims to know how many preimages a rule has. It uses only the table of the rule, and was written only
from docs/DEGREE.md; it doesn't use the library.

    python3 degrees.py < degree.json

reads the output of `python -m foursaspen degree RULE --json`, and prints `accepted`, or why the answer is refused. The exit
status is 0 if the answer is accepted, 1 if it is refused, and 70 if the program is called in another way.

A node is a word of width - 1 letters, and stands for its value. A set of nodes is a number: bit u says whether node u is in it.
"""
import json
import re
import sys
from fractions import Fraction
from itertools import product

HEX = "0123456789abcdef"


class Refused(Exception):
    """What is read is refused with these words."""


def need(holds, *words):
    if not holds:
        raise Refused(" ".join(map(str, words)))


class Rule:
    """A rule by its table. An edge leads from the first width - 1 letters of a window to its last ones."""

    def __init__(self, states, width, offset, table):
        self.states, self.width, self.offset, self.table = states, width, offset, table
        self.nodes = states ** (width - 1)
        self.edges = [(window // states, window % self.nodes, letter) for window, letter in enumerate(table)]

    def steps(self, forward):
        """For each letter, where the edges with this label lead from each node: forward, or back."""
        rows = [[0] * self.nodes for _ in range(self.states)]
        for start, end, label in self.edges:
            rows[label][start if forward else end] |= 1 << (end if forward else start)
        return [Step(row) for row in rows]

    def last_nodes(self, word):
        """The last nodes of a word: where the walks that read it end."""
        steps, here = self.steps(True), (1 << self.nodes) - 1
        for letter in word:
            here = steps[letter](here)
        return here

    def first_nodes(self, word):
        """The first nodes of a word: where the walks that read it begin."""
        steps, here = self.steps(False), (1 << self.nodes) - 1
        for letter in reversed(word):
            here = steps[letter](here)
        return here

    def fewest(self, forward):
        """The fewest nodes that a word has, and the first word with so few: shorter words come first, and words of one length in
        dictionary order, read from left to right, or from right to left if the walks go back."""
        steps, begin = self.steps(forward), (1 << self.nodes) - 1
        words, queue = {begin: ()}, [begin]
        least = begin
        for here in queue:
            if size(here) < size(least):
                least = here
            for letter, step in enumerate(steps):
                after = step(here)
                if after not in words:
                    words[after] = (*words[here], letter)
                    queue.append(after)
        return size(least), words[least] if forward else words[least][::-1]

    def ends(self):
        """The greatest number of ends of walks from one node with the same labels: Hedlund's right multiplier."""
        steps = self.steps(True)
        seen = {1 << node for node in range(self.nodes)}
        queue = list(seen)
        for here in queue:
            for step in steps:
                after = step(here)
                if after and after not in seen:
                    seen.add(after)
                    queue.append(after)
        return max(map(size, seen))

    def mirrored(self):
        """The rule that reads each window from right to left."""
        letters = [0] * len(self.table)
        for word in product(range(self.states), repeat=self.width):
            letters[self.value(word)] = self.table[self.value(word[::-1])]
        return Rule(self.states, self.width, -self.offset - self.width + 1, letters)

    def value(self, word):
        number = 0
        for letter in word:
            number = number * self.states + letter
        return number

    def is_injective(self):
        """Whether no two different walks without an end on both sides have the same labels."""
        follow = {(u, v): [] for u in range(self.nodes) for v in range(self.nodes)}
        for u, x, label in self.edges:
            for v, y, other in self.edges:
                if label == other:
                    follow[u, v].append((x, y))
        before = {pair: [] for pair in follow}
        for pair, after in follow.items():
            for other in after:
                before[other].append(pair)
        both = endless(follow) & endless(before)
        return all(u == v for u, v in both)


class Step:
    """A step from sets of nodes, by a table for the lower eight nodes and one for the others."""

    def __init__(self, row):
        self.low, self.high = halved(row[:8]), halved(row[8:])

    def __call__(self, nodes):
        return self.low[nodes & 255] | self.high[nodes >> 8]


def halved(row):
    """Where each set of these nodes leads."""
    found = [0]
    for ends in row:
        found += [before | ends for before in found]
    return found


def endless(follow):
    """The pairs from which a walk of pairs never ends."""
    alive = set(follow)
    while True:
        dead = {pair for pair in alive if not any(other in alive for other in follow[pair])}
        if not dead:
            return alive
        alive -= dead


def size(nodes):
    return bin(nodes).count("1")


def numbers(rule):
    """The fewest last nodes and first nodes, the degree, and both multipliers, each from its definition; None if the rule isn't
    surjective. The degree goes through all pairs of sets that contain no other set."""
    steps, back = rule.steps(True), rule.steps(False)
    lasts, firsts = minimal(rule, steps), minimal(rule, back)
    if 0 in lasts:
        return None
    return {"right": min(map(size, lasts)), "left": min(map(size, firsts)),
            "degree": min(size(one & other) for one in lasts for other in firsts),
            "right_multiplier": rule.ends(), "left_multiplier": rule.mirrored().ends()}


def minimal(rule, steps):
    """The sets that words have, without those that contain another one."""
    begin = (1 << rule.nodes) - 1
    seen, queue = {begin}, [begin]
    for here in queue:
        for step in steps:
            after = step(here)
            if after not in seen:
                seen.add(after)
                queue.append(after)
    kept = []
    for nodes in sorted(seen, key=size):
        if not any(nodes & other == other for other in kept):
            kept.append(nodes)
    return kept


def rule_of(text):
    """The rule of a text with a table."""
    found = re.fullmatch(r"(\d+):(\d+):(-?\d+):t([0-9a-f]+)", text) if isinstance(text, str) else None
    need(found, "rule")
    states, width, offset = int(found[1]), int(found[2]), int(found[3])
    need(2 <= states <= 16 and 2 <= width <= 5 and states ** (width - 1) <= 16, "shape")
    table = [HEX.index(digit) for digit in found[4]]
    need(len(table) == states ** width and max(table) < states, "table")
    return Rule(states, width, offset, table)


def word_of(rule, text, name):
    need(isinstance(text, str) and set(text) <= set(HEX[:rule.states]), name, "word")
    return [HEX.index(digit) for digit in text]


def looked_at(rule, side, name, forward):
    """The nodes of a side: the word has them, they are counted, no word has fewer, and no word before it has as few."""
    need(isinstance(side, dict) and set(side) == {"count", "word", "nodes"}, name, "keys")
    word = word_of(rule, side["word"], name)
    nodes = rule.last_nodes(word) if forward else rule.first_nodes(word)
    need(isinstance(side["nodes"], list), name, "nodes")
    named = [rule.value(word_of(rule, node, name)) for node in side["nodes"]
             if need(isinstance(node, str) and len(node) == rule.width - 1, name, "node") is None]
    need(named == [node for node in range(rule.nodes) if nodes >> node & 1], name, "nodes of the word")
    need(side["count"] == len(named) and not isinstance(side["count"], bool), name, "count")
    fewest, least = rule.fewest(forward)
    need(fewest == len(named), name, "has fewer:", fewest)
    need(tuple(word) == tuple(least), name, "has a word before this one")
    return nodes, word


def judge(answer):
    """Refused unless the answer is right."""
    need(isinstance(answer, dict) and set(answer) == {"rule", "degree", "right", "left", "multipliers", "flow"}, "keys")
    rule = rule_of(answer["rule"])
    last, word = looked_at(rule, answer["right"], "right", True)
    first, other = looked_at(rule, answer["left"], "left", False)
    if last == 0:
        need(first == 0 and answer["degree"] is None and answer["multipliers"] is None and answer["flow"] is None, "no degree")
        return
    degree = answer["degree"]
    need(isinstance(degree, int) and not isinstance(degree, bool), "degree")
    need(size(last) * size(first) == degree * rule.nodes, "product")
    for between in product(range(rule.states), repeat=rule.width - 1):
        need(size(last & rule.first_nodes([*between, *other])) == degree, "cut", *between)
    right, left = rule.ends(), rule.mirrored().ends()
    need(answer["multipliers"] == {"right": right, "left": left}, "multipliers")
    need(left * degree * right == rule.nodes, "product of the multipliers")
    if rule.is_injective():
        need(degree == 1, "degree of a reversible rule")
        flow = size(last) / Fraction(rule.states) ** (rule.offset + rule.width - 1)
        need(answer["flow"] == str(flow), "flow")
    else:
        need(answer["flow"] is None, "flow of a rule that isn't reversible")


def main():
    if len(sys.argv) > 1:
        print(__doc__, file=sys.stderr)
        return 70
    try:
        judge(json.load(sys.stdin))
    except (Refused, ValueError) as why:
        print("refused", why)
        return 1
    print("accepted")
    return 0


if __name__ == "__main__":
    sys.exit(main())
