#!/usr/bin/env python3
"""Finds the configurations that a rule only moves, by another way than the library, of which it uses nothing. It was written from
the definition: a rule only moves a configuration by s cells if each cell i of the image has the letter of cell i + s.

    python3 moved.py RULE S

takes a rule as STATES:WIDTH:OFFSET:tTABLE and prints the least ring and the windows, as `print(moved(RULE, S))` of the package
does, or `none`.

A window is good if the rule gives for it its letter at the place of the cell s. A rule moves a configuration so if and only if each
window is good. Let there be N words of width - 1 letters. If a word of good windows goes on for N letters on a side, it comes twice
to the same width - 1 letters, so it can go on for ever. So a window occurs in such a configuration if and only if it stands in a word
of good windows with N letters more on each side. The least ring is found by the least words that lead from each word of width - 1
letters to each other one, for one length after another.
"""
import re
import sys
from itertools import product

HEX = "0123456789abcdef"


class Rule:
    """A rule by its table: the letter for each window, by the window's letters."""

    def __init__(self, text):
        form = re.fullmatch("([0-9]{1,2}):([0-9]{1,2}):(-?[0-9]{1,2}):t([0-9a-f]+)", text)
        if not form:
            raise ValueError("RULE is STATES:WIDTH:OFFSET:tTABLE")
        self.letters, self.width, self.offset = HEX[:int(form[1])], int(form[2]), int(form[3])
        windows = ["".join(window) for window in product(self.letters, repeat=self.width)]
        if len(windows) != len(form[4]):
            raise ValueError("the table has a letter for each window")
        self.table = dict(zip(windows, form[4]))
        self.nodes = ["".join(word) for word in product(self.letters, repeat=self.width - 1)]

    def good(self, s):
        """The windows for which the rule gives their letter at the place of the cell s."""
        place = s - self.offset
        if not 0 <= place < self.width:
            raise ValueError(f"S is {self.offset} to {self.offset + self.width - 1}")
        return {window for window, letter in self.table.items() if letter == window[place]}


def goes_on(rule, good, window):
    """Whether words of good windows go on from a window for as many letters as there are words of width - 1 letters, on both sides."""
    right, left = {window[1:]}, {window[:-1]}
    for _ in rule.nodes:
        right = {(word + letter)[1:] for word in right for letter in rule.letters if word + letter in good}
        left = {(letter + word)[:-1] for word in left for letter in rule.letters if letter + word in good}
    return bool(right) and bool(left)


def windows(rule, s):
    """The windows that occur in configurations that the rule only moves by s, in the order of their values."""
    good = rule.good(s)
    return sorted(window for window in good if goes_on(rule, good, window))


def least_ring(rule, s):
    """The least ring, or None if there is none: shortest first, then in dictionary order."""
    good = rule.good(s)
    words = {(node, node): "" for node in rule.nodes}       # the least words that lead from a node to a node
    for _ in rule.nodes:
        longer = {}
        for (start, node), word in words.items():
            for letter in rule.letters:
                if node + letter in good:
                    way = start, (node + letter)[1:]
                    longer[way] = min(longer.get(way, word + letter), word + letter)
        words = longer
        if rings := [word for (start, end), word in words.items() if start == end]:
            return min(rings)
    return None


def said(rule, s):
    """What the package prints."""
    ring = least_ring(rule, s)
    return "none\n" if ring is None else f"ring {ring}\nwindows {' '.join(windows(rule, s))}\n"


def main(words):
    if len(words) != 2 or not re.fullmatch("-?[0-9]{1,2}", words[1]):
        print("usage: python3 moved.py RULE S", file=sys.stderr)
        return 70
    try:
        print(said(Rule(words[0]), int(words[1])), end="")
    except ValueError as fault:
        print(f"moved: {fault}", file=sys.stderr)
        return 1
    return 0


if __name__ == "__main__":
    sys.exit(main(sys.argv[1:]))
