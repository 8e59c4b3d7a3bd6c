#!/usr/bin/env python3
"""Judges an answer that claims to have all the sums that a rule keeps. It uses only the table of the rule, and was written only from
docs/SUMS.md; it doesn't use the library.

    python3 sums.py < kept.json

reads the output of `python -m foursaspen kept RULE RANGE --json`, and prints `accepted`, or why the answer is refused. The exit
status is 0 if the answer is accepted, 1 if it is refused, and 70 if the program is called in another way.

Weights are a list with one weight for each word of `letters` letters, in the order of the words' values. Ranks are computed with
fractions.
"""
import json
import re
import sys
from fractions import Fraction
from itertools import product
from math import gcd

HEX = "0123456789abcdef"


class Refused(Exception):
    """What is read is refused with these words."""


def need(holds, *words):
    if not holds:
        raise Refused(" ".join(words))


class Rule:
    """A rule by its table. The offset turns an image round, and changes no sum on a ring."""

    def __init__(self, states, width, table):
        self.states, self.width, self.table = states, width, table

    def value(self, word):
        number = 0
        for letter in word:
            number = number * self.states + letter
        return number

    def words(self, letters):
        return product(range(self.states), repeat=letters)

    def round(self, ring, letters):
        """The values of the words that begin at each place of a ring."""
        return [self.value([ring[(place + i) % len(ring)] for i in range(letters)]) for place in range(len(ring))]

    def image(self, ring):
        return [self.table[window] for window in self.round(ring, self.width)]

    def condition(self, ring, letters):
        """How often each word stands round the image, less how often it stands round the ring."""
        counts = [0] * self.states ** letters
        for word in self.round(self.image(ring), letters):
            counts[word] += 1
        for word in self.round(ring, letters):
            counts[word] -= 1
        return counts

    def gain(self, weights, letters, window):
        """What the image of a window of width + letters - 1 letters weighs more than its first letters."""
        image = [self.table[self.value(window[i:i + self.width])] for i in range(letters)]
        return weights[self.value(image)] - weights[self.value(window[:letters])]

    def flux(self, weights, letters):
        """The flux of weights that has 0 at the word of letters 0: by the walk that reads letters 0. None where that is
        no flux, and then the sum isn't kept."""
        long = self.width + letters - 2
        numbers = []
        for word in self.words(long):
            walk = list(word) + [0] * long
            numbers.append(sum(self.gain(weights, letters, walk[i:i + long + 1]) for i in range(long)))
        return numbers if self.is_flux(weights, letters, numbers) else None

    def is_flux(self, weights, letters, numbers):
        return all(self.gain(weights, letters, list(window)) ==
                   numbers[self.value(window[:-1])] - numbers[self.value(window[1:])]
                   for window in self.words(self.width + letters - 1))


def rank(rows):
    """The rank of rows of whole numbers, over fractions."""
    left = [[Fraction(number) for number in row] for row in rows]
    found = 0
    for column in range(len(rows[0]) if rows else 0):
        pivot = next((row for row in left if row[column]), None)
        if pivot is None:
            continue
        found += 1
        left.remove(pivot)
        for place, row in enumerate(left):
            times = row[column] / pivot[column]
            left[place] = [a - times * b for a, b in zip(row, pivot)]
    return found


def fault(rule, letters, rows, rings):
    """What is wrong with rows of weights and with rings, each by the value of its word; None where all is well."""
    first, size = rule.states ** (letters - 1), rule.states ** letters
    if sorted([*rows, *rings]) != list(range(first, size)):
        return "places"
    for place, row in rows.items():
        if any(row[:place]) or row[place] <= 0 or gcd(*row) != 1:
            return f"row {place} doesn't begin as it should"
        if any(other[place] for begin, other in rows.items() if begin != place):
            return f"another row has a number at {place}"
        if rule.flux(row, letters) is None:
            return f"row {place} isn't kept"
    conditions = [rule.condition(ring, letters)[first:] for ring in rings.values()]
    if rank(conditions) != size - first - len(rows):
        return "the rings allow more than the rows"
    return None


def dimension(rule, letters, longest):
    """How many sums apart from the trivial ones the rings of at most so many letters allow, by their rank alone."""
    conditions = [rule.condition(ring, letters) for count in range(1, longest + 1) for ring in rule.words(count)]
    trivial = rule.states ** (letters - 1)
    return rule.states ** letters - trivial - rank([list(row) for row in set(map(tuple, conditions))])


# What is read

def read_rule(text):
    form = re.fullmatch("([0-9]{1,2}):([0-9]{1,2}):-?[0-9]{1,2}:t([0-9a-f]+)", text) if type(text) is str else None
    need(form, "format rule")
    states, width = int(form[1]), int(form[2])
    need(2 <= states <= 16 and 2 <= width <= 5 and states ** (width - 1) <= 16 and len(form[3]) == states ** width, "format rule")
    table = [HEX.index(digit) for digit in form[3]]
    need(max(table) < states, "format rule")
    return Rule(states, width, table)


def read_word(rule, word, letters=None):
    """The letters of a word."""
    need(type(word) is str and letters in (None, len(word)) and word and set(word) <= set(HEX[:rule.states]), "format word")
    return [HEX.index(digit) for digit in word]


def read_numbers(rule, numbers, letters):
    """The numbers of the words of so many letters, by their values; those that aren't named are 0."""
    need(type(numbers) is dict and all(type(number) is int for number in numbers.values()), "format numbers")
    read = [0] * rule.states ** letters
    for word, number in numbers.items():
        read[rule.value(read_word(rule, word, letters))] = number
    return read


def judge(text):
    """The line that accepts a text; Refused where it is none that is accepted."""
    try:
        given = json.loads(text)
    except ValueError:
        raise Refused("format") from None
    need(type(given) is dict and set(given) in ({"rule", "range", "rows", "rings"}, {"rule", "range", "rows", "rings", "fluxes"}), "format")
    rule, letters = read_rule(given["rule"]), given["range"]
    need(type(letters) is int and letters >= 1 and rule.states ** letters <= 16, "format range")
    need(type(given["rows"]) is list and type(given["rings"]) is dict, "format")
    rows = [read_numbers(rule, row, letters) for row in given["rows"]]
    need(all(map(any, rows)), "format row")
    placed = {next(place for place, number in enumerate(row) if number): row for row in rows}
    need(len(placed) == len(rows), "places")
    rings = {rule.value(read_word(rule, word, letters)): read_word(rule, ring) for word, ring in given["rings"].items()}
    wrong = fault(rule, letters, placed, rings)
    need(wrong is None, wrong or "")
    fluxes = given.get("fluxes")
    need(fluxes is None or type(fluxes) is list and len(fluxes) == len(rows), "format fluxes")
    for row, numbers in zip(rows, fluxes or []):
        flux = read_numbers(rule, numbers, rule.width + letters - 2)
        need(rule.is_flux(row, letters, flux), f"flux of the row {name(rule, letters, row)}")
    return f"accepted {given['rule']} range {letters} rows {len(rows)} rings {len(rings)}"


def name(rule, letters, row):
    """The word at which a row begins."""
    place = next(place for place, number in enumerate(row) if number)
    return "".join(HEX[place // rule.states ** at % rule.states] for at in reversed(range(letters)))


def main(words):
    if words:
        print("usage: python3 sums.py < kept.json", file=sys.stderr)
        return 70
    try:
        line, status = judge(sys.stdin.read()), 0
    except Refused as refusal:
        line, status = f"refused {refusal}", 1
    print(line)
    return status


if __name__ == "__main__":
    sys.exit(main(sys.argv[1:]))
