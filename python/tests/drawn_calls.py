"""Calls of all commands, drawn from a seed, with the answers of the library."""
from __future__ import annotations

import random

import foursaspen as ca

from .support import DIGITS, drawn

Call = tuple[list[str], str]                    # the words, and the input
OF_A_RULE = ("orphan", "number", "language", "erase", "inverse", "trim", "reflect", "least", "lift", "unlift")
COMMANDS = (*OF_A_RULE, "decide", "certify", "brief", "check", "survey", "sample", "classes", "same", "compose", "preimage", "widen", "shift",
            "permute")
WRONG = ("", "x", "256", "2:3:-1:t0111011", "2:3:-1:t01110112", "17:2:0:t0", "2:6:0:t0", "2:3:-17:w1", "7:2:0:w1", "2:3:99:w110", "2:3:-1:w300",
         "5:3:0:t0", "2:3:-1:t0111 0110", "é")


def rules_of(dice: random.Random, count: int) -> list[str]:
    """Rules of all shapes and offsets, of which many are surjective or injective, elementary rules, and texts that are no rules."""
    made = [*drawn(count // 2, dice.randrange(1 << 30)), *(str(dice.randrange(256)) for _ in range(count // 4)), *WRONG]
    for _ in range(count // 4):                 # a permutation of the letter at one place, which may be wrong at one window
        states, width = dice.choice(((2, 3), (2, 4), (2, 5), (3, 2), (3, 3), (4, 2), (5, 2), (9, 2), (16, 2)))
        names, place = dice.sample(range(states), states), dice.randrange(width)
        table = [names[value // states ** place % states] for value in range(states ** width)]
        if dice.random() < .3:
            table[dice.randrange(len(table))] = dice.randrange(states)
        made.append(f"{states}:{width}:{dice.randint(-16, 17 - width)}:t{''.join(DIGITS[letter] for letter in table)}")
    return made


def states_of(rule: str) -> int:
    first = rule.split(":")[0]
    return int(first) if ":" in rule and first.isdigit() and int(first) in range(2, 17) else 2


def operands(dice: random.Random, name: str, rule: str, rules: list[str]) -> list[str]:
    """What stands behind a command and its rule."""
    states = states_of(rule)
    letters = "".join(dice.sample(DIGITS[:states], states))
    alike = [one for one in rules if states_of(one) == states]
    weights = ",".join(str(dice.randrange(256)) for _ in range(states if dice.random() < .9 else dice.randint(1, 16)))
    tail = "|".join("".join(dice.choices(DIGITS[:states], k=dice.randint(least, 6))) for least in (1, 0, 1))
    return {"same": [dice.choice(alike)], "compose": [dice.choice(alike)], "preimage": [tail], "widen": [str(dice.randint(1, 6))],
            "shift": [str(dice.randint(-20, 20))], "permute": [letters if dice.random() < .9 else letters[1:] + "0"],
            }.get(name, [weights] if name in ("decide", "certify", "brief") and dice.random() < .3 else [])


def drawn_call(dice: random.Random, rules: list[str]) -> Call:
    name, rule = dice.choice(COMMANDS), dice.choice(rules)
    if dice.random() < .01:
        return [name, *dice.choices(["", "0", "110", "x", "2"], k=dice.randint(0, 6))], ""
    if name in ("survey", "sample", "classes"):
        states, width = dice.choice(((2, 2), (2, 3), (2, 4), (2, 5), (3, 2), (3, 3), (4, 2), (6, 2), (7, 2)))
        first = dice.randrange(min(states ** states ** width, 10 ** 19))
        return [name, str(states), str(width), str(first), str(dice.randint(0, 60))], ""
    if name != "check":
        return [name, rule, *operands(dice, name, rule, rules)], ""
    text = ca.run([dice.choice(("certify", "brief")), rule]).output.decode()
    if dice.random() < .5:
        at = dice.randrange(len(text))
        text = text[:at] + dice.choice('0123456789,[]{}"ax') + text[at + dice.randint(0, 1):]
    return ["check"], text


def drawn_calls(count: int, seed: int) -> list[Call]:
    """So many calls."""
    dice = random.Random(seed)
    rules = rules_of(dice, 400)
    return [drawn_call(dice, rules) for _ in range(count)]


def answers(calls: list[Call]) -> list[list[object]]:
    """The code and the output of each call, by the library."""
    made: list[list[object]] = []
    for words, data in calls:
        outcome = ca.run(words, data.encode())
        made.append([outcome.code, outcome.output.decode()])
    return made
