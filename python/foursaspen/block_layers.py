"""Reversible rules as two layers of block permutations (Kari 1996).

The line of cells is cut into blocks of `size` cells. The first layer turns each block into a pair of a left part and a right
part. The second layer turns the right part of a block and the left part of the next block into a block of the image. Both
layers are one to one. Nothing here is proved: `blocks` checks each of its answers by going through all cases.
"""
from __future__ import annotations

import json
from dataclasses import dataclass, field
from itertools import product
from typing import Any, TypeVar

from .commands import decide
from .drawing import GREY, MARGIN, SHADE, Canvas, Picture
from .faults import NotFitError, UsageError
from .report import Answer, line
from .rule_values import DIGITS, Rule, RuleLike, rule_of
from .telling import CELL, draw_letter

MOST_IMAGES = 1 << 21                           # of words that a search or a check goes through
SHOWN = 3                                       # blocks of a picture
Word = tuple[int, ...]
Whole = TypeVar("Whole")


@dataclass(frozen=True)
class Blocks(Answer):
    """A reversible rule as two layers.

    `split` has for each block of `size` letters the numbers of its left part, below `lefts`, and of its right part, below
    `rights`. `join` has for the right part of a block and the left part of the next one a block of the image, which begins
    `shift` cells to the right of the first of these two blocks. Each pair of a left and a right part belongs to one block, and
    each block of the image to one pair."""
    text: str = field(repr=False)
    rule: Rule
    size: int
    shift: int
    lefts: int
    rights: int
    split: dict[str, tuple[int, int]] = field(repr=False)
    join: dict[tuple[int, int], str] = field(repr=False)

    def __hash__(self) -> int:
        return hash((self.rule, self.text))

    def as_dict(self) -> dict[str, Any]:
        """The values that JSON has room for: each layer is a list of rows."""
        return {"rule": str(self.rule), "size": self.size, "shift": self.shift, "lefts": self.lefts, "rights": self.rights,
                "split": [[block, *parts] for block, parts in self.split.items()],
                "join": [[*parts, block] for parts, block in self.join.items()]}

    def as_json(self) -> str:
        """The same as a JSON text."""
        return json.dumps(self.as_dict())

    def image(self, ring: str) -> str:
        """The image of a ring of whole blocks, by the two layers alone."""
        if not ring or len(ring) % self.size or set(ring) - set(DIGITS[:self.rule.states]):
            raise UsageError(f"ring is a text of digits whose length is a multiple of {self.size}, and not {ring!r}")
        parts = [self.split[ring[at:at + self.size]] for at in range(0, len(ring), self.size)]
        made = "".join(self.join[right, parts[(place + 1) % len(parts)][0]] for place, (_, right) in enumerate(parts))
        turned = self.shift % len(ring)
        return made[len(made) - turned:] + made[:len(made) - turned]

    def picture(self) -> Picture:
        """Three blocks, their parts, and what the parts are joined to."""
        return drawn(self)


def blocks(rule: RuleLike) -> Blocks:
    """Two layers of block permutations that have the map of a reversible rule. The blocks have the least size of at least
    width - 1 cells, which is the least of all sizes if the rule depends on the first and the last cell of its window. For this
    size the blocks of the image begin as far to the left as can be. NotFitError if the rule isn't reversible, and UsageError if
    the layers would be too large."""
    known = rule_of(rule)
    report = decide(known)
    if report.window is None:
        raise NotFitError("twins", *map(str, [report.twins] if report.twins else []), why="the rule isn't reversible")
    reach = known.width - 1
    enough = 2 * reach + report.window.letters - 1
    for size in range(max(reach, 1), enough + 1):
        if known.states ** (size + reach) > MOST_IMAGES:
            raise UsageError(f"blocks of {size} cells are too large for a search")
        for cut in range(size - reach + 1):
            found = layers(known, size, cut)
            if found is not None:
                check(found, cut)
                return found
    raise AssertionError(f"{known} has no layers of blocks of at most {enough} cells")


def layers(rule: Rule, size: int, cut: int) -> Blocks | None:
    """The two layers with this size whose blocks of the image begin `cut` cells after a block, but for the offset; or None."""
    reach = rule.width - 1
    nodes = words(rule.states, reach)
    # What the first letters of a block make of the left, for each node before them, and the last letters of the right.
    heads = {head: tuple(image(rule, node + head) for node in nodes) for head in words(rule.states, cut + reach)}
    tails = {tail: tuple(image(rule, tail + node) for node in nodes) for tail in words(rule.states, size - cut)}
    left, right = numbered(heads), numbered(tails)
    lefts, rights = len(set(left.values())), len(set(right.values()))
    if lefts * rights != rule.states ** size:
        return None
    split = {block: (left[block[:cut + reach]], right[block[cut:]]) for block in words(rule.states, size)}
    join: dict[tuple[int, int], Word] = {}
    for tail, second in right.items():
        for head, first in left.items():
            join.setdefault((second, first), image(rule, tail + head))
    if len(set(split.values())) != len(split) or len(set(join.values())) != len(split):
        return None
    named = {shown(block): parts for block, parts in split.items()}
    joined = {parts: shown(block) for parts, block in sorted(join.items())}
    shift = cut - rule.offset
    text = (line("size", size) + line("shift", shift) + line("lefts", lefts) + line("rights", rights)
            + "".join(line("split", block, *parts) for block, parts in named.items())
            + "".join(line("join", *parts, block) for parts, block in joined.items()))
    found = Blocks(text, rule, size, shift, lefts, rights, named, joined)
    return found if agrees(found, cut) else None


def agrees(found: Blocks, cut: int) -> bool:
    """Whether the two layers give the image of each two blocks: a block of the image depends on the last letters of one block and
    on the first letters of the next one, so it goes through all of these."""
    rule = found.rule
    reach = rule.width - 1
    lefts = {shown(head): {found.split[shown(block)][0] for block in completed(rule, head, found.size)}
             for head in words(rule.states, cut + reach)}
    rights = {shown(tail): {found.split[shown(block)][1] for block in completed(rule, tail, -found.size)}
              for tail in words(rule.states, found.size - cut)}
    return all(len(parts) == 1 for parts in [*lefts.values(), *rights.values()]) and all(
        found.join[second, first] == shown(image(rule, tail + head))
        for tail in words(rule.states, found.size - cut) for second in rights[shown(tail)]
        for head in words(rule.states, cut + reach) for first in lefts[shown(head)])


def check(found: Blocks, cut: int) -> None:
    """AssertionError unless both layers are one to one and give the image of all blocks."""
    size, states = found.size, found.rule.states
    pairs = {(left, right) for left in range(found.lefts) for right in range(found.rights)}
    all_blocks = {shown(block) for block in words(states, size)}
    assert set(found.split) == all_blocks and set(found.split.values()) == pairs and len(pairs) == len(all_blocks), found.rule
    assert {(left, right) for right, left in found.join} == pairs and set(found.join.values()) == all_blocks, found.rule
    assert agrees(found, cut), found.rule


def completed(rule: Rule, part: Word, size: int) -> list[Word]:
    """The blocks that begin with these letters, or for a size below 0 that end with them."""
    rest = words(rule.states, abs(size) - len(part))
    return [part + other if size > 0 else other + part for other in rest]


def words(states: int, letters: int) -> list[Word]:
    """All words of so many letters, by their values."""
    return list(product(range(states), repeat=letters))


def image(rule: Rule, word: Word) -> Word:
    """The image of a word, which is width - 1 letters shorter."""
    states, width, table = rule.states, rule.width, rule.table
    size, window, made = states ** width, 0, []
    for place, letter in enumerate(word, 1):
        window = (window * states + letter) % size
        if place >= width:
            made.append(table[window])
    return tuple(made)


def numbered(given: dict[Word, Whole]) -> dict[Word, int]:
    """A number for each word, from 0 on, the same for words with the same value."""
    seen: dict[Whole, int] = {}
    return {word: seen.setdefault(value, len(seen)) for word, value in given.items()}


def shown(word: Word) -> str:
    """A word as digits."""
    return "".join(DIGITS[letter] for letter in word)


def drawn(found: Blocks) -> Picture:
    """Three blocks beneath each other layer: cells, parts, and cells of the image."""
    states, size = found.rule.states, found.size
    named = list(found.split)
    chosen = [named[(place + 1) * len(named) // (SHOWN + 1)] for place in range(SHOWN)]
    wide = CELL * size + CELL
    canvas = Canvas(f"{found.rule} as two layers of blocks of {size} cells")
    canvas.lines_of_text(26, f"{found.rule} as two layers of blocks of {size} cells", 15, bold=True)
    top = 48.0
    for place, block in enumerate(chosen):
        x = MARGIN + wide * place
        for at, letter in enumerate(block):
            draw_letter(canvas, states, letter, x + CELL * at, top)
        canvas.box(x, top + CELL + 12, CELL * size, CELL, SHADE, GREY)
        left, right = found.split[block]
        canvas.text(x + CELL * size / 4, top + 2 * CELL + 8, str(left))
        canvas.text(x + CELL * size * 3 / 4, top + 2 * CELL + 8, str(right))
        canvas.line([(x + CELL * size / 2, top + CELL + 12), (x + CELL * size / 2, top + 2 * CELL + 12)], GREY)
    for place in range(SHOWN - 1):
        middle = MARGIN + wide * place + wide / 2
        lower = top + 3 * CELL + 30
        pair = found.split[chosen[place]][1], found.split[chosen[place + 1]][0]
        for part, from_x in zip(pair, (MARGIN + wide * place + CELL * size * 3 / 4, MARGIN + wide * (place + 1) + CELL * size / 4)):
            to_x = middle + CELL * size * (1 if from_x < middle + CELL * size / 2 else 3) / 4
            canvas.arrow([(from_x, top + 2 * CELL + 12), (to_x, lower)], GREY)
            canvas.text(to_x, lower + CELL - 4, str(part))
        canvas.box(middle, lower, CELL * size, CELL, "none", GREY)
        for at, letter in enumerate(found.join[pair]):
            draw_letter(canvas, states, letter, middle + CELL * at, lower + CELL + 12)
    where = (f"{abs(found.shift)} cell{'' if abs(found.shift) == 1 else 's'} to the {'right' if found.shift > 0 else 'left'} of"
             if found.shift else "at")
    canvas.lines_of_text(top + 6 * CELL + 44, f"Each block of the image begins {where} the first cell of the two blocks from whose "
                         "parts it is made.", 12, GREY)
    return canvas.svg()
