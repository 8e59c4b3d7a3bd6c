"""The current of a sum that is kept, from its flux and the offset of the rule.

The flux of a word stands at the first letters of windows. The current stands between cells: what a cell's word weighs more in
the image than before is the current to the left of the cell less that to its right. This leaves a constant free, the same at all
places. It is chosen so that nothing moves through cells of the letter 0. So the current doesn't change if one number is added to all
weights.
"""
from __future__ import annotations

from collections.abc import Sequence

from .faults import UsageError

MOST = 1 << 16                                  # words of a current


def reach(width: int, offset: int, letters: int) -> int:
    """How many letters the words of a current have: as many as those of the flux, where windows hold their own cells."""
    flux = width + letters - 2
    return max(flux, letters - 1 - offset, flux + offset)


def current_of(states: int, width: int, offset: int, letters: int, flux: Sequence[int], weights: Sequence[int]) -> tuple[int, ...]:
    """The current of weights of words of so many letters, for each word by its value. `flux` and `weights` are by the values
    of their words too. UsageError where there are too many words."""
    long = reach(width, offset, letters)
    if states ** long > MOST:
        raise UsageError(f"the current of offset {offset} has a number for each word of {long} letters, and there are more than "
                         f"{MOST:,}: `shift` gives the rule another offset")

    def part(word: int, place: int, count: int) -> int:
        """The value of so many letters of a word from a place on."""
        size: int = states ** count
        below: int = states ** (long - place - count)
        return word // below % size

    def number(word: int) -> int:
        moved = sum(weights[part(word, place, letters)] - weights[0] for place in range(abs(offset)))
        return flux[part(word, max(offset, 0), width + letters - 2)] + (moved if offset < 0 else -moved)
    return tuple(number(word) for word in range(states ** long))
