"""Calls of the C functions that take no words, drawn from a seed: by the library here, or by the module of the page for browsers.

An operand is a number, a whole number of 64 bits as {"whole": DIGITS}, bytes with their length as {"bytes": HEX}, or a room that the call
writes to, {"room": BYTES}, with its length behind it if it is "sized", and with "begin" in it at first."""
from __future__ import annotations

import ctypes
import random
from pathlib import Path
from typing import Any

Operands = list[Any]
SHAPES = ((2, 2), (2, 3), (2, 4), (2, 5), (3, 2), (3, 3), (4, 2), (4, 3), (5, 2), (7, 2), (16, 2), (17, 2), (2, 6), (1, 2))
REPORT, SUMS, MOVED = 1024, 2304, 50            # bytes of a room for a report, for sums, for moved configurations
COUNTS, RINGS = 2048, 2064                      # where counts and rings begin among sums
PLACES = (0, -2 ** 61, 2 ** 61, 2 ** 61 + 1)


def table_of(dice: random.Random, states: int, width: int) -> list[int]:
    """A table, which may be a letter too long, or have a letter too many."""
    size = states ** width if states ** width <= 256 else 256
    rows = [dice.sample(range(states), states) if dice.random() < .7 else dice.choices(range(states), k=states) for _ in range(size // states)]
    table = [letter for row in rows for letter in row]
    return [*table, *([0] if dice.random() < .03 else [])] if dice.random() < .97 else [states, *table[1:]]


def hexed(letters: list[int]) -> dict[str, str]:
    return {"bytes": bytes(letters).hex()}


def drawn(dice: random.Random) -> list[tuple[str, Operands]]:
    """A call of each function."""
    states, width = dice.choice(SHAPES)
    table, letters = hexed(table_of(dice, states, width)), min(states, 16)
    offset = dice.randint(-18, 18) if dice.random() < .2 else -(width // 2)
    weights = hexed([dice.randrange(256) for _ in range(dice.choice((0, 0, states, 3)))])
    parts = [hexed(dice.choices(range(letters), k=dice.randint(least, 5))) for least in (1, 0, 1)]
    windows, bit = min(states ** width, 256), dice.choice((1, 2, 4, 8, 16, 32, 3))
    weighed = [dice.randint(-9, 9) for _ in range(16)] if dice.random() < .3 else [0, 1, 0, 0, *[0] * 12]
    sixteen = b"".join(weight.to_bytes(8, "little", signed=True) for weight in weighed).hex()
    made: list[tuple[str, Operands]] = [
        ("ca_report", [states, width, offset, table, weights, {"room": REPORT}, {"room": dice.choice((400, 5)), "sized": True}, {"room": 8}]),
        ("ca_kept_sums", [states, width, table, dice.choice((0, 1, 1, 2, 2, 3, 4, 5)), {"room": SUMS}]),
        ("ca_flux", [states, width, table, dice.choice((1, 1, 2, 2, 3)), {"room": 128, "begin": sixteen}, {"room": 1024}]),
        ("ca_verdict_bytes", [states, width, {"whole": str(dice.choice((0, 0, dice.randrange(2 ** 50))))},
                              {"whole": str(dice.randrange(2 ** 32))}, {"room": dice.randint(1, 40), "sized": True}]),
        ("ca_image", [states, width, offset, table, *parts, {"whole": str(dice.choice((dice.randint(-50, 50), *PLACES)))},
                      {"room": 40, "sized": True}]),
        ("ca_moved", [states, width, offset, table, offset + dice.randint(-1, width), {"room": MOVED}]),
        ("ca_window_order", [bit, states, width, {"room": windows, "sized": True}]),
        ("ca_verdicts", [states, width, table])]
    if windows <= 16:
        order = bytes(dice.sample(range(windows), windows)).hex()
        size = len(table["bytes"]) // 2
        begin = hexed([dice.choice((0, 1, 255)) for _ in range(dice.randint(0, 3))])
        made.append(("ca_next_rule", [bit, states, width, {"bytes": order}, begin, 1, {"room": size, "begin": table["bytes"], "sized": True}]))
    return made


def called(library: Path, name: str, operands: Operands) -> list[str]:
    """The result of a call by the library, and what it leaves in each room."""
    function = getattr(ctypes.CDLL(str(library)), name)
    given: list[Any] = []
    rooms: list[Any] = []
    function.restype = ctypes.c_uint64 if name == "ca_verdicts" else ctypes.c_uint8
    for it in operands:
        if isinstance(it, int):
            given.append(ctypes.c_int(it))
        elif "whole" in it:
            given.append(ctypes.c_uint64(int(it["whole"]) & (1 << 64) - 1))
        elif "bytes" in it:
            data = bytes.fromhex(it["bytes"])
            given += [ctypes.create_string_buffer(data, max(len(data), 1)), ctypes.c_size_t(len(data))]
        else:
            rooms.append(ctypes.create_string_buffer(bytes.fromhex(it.get("begin", "00" * it["room"])), it["room"]))
            given += [rooms[-1], *([ctypes.c_size_t(it["room"])] if it.get("sized") else [])]
    return known(name, [str(function(*given)), *(room.raw.hex() for room in rooms)])


def known(name: str, answer: list[str]) -> list[str]:
    """An answer without what means nothing: the high byte of verdicts, and the bytes behind the letters of a ring."""
    result, *rooms = answer
    if name == "ca_verdicts":
        return [str(int(result) & (1 << 56) - 1)]
    if name == "ca_kept_sums":
        data = bytearray.fromhex(rooms[0])
        for place in range(16):
            begin = RINGS + 15 * place
            data[begin + data[COUNTS + place]:begin + 15] = bytes(15 - data[COUNTS + place])
        rooms = [data.hex()]
    return [str(int(result) & 255), *rooms]
