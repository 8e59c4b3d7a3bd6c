"""The shared library, called through ctypes.

It is looked for where the environment variable CA_LIBRARY says, then beside this module, where a wheel has it, and
else in the repository that this package lies in. `./library` at the top of the repository proves and builds it.
"""
from __future__ import annotations

import ctypes
import functools
import os
import threading
from collections.abc import Callable, Iterable, Sequence
from pathlib import Path
from typing import Any, NamedTuple

from .faults import LibraryMissingError, OutOfMemoryError, WordsError

VERSION = 2                                     # of the C interface
NAME = "libca_c.so"
HERE = Path(__file__).resolve().parent
TOP = HERE.parents[1]                           # of the repository, where the package lies in it
ROOM = 1 << 16                                  # bytes, at first
WORDS_ROOM = 256                                # letters of the words of a degree, at first
WORD = (1 << 64) - 1                            # the greatest number of 64 bits

MEMORY, NO_WORDS, NO_ROOM = 8, 9, 10            # codes that come without an output
NOT_KEPT = 17                                   # the code of a sum that has no flux

# Of the C library's mallopt, where it is glibc: from which size on a block is asked of the system, and how much free
# memory at the end of the heap is kept.
TRIM_THRESHOLD, MMAP_THRESHOLD = -1, -3
KEPT = 32 << 20                                 # bytes


ADVICE = (f"run ./library in {TOP}, which proves and builds it" if (TOP / "library").exists() else
          "install the wheel that ./wheel makes in the repository, or name a library by the environment variable CA_LIBRARY")


class RuleVerdicts(ctypes.Structure):
    """What holds of a rule, or the number of the fault for which nothing is known."""
    _fields_ = [("fault", ctypes.c_uint8), *((name, ctypes.c_bool) for name in (
        "surjective", "injective", "right", "left", "is_open", "conserving"))]


class KeptTable(ctypes.Structure):
    """The sums that a rule keeps: struct ca_kept_sums."""
    _fields_ = [("rows", (ctypes.c_int64 * 16) * 16), ("counts", ctypes.c_uint8 * 16),
                ("rings", (ctypes.c_uint8 * 15) * 16)]


class MovedTable(ctypes.Structure):
    """The configurations that a rule only moves: struct ca_moved_configs."""
    _fields_ = [("rows", ctypes.c_uint16 * 16), ("ring", ctypes.c_uint8 * 16), ("length", ctypes.c_uint8)]


class LetterRow(ctypes.Structure):
    """Where a word is in a buffer of letters: struct ca_row."""
    _fields_ = [("begin", ctypes.c_size_t), ("length", ctypes.c_size_t)]


class RuleDegree(ctypes.Structure):
    """The degree of a rule and what belongs to it: struct ca_rule_degree."""
    _fields_ = [*((name, ctypes.c_uint8) for name in ("fault", "degree", "right", "left", "right_multiplier", "left_multiplier")),
                ("right_nodes", ctypes.c_uint16), ("left_nodes", ctypes.c_uint16), ("reserved", ctypes.c_uint8 * 6),
                ("right_word", LetterRow), ("left_word", LetterRow)]


class RoomHandle(ctypes.Structure):
    """Memory that calls use again and again: struct ca_room."""
    _fields_ = [("is_open", ctypes.c_bool), ("memory", ctypes.c_void_p)]


class OpenRoom:
    """A room of some 17 MB, which is open as long as this object is there. It serves one call at a time."""

    def __init__(self, open_room: Callable[..., int], close: Callable[..., None]) -> None:
        self.handle = RoomHandle()
        self._close = close
        if open_room(ctypes.byref(self.handle)):
            raise OutOfMemoryError("there was no memory")

    def __del__(self) -> None:
        self._close(ctypes.byref(self.handle))


Weights = ctypes.c_int64 * 16                   # of words, by their values
Flux = ctypes.c_int64 * 128                     # a number for each word, by its value


class Outcome(NamedTuple):
    """What the program comes to: the code of its status, and what it prints, or the JSON form of that."""
    code: int
    output: bytes


class Library:
    """A loaded library. Calls of several threads don't meet: each thread has a buffer and a room of its own."""

    def __init__(self, path: Path) -> None:
        try:
            loaded = ctypes.CDLL(str(path))
            self._run, self._run_json = loaded.ca_run, loaded.ca_run_json
            self._verdicts = loaded.ca_verdicts
            self._verdict_bytes = loaded.ca_verdict_bytes
            self._window_order = loaded.ca_window_order
            self._next_rule = loaded.ca_next_rule
            self._kept_sums = loaded.ca_kept_sums
            self._flux = loaded.ca_flux
            # Older ones of this version lack these.
            self._image = getattr(loaded, "ca_image", None)
            self._run_in = getattr(loaded, "ca_run_in", None)
            self._moved = getattr(loaded, "ca_moved", None)
            self._degree_in = getattr(loaded, "ca_degree_in", None)
            version = int(loaded.ca_version())
        except (OSError, AttributeError) as fault:
            raise LibraryMissingError(f"the library can't be loaded: {fault}; {ADVICE}") from fault
        if version != VERSION:
            raise LibraryMissingError(f"the library {path} has version {version}, and not {VERSION}; {ADVICE}")
        text, size = ctypes.c_char_p, ctypes.c_size_t
        for run in (self._run, self._run_json):
            run.argtypes = [text, size, text, size, text, size, ctypes.POINTER(size)]
            run.restype = ctypes.c_uint8
        byte, word = ctypes.c_uint8, ctypes.c_uint64
        self._verdicts.argtypes = [byte, byte, text, size]
        self._verdicts.restype = RuleVerdicts
        self._verdict_bytes.argtypes = [byte, byte, word, word, text, size]
        self._verdict_bytes.restype = byte
        self._window_order.argtypes = [byte, byte, byte, text, size]
        self._window_order.restype = byte
        self._next_rule.argtypes = [byte, byte, byte, text, size, text, size, byte, text, size]
        self._next_rule.restype = byte
        self._kept_sums.argtypes = [byte, byte, text, size, byte, ctypes.POINTER(KeptTable)]
        self._kept_sums.restype = byte
        self._flux.argtypes = [byte, byte, text, size, byte, ctypes.POINTER(Weights), ctypes.POINTER(Flux)]
        self._flux.restype = byte
        if self._image is not None:
            parts = [text, size, text, size, text, size]
            self._image.argtypes = [byte, byte, ctypes.c_int8, text, size, *parts, ctypes.c_int64, text, size]
            self._image.restype = byte
        if self._moved is not None:
            self._moved.argtypes = [byte, byte, ctypes.c_int8, text, size, ctypes.c_int8, ctypes.POINTER(MovedTable)]
            self._moved.restype = byte
        if self._run_in is not None:
            handle = ctypes.POINTER(RoomHandle)
            self._run_in.argtypes = [handle, *self._run.argtypes]
            self._run_in.restype = byte
            self._room_open, self._room_close = loaded.ca_room_open, loaded.ca_room_close
            self._room_open.argtypes = self._room_close.argtypes = [handle]
            self._room_open.restype, self._room_close.restype = byte, None
        if self._degree_in is not None:
            self._degree_in.argtypes = [ctypes.POINTER(RoomHandle), byte, byte, ctypes.c_int8, text, size, ctypes.POINTER(RuleDegree),
                                        text, size, ctypes.POINTER(size)]
            self._degree_in.restype = byte
        self._rooms = threading.local()
        self.path = path

    def run(self, words: Iterable[str], data: bytes = b"") -> Outcome:
        """What the program comes to on these words and this input."""
        if self._run_in is None:
            return self._called(self._run, words, data)
        return self._called(functools.partial(self._run_in, self._own_room()), words, data)

    def _own_room(self) -> Any:
        """The handle of the room of this thread."""
        kept: OpenRoom | None = getattr(self._rooms, "kept", None)
        if kept is None:
            kept = self._rooms.kept = OpenRoom(self._room_open, self._room_close)
        return ctypes.byref(kept.handle)

    def run_json(self, words: Iterable[str], data: bytes = b"") -> Outcome:
        """The same, with the JSON form of the output: docs/ANSWERS.md."""
        return self._called(self._run_json, words, data)

    def _called(self, run: Callable[..., int], words: Iterable[str], data: bytes) -> Outcome:
        """What one of both gives, in a buffer that has room for it."""
        block = encoded(words)
        length = ctypes.c_size_t()
        room: ctypes.Array[ctypes.c_char] | None = getattr(self._rooms, "room", None)
        if room is None:
            room = self._rooms.room = ctypes.create_string_buffer(ROOM)
        while True:
            code = run(block, len(block), data, len(data), room, len(room), ctypes.byref(length))
            if code != NO_ROOM:
                break
            room = self._rooms.room = ctypes.create_string_buffer(length.value)
        if code == MEMORY:
            raise OutOfMemoryError("there was no memory")
        if code == NO_WORDS:
            raise WordsError("the words aren't UTF-8")
        return Outcome(code, ctypes.string_at(room, length.value))

    def verdicts(self, states: int, width: int, table: bytes) -> RuleVerdicts:
        """What holds of the rule with this table, at offset 0, or the number of the first fault."""
        found: RuleVerdicts = self._verdicts(states, width, table, len(table))
        return found

    def verdict_bytes(self, states: int, width: int, first: int, room: ctypes.Array[ctypes.c_char]) -> int:
        """Fills the room with the bytes of rules with consecutive numbers; gives 0, or the number of the first fault.
        Other threads run meanwhile."""
        return int(self._verdict_bytes(states, width, first >> 64, first & WORD, room, len(room)))

    def window_order(self, property: int, states: int, width: int) -> bytes:
        """The order of the windows in which the rules of a shape with a property are soon found."""
        room = ctypes.create_string_buffer(states ** width)
        fault = self._window_order(property, states, width, room, len(room))
        if fault:
            raise AssertionError(f"ca_window_order gives {fault}")
        return room.raw

    def next_rule(self, property: int, states: int, width: int, order: bytes, begin: bytes, after: bool,
                  table: bytes) -> tuple[int, bytes]:
        """0, and the table of the first rule of a shape with a property and the letters that are fixed, or of the first
        one after this table; else why there is none, and the same table. Other threads run meanwhile."""
        room = ctypes.create_string_buffer(table, len(table))
        fault = self._next_rule(property, states, width, order, len(order), begin, len(begin), after, room, len(room))
        return int(fault), room.raw

    def kept_sums(self, states: int, width: int, table: bytes, letters: int) -> KeptTable:
        """The sums of weights of words of so many letters that the rule with this table keeps. Other threads run
        meanwhile."""
        found = KeptTable()
        fault = int(self._kept_sums(states, width, table, len(table), letters, ctypes.byref(found)))
        assert not fault, fault                 # the table is a rule's, and the number of letters has been looked at
        return found

    def flux(self, states: int, width: int, table: bytes, letters: int, weights: Sequence[int]) -> list[int] | None:
        """The flux of weights of words of so many letters, by their values: a number for each word of width + letters - 2
        letters, by its value. None where the rule doesn't keep their sum. Other threads run meanwhile."""
        found = Flux()
        fault = int(self._flux(states, width, table, len(table), letters, Weights(*weights), found))
        assert fault in (0, NOT_KEPT), fault
        return None if fault else found[:states ** (width + letters - 2)]

    def degree(self, states: int, width: int, offset: int, table: bytes) -> tuple[RuleDegree, bytes]:
        """The degree of a rule and what belongs to it, and the letters of its words. Other threads run meanwhile."""
        if self._degree_in is None:
            raise LibraryMissingError(f"the library {self.path} is older than ca_degree_in; {ADVICE}")
        found, length = RuleDegree(), ctypes.c_size_t()
        letters = ctypes.create_string_buffer(WORDS_ROOM)
        while True:
            code = int(self._degree_in(self._own_room(), states, width, offset, table, len(table), ctypes.byref(found), letters,
                                       len(letters), ctypes.byref(length)))
            if code != NO_ROOM:
                break
            letters = ctypes.create_string_buffer(length.value)
        assert not code and not found.fault, (code, found.fault)    # the table is a rule's, and the room is open
        return found, letters.raw[:length.value]

    def image(self, states: int, width: int, offset: int, table: bytes, parts: Sequence[bytes], first: int, count: int) -> bytes:
        """So many letters, from the cell `first` on, of the image of the configuration with these three parts. Other threads run
        meanwhile."""
        if self._image is None:
            raise LibraryMissingError(f"the library {self.path} is older than ca_image; {ADVICE}")
        room = ctypes.create_string_buffer(max(count, 1))
        sized = [word for part in parts for word in (part, len(part))]
        fault = int(self._image(states, width, offset, table, len(table), *sized, first, room, count))
        assert not fault, fault                 # rule, letters and periods have been looked at
        return room.raw[:count]

    def moved(self, states: int, width: int, offset: int, table: bytes, by: int) -> tuple[list[int], bytes]:
        """The configurations that a rule only moves by so many cells: for each node the letters of their windows, as bits, and the
        letters of the least ring, of which there are none if there is no such configuration. Other threads run meanwhile."""
        if self._moved is None:
            raise LibraryMissingError(f"the library {self.path} is older than ca_moved; {ADVICE}")
        found = MovedTable()
        fault = int(self._moved(states, width, offset, table, len(table), by, ctypes.byref(found)))
        assert not fault, fault                 # the rule and the cell have been looked at
        return list(found.rows), bytes(found.ring[:found.length])


def keep_freed_memory() -> None:
    """Has the heap of this process keep up to 8 MB that calls free for the next ones, where the C library is glibc.
    `decide` takes half the time then; surveys gain little. Nothing else calls it but the command line."""
    mallopt = getattr(ctypes.CDLL(None), "mallopt", None)
    if mallopt is not None:
        mallopt(MMAP_THRESHOLD, KEPT // 2)
        mallopt(TRIM_THRESHOLD, KEPT)


def encoded(words: Iterable[str]) -> bytes:
    """The block of the words, each ended by a 0 byte."""
    block = bytearray()
    for word in words:
        if "\0" in word:
            raise WordsError("a word has a character 0")
        try:
            block += word.encode() + b"\0"
        except UnicodeEncodeError as fault:
            raise WordsError(f"a word has no UTF-8: {fault}") from fault
    return bytes(block)


def place() -> Path:
    """Where the library is."""
    named = os.environ.get("CA_LIBRARY")
    for path in [Path(named)] if named else [HERE / NAME, TOP / "crates" / "ca_c" / "out" / "library" / NAME]:
        if path.exists():
            return path
    raise LibraryMissingError((f"CA_LIBRARY names {named}, which isn't there" if named else "there is no library")
                              + f"; {ADVICE}")


@functools.cache
def library() -> Library:
    """The library, loaded at the first call."""
    return Library(place())
