"""A survey of all rules of a shape over any executor: threads, processes, the workers of Dask or of MPI."""
from __future__ import annotations

import json
import math
import os
import time
from collections.abc import Generator
from concurrent.futures import FIRST_COMPLETED, Executor, Future, ThreadPoolExecutor, wait
from dataclasses import astuple, dataclass, fields
from itertools import islice
from pathlib import Path
from typing import Any, SupportsIndex, overload

from .commands import START, numbered, survey
from .operands import MOST
from .progress import bar_of
from .report import Summary
from .rule_values import refuse, whole

LARGEST = 64 * MOST                             # rules of a task: some half a second
TASKS = 64                                      # of a survey, at least, where that many calls are in it
AHEAD = 256                                     # tasks under way at a time


@dataclass(frozen=True)
class Progress:
    """How far a survey is: `rules` of `of` rules are counted, in `summary`; `resumed` of them came from a file, and
    the others took `seconds`."""
    rules: int
    of: int
    resumed: int
    seconds: float
    summary: Summary

    @property
    def left(self) -> float:
        """The seconds that are left, by the rate so far."""
        return self.seconds * (self.of - self.rules) / max(self.rules - self.resumed, 1)

    def __str__(self) -> str:
        return f"{self.rules:,} of {self.of:,} rules, {self.seconds:.0f} s, {self.left:.0f} s left"


@overload
def survey_over(executor: Executor | None, states: SupportsIndex, width: SupportsIndex, *, start: SupportsIndex = 0,
                stop: SupportsIndex | None = None, task: SupportsIndex | None = None,
                file: str | os.PathLike[str] | None = None, bar: bool = False) -> Generator[Progress, None, None]: ...


@overload
def survey_over(states: SupportsIndex, width: SupportsIndex, executor: Executor | None = None, /, *, start: SupportsIndex = 0,
                stop: SupportsIndex | None = None, task: SupportsIndex | None = None,
                file: str | os.PathLike[str] | None = None, bar: bool = False) -> Generator[Progress, None, None]: ...


def survey_over(executor: Any, states: Any, width: Any = None, *, start: SupportsIndex = 0,
                stop: SupportsIndex | None = None, task: SupportsIndex | None = None,
                file: str | os.PathLike[str] | None = None, bar: bool = False) -> Generator[Progress, None, None]:
    """Counts all rules of a shape, or those from the number `start` on, before `stop`, and yields how far it is: the
    last has the whole. The executor is any of concurrent.futures; None is a thread for each processor, since a call
    gives up Python's lock. Its workers need this package. It may also stand behind the shape, or be left out there.

    A task has `task` rules, by default as many as take up to half a second. With `file`, which is made where it isn't
    there, each task that is done is a line, and a survey that was stopped takes up what is there; ValueError where
    the file is another survey's. `bar` shows a bar of tqdm, or a line on standard error where that isn't installed. It begins when the first is asked for."""
    if width is None or hasattr(width, "submit"):
        executor, states, width = width, executor, states
    pool = executor_of(executor)
    states, width, first, _ = numbered(states, width, start, 1)
    end: int = states ** states ** width
    end = end if stop is None else whole("stop is", stop, first + 1, end)
    size = min(LARGEST, MOST * math.ceil((end - first) / (MOST * TASKS)))
    size = size if task is None else whole("task is", task, 1, START)
    head = {"states": states, "width": width, "start": first, "stop": end, "task": size}
    done = resumed(Path(file), head) if file else {}
    return counted(pool, head, done, Path(file) if file else Path(os.devnull), bar)


def executor_of(executor: Executor | None) -> Executor | None:
    """An executor, or None; it may be of any library that has the call `submit`."""
    if executor is not None and not callable(getattr(executor, "submit", None)):
        raise refuse("executor is", "an Executor of concurrent.futures or None", executor)
    return executor


def counted(executor: Executor | None, head: dict[str, int], done: dict[int, Summary], file: Path,
            bar: bool) -> Generator[Progress, None, None]:
    """Counts what isn't done, and yields how far it is."""
    end, total = head["stop"], sum(done.values(), Summary())
    before, of, begun = total.rules, end - head["start"], time.monotonic()
    missing = (first for first in range(head["start"], end, head["task"]) if first not in done)
    pool = executor or ThreadPoolExecutor(os.cpu_count())
    shown = bar_of(of, before) if bar else None
    pending: dict[Future[Summary], int] = {}
    with file.open("a", encoding="utf-8") as lines:
        try:
            while True:
                for first in islice(missing, AHEAD - len(pending)):
                    count = min(head["task"], end - first)
                    pending[pool.submit(part, head["states"], head["width"], first, count)] = first
                for future in wait(pending, return_when=FIRST_COMPLETED).done:
                    sums = future.result()
                    lines.write(json.dumps({"from": pending.pop(future), "sums": astuple(sums)}) + "\n")
                    total += sums
                lines.flush()
                if shown is not None:
                    shown.update(total.rules - shown.n)
                yield Progress(total.rules, of, before, time.monotonic() - begun, total)
                if total.rules == of:
                    return
        finally:
            for future in pending:
                future.cancel()
            if shown is not None:
                shown.close()
            if executor is None:
                pool.shutdown()


def part(states: int, width: int, first: int, count: int) -> Summary:
    """The summary of a task."""
    calls = (survey(states, width, at, min(MOST, first + count - at)) for at in range(first, first + count, MOST))
    return sum(calls, Summary())


def resumed(file: Path, head: dict[str, int]) -> dict[int, Summary]:
    """What a file has done, by the first rules of the tasks. It is made where it isn't there, and a last line that was
    cut off is taken away."""
    text = file.read_bytes() if file.exists() else b""
    begin = json.dumps(head).encode() + b"\n"
    kept = text[:text.rfind(b"\n") + 1] or begin
    if not text.startswith(begin) and not begin.startswith(text):
        raise ValueError(f"{file} isn't of this survey, which begins with {begin.decode().strip()}")
    done = {}
    for place, line in enumerate(kept.splitlines()[1:], 2):
        try:
            entry = json.loads(line)
            first, sums = entry["from"], [int(count) for count in entry["sums"]]
        except (ValueError, KeyError, TypeError):
            raise ValueError(f"{file}, line {place}: it is no task that is done") from None
        if first not in range(head["start"], head["stop"], head["task"]) or len(sums) != len(fields(Summary)) or \
                sums[0] != min(head["task"], head["stop"] - first):
            raise ValueError(f"{file}, line {place}: it is no task of this survey")
        done[first] = Summary(*sums)
    if text.startswith(begin):
        os.truncate(file, len(kept))
    else:
        file.write_bytes(begin)
    return done
