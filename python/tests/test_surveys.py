"""Surveys of whole shapes: over each kind of executor, stopped, and taken up again from a file."""
from __future__ import annotations

import sys
import tempfile
import threading
import unittest
from collections.abc import Callable
from concurrent.futures import Executor, Future, ProcessPoolExecutor, ThreadPoolExecutor
from multiprocessing import get_context
from pathlib import Path
from typing import Any
from unittest import mock

import foursaspen as ca
from foursaspen import surveys

WHOLE = ca.Summary(256, 30, 6, 22, 22, 14, 5)   # of the elementary rules, as docs/COMMANDS.md has them


def last(progress: Any) -> ca.Progress:
    """The end of a survey."""
    *_, end = progress
    assert isinstance(end, ca.Progress)
    return end


class AtOnce(Executor):
    """Calls right away, and counts how often."""

    def __init__(self) -> None:
        self.calls = 0

    def submit(self, call: Callable[..., Any], /, *operands: Any, **named: Any) -> Future[Any]:
        self.calls += 1
        done: Future[Any] = Future()
        done.set_result(call(*operands, **named))
        return done


class Surveys(unittest.TestCase):
    def setUp(self) -> None:
        room = tempfile.TemporaryDirectory()
        self.addCleanup(room.cleanup)
        self.file = Path(room.name) / "survey.jsonl"

    def test_each_executor_counts_the_same(self) -> None:
        with ThreadPoolExecutor(3) as threads, ProcessPoolExecutor(2, mp_context=get_context("spawn")) as processes:
            for executor in (None, threads, processes, AtOnce()):
                end = last(ca.survey_over(executor, 2, 3, task=7))
                self.assertEqual((end.rules, end.of, end.summary), (256, 256, WHOLE))

    def test_the_executor_may_stand_behind_the_shape(self) -> None:
        pool = AtOnce()
        self.assertEqual([last(ca.survey_over(2, 3)).summary, last(ca.survey_over(2, 3, pool)).summary], [WHOLE] * 2)
        self.assertEqual(pool.calls, 1)

    def test_two_states_of_width_four(self) -> None:
        self.assertEqual(last(ca.survey_over(None, 2, 4)).summary, ca.Summary(65536, 582, 16, 314, 314, 46, 22))

    def test_progress_adds_up(self) -> None:
        seen = list(ca.survey_over(None, 2, 3, task=10))
        self.assertEqual([one.rules for one in seen], sorted(one.rules for one in seen))
        self.assertTrue(all(one.rules == one.summary.rules for one in seen))
        self.assertEqual(seen[-1].left, 0)
        self.assertIn("256 of 256 rules", str(seen[-1]))

    def test_parts_of_a_shape(self) -> None:
        ends: list[tuple[int, int | None]] = [(0, 99), (99, None)]
        halves = [last(ca.survey_over(None, 2, 3, start=start, stop=stop)).summary for start, stop in ends]
        self.assertEqual([half.rules for half in halves], [99, 157])
        self.assertEqual(sum(halves, ca.Summary()), WHOLE)

    def test_tasks_are_of_a_sensible_size(self) -> None:
        for shape, task in (((2, 3), 4096), ((2, 4), 4096), ((2, 5), 64 * 4096), ((6, 2), 64 * 4096)):
            with mock.patch.object(surveys, "counted") as counted:
                ca.survey_over(None, *shape)
            self.assertEqual(counted.call_args.args[1]["task"], task)

    def test_a_survey_is_taken_up_again(self) -> None:
        for stopped in range(1, 5):
            self.file.unlink(missing_ok=True)
            begun = ca.survey_over(AtOnce(), 2, 3, task=20, file=self.file)
            with mock.patch.object(surveys, "AHEAD", 1):        # one task a step
                for _ in range(stopped):
                    next(begun)
                begun.close()
            again = AtOnce()
            end = last(ca.survey_over(again, 2, 3, task=20, file=self.file))
            self.assertEqual((end.summary, end.resumed, again.calls), (WHOLE, 20 * stopped, 13 - stopped))
            self.assertEqual(last(ca.survey_over(AtOnce(), 2, 3, task=20, file=self.file)).resumed, 256)

    def test_a_line_that_was_cut_off_is_done_again(self) -> None:
        last(ca.survey_over(None, 2, 3, task=20, file=self.file))
        text = self.file.read_bytes()
        for length in range(len(text)):
            if length % 7 == 0 or text[length - 1:length] == b"\n":
                self.file.write_bytes(text[:length])
                end = last(ca.survey_over(None, 2, 3, task=20, file=self.file))
                whole = max(text[:length].count(b"\n") - 1, 0)
                self.assertEqual((end.summary, sorted(self.file.read_bytes().splitlines())), (WHOLE, sorted(text.splitlines())))
                self.assertLessEqual(end.resumed, 20 * whole)

    def test_a_file_of_another_survey_is_refused(self) -> None:
        last(ca.survey_over(None, 2, 3, task=20, file=self.file))
        text = self.file.read_text()
        with self.assertRaisesRegex(ValueError, "isn't of this survey"):
            ca.survey_over(None, 2, 2, task=20, file=self.file)
        with self.assertRaisesRegex(ValueError, "isn't of this survey"):
            ca.survey_over(None, 2, 3, task=21, file=self.file)
        self.assertEqual(self.file.read_text(), text)           # and left as it is
        for line in ("nothing", "{}", '{"from": 0}', '{"from": 1, "sums": [20, 0, 0, 0, 0, 0, 0]}',
                     '{"from": 240, "sums": [20, 0, 0, 0, 0, 0, 0]}', '{"from": 0, "sums": [20]}'):
            self.file.write_text(text + line + "\n")
            with self.assertRaisesRegex(ValueError, "line 15: "):
                ca.survey_over(None, 2, 3, task=20, file=self.file)
        self.file.write_text("a letter to a friend")
        with self.assertRaisesRegex(ValueError, "isn't of this survey"):
            ca.survey_over(None, 2, 3, task=20, file=self.file)
        self.assertEqual(self.file.read_text(), "a letter to a friend")

    def test_refusals_come_at_once(self) -> None:
        with self.assertRaises(ca.RuleError):
            ca.survey_over(None, 7, 2)
        with self.assertRaises(ca.RuleError):
            ca.survey_over(None, 2, 3, start=256)
        over: Any = ca.survey_over
        for ends in ({"stop": 0}, {"stop": 257}, {"task": 0}, {"start": -1}):
            with self.assertRaises(ca.UsageError):
                over(None, 2, 3, **ends)

    def test_a_failing_task_ends_the_survey(self) -> None:
        with mock.patch.object(surveys, "survey", side_effect=[OSError("gone")]):
            with self.assertRaisesRegex(OSError, "gone"):
                last(ca.survey_over(AtOnce(), 2, 3))
        self.assertLess(threading.active_count(), 20)

    def test_a_bar(self) -> None:
        tqdm = mock.MagicMock()
        tqdm.tqdm.return_value.n = 0
        with mock.patch.dict(sys.modules, {"tqdm": tqdm}):
            last(ca.survey_over(None, 2, 3, bar=True))
        tqdm.tqdm.assert_called_once_with(total=256, initial=0, unit=" rules", unit_scale=True)
        tqdm.tqdm.return_value.update.assert_called_once_with(256)
        with mock.patch.dict(sys.modules, {"tqdm": None}):
            self.assertEqual(last(ca.survey_over(None, 2, 3, bar=True)).summary, WHOLE)


if __name__ == "__main__":
    unittest.main()
