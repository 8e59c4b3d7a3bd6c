"""The package as a whole: what it shows of itself, its command line, and what other programs take from it."""
from __future__ import annotations

import contextlib
import os
import pickle
import pydoc
import re
import signal
import subprocess
import sys
import tempfile
import time
import types
import unittest
from pathlib import Path

import foursaspen as ca
from foursaspen import __main__
from foursaspen.__main__ import OWN
from foursaspen.__main__ import PROGRAM as COMMANDS
from foursaspen.lists import Stop

from .support import ENVIRONMENT, PROGRAM, TOP, heed_ctrl_c, output, patience, program, python_with

ASK = [sys.executable, "-m", "foursaspen"]
NETWORKX = """import networkx
from foursaspen import language, to_networkx
graph = to_networkx(110)
print(sorted(graph.nodes), graph.number_of_edges(), networkx.is_strongly_connected(graph), graph["01"]["11"][0])
words = to_networkx(language("2:2:0:t0001"))
print(sorted((a, b, read) for a, b, read in words.edges.data("read")), words.nodes[3]["dead"])
"""


class Shown(unittest.TestCase):
    def test_names(self) -> None:
        self.assertEqual(dir(ca), sorted(ca.__all__))
        self.assertEqual([name for name in ca.__all__ if isinstance(getattr(ca, name), types.ModuleType)], [])

    def test_help_begins_with_the_functions(self) -> None:
        told = pydoc.plain(pydoc.render_doc(ca)).partition("PACKAGE CONTENTS")[0]
        self.assertLess(told.count("\n"), 70)
        missing = [name for name in ca.__all__ if isinstance(getattr(ca, name), types.FunctionType) and
                   not re.search(rf"\b{name}\b", told)]
        self.assertEqual(missing, [])

    def test_answers_show_what_is_for_callers(self) -> None:
        for answer in (ca.decide(110), ca.certify(110), ca.language(110), ca.kept_sums(14)):
            self.assertEqual([name for name in dir(answer) if not name.startswith("_") and name.startswith("of")], [])


class Others(unittest.TestCase):
    def test_dot(self) -> None:
        text = ca.to_dot(110)
        self.assertEqual(text.splitlines()[0], 'digraph "2:3:-1:t01110110" {')
        self.assertIn('  "01" -> "11" [label="1/1"];', text)
        self.assertEqual(text.count("->"), 8)
        self.assertEqual(output([*ASK, "dot", "110"]), text)

    def test_networkx(self) -> None:
        told = output([python_with("networkx", "python3-networkx"), "-c", NETWORKX]).splitlines()
        self.assertEqual(told[0], "['00', '01', '10', '11'] 8 True {'read': '1', 'written': '1'}")
        self.assertEqual(told[1], "[(0, 0, '0'), (0, 1, '1'), (1, 1, '1'), (1, 2, '0'), (2, 0, '0'), (2, 3, '1'), (3, 3, '0'), "
                         "(3, 3, '1')] True")


class CommandLine(unittest.TestCase):
    def asked(self, *words: str, data: str = "") -> tuple[int, str, str]:
        done = subprocess.run([*ASK, *words], env=ENVIRONMENT, cwd="/", input=data, capture_output=True, text=True, check=False)
        return done.returncode, done.stdout, done.stderr

    def test_commands_of_the_program(self) -> None:
        """Output and status are the program's, and standard error says what a fault means."""
        for line, said in (("decide 110", ""), ("shift 110 -1", ""), ("inverse 90", "the rule must be injective"), ("orphan 256", "0 to 255"),
                           ("decide 110 0,1,2", "one weight for each of the 2 letters, and there are 3"),
                           ("decide", "after decide comes RULE [WEIGHTS], but here nothing"),
                           ("erase 110 30", "after erase comes RULE, but here 110 30"),
                           ("same 110 2:3:-1:t0", "has 1 digit and needs 8"), ("survey 2 2 10 7", "0 to 15"),
                           ("survey 2 3 0 65536", "count is 1 to 4,096, and not 65,536"), ("survey 2 x 0 1", "width is a whole number, and not 'x'"),
                           ("sample 2 3 18446744073709551616 1", "seed is 0 to 18,446,744,073,709,551,615"),
                           ("decide 184 -1,1", "the program's weights are 0 to 255"),
                           ("decide 184 1,300", "the greatest is at most 255 more than the least"),
                           ("permute 110 1,0", "digits are 1 to 16 hexadecimal digits"), ("shift 110 +1", "cells is a whole number, and not '+1'"),
                           ("shift 110 001", "numbers without zeros in front"), ("widen 110 6", "width is 2 to 5, and not 6"),
                           ("preimage 110 0101", "LEFT|MIDDLE|RIGHT"), ("decide 01101110", "Rule.from_wolfram('01101110')")):
            status, told, error = self.asked(*line.split())
            self.assertEqual((status, told.encode()), program(line.split()))
            self.assertIn(said, error)
            self.assertEqual(error == "", said == "")

    def test_a_word_without_utf_8(self) -> None:
        words = [b"decide", b"\xff"]
        done = subprocess.run([*map(os.fsencode, ASK), *words], env=ENVIRONMENT, cwd="/", capture_output=True, check=False)
        own = subprocess.run([os.fsencode(PROGRAM), *words], capture_output=True, check=False)
        self.assertEqual((done.returncode, done.stdout), (own.returncode, own.stdout))
        self.assertIn(b"UTF-8", done.stderr)

    def test_names_of_commands(self) -> None:
        """Those of docs/COMMANDS.md, with as many operands, and the package's own. Another word names them all."""
        forms = re.findall(r"^    \./ca ([a-z]+) (.*?)(?:  .*)?$", (TOP / "docs" / "COMMANDS.md").read_text().split("\n## All forms\n")[1]
                           .split("\n## ")[0], re.MULTILINE)
        self.assertEqual({name: [word[0] == "[" for word in operands.split()] for name, operands in forms if name != "check"},
                         {name: [word[0] == "[" for word in form.split()] for name, form in COMMANDS.items() if name != "check"})
        self.assertEqual({name for name in re.findall("python -m foursaspen ([a-z]+)", __main__.__doc__ or "") if name not in COMMANDS}, set(OWN))
        for name in OWN:
            self.assertRegex(output([*ASK, name, "--help"]), f"^usage: python -m foursaspen {name} ")
        for word, meant in (("decde", "decide"), ("Decide", "decide"), ("110", "decide"), ("Site", "site")):
            status, told, error = self.asked(word, "110")
            self.assertEqual((status, told), (2, ""))
            self.assertIn(f"there is no command {word!r}; is it {meant}?", error)
            for name in (*COMMANDS, *OWN):
                self.assertIn(f" {name}", error)

    def test_sites_and_atlases_name_both_or_none(self) -> None:
        with tempfile.TemporaryDirectory() as folder:
            for words in (["site", "2", "4"], ["site", "2", "3"], ["site", f"{folder}/site"], ["site", "2", f"{folder}/site"], ["atlas", "2", "--csv"],
                          ["site", "--from", "-", "2", "3", f"{folder}/site"]):
                done = subprocess.run([*ASK, *words], env=ENVIRONMENT, cwd=folder, input="110", capture_output=True, text=True, check=False)
                self.assertEqual((done.returncode, done.stdout), (2, ""), words)
                self.assertRegex(done.stderr, "takes STATES WIDTH|invalid int value")
                self.assertEqual(os.listdir(folder), [])

    def test_negative_weights(self) -> None:
        self.assertEqual(output([*ASK, "page", "184", "-1,1"]), ca.page(184, [-1, 1]))
        self.assertEqual(output([*ASK, "picture", "184", "flux", "--weights", "-1,1"]), ca.picture(184, "flux", [-1, 1]))
        self.assertEqual(output([*ASK, "picture", "--weights", "3,-2", "184", "current"]), ca.picture(184, "current", [3, -2]))

    def test_check_takes_a_file(self) -> None:
        with tempfile.TemporaryDirectory() as folder:
            file = Path(folder) / "certificate.json"
            file.write_text(str(ca.certify(110)))
            accepted = str(ca.check(ca.certify(110)))
            self.assertEqual(self.asked("check", str(file)), (0, accepted, ""))
            self.assertEqual(self.asked("check", "-", data=file.read_text()), (0, accepted, ""))
            self.assertEqual(self.asked("check", data=file.read_text()), (0, accepted, ""))
            file.write_text("{}")
            status, told, error = self.asked("check", str(file))
            self.assertEqual((status, told), (1, "refused format shape version\n"))
            self.assertIn("docs/CERTIFICATES.md", error)
            for unreadable in (str(file) + ".gone", folder):
                status, told, error = self.asked("check", unreadable)
                self.assertEqual((status, told), (6, ""))
                self.assertIn(unreadable, error)

    def test_what_cannot_be_written(self) -> None:
        if not os.access("/dev/full", os.W_OK):
            self.skipTest("there is no /dev/full")
        for status, *words in ((1, "picture", "110"), (1, "page", "110"), (1, "list", "injective", "2:3:-1:t"), (1, "kept", "14", "2"),
                               (7, "decide", "110"), (7, "decide", "256")):
            with open("/dev/full", "w") as full:
                done = subprocess.run([*ASK, *map(str, words)], env=ENVIRONMENT, cwd="/", stdout=full, stderr=subprocess.PIPE, text=True, check=False)
            self.assertEqual((done.returncode, done.stderr), (status, "[Errno 28] No space left on device\n"), words)

    def test_a_reader_that_has_enough(self) -> None:
        done = subprocess.run(["bash", "-c", f"set -o pipefail; {{ {' '.join(ASK)} list surjective 2:4:0:t | head -n 1; }} 2>&1"],
                              env=ENVIRONMENT, cwd="/", capture_output=True, text=True, check=False)
        self.assertEqual((done.stdout.count("\n"), "Errno" in done.stdout), (1, False))


class Stopped(unittest.TestCase):
    def test_a_terminal_is_told_how_far_it_is(self) -> None:
        """And after Ctrl-C that it has stopped."""
        ours, theirs = os.openpty()
        begun = subprocess.Popen([*ASK, "atlas", "2", "4", "--csv"], env=ENVIRONMENT, cwd="/", stdout=subprocess.DEVNULL, stderr=theirs,
                                 preexec_fn=heed_ctrl_c)
        os.close(theirs)
        said = b""
        try:
            while b"class 100" not in said:
                said += os.read(ours, 1000)
            begun.send_signal(signal.SIGINT)
            self.assertEqual(begun.wait(600), 130)
            with contextlib.suppress(OSError):  # where nobody writes any more
                while more := os.read(ours, 1000):
                    said += more
        finally:
            begun.kill()
            begun.wait()
            os.close(ours)
        self.assertRegex(said.decode(), r"^\rclass 0 +\rclass 100 .*stopped\r\n$")

    OVER_THREADS = """import sys
from concurrent.futures import ThreadPoolExecutor
from foursaspen import rules
with ThreadPoolExecutor(2) as pool:
    print("begins", flush=True)
    list(rules(sys.argv[1], int(sys.argv[2]), int(sys.argv[3]), executor=pool))
"""
    ALONE = """import sys
from foursaspen import rules
print("begins", flush=True)
list(rules(sys.argv[1], int(sys.argv[2]), int(sys.argv[3])))
"""
    # Lists that have no end in sight.
    ENDLESS = (("open", "4", "3"), ("surjective", "3", "3"), ("injective", "4", "3"))

    def stops(self, code: str, words: tuple[str, ...]) -> None:
        """A program whose list is under way ends soon after Ctrl-C."""
        begun = subprocess.Popen([sys.executable, "-c", code, *words], env=ENVIRONMENT, cwd="/", stdout=subprocess.PIPE,
                                 stderr=subprocess.PIPE, text=True, preexec_fn=heed_ctrl_c)
        assert begun.stdout is not None
        try:
            self.assertEqual(begun.stdout.readline(), "begins\n")
            time.sleep(1.5)
            self.assertIsNone(begun.poll(), words)
            before = patience()
            begun.send_signal(signal.SIGINT)
            stopped = time.monotonic()
            _, said = begun.communicate(timeout=600)
            self.assertLess(time.monotonic() - stopped, max(before, patience()), words)
            self.assertIn("KeyboardInterrupt", said)
        finally:
            begun.kill()
            begun.wait()

    def test_threads_end_within_a_second(self) -> None:
        for words in self.ENDLESS:
            self.stops(self.OVER_THREADS, words)

    def test_a_list_without_an_executor_ends_within_a_second(self) -> None:
        """The library searches in another thread, as a test of lists says, so it doesn't matter how long that lasts."""
        for words in self.ENDLESS:
            self.stops(self.ALONE, words)

    def test_a_worker_of_another_process_is_never_stopped(self) -> None:
        stop = Stop()
        stop.set()
        self.assertEqual((stop.is_set(), pickle.loads(pickle.dumps(stop)).is_set()), (True, False))


if __name__ == "__main__":
    unittest.main()
