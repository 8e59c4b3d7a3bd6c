"""The page that ./web makes, in firefox: it answers as the program does, and decides as somebody types and clicks."""
from __future__ import annotations

import json
import unittest
from typing import Any

from .drawn_calls import answers, drawn_calls
from .firefox import Firefox
from .web_page import LACKING, PAGE, RULES, verdicts_of, wait_until


@unittest.skipUnless(PAGE.exists(), LACKING)
class InFirefox(unittest.TestCase):
    firefox: Firefox

    @classmethod
    def setUpClass(cls) -> None:
        cls.firefox = Firefox()
        cls.addClassCleanup(cls.firefox.close)

    def tearDown(self) -> None:
        self.assertEqual(self.firefox.messages(PAGE.name), [])

    def show(self, rule: str) -> None:
        self.firefox.open(f"{PAGE.as_uri()}#rule={rule}")
        self.waits("document.getElementById('told').textContent.includes('The report took')")

    def waits(self, expression: str) -> None:
        """Waits until the expression of the page is true."""
        wait_until(lambda: self.firefox.get(f"return Boolean({expression})"), expression)

    def verdicts(self) -> Any:
        return self.firefox.get("return [...document.querySelectorAll('.badge b')].map(it => it.textContent)")

    def test_answers_are_those_of_the_program(self) -> None:
        self.show("110")
        calls = drawn_calls(2000, seed=73)
        for begin in range(0, len(calls), 200):
            part = calls[begin:begin + 200]
            made = self.firefox.get(f"const made = []; for (const [words, input] of {json.dumps(part)}) "
                                    "made.push(await window.ask(words, false, input)); return made;")
            for call, it, wanted in zip(part, made, answers(part)):
                self.assertEqual([it["code"], it["reply"]], wanted, call)

    def test_typing_and_clicking(self) -> None:
        self.show("90")
        self.firefox.write("#text", "184")
        self.waits("location.hash === '#rule=184'")
        self.waits("document.title.startsWith('rule 184')")
        self.assertEqual(self.verdicts(), verdicts_of("184"))
        self.firefox.click("#table button")
        self.waits("document.title.startsWith('rule 185')")
        self.firefox.call("WebDriver:Back")
        self.waits("document.title.startsWith('rule 184')")
        self.firefox.write("#text", "256")
        self.waits("document.querySelector('#fault p')")
        self.assertEqual(self.verdicts(), [])

    def test_reports(self) -> None:
        for rule in RULES:
            self.show(rule)
            self.assertEqual(self.verdicts(), verdicts_of(rule))
            self.assertEqual(self.firefox.get("return document.querySelectorAll('#report p.no, #fault p').length"), 0)
            loaded = self.firefox.get("return performance.getEntriesByType('resource').map(it => it.name)")
            self.assertEqual([name for name in loaded if not name.startswith(("blob:", "data:"))], [])
