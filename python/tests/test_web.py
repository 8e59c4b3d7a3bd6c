"""The page that ./web makes, in chromium: it answers as the program does, shows what the package finds, and does what it says."""
from __future__ import annotations

import json
import unittest
import xml.etree.ElementTree as tree
from collections.abc import Iterator
from typing import Any

import foursaspen as ca
from foursaspen.graphs import Graph
from foursaspen.layout import fits
from foursaspen.moves import all_moved
from foursaspen.pictures import drawn as picture_of, drawn_moved
from foursaspen.relations import class_of
from foursaspen.rule_values import mirror
from foursaspen.sums import ranges

from .browser import Browser
from .drawn_calls import answers, drawn_calls
from .support import TOP, drawn, program
from .web_page import LACKING, PAGE, RULES, WEIGHED, verdicts_of, wait_until

def picture_or_fault(rule: ca.Rule) -> str:
    """The picture of a degree, or why there is none."""
    try:
        return ca.degree(rule).picture()
    except ca.FoursaspenError as fault:
        return str(fault)


# The texts of the page, and of its pictures, whose contrast is less than 4.5 (WCAG 2.1, 1.4.3).
CONTRAST = """(() => {
  const parts = colour => colour.match(/[\\d.]+/g).map(Number);
  const light = ([r, g, b]) => [r, g, b].map(it => it / 255).map(it => it <= 0.03928 ? it / 12.92 : ((it + 0.055) / 1.055) ** 2.4)
    .reduce((sum, it, at) => sum + it * [0.2126, 0.7152, 0.0722][at], 0);
  const ground = it => {
    for (; it; it = it.parentElement) {
      const colour = parts(getComputedStyle(it).backgroundColor);
      if (colour.length === 3 || colour[3] > 0) return colour;
    }
    return parts(getComputedStyle(document.body).backgroundColor);
  };
  const under = text => {
    const box = text.getBoundingClientRect(), x = box.x + box.width / 2, y = box.y + box.height / 2;
    const boxes = [...text.closest('svg').querySelectorAll('rect, circle')].filter(it => {
      const own = it.getBoundingClientRect();
      return own.left <= x && x <= own.right && own.top <= y && y <= own.bottom;
    });
    return parts(getComputedStyle(boxes.at(-1)).fill);
  };
  const bad = [];
  for (const it of document.querySelectorAll('body *')) {
    const own = [...it.childNodes].some(node => node.nodeType === 3 && node.textContent.trim());
    if (!own || it.closest('script, style, option, title, :disabled') || !it.getClientRects().length) continue;
    const isText = it.localName === 'text', colour = parts(getComputedStyle(it)[isText ? 'fill' : 'color']);
    const [a, b] = [light(colour), light(isText ? under(it) : ground(it))].sort((x, y) => y - x);
    if ((a + 0.05) / (b + 0.05) < 4.5) bad.push(`${it.textContent.slice(0, 30)}: ${((a + 0.05) / (b + 0.05)).toFixed(2)}`);
  }
  return bad.slice(0, 10);
})()"""


@unittest.skipUnless(PAGE.exists(), LACKING)
class InChromium(unittest.TestCase):
    browser: Browser

    @classmethod
    def setUpClass(cls) -> None:
        cls.browser = Browser()
        cls.addClassCleanup(cls.browser.close)

    def tearDown(self) -> None:
        self.assertEqual(self.browser.console, [])
        self.assertEqual(self.get("performance.getEntriesByType('resource').filter(it => !/^(blob|data):/.test(it.name)).length"), 0)

    def get(self, expression: str) -> Any:
        return self.browser.get(expression)

    def show(self, rule: str = "110", weights: str = "", width: int = 1100, dark: bool = False) -> None:
        self.browser.open(f"{PAGE.as_uri()}#rule={rule}{f'&weights={weights}' if weights else ''}", width, dark)
        self.waits("byId('told').textContent.includes('The report took')")

    def waits(self, expression: str) -> None:
        """Waits until the expression of the page is true."""
        wait_until(lambda: self.get(f"Boolean({expression})"), expression)

    def text(self, element: str) -> str:
        return str(self.get(f"{element}.textContent"))

    def verdicts(self) -> Any:
        return self.get("[...document.querySelectorAll('.badge b')].map(it => it.textContent)")

    def type_in(self, field: str, text: str) -> None:
        """Types a text in place of what a field has."""
        self.browser.click(f"byId('{field}')")
        self.get(f"byId('{field}').select()")
        self.browser.write(text)

    def run_line(self, line: str) -> None:
        self.get(f"(() => {{ byId('line').value = {json.dumps(line)}; byId('command').requestSubmit() }})()")

    def test_answers_are_those_of_the_program(self) -> None:
        self.show()
        calls = drawn_calls(2000, seed=71)
        made = self.get(f"(async () => {{ const made = []; for (const [words, input] of {json.dumps(calls)}) {{ const it = "
                        "await ask(words, false, input); made.push([it.code, it.reply]); } return made; })()")
        for call, got, wanted in zip(calls, made, answers(calls)):
            self.assertEqual(got, wanted, call)

    def test_reports(self) -> None:
        """The page shows each verdict of the program, evidence that fits, and both certificates."""
        self.show()
        for rule in [*map(str, range(256)), *drawn(24, seed=74)]:
            with self.subTest(rule=rule):
                self.get(f"(byId('text').value = '{rule}', go())")
                self.assertEqual(self.verdicts(), verdicts_of(rule))
                self.assertEqual(self.get("document.querySelectorAll('#report p.no, #fault p').length"), 0)
                self.assertEqual(self.get("document.querySelectorAll('#same a[download]').length"), 2)

    def test_each_part(self) -> None:
        """Of each rule: what stands in the sections is what the package finds."""
        for rule in RULES:
            with self.subTest(rule=rule):
                self.show(rule)
                self.compare_parts(ca.decide(rule), self.text("byId('report')"))

    def compare_parts(self, report: ca.Report, text: str) -> None:
        rule = report.rule
        table = rule.split(":t")[1]
        wanted = [rule, f"The mirrored rule is {mirror(rule)}", *(found.ring or "none" for found in all_moved(rule))]
        wanted += [f"from the window of the least value on: {table}", f"from the greatest value on: {table[::-1]}"] if len(table) <= 64 else []
        if report.orphan:
            pair = ca.erase(rule)
            wanted += [f"No word has the image {report.orphan}", f"{pair.first} and {pair.second} begin and end alike" if pair else "none"]
        else:
            wanted += ["Every word has a preimage", "A list of sets shows this too"]
        if report.injective:
            back = ca.inverse(rule).rule
            wanted += [f"inverse is {back}" if back else "wider than a rule may be"]
        if report.surjective:
            wanted += [f" = {ca.degree(rule).degree}, since there are {rule.states ** (rule.width - 1)} nodes"]
        if report.injective:
            wanted += [f"The flow is {ca.degree(rule).flow}:"]
        wanted += [f"the look-ahead is {side.ahead}" for side in (report.right, report.left) if side]
        if rule.states <= 5:
            members = class_of(rule).members
            wanted += [f"its class has {len(members)} rule{'s' if len(members) > 1 else ''}: {members[0]}"]
        for part in wanted:
            self.assertIn(part, text)
        rows = self.get("[...document.querySelectorAll('#sums ~ details')].slice(0, 1).flatMap(it => [...it.querySelectorAll('tbody tr')].map("
                        "row => Number(row.children[1].textContent)))")
        self.assertEqual(rows, [len(ca.kept_sums(rule, letters).rows) for letters in ranges(rule.states)[:3]])
        titles = self.get("[...document.querySelectorAll('#report svg')].map(it => it.getAttribute('aria-label'))")
        self.assertEqual(titles, list(self.titles(report)))

    def titles(self, report: ca.Report) -> Iterator[str]:
        """The titles of the pictures of a report, in the order of the page."""
        shows = ["graph", *(["orphan", "erase"] if report.orphan else ["sets"]), "window" if report.injective else "twins", "right", "left",
                 *(["ring"] if report.ring else ["flux", "current"])]
        for show in shows:
            try:
                svg = picture_of(report, show, show in ("graph", "flux", "current"))
            except ValueError:
                continue
            yield str(tree.fromstring(svg).get("aria-label"))
        cut = picture_or_fault(report.rule) if report.surjective else "none"
        if cut.startswith("<svg"):
            yield str(tree.fromstring(cut).get("aria-label"))
        shown = [found for found in all_moved(report.rule) if any(len(set(window)) > 1 for window in found.windows)]
        if fits(Graph(report.rule)):
            for found in sorted(shown, key=lambda found: abs(found.by))[:3]:
                yield str(tree.fromstring(drawn_moved(found)).get("aria-label"))

    def test_weights(self) -> None:
        for rule, weights in WEIGHED:
            with self.subTest(rule=rule, weights=weights):
                self.show(rule, weights)
                report = ca.decide(rule, weights)
                self.assertEqual(self.verdicts()[5], "yes" if report.conserving else "no")
                text = self.text("byId('report')")
                if report.flux:
                    numbers = self.get("[...[...document.querySelectorAll('summary')].find(it => it.textContent === 'The current, word by word')"
                                       ".parentElement.querySelectorAll('tbody tr')].map(row => Number(row.children[1].textContent))")
                    self.assertEqual(len(numbers), len(report.current or ()))
                else:
                    self.assertIn(f"The ring {report.ring} has the sum", text)
                self.assertIn(f'foursaspen.decide("{rule}", "', self.text("byId('same')"))
        self.type_in("weights", "1,2,3")
        said = "notfit weights: there must be one weight for each of the 2 letters, and there are 3."
        self.assertEqual(self.text("byId('fault').firstChild"), said)
        self.assertEqual(self.get("['weights', 'text'].map(id => byId(id).getAttribute('aria-invalid'))"), ["true", None])

    def test_typing(self) -> None:
        """The page decides as somebody types, a wrong rule is refused at the digit that is wrong, and Back leads to the rule before."""
        self.show("90")
        self.type_in("text", "2:3:-1:t0111011")
        said = "rule fault 1 length: the table must have one digit for each window, and has 7 digits and needs 8."
        self.assertEqual(self.text("byId('fault').firstChild"), said)
        self.assertEqual(self.verdicts(), [])
        self.browser.write("2")
        self.assertEqual((self.text("byId('fault').querySelector('pre')"), self.text("byId('fault').querySelector('mark')")),
                         ("2:3:-1:t01110112", "2"))
        self.type_in("text", "110")
        self.waits("shown?.report.rule === '2:3:-1:t01110110'")
        self.assertEqual((self.get("location.hash"), self.get("document.title")), ("#rule=110", "rule 110 · Foursaspen"))
        self.get("history.back()")
        self.waits("shown?.report.rule === '2:3:-1:t01011010'")
        self.assertEqual(self.get("byId('text').value"), "90")
        self.get("history.forward()")
        self.waits("shown?.report.rule === '2:3:-1:t01110110'")

    def test_clicking(self) -> None:
        """A click on a window changes its letter, in both orders; examples, classes and shapes lead to rules; Back undoes each."""
        self.show()
        self.browser.click("byId('table').children[0]")
        self.waits("location.hash === '#rule=2:3:-1:t11110110' && shown?.report.rule === '2:3:-1:t11110110'")
        self.assertEqual(self.verdicts(), verdicts_of("111"))
        self.assertEqual(self.get("document.activeElement.getAttribute('aria-label')"), "000 gives 1")
        self.browser.click("byId('wolfram')")
        self.browser.click("byId('table').children[0]")
        self.waits("shown?.report.rule === '2:3:-1:t11110111'")
        self.browser.click("byId('examples').children[1]")
        self.waits("shown?.report.rule === '2:3:-1:t00011101'")
        self.assertEqual(self.verdicts(), verdicts_of("184"))
        for before in ("11110111", "11110110", "01110110"):
            self.get("history.back()")
            self.waits(f"shown?.report.rule === '2:3:-1:t{before}'")
        self.get("(byId('states').value = '3', byId('states').dispatchEvent(new Event('change')))")
        self.waits("shown?.report.rule === '3:3:-1:t' + '0'.repeat(27)")
        self.browser.click("document.querySelector('#badges a')")
        self.assertEqual(self.get("[document.activeElement.id, location.hash.slice(0, 8)]"), ["surjective", "#rule=3:"])

    def test_a_preimage(self) -> None:
        for rule, tail in (("110", "0|1|0"), ("30", "01|1|0"), ("90", "1||0"), ("110", "0|01010|0"), ("2:3:2:t00011101", "01|1|0")):
            self.show(rule)
            self.type_in("tail", tail)
            self.browser.press("Enter")
            self.waits("byId('found').querySelector('p')")
            found = ca.preimage(rule, tail)
            said = f"{found.tail} is a preimage. Its middle begins at cell {found.start}." if isinstance(found, ca.Preimage) else (
                f"There is no preimage: no word has the image {found.word}, which is a part of it.")
            self.assertEqual(self.text("byId('found').firstChild"), said)
            self.assertEqual(self.get("byId('found').querySelectorAll('svg').length"), 1)
        self.type_in("tail", "0|2|0")
        self.browser.press("Enter")
        self.waits("byId('found').textContent.startsWith('notfit tail letter')")

    def test_certificates(self) -> None:
        """A certificate that the page saves is accepted by the program, and one that is dropped on the page is checked."""
        self.show("184", "1,4")
        texts = [program([name, "184", "1,4"])[1].decode() for name in ("certify", "brief")]
        links = self.get("[...document.querySelectorAll('#same a[download]')].map(it => [it.download, it.textContent])")
        self.assertEqual(links, [[f"2_3_-1_t00011101_version_{version}.json", f"the certificate of version {version}, {len(text):,} bytes"]
                                 for version, text in zip((2, 3), texts)])
        for text in [*texts, texts[0].replace("1", "2", 1), "", " " * 4194305]:
            self.drop("it.json", text)
            code, output = program(["check"], text.encode())
            self.waits("byId('checked').querySelector('pre')")
            self.assertEqual(self.text("byId('checked').querySelector('pre')"), output.decode())
            self.assertEqual("is accepted" in self.text("byId('checked')"), code == 0)
        self.drop("it.json", texts[1])
        self.waits("byId('checked').querySelector('a')")
        self.assertEqual(self.get("byId('checked').querySelector('a').hash"), "#rule=2:3:-1:t00011101&weights=1,4")

    def drop(self, name: str, text: str) -> None:
        made = json.dumps(text) if len(text) < 1000000 else f"' '.repeat({len(text)})"
        self.get(f"(() => {{ byId('checked').replaceChildren(); const held = new DataTransfer(); held.items.add(new File([{made}], '{name}')); "
                 "dispatchEvent(new DragEvent('drop', {dataTransfer: held, cancelable: true, bubbles: true})) })()")

    def test_elsewhere(self) -> None:
        """The command, the line of Python and the link give the same answer, and so does the JSON."""
        for rule, weights in (("110", ""), ("184", "-1,1")):
            self.show(rule, weights)
            texts = self.get("[...document.querySelectorAll('#same button')].map(it => it.previousElementSibling.textContent)")
            self.assertEqual(len(texts), 4)
            command, line, link, report = texts
            words = command.split()
            self.assertEqual(words[0], "./ca")
            said: list[str] = []
            exec(line, {"print": lambda it: said.append(str(it))})
            self.assertEqual(said, [program(words[1:])[1].decode()])
            self.assertEqual(json.loads(report)["finding"]["report"]["rule"], ca.Rule(rule))
            self.browser.open(link)
            self.waits("byId('told').textContent.includes('The report took')")
            self.assertEqual(self.get("[byId('text').value, byId('weights').value]"), [rule, weights])
        self.get("(getSelection().removeAllRanges(), document.querySelector('#same button').click())")
        self.waits("document.querySelector('#same button').textContent !== 'copy'")

    def test_commands(self) -> None:
        """Each command has its help, its output is that of the program, and a long one can be stopped while rules are decided."""
        self.show()
        self.run_line("language 110")
        self.waits("byId('status').textContent.startsWith('Status')")
        self.assertEqual(self.text("byId('output')"), program(["language", "110"])[1].decode())
        forms = [line.split()[0] for line in (TOP / "docs/COMMANDS.md").read_text().split("## All forms")[1].split("## ")[0].splitlines()
                 if line.startswith("    ./ca")]
        self.assertGreater(len(forms), 20)
        self.type_in("line", "inverse 170")
        self.assertEqual(self.text("byId('help').firstElementChild"), "Help for inverse")
        self.assertIn("least window", self.text("byId('section')").replace("\n", " "))
        self.run_line("classes 6 2 8000000000000000000000000000 4096")
        self.waits("!byId('stop').disabled")
        self.assertIn("You can stop it", self.text("byId('status')"))
        self.browser.click("byId('stop')")
        self.waits("byId('status').textContent === 'It was stopped.'")
        self.run_line("number 110")
        self.waits("byId('output').textContent === 'number 110\\n'")

    def test_rules_are_decided_while_a_command_runs(self) -> None:
        self.show()
        long = "commands.call({kind: 'run', words: 'classes 6 2 8000000000000000000000000000 4096'.split(' ')}).then(() => 'command')"
        self.assertEqual(self.get(f"Promise.race([{long}, ask(['number', '110']).then(() => 'rule')])"), "rule")
        self.run_line("classes 6 2 8000000000000000000000000000 4096")
        self.get("(byId('text').value = '90', go())")
        self.assertEqual(self.verdicts(), verdicts_of("90"))
        self.waits("byId('stop').disabled")
        self.assertEqual(self.text("byId('output')"), program("classes 6 2 8000000000000000000000000000 4096".split())[1].decode())

    def test_memory_that_is_not_there(self) -> None:
        """The memory has less than 4 GiB, and a block that doesn't fit is refused."""
        self.show()
        taken = self.get("(async () => { const {instance: {exports: it}} = await WebAssembly.instantiate(await module); return "
                         "[it.ca_take(1n << 33n), it.ca_take(1n << 62n), it.ca_take(8n)].map(block => block > 0n); })()")
        self.assertEqual(taken, [False, False, True])

    def test_labels(self) -> None:
        """Each control and each picture has a name, what scrolls can be reached by the keyboard, and what is new is announced."""
        self.show("110", width=360)
        nameless = self.get("[...document.querySelectorAll('input, select, textarea, button, svg[role=img], nav, [role=group]')].filter(it => !("
                            "it.ariaLabel || it.labels?.[0]?.textContent.trim() || it.textContent.trim())).map(it => it.outerHTML.slice(0, 80))")
        self.assertEqual(nameless, [])
        self.assertEqual(self.get("[...document.querySelectorAll('.scroll, pre:not(#fault pre)')].filter(it => it.tabIndex !== 0 && "
                                  "it.scrollWidth > it.clientWidth).length"), 0)
        self.assertEqual(self.get("['told', 'found', 'checked', 'status'].map(id => byId(id).getAttribute('role'))"), ["status"] * 4)
        self.assertEqual(self.get("byId('fault').getAttribute('role')"), "alert")
        names = self.get("[...document.querySelectorAll('[id]')].map(it => it.id)")
        self.assertEqual(len(set(names)), len(names))
        self.get("byId('text').focus()")
        self.browser.press("Tab")
        self.assertEqual(self.get("document.activeElement.id"), "weights")
        self.assertNotEqual(self.get("getComputedStyle(document.activeElement).outlineStyle"), "none")

    def test_contrast(self) -> None:
        """Each text has 4.5 times the brightness of its ground or the reverse, by day and by night."""
        for dark in (False, True):
            self.show("184", dark=dark)
            self.assertEqual(self.get(CONTRAST), [], dark)

    def test_narrow_and_wide(self) -> None:
        for rule in ("110", "184", "30", *RULES[-2:]):
            for width, dark in ((360, False), (360, True), (1280, False), (1280, True)):
                with self.subTest(rule=rule, width=width, dark=dark):
                    self.show(rule, width=width, dark=dark)
                    self.assertLessEqual(self.get("document.documentElement.scrollWidth"), width)

    def test_print(self) -> None:
        """On paper there are the verdicts and the pictures, and no forms."""
        self.show("110")
        self.browser.call("Emulation.setEmulatedMedia", media="print")
        seen = self.get("Object.fromEntries(['badges', 'surjective', 'form', 'command', 'asking', 'words'].map(id => "
                        "[id, byId(id).getClientRects().length > 0]))")
        self.browser.call("Emulation.setEmulatedMedia", media="")
        self.assertEqual(seen, {"badges": True, "surjective": True, "form": False, "command": False, "asking": False, "words": False})
