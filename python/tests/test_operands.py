"""Operands: what may be one, and errors that name the one that is wrong."""
from __future__ import annotations

import inspect
import io
import tempfile
import types
import unittest
from collections.abc import Callable
from pathlib import Path
from typing import Any
from unittest import mock

import foursaspen as ca
from foursaspen.library import Library
from foursaspen.operands import CertificateLike
from foursaspen.rule_values import CALLS

# Any: these operands are wrong on purpose.
decide: Any = ca.decide
check: Any = ca.check
preimage: Any = ca.preimage
run: Any = ca.run
verdicts: Any = ca.verdicts
survey_over: Any = ca.survey_over
tail: Any = ca.Tail
rules: Any = ca.rules
picture: Any = ca.picture
flux: Any = ca.flux
keeps: Any = ca.keeps
site: Any = ca.site
rule: Any = ca.Rule
rule_of: Any = ca.Rule.of
Wrong = list[tuple[Callable[[], object], type[Exception], str]]

CERTIFICATE = ca.certify("2:2:0:t0101")
MISTAKES: Wrong = [
    (lambda: ca.survey(2, 3, 0, 5000), ca.UsageError, "count is 1 to 4,096, and not 5,000"),
    (lambda: ca.survey(2, 3, 0, 0), ca.UsageError, "count is 1 to 4,096, and not 0"),
    (lambda: ca.survey(2, 3, -1, 1), ca.UsageError, "start is 0 to "),
    (lambda: ca.survey(2, 6, 0, 1), ca.UsageError, "width is 2 to 5, and not 6"),
    (lambda: ca.sample(17, 2, 0, 1), ca.UsageError, "states is 2 to 16, and not 17"),
    (lambda: ca.sample(2, 3, -1, 1), ca.UsageError, "seed is 0 to 18,446,744,073,709,551,615, and not -1"),
    (lambda: ca.sample(2, 3, 2 ** 64, 1), ca.UsageError, "seed is 0 to 18,446,744,073,709,551,615, and not "),
    (lambda: ca.decide(110, [0, 256]), ca.UsageError, "the greatest is at most 255 more than the least, and not 0 and 256"),
    (lambda: ca.decide(110, [-1, 300]), ca.UsageError, "the greatest is at most 255 more than the least, and not -1 and 300"),
    (lambda: ca.decide(110, "0,256"), ca.UsageError, "the greatest is at most 255 more than the least, and not 0 and 256"),
    (lambda: ca.decide(110, "0, 1"), ca.UsageError, "weights are whole numbers with one comma between, as '0,1', and not '0, 1'"),
    (lambda: ca.decide(110, []), ca.NotFitError, "there must be one weight for each of the 2 letters, and there are 0"),
    (lambda: ca.decide(110, [1]), ca.NotFitError, "notfit weights: there must be one weight for each of the 2 letters, and there is 1"),
    (lambda: decide(110, [0, 1.5]), TypeError, "weights are whole numbers, and not 1.5 of type float"),
    (lambda: decide(110, 3), TypeError, "weights are a text or whole numbers, one for each letter, and not 3 of type int"),
    (lambda: decide(110, {0, 1}), TypeError, "weights are a text or whole numbers, one for each letter, and not {0, 1} of type set"),
    (lambda: decide(110, {1: 1, 2: 4}), ca.UsageError, "weights have the letters 0 to 1, and not 1, 2"),
    (lambda: decide(110, {}), ca.UsageError, "weights have the letters 0 to 1, and not none"),
    (lambda: decide(110, {"x": 1, "y": 2}), ca.UsageError, "weights have the letters 0 to 1, and not"),
    (lambda: decide(110, {0.5: 1, 1: 2}), TypeError, "a letter of weights is a whole number from 0 to 1, and not 0.5 of type float"),
    (lambda: ca.shift(110, 100), ca.UsageError, "cells is -31 to 31, and not 100"),
    (lambda: ca.widen(110, 6), ca.UsageError, "width is 2 to 5, and not 6"),
    (lambda: ca.permute(110, [1, 16]), ca.UsageError, "digits are 0 to 15, and not 16"),
    (lambda: ca.permute(110, "1x"), ca.UsageError, "digits are 1 to 16 hexadecimal digits"),
    (lambda: ca.permute(110, "11"), ca.NotFitError, "notfit permutation: the digits must name each of the letters 0 to 1 once, and are 11"),
    (lambda: ca.permute(110, {1, 0}), TypeError, "digits are a text or whole numbers from 0 to 15, one for each letter, and not {0, 1}"),
    (lambda: ca.permute(110, {0: 1, 2: 0}), ca.UsageError, "digits have the letters 0 to 1, and not 0, 2"),
    (lambda: preimage(110, "010"), ca.UsageError, "tail is LEFT|MIDDLE|RIGHT, three words of hexadecimal digits"),
    (lambda: preimage(110, ("0", "1", "0")), TypeError, "tail is a Tail or a text LEFT|MIDDLE|RIGHT, and not "),
    (lambda: decide(None), TypeError, "rule is a text, the number of an elementary rule, an answer that has a rule, or a Rule"),
    (lambda: decide(True), TypeError, "rule is a text, "),
    (lambda: decide([0, 1, 1, 0]), TypeError, "made of a table as Rule(states=2, offset=-1, table=[..]), and not [0, 1, 1, 0] of type list"),
    (lambda: decide((110,)), TypeError, "rule is a text, "),
    (lambda: decide(110.0), TypeError, "and not 110.0 of type float"),
    (lambda: decide(b"110"), TypeError, "rule is a text, "),
    (lambda: ca.decide(""), ca.RuleError, "rule fault 1 form 0: a rule must be a number, as 110, or STATES:WIDTH:OFFSET:tTABLE, as "
     "2:3:-1:t01110110, and '' is empty"),
    (lambda: ca.decide("2:3:t01"), ca.RuleError, "and '2:3:t01' is neither from place 4 on"),
    (lambda: ca.decide(-1), ca.RuleError, "rule fault 1 number: the number must be that of a rule of the shape, from 0 to 255, and not -1"),
    (lambda: ca.same(110, 256), ca.RuleError, "rule fault 2 number: the number must be that of a rule of the shape, from 0 to 255"),
    (lambda: ca.decide("2:3:-1:t0110111"), ca.RuleError, "the table must have one digit for each window, and has 7 digits and needs 8"),
    (lambda: ca.decide("2:3:-1:t01201110"), ca.RuleError, "each digit of the table must be below the number of states, and 2 at place 10"),
    (lambda: ca.decide("17:2:0:t0"), ca.RuleError, "there must be 2 to 16 states, and not 17"),
    (lambda: ca.decide("2:6:0:t0"), ca.RuleError, "the width must be 2 to 5, and not 6"),
    (lambda: ca.decide("3:4:0:w0"), ca.RuleError, "at most 16 words of width - 1 letters, and 3 states and width 4 have 27"),
    (lambda: ca.decide("2:3:15:w0"), ca.RuleError, "offset + width - 1 at most 16, and not 15 of width 3"),
    (lambda: ca.decide("7:2:0:w0"), ca.RuleError, "at most six states to have a number, and not 7"),
    (lambda: ca.survey(2, 2, 10, 7), ca.RuleError, "that of a rule of the shape, from 0 to 15, and not 16"),
    (lambda: ca.verdict_bytes(2, 3, 0, 257), ca.RuleError, "that of a rule of the shape, from 0 to 255, and not 256"),
    (lambda: ca.verdicts(2, 3, [0, 1, 1]), ca.RuleError, "the table must have one digit for each window, and has 3 letters and needs 8"),
    (lambda: ca.compose("2:5:0:t" + "0110100110010110" * 2, 150), ca.NotFitError, "notfit width: the width of the result must be at most 5, and would be 7"),
    (lambda: ca.widen("2:4:0:w0", 3), ca.NotFitError, "the width must be at least that of the rule, 4, and not 3"),
    (lambda: ca.preimage(110, "|101|0"), ca.NotFitError, "notfit tail leftempty: the left period of a configuration must have a letter"),
    (lambda: ca.preimage(110, "0|1|2"), ca.NotFitError, "each letter of a configuration must be below 2, and 2 isn't"),
    (lambda: check(None), TypeError, "certificate is a Certificate, a text, bytes, a dict, a path or an open file"),
    (lambda: check(Path("/nowhere/c.json")), FileNotFoundError, "/nowhere/c.json"),
    (lambda: check("/nowhere/c.json"), FileNotFoundError, "/nowhere/c.json"),
    (lambda: check(110), TypeError, "certificate is "),
    (lambda: check("\ud83d"), ca.WordsError, "certificate has no UTF-8"),
    (lambda: "2" in ca.language(110), ca.UsageError, "word has letters from 0 to 1, and not '2'"),
    (lambda: "0 1" in ca.language(110), ca.UsageError, "word has letters from 0 to 1, and not ' '"),
    (lambda: 0 in ca.language(110), TypeError, "word is a text"),
    (lambda: ca.run("decide 110"), TypeError, "words are a list of texts"),
    (lambda: run(["decide", 110]), TypeError, "words are a list of texts, and not 110 of type int"),
    (lambda: verdicts(2, 3, 110), TypeError, "table is a list of letters, one for each window, and not 110 of type int"),
    (lambda: verdicts(2, 3, "01101110"), TypeError, "table is a list of letters, one for each window, and not '01101110' of type str"),
    (lambda: survey_over(4, 2, 3), TypeError, "executor is an Executor of concurrent.futures or None, and not 4 of type int"),
    (lambda: tail(0, 101, 0), TypeError, "left is a text of digits, and not 0 of type int"),
    (lambda: ca.Tail("0", "x", "0"), ca.UsageError, "middle is a text of hexadecimal digits, and not 'x'"),
    (lambda: ca.Tail.of("0|1"), ca.UsageError, "tail is LEFT|MIDDLE|RIGHT, three words of hexadecimal digits, and not '0|1'"),
    (lambda: ca.Tail("", "1", "").cells(-2, 2), ca.UsageError, "left must have a letter, since it is repeated"),
    (lambda: rules("undoable", 2, 3), ca.UsageError, "property is one of surjective, injective, right, left, open, conserving, or a list"),
    (lambda: rules(2, 2, 3), TypeError, "property is one of surjective, "),
    (lambda: picture(110, 3), TypeError, "show is one of graph, orphan, "),
    (lambda: flux(14, [1, 2]), TypeError, "weights are a dict of words and what they weigh, as {'10': 1}, and not [1, 2] of type list"),
    (lambda: flux(14, {10: 1}), TypeError, "a word of weights is a text of digits, or a letter from 0 to 1, and not 10 of type int"),
    (lambda: flux(14, {"10": 0.5}), TypeError, "the weight of 10 is a whole number or a fraction, and not 0.5 of type float"),
    (lambda: flux(14, {"10": 1, "1": 2}), ca.UsageError, "weights are of words of one length, and not of 1 and 2"),
    (lambda: flux(14, {}), ca.UsageError, "weights are of words of one length, and not of no word"),
    (lambda: flux(14, {"12": 1}), ca.UsageError, "words of weights have letters from 0 to 1, and not '12'"),
    (lambda: flux(14, {"00000": 1}), ca.UsageError, "range is 1 to 4, since there are at most 16 words of so many letters, and not 5"),
    (lambda: flux(14, {"10": 2 ** 57}), ca.UsageError, "weights are at most 72,057,594,037,927,936 on either side of 0"),
    (lambda: rule(), TypeError, "a rule is made of a text, of a number, or of states and a table"),
    (lambda: rule(table=[0, 1, 1, 0]), TypeError, "a table is handed over with the number of states, as Rule(states=2, table=[0, 1, 1, 0])"),
    (lambda: rule(states=2, table=110), TypeError, "table is a list of letters, and not 110 of type int"),
    (lambda: rule(states=2, table=[0, 1, 2, 0]), ca.UsageError, "a letter is 0 to 1, and not 2"),
    (lambda: rule(states=2, table=[0, 1, 0]), ca.RuleError, "of which 2 states have 4, 8, 16, 32, and not 3"),
    (lambda: rule(states=2, width=3, table=[0, 1, 1, 0]), ca.RuleError, "and has 4 letters and needs 8"),
    (lambda: rule(states=2, offset=0.5, table=[0, 1, 1, 0]), TypeError, "offset is a whole number, and not 0.5 of type float"),
    (lambda: rule_of(3, states=2), TypeError, "function is a function of letters, and not 3 of type int"),
    (lambda: rule_of(lambda *cells: 0, states=2), TypeError, "width is how many letters the function takes, and has to be named"),
    (lambda: rule_of(lambda a, b: a + b, states=2), ca.UsageError, "a letter is 0 to 1, and not 2"),
    (lambda: ca.Rule.totalistic(3, 3, 3 ** 7), ca.UsageError, "code is 0 to 2,186, and not 2,187"),
    (lambda: ca.Rule.from_wolfram("011"), ca.RuleError, "of which 2 states have 4, 8, 16, 32, and not 3"),
    (lambda: ca.Rule.from_wolfram("0x10"), ca.UsageError, "row is a letter for each window, as '01101110', and not '0x10'"),
    (lambda: rule(number=6000, states=2), TypeError, "a number is handed over with states and width, as Rule(number=6000, states=2, width=4), "
     "or is that of an elementary rule, as Rule(number=110)"),
    (lambda: rule(number=256), TypeError, "a number is handed over with states and width, as Rule(number=6000, states=2, width=4)"),
    (lambda: rule(110).inverse(), AttributeError, "a rule has no 'inverse': write inverse(rule), a call of the package"),
    (lambda: ca.power(110, -1), ca.UsageError, "steps is 0 to 1,000, and not -1"),
    (lambda: ca.verdict_bytes(2, 3, -1, 3), ca.UsageError, "first is 0 to 255, and not -1"),
    (lambda: survey_over(2, 4, 0.5), TypeError, "executor is an Executor of concurrent.futures or None, and not 2 of type int"),
    (lambda: site(2, 3, 4), TypeError, "folder is a path, and not 2 of type int"),
    (lambda: keeps(184, {2: 1}), TypeError, "a word of weights is a text of digits, or a letter from 0 to 1, and not 2 of type int"),
    (lambda: ca.order(110, 0), ca.UsageError, "most is 1 to 1,000, and not 0"),
    (lambda: ca.atlas(2, 3, "pdf"), ca.UsageError, "form is one of markdown, csv, html, and not 'pdf'"),
]


class Nothing:
    """What is no operand of anything."""


class Index:
    """A whole number of another library."""

    def __index__(self) -> int:
        return 3


class Operands(unittest.TestCase):
    def test_an_error_names_what_is_wrong(self) -> None:
        for asked, kind, said in MISTAKES:
            with self.subTest(said=said):
                with self.assertRaises(kind) as raised:
                    asked()
                self.assertIn(said, str(raised.exception))
                self.assertNotIsInstance(raised.exception, ca.RefusedError)

    def test_what_is_wrong_by_its_type_or_range_is_not_handed_over(self) -> None:
        called = AssertionError("the library is called")
        with mock.patch.object(Library, "run", side_effect=called), mock.patch.object(Library, "run_json", side_effect=called):
            for asked, kind, said in MISTAKES:
                if not said.startswith("word "):    # of an answer of the library
                    self.assertRaises(kind, asked)

    def test_what_is_of_a_wrong_type_is_a_type_error(self) -> None:
        """Each public call, with something else in the place of each of its operands in turn."""
        tail = ca.Tail("0", "1", "0")
        calls: list[tuple[Any, tuple[Any, ...]]] = [
            (ca.decide, (110, [0, 1])), (ca.certify, (110, [0, 1])), (ca.brief, (110, [0, 1])), (ca.orphan, (110,)), (ca.number, (110,)),
            (ca.check, ("{}",)), (ca.language, (110,)), (ca.same, (110, 90)), (ca.preimage, (110, tail)), (ca.erase, (110,)),
            (ca.inverse, (170,)), (ca.compose, (110, 90)), (ca.trim, (110,)), (ca.widen, (110, 4)), (ca.shift, (110, 1)),
            (ca.reflect, (110,)), (ca.permute, (110, [1, 0])), (ca.least, (110,)), (ca.lift, (110,)), (ca.unlift, (110,)),
            (ca.survey, (2, 2, 0, 16)), (ca.sample, (2, 2, 0, 16)), (ca.classes, (2, 2, 0, 16)), (ca.run, (["number", "110"], b"")),
            (ca.verdicts, (2, 2, [0, 1, 1, 0])), (ca.verdict_bytes, (2, 2, 0, 16)), (ca.kept_sums, (110, 1)), (ca.flux, (14, {"10": 1})),
            (ca.keeps, (14, {"10": 1})), (ca.degree, (110,)), (ca.blocks, (170,)), (ca.picture, (110, "orphan", [0, 1])),
            (ca.windows, (110,)), (ca.page, (110, [0, 1])),
            (ca.to_dot, (110,)), (ca.class_of, (110,)), (ca.is_involution, (110,)), (ca.order, (110, 3)), (ca.as_dict, (110,)),
            (ca.image, (110, "010")), (ca.rules, ("open", 2, 2, 0, "0")), (ca.survey_over, (None, 2, 2)), (ca.Rule, (110,)),
            (ca.Rule.totalistic, (2, 3, 10, -1)), (ca.Rule.from_wolfram, ("0110", 2, 0)), (ca.Tail, ("0", "1", "0")),
            (ca.Tail.of, ("0|1|0",)), (ca.language(110).class_of, ("0",)), (ca.atlas, (2, 2, "csv")), (ca.site, ("/nowhere/site", 2, 2)),
            (ca.atlas_rows, (2, 2, 0)), (ca.current, (14, {"10": 1})), (ca.moved, (110, 0)), (ca.undoes, (51, 51)), (ca.commutes, (90, 150)),
            (ca.symmetries, (110,)), (ca.time_reversal, (170,)), (ca.is_linear, (110,)), (ca.preimages, (110, "01")),
            (ca.count_preimages, (110, "01")), (ca.power, (110, 2))]
        known = {getattr(one, "__name__", "") for one, _ in calls}
        functions = {name for name in ca.__all__ if isinstance(getattr(ca, name), types.FunctionType)}
        self.assertEqual(functions - known, {"keep_freed_memory", "to_networkx"})
        for call, operands in calls:
            for place in range(len(operands)):
                with self.subTest(call=call, place=place), self.assertRaises(TypeError) as raised:
                    call(*operands[:place], Nothing(), *operands[place + 1:])
                self.assertRegex(str(raised.exception), "Nothing$")

    def test_calls_that_are_no_methods_of_a_rule(self) -> None:
        """Each call whose first operand is a rule is named; what is no call is refused as ever."""
        taking = {name for name in ca.__all__ if isinstance(getattr(ca, name), types.FunctionType) and
                  next(iter(inspect.signature(getattr(ca, name)).parameters), "") == "rule"}
        self.assertEqual(taking - {"number"} | {"undoes", "to_networkx"}, CALLS)
        for name in CALLS:
            with self.assertRaisesRegex(AttributeError, rf"^a rule has no '{name}': write {name}\(rule\)"):
                getattr(ca.Rule(110), name)
        self.assertFalse(hasattr(ca.Rule(110), "keys"))

    def test_names_that_are_guessed(self) -> None:
        """What users write at first means what they mean."""
        self.assertEqual(ca.Rule(number=110), ca.Rule(110))
        self.assertEqual((ca.decide(170).reversible, ca.decide(90).reversible, ca.check(ca.brief(51)).reversible), (True, False, True))
        self.assertEqual((ca.language(110).accepts("0110"), ca.language(110).accepts("01010")), (True, False))
        self.assertEqual(ca.decide(184, {1: 1}), ca.decide(184, [0, 1]))
        self.assertEqual((ca.keeps(184, {1: 1}), keeps("4:2:0:w0", {Index(): 0})), (ca.keeps(184, {"1": 1}), ca.keeps("4:2:0:w0", {"3": 0})))
        self.assertEqual((ca.power(90, 2), ca.power(90, 1), ca.power(90, 0)), (ca.compose(90, 90), ca.Rule(90), ca.Rule("2:2:0:t0011")))
        self.assertEqual((ca.power(51, 100), ca.trim(ca.power(51, 2))), (ca.power(51, 0),) * 2)

    def test_what_has_a_rule_is_a_rule(self) -> None:
        shift = "2:2:0:t0101"
        report, certificate = ca.decide(shift), ca.certify(shift)
        self.assertEqual(ca.decide(report), report)
        self.assertEqual(ca.orphan(ca.decide(110)), "01010")
        self.assertEqual(ca.trim(ca.compose(certificate, ca.inverse(report))), ca.Rule("2:2:0:t0011"))
        self.assertTrue(ca.same(ca.check(certificate), shift))
        self.assertEqual(ca.picture(report), ca.picture(shift))
        wide = "".join(f"{(x + 2 * y) % 16:x}" for x in range(16) for y in range(16))
        with self.assertRaises(ca.UsageError) as raised:
            ca.decide(ca.inverse(f"16:2:0:t{wide}"))
        self.assertIn("rule is of type Inverse and has no rule", str(raised.exception))

    def test_whole_numbers_of_other_libraries(self) -> None:
        three = Index()
        self.assertEqual(ca.survey(2, three, three, three), ca.survey(2, 3, 3, 3))
        self.assertEqual(ca.decide(three, [three, three]), ca.decide(3, "3,3"))
        self.assertEqual(ca.shift(204, three), ca.shift(204, 3))

    def test_what_check_takes(self) -> None:
        text = str(CERTIFICATE)
        data = text.encode()
        with tempfile.TemporaryFile() as file:
            file.write(data)
            file.seek(0)
            taken: list[CertificateLike] = [
                CERTIFICATE, text, data, bytearray(data), memoryview(data), io.StringIO(text), io.BytesIO(data), file,
                CERTIFICATE.data]
            for certificate in taken:
                self.assertEqual(ca.check(certificate).rule, "2:2:0:t0101")
        with tempfile.TemporaryDirectory() as folder:
            for path in (Path(folder) / "certificate.json", Path(folder) / "certificate"):
                path.write_text(text)
                self.assertEqual([ca.check(path).rule, ca.check(str(path)).rule], ["2:2:0:t0101"] * 2)
        with self.assertRaisesRegex(ca.RefusedError, "refused format notjson: the certificate must be a JSON text"):
            ca.check("no certificate")

    def test_mappings_are_read_by_their_letters(self) -> None:
        """Rule 184 keeps the number of ones, so what each one more weighs is the flux of 11 but for its sign."""
        for weights in ([1, 4], (1, 4), {0: 1, 1: 4}, {1: 4, 0: 1}, {"1": 4, "0": 1}):
            self.assertEqual(decide(184, weights), ca.decide(184, "1,4"))
        self.assertEqual(ca.decide(184, {0: 1, 1: 4}).flux, (0, 0, 0, -3))
        self.assertEqual(ca.permute(110, {0: 1, 1: 0}), ca.permute(110, "10"))
        self.assertEqual(ca.permute("3:2:0:t012120201", {2: 0, 0: 1, 1: 2}), ca.permute("3:2:0:t012120201", "120"))

    def test_negative_weights(self) -> None:
        """One number more for each letter is as much more for a ring and for its image."""
        known: list[ca.RuleLike] = [184, 110, 170, "3:2:0:t000111222", "3:3:0:t" + "012" * 9]
        for rule in known:
            states = ca.Rule(rule).states
            for weights in ([-7, 200, 3][:states], [0, 255, 9][:states], [-255, 0, -9][:states], [1000, 1001, 1255][:states]):
                less = [weight - min(weights) for weight in weights]
                one, other = ca.decide(rule, weights), ca.decide(rule, less)
                self.assertEqual((one.text, one.weights), (other.text, tuple(weights)))
                self.assertEqual(ca.certify(one), ca.certify(rule, less))


if __name__ == "__main__":
    unittest.main()
