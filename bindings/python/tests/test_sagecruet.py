"""Tests of the module sagecruet, and of the examples in it, in its README.md and in the repository's:

    python3 -m unittest discover -s bindings/python/tests

They go by the library where it loads, and else by the program; what needs one that is not there is skipped. What is held to
files of the repository is tried where the module stands in it.
"""

import contextlib
import decimal
import doctest
import importlib.util
import os
import pickle
import re
import shutil
import sys
import tempfile
import unittest
from decimal import Decimal
from fractions import Fraction
from pathlib import Path
from unittest import mock

HERE = Path(__file__).resolve().parent
sys.path.insert(0, str(HERE.parent))

import sagecruet  # noqa: E402

ROOT = HERE.parents[2]
IN_REPOSITORY = (ROOT / "crates.txt").is_file()

# Sheet T of the rules.
T = sagecruet.Sheet([20, 60, 100], [25, 75], [20000, 50000, 70000, 40000, 65000, 80000])
PAVED = [("com", "imp", "-", 257)]
HEAD = ("basin", "P", "step", 39, "size", 70000)


def text_of(*values):
    """The text of a job, put together here: what the library has to write, and what is to be answered where it is not there."""
    keys = ("practice", "nutrient", "mode", "rate", "task", "amount")
    lines = [f"{key}={value}" for key, value in zip(keys, values)]
    return "\n".join(lines + ["area=" + ",".join(map(str, area)) for area in values[6]]) + "\n"


SIZE = text_of(*HEAD, PAVED)
SIZED = "answer=0\nload=45746\ndepth=36\ncredit=70000\nbasis=between\nvolume=335847600\nremoved=32022\n"
LOAD = text_of("basin", "N", "step", 0, "load", 0, [("ind", "imp", "-", 1013), ("com", "per", "C", 185), ("for", "per", "C", 89)])
LOADED = "answer=0\nload=1568350\ndepth=0\ncredit=0\nbasis=none\nvolume=0\nremoved=0\n"
STORED = text_of(*HEAD, PAVED + [("com", "per", "U", 300)])


def writes():
    try:
        return bool(sagecruet.job(*HEAD, PAVED))
    except sagecruet.Unavailable:
        return False


def rewrites():
    try:
        return sagecruet.rewrite("") == b""
    except sagecruet.Unavailable:
        return False


def checks():
    try:
        return sagecruet.check("", "answer=1\nline=1\n") is None
    except sagecruet.Unavailable:
        return False


needs_answers = unittest.skipIf(sagecruet.backend() is None, "neither the library nor the program is there")
needs_rewriting = unittest.skipIf(not rewrites(), "neither the library nor the program rewriterun is there")
needs_writing = unittest.skipIf(not writes(), "neither the library nor the program entry is there")
needs_checking = unittest.skipIf(not checks(), "neither the library nor the program review is there")
needs_library = unittest.skipIf(sagecruet.backend() != "library", "the library cannot be loaded here")
needs_repository = unittest.skipIf(not IN_REPOSITORY, "the module does not stand in the repository")


def examples_need(test):
    """Skips the examples of a docstring, or of README.md, that need more than is there."""
    name = test.name.split(".")[-1]
    if name in ("fault", "sheet_verdict", "percent", "reading") and sagecruet.backend() != "library":
        raise unittest.SkipTest("the library cannot be loaded here")
    if name in ("sagecruet", "answer", "curve", "md") and sagecruet.backend() is None:
        raise unittest.SkipTest("neither the library nor the program is there")
    if name in ("sagecruet", "job", "rewrite", "curve", "md") and not writes():
        raise unittest.SkipTest("neither the library nor the program entry is there")
    if name in ("rewrite", "md") and not rewrites():
        raise unittest.SkipTest("neither the library nor the program rewriterun is there")
    if name in ("check", "md") and not checks():
        raise unittest.SkipTest("neither the library nor the program review is there")


def in_the_repository(test):
    """The examples of the repository's README.md, which name files of it."""
    examples_need(test)
    test.globs.update(sagecruet=sagecruet, before=os.getcwd())
    os.chdir(ROOT)


def load_tests(loader, tests, pattern):
    tests.addTests(doctest.DocTestSuite(sagecruet, setUp=examples_need))
    tests.addTests(doctest.DocFileSuite(str(HERE.parent / "README.md"), module_relative=False, setUp=examples_need))
    if IN_REPOSITORY:
        tests.addTests(doctest.DocFileSuite(str(ROOT / "README.md"), module_relative=False, setUp=in_the_repository,
                                            tearDown=lambda test: os.chdir(test.globs["before"])))
    return tests


class Units(unittest.TestCase):
    def test_each_unit_has_its_decimals(self):
        for name, written, whole in (
            ("acres", "10.13", 1013),
            ("inches", "0.36", 36),
            ("inches_per_hour", "8.27", 827),
            ("percent", "90.800", 90800),
            ("cubic_feet", "3358.47600", 335847600),
            ("pounds", "156.8350", 1568350),
        ):
            with self.subTest(unit=name):
                self.assertEqual(getattr(sagecruet, "from_" + name)(written), whole)
                self.assertEqual(getattr(sagecruet, "from_" + name)(Decimal(written)), whole)
                self.assertEqual(str(getattr(sagecruet, "to_" + name)(whole)), written)

    def test_whole_numbers_and_powers_of_ten(self):
        self.assertEqual(sagecruet.from_cubic_feet(15000), 1500000000)
        self.assertEqual(sagecruet.from_acres(Decimal("1E+2")), 10000)
        self.assertEqual(sagecruet.from_acres("10.1300"), 1013)
        self.assertEqual(sagecruet.from_acres("0E+99999"), 0)
        self.assertEqual(sagecruet.from_acres("-0.0"), 0)
        for written, whole in ((".5", 50), ("5.", 500), ("+5", 500), ("1e2", 10000), ("25E-2", 25)):
            self.assertEqual(sagecruet.from_acres(written), whole)
        self.assertEqual(str(sagecruet.to_cubic_feet(0)), "0.00000")
        self.assertEqual(str(sagecruet.to_cubic_feet(1)), "0.00001")

    def test_a_float_is_a_type_error_that_says_to_write_a_string(self):
        with self.assertRaisesRegex(TypeError, 'acres: a float is not exact; write it as a string, "10.13"'):
            sagecruet.from_acres(10.13)
        with self.assertRaisesRegex(TypeError, "whole number, not float"):
            sagecruet.to_acres(1013.0)

        class Shown(float):  # as numpy's are
            def __repr__(self):
                return "np.float64(10.13)"

        with self.assertRaisesRegex(TypeError, 'write it as a string, "10.13", or'):
            sagecruet.from_acres(Shown(10.13))

    def test_what_is_not_exact_is_refused_with_the_unit(self):
        for name, written, counted in (
            ("acres", "10.135", "hundredths of an acre"),
            ("inches", "0.001", "hundredths of an inch"),
            ("inches_per_hour", "0.525", "hundredths of an inch per hour"),
            ("percent", "0.0001", "thousandths of a percent"),
            ("cubic_feet", "0.000001", "hundred-thousandths of a cubic foot"),
            ("pounds", "1E-5", "ten-thousandths of a pound"),
            ("acres", "1E-99999999", "hundredths of an acre"),
        ):
            for value in (written, Decimal(written)):
                with self.subTest(unit=name, value=value), self.assertRaisesRegex(ValueError, f"{name}: not a .* {counted}:"):
                    getattr(sagecruet, "from_" + name)(value)

    def test_no_numbers_are_refused(self):
        wrong = ["NaN", "Infinity", Decimal("NaN"), Decimal("sNaN"), Decimal("-Infinity"), float("nan"), float("-inf")]
        wrong += ["ten", "", ".", "E5", "1.2.3", "1,000", "10.13 acres", "--1", "1E+99999999999999999999"]
        wrong += ["1_0", " 1", "1 ", "1\n", "\u0661", "\uff11"]  # the last two: a one in other scripts
        for value in wrong:
            with self.subTest(value=value), self.assertRaisesRegex(ValueError, "acres: not a number"):
                sagecruet.from_acres(value)
        for value in (-1, "-0.01", Decimal(-5)):
            with self.subTest(value=value), self.assertRaisesRegex(ValueError, "below zero"):
                sagecruet.from_acres(value)
        with self.assertRaisesRegex(ValueError, "below zero"):
            sagecruet.to_acres(-1)
        with self.assertRaisesRegex(ValueError, "far above"):
            sagecruet.from_acres("1E+999999999")

    def test_other_kinds_are_type_errors(self):
        for value in (None, True, b"10.13", [10], 1j):
            with self.subTest(value=value):
                self.assertRaisesRegex(TypeError, "^acres: expected", sagecruet.from_acres, value)
        for value in (None, True, "1013", Decimal(1013)):
            with self.subTest(value=value):
                self.assertRaisesRegex(TypeError, "hundredths of an acre: expected a whole", sagecruet.to_acres, value)

    def test_the_precision_of_decimals_plays_no_part(self):
        with decimal.localcontext() as context:
            context.prec = 2
            for trap in context.traps:
                context.traps[trap] = trap is decimal.Inexact
            self.assertEqual(sagecruet.from_cubic_feet("123456789.12345"), 12345678912345)
            self.assertEqual(str(sagecruet.to_cubic_feet(12345678912345)), "123456789.12345")
            self.assertRaises(ValueError, sagecruet.from_acres, "ten")

    def test_an_answer_in_natural_units(self):
        given = {"answer": 0, "load": 45746, "depth": 36, "credit": 70000, "basis": "between", "volume": 335847600,
                 "removed": 32022}
        self.assertEqual(
            {key: str(value) for key, value in sagecruet.natural(given).items()},
            {"answer": "0", "load": "4.5746", "depth": "0.36", "credit": "70.000", "basis": "between", "volume": "3358.47600",
             "removed": "3.2022"},
        )
        self.assertEqual(sagecruet.natural({"answer": 1, "line": 8}), {"answer": 1, "line": 8})
        self.assertRaises(TypeError, sagecruet.natural, "answer=0")


class JobTexts(unittest.TestCase):
    @needs_writing
    @needs_repository
    def test_the_sample_job(self):
        areas = [("ind", "imp", "-", 1013), ["com", "per", "C", 185], ("for", "per", "C", 89)]
        self.assertEqual(sagecruet.job("basin", "N", "step", 0, "load", 0, areas), (ROOT / "jobs" / "sample.job").read_text())

    @needs_writing
    @needs_repository
    def test_every_job_of_the_folder_that_reads_is_written_back(self):
        for path in sorted((ROOT / "jobs").glob("*.job")):
            values = [line.split("=")[1] for line in path.read_text().splitlines()]
            rows = [value.split(",") for value in values[6:]]
            head = (*values[:3], int(values[3]), values[4], int(values[5]))
            with self.subTest(job=path.name):
                if path.name == "refused-1.job":
                    self.refused(1, *head, [(*row[:3], int(row[3])) for row in rows])
                else:
                    self.assertEqual(sagecruet.job(*head, [(*row[:3], int(row[3])) for row in rows]), path.read_text())

    @needs_writing
    def test_each_word_is_written(self):
        for place, kind in ((0, "practice"), (1, "nutrient"), (2, "mode"), (4, "task")):
            for word in sagecruet.WORDS[kind]:
                values = (*HEAD[:place], word, *HEAD[place + 1:], PAVED)
                self.assertEqual(sagecruet.job(*values), text_of(*values))
        areas = [(use, *rest) for use in sagecruet.WORDS["use"] for rest in (("imp", "-", 10), ("per", "A", 9))]
        areas += [("com", "per", soil, 100) for soil in sagecruet.WORDS["soil"] if soil != "-"]
        self.assertEqual(sagecruet.job(*HEAD, areas), text_of(*HEAD, areas))

    @needs_writing
    def test_the_longest_and_the_shortest(self):
        # 94 bytes of the first six lines, and 24 and 23 of an area's line; 13, 11, 9, 7, 10, 9 and 16 bytes.
        longest = ("biofilter", "P", "step", 10**14 - 1, "credit", 10**14 - 1,
                   7 * [("open", "per", "CD", 100000)] + 25 * [("open", "per", "CD", 10000)])
        shortest = ("isr", "P", "mix", 0, "load", 0, [("ag", "imp", "-", 1)])
        for values, length in ((longest, 94 + 7 * 24 + 25 * 23), (shortest, 75)):
            self.assertEqual(sagecruet.job(*values), text_of(*values))
            self.assertEqual(len(sagecruet.job(*values)), length)
        self.assertEqual(sagecruet.JOB_ROOM, 94 + 7 * 24 + 25 * 23)

    @needs_writing
    def test_a_job_that_is_refused_otherwise_is_written(self):
        for values in (
            ("basin", "P", "step", 20000, "size", 70000, PAVED),  # 6
            ("basin", "P", "step", 0, "size", 70000, PAVED),  # 7
            ("basin", "P", "step", 39, "size", 70000, [("com", "per", "C", 185)]),  # 8
            ("basin", "P", "step", 39, "size", 10**14 - 1, PAVED),  # 9
            ("drypond", "N", "step", 0, "size", 30000, PAVED),  # 10
        ):
            self.assertEqual(sagecruet.job(*values), text_of(*values))

    def refused(self, number, *values):
        with self.assertRaises(sagecruet.Refused) as caught:
            sagecruet.job(*values)
        self.assertEqual(caught.exception.answer, number)
        self.assertEqual(str(caught.exception), f"refused {number}: {sagecruet.REFUSALS[number]}")

    @needs_writing
    def test_refusals(self):
        half, none = ("com", "imp", "-", 600000), ("com", "imp", "-", 0)
        for number, values in (
            (14, (*HEAD, 33 * PAVED)),
            (14, ("Basin", "n", "mixed", 10**14, "sizes", 10**14, 32 * PAVED + [("roof", "none", "X", 0)])),
            (1, ("basin", "n", *HEAD[2:], [none])),
            (1, ("basin", "P", "mixed", *HEAD[3:], [half, half])),
            (1, (*HEAD[:4], "sizes", 70000, PAVED)),
            (1, (*HEAD, PAVED + [none, ("roof", "imp", "-", 1)])),
            (1, (*HEAD, PAVED + [half, half, ("com", "paved", "-", 1)])),
            (1, (*HEAD, PAVED + [("com", "per", "c", 1)])),
            (2, (*HEAD, [none])),
            (2, (*HEAD, [("com", "imp", "-", 1000001)])),
            (2, (*HEAD, [("com", "imp", "-", 2**64 - 1)])),
            (2, (*HEAD, PAVED + [("com", "imp", "C", 1)])),
            (2, (*HEAD, PAVED + [("com", "per", "-", 1)])),
            (2, (*HEAD, [half, ("com", "imp", "C", 600000)])),
            (2, (*HEAD, [none, half, half])),
            (3, (*HEAD, [half, half, none])),
            (3, ("Basin", *HEAD[1:], [half, half])),
            (2, (*HEAD[:5], 10**14, [none])),
            (1, (*HEAD, [])),
            (1, ("Basin", *HEAD[1:], PAVED)),
            (1, (*HEAD[:3], 10**14, "size", 70000, PAVED)),
            (1, (*HEAD[:5], 2**64 - 1, PAVED)),
        ):
            with self.subTest(number=number, values=values):
                self.refused(number, *values)

    def test_a_refusal_is_a_value_error_with_its_number(self):
        refusal = pickle.loads(pickle.dumps(sagecruet.Refused(3)))
        self.assertIsInstance(refusal, ValueError)
        self.assertEqual((refusal.answer, str(refusal)), (3, "refused 3: The site is too large."))

    def test_a_number_that_the_library_cannot_be_handed(self):
        for name, values in (
            ("rate", (*HEAD[:3], -1, "size", 70000, PAVED)), ("rate", (*HEAD[:3], 2**64, "size", 70000, PAVED)),
            ("amount", (*HEAD[:5], -1, PAVED)), ("amount", (*HEAD[:5], 10**30, PAVED)),
            (r"areas\[1\]", (*HEAD, PAVED + [("com", "imp", "-", -1)])), (r"areas\[0\]", (*HEAD, [("com", "imp", "-", 2**64)])),
        ):
            with self.subTest(values=values):
                self.assertRaisesRegex(ValueError, rf"^{name}: not from 0 to 2\*\*64 - 1: ", sagecruet.job, *values)

    @needs_repository
    def test_the_words_are_those_of_the_table_and_the_room_that_of_the_header(self):
        rows = dict(line.split("\t", 1) for line in (ROOT / "docs" / "words.tsv").read_text().splitlines() if "\t" in line)
        for kind, words in sagecruet.WORDS.items():
            told = rows[kind if kind in rows else kind.upper()].replace(f"{kind}=", "")
            self.assertEqual(tuple(re.split(", | or ", told)), words)
        self.assertIn(f"#define SAGECRUET_JOB_ROOM {sagecruet.JOB_ROOM}\n", (ROOT / "include" / "sagecruet.h").read_text())

    def test_wrong_kinds(self):
        good = ["basin", "P", "step", 39, "size", 70000, PAVED]
        for place, name, wrong in (
            (0, "practice", 1), (1, "nutrient", None), (2, "mode", b"step"),
            (3, "rate", 0.39), (3, "rate", "39"), (3, "rate", True),
            (4, "task", ["size"]), (5, "amount", 70.0), (5, "amount", Decimal(70000)), (6, "areas", 257), (6, "areas", "area"),
            (6, "areas", {"com": 257}), (6, r"areas\[0\]", ("com", "imp", "-", 257)),
            (6, r"areas\[0\]", ["abcd"]), (6, r"areas\[0\]", [257]),
            (6, r"areas\[1\]", PAVED + [("com", "imp", 257)]), (6, r"areas\[0\]", [("com", "imp", "-", "257")]),
            (6, r"areas\[0\]", [("com", "imp", "-", 2.57)]), (6, r"areas\[0\]", [("com", "imp", None, 257)]),
        ):
            with self.subTest(name=name, wrong=wrong), self.assertRaisesRegex(TypeError, f"^{name}: expected "):
                sagecruet.job(*good[:place], wrong, *good[place + 1:])

    def test_a_number_of_a_wrong_kind_is_told_its_unit(self):
        acres = r"hundredths of an acre \(see from_acres\)"
        speed = r"hundredths of an inch per hour \(see from_inches_per_hour\)"
        volume = r"hundred-thousandths of a cubic foot \(see from_cubic_feet\)"
        share = r"thousandths of a percent \(see from_percent\)"
        for task, rate, amount, area, words in (
            ("size", 39, 70000, 2.57, rf"areas\[0\]: expected a whole number of {acres}, not float: 2.57"),
            ("size", 0.39, 70000, 257, f"rate: expected a whole number of {speed}, not float: 0.39"),
            ("size", 39, 0.7, 257, f"amount: expected a whole number of {share}, not float: 0.7"),
            ("credit", 39, 3359.0, 257, f"amount: expected a whole number of {volume}, not float: 3359.0"),
            ("load", 39, 0.0, 257, "amount: expected a whole number, not float: 0.0"),
        ):
            with self.subTest(words=words), self.assertRaisesRegex(TypeError, f"^{words}$"):
                sagecruet.job("basin", "P", "step", rate, task, amount, [("com", "imp", "-", area)])

    @needs_writing
    def test_rows_of_any_sequence(self):
        for row in (("com", "imp", "-", 257), ["com", "imp", "-", 257], iter(("com", "imp", "-", 257))):
            self.assertEqual(sagecruet.job("basin", "P", "step", 39, "size", 70000, iter([row])), SIZE)
        self.assertRaisesRegex(TypeError, r"^areas\[0\]: expected \(use", sagecruet.job, "basin", "P", "step", 39, "size", 70000,
                               [{"com", "imp", "-", 257}])

    @needs_writing
    def test_no_word_makes_a_line_or_a_value(self):
        good = [*HEAD, PAVED]
        for place, wrong in (
            (0, "basin\nnutrient=P"), (1, "P\r"), (2, "step "), (4, "size\x0bamount"), (0, "basin=trench"), (0, "basin\u2028"),
            (6, [("com", "imp", "-,257\narea=com,imp,-", 257)]), (6, [("com,imp", "-", "1", 257)]),
        ):
            with self.subTest(wrong=wrong):
                self.refused(1, *good[:place], wrong, *good[place + 1:])


class Answers(unittest.TestCase):
    @needs_answers
    @needs_repository
    def test_the_sample_jobs_are_answered_as_their_page_says(self):
        page = (ROOT / "jobs" / "README.md").read_text()
        rows = re.findall(r"^\| `([\w-]+\.job)` \|.*`(answer=[^`]*)` \|$", page, re.M)
        self.assertGreaterEqual(len(rows), 7)
        for name, words in rows:
            with self.subTest(job=name):
                text = (ROOT / "jobs" / name).read_bytes()
                self.assertEqual(sagecruet.answer_text(text), words.replace(" ", "\n") + "\n")
                pairs = [word.split("=") for word in words.split()]
                expected = {key: value if key == "basis" else int(value) for key, value in pairs}
                self.assertEqual(list(sagecruet.answer(text.decode()).items()), list(expected.items()))

    @needs_answers
    def test_a_volume_of_the_rules(self):
        # V(36) of 2.57 paved acres is 335,847,600: the basin's curve of 0.27 in/hr, 54 at 0.2 in and 74 at 0.4, is at 70 there.
        given = sagecruet.answer(SIZE)
        self.assertEqual((given["depth"], given["credit"], given["volume"]), (36, 70000, 335847600))
        self.assertEqual(given["basis"], "between")

    @needs_answers
    def test_the_basis_goes_by_the_depth(self):
        # A paved acre: a hundredth of an inch on it is 121 * 300 * 100 units. The tables' depths are 0.1, 0.2, 0.4 in and more.
        for mode, rate, depth, basis in (
            ("step", 39, 0, "start"), ("step", 39, 9, "start"), ("step", 39, 10, "printed"), ("step", 39, 11, "between"),
            ("step", 39, 200, "printed"), ("mix", 39, 9, "start"), ("mix", 39, 40, "between"), ("mix", 52, 40, "printed"),
            ("mix", 39, 200, "between"), ("mix", 10000, 40, "printed"),
        ):
            with self.subTest(mode=mode, rate=rate, depth=depth):
                job = text_of("basin", "P", mode, rate, "credit", 121 * 300 * 100 * depth, [("com", "imp", "-", 100)])
                given = sagecruet.answer(job)
                self.assertEqual((given["depth"], given["basis"]), (depth, basis))
        load = text_of("basin", "P", "step", 39, "load", 0, PAVED)
        self.assertEqual(sagecruet.answer(load)["basis"], "none")
        self.assertEqual(sagecruet.answer(SIZE.replace("70000", "0"))["basis"], "start")

    @needs_answers
    def test_texts_that_do_not_read(self):
        self.assertEqual(sagecruet.answer(""), {"answer": 1, "line": 1})
        self.assertEqual(sagecruet.answer(b"\xff\n"), {"answer": 1, "line": 1})
        self.assertEqual(sagecruet.answer(SIZE[:-1]), {"answer": 1, "line": 7})
        self.assertEqual(sagecruet.answer(SIZE.replace("\n", "\r\n")), {"answer": 1, "line": 1})
        for length in (4097, 200_000):
            self.assertEqual(sagecruet.answer(SIZE + "x" * (length - len(SIZE))), {"answer": 1, "line": 0})

    @needs_answers
    def test_too_little_room_is_none(self):
        text = "answer=1\nline=1\n"
        self.assertEqual(sagecruet.answer_text("", room=len(text)), text)
        self.assertIsNone(sagecruet.answer_text("", room=len(text) - 1))
        self.assertIsNone(sagecruet.answer_text("", room=0))
        self.assertEqual(sagecruet.answer_text("", room=2**63), text)

    def test_wrong_kinds(self):
        for function in (sagecruet.answer, sagecruet.answer_text, sagecruet.fault, sagecruet.rewrite):
            for wrong in (None, 5, 1.5, ["practice=basin"], bytearray(b"practice"), Path("jobs/sample.job")):
                with self.subTest(function=function.__name__, wrong=wrong):
                    self.assertRaisesRegex(TypeError, r"job: expected a text \(str or bytes\)", function, wrong)
        self.assertRaisesRegex(TypeError, "room: expected a whole number", sagecruet.answer_text, SIZE, room=1.0)
        self.assertRaisesRegex(ValueError, "room: not from 0", sagecruet.answer_text, SIZE, room=-1)

    @needs_repository
    def test_words_are_those_of_the_table(self):
        rows = [line.split("\t") for line in (ROOT / "docs" / "words.tsv").read_text().splitlines() if line[:1].isdigit()]
        self.assertEqual(sagecruet.REFUSALS, {int(number): words for number, _, words, _ in rows})
        self.assertIn(f"Lend {sagecruet.ROOM} bytes, which hold any answer, or {sagecruet.JOB_ROOM}, which hold any job.",
                      [row[3] for row in rows])

    @needs_repository
    def test_bases_are_those_of_the_table_and_of_the_header(self):
        table = (ROOT / "docs" / "words.tsv").read_text().split("# How a percent was found", 1)[1].splitlines()[1:]
        self.assertEqual(sagecruet.BASES, tuple(row.split("\t")[0] for row in table))
        header = (ROOT / "include" / "sagecruet.h").read_text()
        numbered = re.findall(r"SAGECRUET_BASIS_(\w+) = (\d)", header)
        self.assertEqual([(word.upper(), str(n)) for n, word in enumerate(sagecruet.BASES)], numbered)
        self.assertIn(f"#define SAGECRUET_ROOM {sagecruet.ROOM}\n", header)
        fields = re.search(r"struct sagecruet_percent_answer \{\n(.*?)\};", header, re.S)[1]
        self.assertEqual(re.findall(r"uint64_t (\w+);", fields), [name for name, _ in sagecruet._Percent._fields_])

    def test_the_longest_answer_has_room(self):
        longest = "answer=0\n" + "".join(f"{key}={2**64 - 1}\n" for key in ("load", "depth", "credit", "volume", "removed"))
        self.assertEqual(sagecruet.ROOM, len(longest) + max(len(f"basis={word}\n") for word in sagecruet.BASES))


class Checking(unittest.TestCase):
    def checked(self, job, answer, expected):
        """A check gives a line with its place, from and to, or None where nothing is expected; both texts stay as they are."""
        kept = bytearray(job), bytearray(answer)
        with self.subTest(job=job[:200], answer=answer[:200]):
            came = sagecruet.check(job, answer)
            self.assertEqual(came and (came[0], came[1], came[1] + len(came[2])), expected)
            self.assertTrue(came is None or answer.startswith(came[2], came[1]))
            self.assertTrue(kept == (job, answer))

    @needs_checking
    def test_answers_to_the_sample(self):
        right = LOADED.encode()
        for answer, expected in (
            (right, None),
            (b"", (1, 0, 0)),
            (b"answer=0\n", (2, 9, 9)),
            (b"answer=0", (1, 0, 8)),
            (right[:-1], (7, 59, 68)),
            (right + b"x", (8, 69, 70)),
            (right + b"\n", (8, 69, 69)),
            (2 * right, (8, 69, 77)),
            (right.replace(b"1568350", b"1569000"), (2, 9, 21)),
            (right.replace(b"1568350", b"01568350"), (2, 9, 22)),
            (right.replace(b"\n", b"\r\n"), (1, 0, 9)),
            (right.replace(b"basis=none\n", b""), (5, 39, 47)),
            (right.replace(b"none", b"held"), (5, 39, 49)),
            (b"\n" + right, (1, 0, 0)),
            (b"answer=1\nline=0\n", (1, 0, 8)),
        ):
            self.checked(LOAD.encode(), answer, expected)

    @needs_checking
    def test_answers_to_a_refused_job(self):
        areas = [("com", "imp", "-", 400), ("com", "per", "c", 200)]
        refused = text_of("trench", "P", "step", 40, "credit", 1500000000, areas).encode()
        for answer, expected in (
            (b"answer=1\nline=8\n", None),
            (b"answer=1\nline=7\n", (2, 9, 15)),
            (b"answer=1\n", (2, 9, 9)),
            (b"answer=1\nline=8\nload=0\n", (3, 16, 22)),
        ):
            self.checked(refused, answer, expected)
        for job, answer in ((b"", b"answer=1\nline=1\n"), (5000 * b"x", b"answer=1\nline=0\n"),
                            (SIZE.replace("39", "0").encode(), b"answer=7\nline=0\n")):
            self.checked(job, answer, None)

    @needs_checking
    def test_any_bytes(self):
        right = LOADED.encode()
        for answer, expected in (
            (b"\0", (1, 0, 1)),
            (right + b"\0", (8, 69, 70)),
            (right.replace(b"depth=0", b"depth=\0"), (3, 22, 29)),
            (right.replace(b"1568350", b"\xff\xfe"), (2, 9, 16)),
            (b"\xef\xbb\xbf" + right, (1, 0, 11)),
        ):
            self.checked(LOAD.encode(), answer, expected)
        for job in (b"\0\0", b"\xff\n" + LOAD.encode()):
            self.checked(job, b"answer=1\nline=1\n", None)

    @needs_checking
    def test_any_length(self):
        many, right = 10_000_000, LOADED.encode()
        self.checked(LOAD.encode(), many * b"x", (1, 0, many))
        self.checked(LOAD.encode(), many * b"\n", (1, 0, 0))
        self.checked(LOAD.encode(), right + many * b"\0", (8, 69, 69 + many))
        self.checked(many * b"x", b"answer=1\nline=0\n", None)

    @needs_checking
    def test_a_str_counts_as_its_bytes(self):
        for job in (LOAD, LOAD.encode()):
            for answer, expected in (
                (LOADED, None), (LOADED + "x", (8, 69, b"x")), ("answer=0\nload=\u00fc\n", (2, 9, b"load=\xc3\xbc")),
            ):
                self.assertEqual(sagecruet.check(job, answer), expected)
                self.assertEqual(sagecruet.check(job, answer.encode()), expected)

    @needs_checking
    @needs_answers
    @needs_repository
    def test_our_own_answers_are_right(self):
        for path in sorted((ROOT / "jobs").glob("*.job")):
            with self.subTest(job=path.name):
                self.assertIsNone(sagecruet.check(path.read_bytes(), sagecruet.answer_text(path.read_bytes())))

    def test_wrong_kinds(self):
        for wrong in (None, 5, ["answer=0"], bytearray(b"answer=0"), Path("jobs/sample.job"), {"answer": 0}):
            with self.subTest(wrong=wrong):
                self.assertRaisesRegex(TypeError, r"^job: expected a text \(str or bytes\)", sagecruet.check, wrong, LOADED)
                self.assertRaisesRegex(TypeError, r"^answer: expected a text \(str or bytes\)", sagecruet.check, LOAD, wrong)


class Rewriting(unittest.TestCase):
    @needs_rewriting
    def test_each_U_becomes_C_and_nothing_else_changes(self):
        soils = [("hwy", "per", soil, 1) for soil in ("A", "B", "C", "CD", "D", "U")]
        for text in (
            STORED,
            text_of("basin", "N", "step", 0, "load", 0, PAVED + soils + [("com", "per", "U", 300)]),
            text_of("basin", "P", "step", 39, "size", 70000, 32 * [("ag", "per", "U", 1)]),  # refused 8
            STORED.replace("rate=39", "rate=1"),  # refused 7
            STORED.replace("70000", "100001"),  # refused 9
        ):
            rewritten = text.replace(",U,", ",C,").encode()
            with self.subTest(text=text):
                self.assertEqual(sagecruet.rewrite(text), rewritten)
                self.assertEqual(sagecruet.rewrite(text.encode()), rewritten)
                self.assertEqual(sagecruet.rewrite(rewritten), rewritten)

    @needs_answers
    @needs_rewriting
    def test_a_rewritten_job_gets_the_answer_of_before(self):
        # At 0.36 in, four fifths of the way from 0.20 to 0.40, the runoff of D is 5.2 hundredths of an inch and that of C 2.6:
        # V is 121 * (300 * 36 * 257 + 300 * 1560), and with 780 for 1560.
        for text, volume in ((STORED, 392475600), (sagecruet.rewrite(STORED), 364161600)):
            self.assertEqual(sagecruet.answer(text), {"answer": 0, "load": 52046, "depth": 36, "credit": 70000,
                                                      "basis": "between", "volume": volume, "removed": 36432})

    @needs_rewriting
    def test_a_job_that_is_refused_1_2_3_or_14_comes_back_as_it_is(self):
        line = "area=com,per,U,300\n"
        for text in (
            "", "U", STORED[:-1], STORED + "U", STORED.replace("\n", "\r\n"), STORED.replace("=P", "=U"),
            STORED + line.replace("U", "UD"), STORED + line.replace("U", "u"), STORED + line.replace("U", "\u00dc"),
            STORED + "\0", STORED + line.replace("per", "imp"), STORED + line.replace("300", "1000000"), STORED + 31 * line,
            STORED.ljust(4096, "U"), STORED.ljust(4097, "U"), STORED.ljust(200_000, "U"),
        ):
            with self.subTest(text=text[-80:]):
                self.assertEqual(sagecruet.rewrite(text), text.encode())
        self.assertEqual(sagecruet.rewrite(STORED.encode() + b"\xff\n"), STORED.encode() + b"\xff\n")


class WithTheLibrary(unittest.TestCase):
    @needs_library
    def test_sheet_T(self):
        self.assertEqual(sagecruet.sheet_verdict(T), (0, 0, 0))
        for depth, percent, basis in ((40, 35000, "between"), (0, 0, "start"), (10, 10000, "start"), (19, 19000, "start"),
                                      (20, 20000, "printed"), (60, 50000, "printed"), (100, 70000, "printed"),
                                      (101, 70000, "held"), (200, 70000, "held")):
            self.assertEqual(sagecruet.percent(T, 50, depth), (0, percent, basis))
        self.assertEqual(sagecruet.percent(T, 50, 40, mix=True), (0, 43750, "between"))
        self.assertEqual(sagecruet.percent(T, 26, 33, mix=True), (0, 30117, "between"))
        # Mixed, at a printed depth, below the first and beyond the last; and at a rate of the sheet, where nothing mixes.
        for rate, depth, percent, basis in ((50, 60, 57500, "between"), (50, 10, 15000, "start"), (50, 101, 75000, "held"),
                                            (25, 60, 50000, "printed"), (75, 60, 65000, "printed"), (76, 60, 65000, "printed")):
            self.assertEqual(sagecruet.percent(T, rate, depth, mix=True), (0, percent, basis))
        self.assertEqual(sagecruet.percent(T, 24, 33), (7, 0, "none"))
        self.assertEqual(sagecruet.percent(T, 10001, 33), (6, 0, "none"))
        self.assertEqual(sagecruet.percent(T, 50, 201), (9, 0, "none"))
        self.assertEqual(sagecruet.percent((T.depths, T.rates, T.percents[:5]), 50, 40), (5, 0, "none"))
        self.assertEqual(sagecruet.sheet_verdict((T.depths, T.rates, [20000, 50000, 70000, 40000, 35000, 80000])), (5, 3, 4))
        self.assertEqual(sagecruet.sheet_verdict(([], [], [])), (5, 0, 0))
        self.assertEqual(sagecruet.sheet_verdict((T.depths, T.rates, T.percents[:5])), (5, 0, 0))
        # 0.20, 0.60 and 1.00 in, at 10, 20 and 30 percent: half way between the first two is 15.
        drawn = (range(20, 101, 40), (rate for rate in [0]), range(10000, 30001, 10000))
        self.assertEqual(sagecruet.percent(iter(drawn), 0, 40), (0, 15000, "between"))

    @needs_library
    def test_a_job_on_a_lent_sheet(self):
        areas = [("com", "imp", "-", 400), ("com", "per", "C", 200), ("open", "per", "B", 150)]
        given = sagecruet.answer(text_of("swale", "P", "step", 50, "size", 55001, areas), T)
        self.assertEqual((given["answer"], given["depth"], given["credit"], given["volume"]), (0, 71, 55500, 1100343750))
        self.assertEqual(list(given), ["answer", "load", "depth", "credit", "basis", "volume", "removed"])
        self.assertEqual(given["basis"], "between")
        given = sagecruet.answer(text_of("swale", "P", "step", 50, "credit", 10**13, areas), T)
        self.assertEqual((given["depth"], given["credit"], given["basis"]), (200, 70000, "held"))
        given = sagecruet.answer(text_of("swale", "P", "step", 50, "credit", 1100343749, areas), T)
        self.assertEqual((given["answer"], given["depth"], given["credit"]), (0, 70, 55000))
        self.assertIsNone(sagecruet.answer_text(SIZE, T, room=3))

    @needs_library
    def test_readings(self):
        self.assertEqual([sagecruet.reading(value) for value in (0.25, 0.5, 5, -0.0)], [(0, 25), (0, 50), (0, 500), (0, 0)])
        self.assertEqual([sagecruet.reading(value) for value in (0.52, 1.02, 0.125)], [(0, 52), (0, 102), (0, 12)])
        self.assertEqual([sagecruet.reading(value, millimetres=True) for value in (127.0, 12.7, 15.875)],
                         [(0, 500), (0, 50), (0, 62)])
        self.assertEqual([sagecruet.reading(value)[0] for value in (float("nan"), float("inf"), -1, 101)], [11, 11, 11, 12])
        self.assertEqual([sagecruet.reading(value)[0] for value in (10**400, -(10**400), 1e39, Fraction(10**400))], 4 * [11])
        self.assertEqual(sagecruet.reading(Fraction(1, 2)), (0, 50))

    @needs_library
    def test_the_offending_line(self):
        self.assertEqual(sagecruet.fault(SIZE.replace("mode=step", "mode=Step")), (SIZE.index("mode"), b"mode=Step"))
        self.assertEqual(sagecruet.fault(SIZE), (len(SIZE), b""))

    def test_wrong_kinds(self):
        for wrong in (5, "abc", (T.depths, T.rates), {"depths": []}):
            for call in (
                lambda: sagecruet.sheet_verdict(wrong),
                lambda: sagecruet.percent(wrong, 50, 40),
                lambda: sagecruet.answer(SIZE, wrong),
            ):
                with self.subTest(wrong=wrong):
                    self.assertRaisesRegex(TypeError, "^sheet: expected three lists", call)
        self.assertRaisesRegex(TypeError, "^sheet: expected three lists", sagecruet.sheet_verdict, None)
        for place, name in enumerate(sagecruet.Sheet._fields):
            for wrong, kind in ((20, "list"), ("20", "list"), ({20}, "list"),
                                ([20.0], "whole number of "), ([True], "whole")):
                sheet, words = T[:place] + (wrong,) + T[place + 1:], f"^sheet: {name}: expected a {kind}"
                with self.subTest(name=name, wrong=wrong):
                    self.assertRaisesRegex(TypeError, words, sagecruet.sheet_verdict, sheet)
        self.assertRaisesRegex(ValueError, "^sheet: depths: not from 0", sagecruet.sheet_verdict, ([-1], [0], [0]))
        self.assertRaisesRegex(TypeError, "^rate: expected a whole number", sagecruet.percent, T, 0.5, 40)
        self.assertRaisesRegex(ValueError, "^depth: not from 0", sagecruet.percent, T, 50, 2**64)
        self.assertRaisesRegex(TypeError, "^mix: expected True or False", sagecruet.percent, T, 50, 40, "mix")
        self.assertRaisesRegex(TypeError, "^millimetres: expected True or False", sagecruet.reading, 1.0, "mm")
        for wrong in (None, "0.5", Decimal("0.5"), True, 1j):
            with self.subTest(wrong=wrong):
                self.assertRaisesRegex(TypeError, "^reading: expected a float, a whole number or a Fraction, in inches or milli",
                                       sagecruet.reading, wrong)


class Curves(unittest.TestCase):
    @needs_writing
    @needs_answers
    def test_printed_points(self):
        # Tables 3-14 and 3-19 of document 001, in percent.
        depths = [10, 20, 40, 60, 80, 100, 150, 200]
        for practice, nutrient, rate, printed in (
            ("basin", "P", 52, [38, 56, 77, 87, 92, 95, 98, 99]),
            ("wetland", "N", 0, [22, 33, 48, 57, 64, 68, 74, 79]),
        ):
            points = sagecruet.curve(practice, nutrient, rate, depths=depths)
            self.assertEqual(points, [(depth, 1000 * percent) for depth, percent in zip(depths, printed)])

    @needs_writing
    @needs_answers
    def test_points_between(self):
        # 38 and 56 at 0.10 and 0.20 in; between 0.27 and 0.52 in/hr at 0.10 in, 37 + 12/25 of 1.
        self.assertEqual(sagecruet.curve("basin", "P", 52, depths=[0, 5, 11]), [(0, 0), (5, 19000), (11, 39800)])
        self.assertEqual(sagecruet.curve("basin", "P", 39, mode="mix", depths=[10]), [(10, 37480)])

    @needs_writing
    @needs_answers
    def test_by_itself_a_curve_has_21_points(self):
        points = sagecruet.curve("swale", "N")
        self.assertEqual((len(points), points[0], points[-1]), (21, (0, 0), (200, 23000)))

    @needs_writing
    @needs_answers
    def test_a_refused_curve_says_so(self):
        self.assertRaisesRegex(ValueError, "refused 7: The soil is too slow for the practice.", sagecruet.curve, "trench", "P")
        self.assertRaisesRegex(ValueError, "refused 6: The rate is out of range.", sagecruet.curve, "sand", "P", 17)
        self.assertRaisesRegex(sagecruet.Refused, "^refused 1: The job cannot be read.$", sagecruet.curve, "bas", "P", 52)

    def test_wrong_depths(self):
        self.assertRaisesRegex(ValueError, "depth: not from 0 to 200", sagecruet.curve, "sand", "P", depths=[201])
        self.assertRaisesRegex(ValueError, "depth: not from 0 to 200", sagecruet.curve, "sand", "P", depths=[-1])
        self.assertRaisesRegex(TypeError, "depth: expected a whole", sagecruet.curve, "sand", "P", depths=[0.5])
        self.assertRaisesRegex(TypeError, "depths: expected a list", sagecruet.curve, "sand", "P", depths=100)

    @needs_repository
    def test_rates_are_those_of_the_tables(self):
        text = (ROOT / "crates" / "published" / "specs" / "Tables.antt").read_text(encoding="utf-8")
        for name in ("trench_p", "trench_n", "basin_p", "basin_n"):
            listed = re.search(rf"\((.*) ∷ \[\], {name}\)", text)[1]
            self.assertEqual(tuple(int(rate) for rate in listed.split(" ∷ ")), sagecruet.RATES)

    def test_without_matplotlib_plot_says_what_it_needs(self):
        with mock.patch.dict(sys.modules, {"matplotlib": None}):
            self.assertRaisesRegex(ImportError, "plot needs matplotlib .*docs/curves", sagecruet.plot, "wetland", "N")

    @needs_writing
    @needs_answers
    def test_a_plot_without_rates_takes_those_of_the_tables(self):
        there = mock.MagicMock()
        for practice, rates in (("trench", (17, 27, 52, 102, 241, 827)), ("swale", (0,))):
            with mock.patch.dict(sys.modules, {"matplotlib": there, "matplotlib.pyplot": there.pyplot}):
                with mock.patch.object(sagecruet, "curve", return_value=[(0, 0), (200, 99000)]) as curve:
                    sagecruet.plot(practice, "N", axes=there.axes)
            self.assertEqual(curve.call_args_list, [mock.call(practice, "N", rate, "step") for rate in rates])
        there.axes.plot.assert_called_with([0.0, 2.0], [0.0, 99.0], label="swale")
        self.assertEqual(there.axes.plot.call_count, 7)
        self.assertEqual(there.axes.set.call_args[1]["title"], "swale, N")

    @needs_writing
    @needs_answers
    def test_a_plot_that_is_refused_makes_no_figure(self):
        there = mock.MagicMock()
        with mock.patch.dict(sys.modules, {"matplotlib": there, "matplotlib.pyplot": there.pyplot}):
            self.assertRaisesRegex(ValueError, "^refused 1: ", sagecruet.plot, "bas", "P")
            self.assertRaisesRegex(ValueError, "^refused 6: ", sagecruet.plot, "sand", "P", rates=[0, 17])
            self.assertRaisesRegex(TypeError, "^rate: expected a whole", sagecruet.plot, "basin", "P", rates=[0.52])
            self.assertRaisesRegex(TypeError, "^rates: expected a list", sagecruet.plot, "basin", "P", rates=52)
            self.assertRaisesRegex(ValueError, "^rates: expected one at least", sagecruet.plot, "basin", "P", rates=[])
        there.pyplot.subplots.assert_not_called()

    @needs_writing
    @needs_answers
    @unittest.skipIf(importlib.util.find_spec("matplotlib") is None, "matplotlib is not installed")
    def test_a_plot(self):
        import matplotlib
        matplotlib.use("Agg")
        axes = sagecruet.plot("wetland", "N")
        self.assertEqual([line.get_label() for line in axes.lines], ["wetland"])
        self.assertEqual((list(axes.lines[0].get_xdata())[4], list(axes.lines[0].get_ydata())[4]), (0.4, 48.0))
        self.assertIs(sagecruet.plot("trench", "P", rates=[17, 827], axes=axes), axes)
        self.assertEqual([line.get_label() for line in axes.lines], ["wetland", "0.17 in/hr", "8.27 in/hr"])
        self.assertEqual(axes.get_title(), "trench, P")
        picture = (ROOT / "docs" / "curves" / "trench.svg").read_text() if IN_REPOSITORY else None
        for label in (axes.get_xlabel(), axes.get_ylabel()) if picture else ():
            self.assertIn(f">{label}</text>", picture)
        self.assertEqual(sagecruet.plot("basin", "P", rates=[39], mode="mix", axes=axes).get_title(), "basin, P, mode mix")
        with tempfile.TemporaryDirectory() as folder:
            axes.figure.savefig(Path(folder) / "curve.png")
            self.assertGreater((Path(folder) / "curve.png").stat().st_size, 1000)
        matplotlib.pyplot.close("all")


@contextlib.contextmanager
def elsewhere(files=(), **environment):
    """A copy of the module in a folder of its own, in bindings/python, with other files about it: (name, text) each, executable.
    No setting of the environment but those that are given."""
    with tempfile.TemporaryDirectory() as folder:
        folder = Path(folder).resolve()
        copy = folder / "bindings" / "python" / "sagecruet.py"
        copy.parent.mkdir(parents=True)
        shutil.copy(HERE.parent / "sagecruet.py", copy)
        for name, text in files:
            (folder / name).parent.mkdir(parents=True, exist_ok=True)
            (folder / name).write_text(text)
            (folder / name).chmod(0o755)
        spec = importlib.util.spec_from_file_location("sagecruet_elsewhere", copy)
        module = importlib.util.module_from_spec(spec)
        kept = {key: value for key, value in os.environ.items() if not key.startswith("SAGECRUET_")}
        with mock.patch.dict(os.environ, {**kept, **environment}, clear=True):
            spec.loader.exec_module(module)
            yield module, folder


# A program that answers one job, says how it was called, and is no calculator.
STUB = """#!/bin/sh
[ "$*" = "-q" ] || exit 2
read -r first
[ "$first" = practice=basin ] || exit 2
printf 'answer=0\\nload=7\\ndepth=6\\ncredit=5\\nbasis=held\\nvolume=4\\nremoved=3\\n'
"""


# A program that writes C for U whatever it is given.
REWRITER = """#!/bin/sh
[ "$*" = "--rewrite" ] || exit 2
tr U C
"""


class WhatIsThere(unittest.TestCase):
    def machine(self, name):
        return mock.patch("platform.machine", return_value=name)

    def repository(self, run=STUB, **environment):
        built = [("target/bin/creditrun", ""), ("target/bin/rewriterun", "")]
        return elsewhere([("crates.txt", ""), ("run", run)] + built, **environment)

    def test_neither_library_nor_program(self):
        with elsewhere() as (module, _):
            self.assertIsNone(module.backend())
            with self.machine("x86_64"), self.assertRaises(module.Unavailable) as caught:
                module.answer(SIZE)
            for words in ("make shared", "SAGECRUET_LIBRARY", "SAGECRUET_PROGRAM", "run -q"):
                self.assertIn(words, str(caught.exception))
            with self.machine("aarch64"), self.assertRaises(module.Unavailable) as caught:
                module.answer(SIZE)
            self.assertIn("this processor is aarch64. No program: ", str(caught.exception))
            self.assertEqual(module.from_acres("10.13"), 1013)

    def test_each_function_says_what_to_do(self):
        with elsewhere() as (module, _):
            calls = (
                lambda: module.fault(SIZE), lambda: module.sheet_verdict(T), lambda: module.percent(T, 50, 40),
                lambda: module.reading(0.5), lambda: module.answer(SIZE, T), lambda: module.answer_text(SIZE, T),
            )
            for number, call in enumerate(calls):
                with self.subTest(call=number), self.machine("x86_64"):
                    self.assertRaisesRegex(module.Unavailable, "`make shared` in the repository's folder", call)
                with self.subTest(call=number), self.machine("aarch64"):
                    self.assertRaisesRegex(module.Unavailable, "is for x86-64 and this processor is aarch64", call)
            for call in (lambda: module.answer(SIZE), lambda: module.answer_text(SIZE), lambda: module.curve("sand", "P"),
                         lambda: module.rewrite(STORED), lambda: module.job(*HEAD, PAVED), lambda: module.check(SIZE, SIZED)):
                self.assertRaisesRegex(module.Unavailable, "^no library: .* No program: ", call)
            self.assertRaisesRegex(module.Unavailable, 'set SAGECRUET_REWRITER to "FOLDER/run --rewrite"', module.rewrite, STORED)

    def test_a_program_that_is_not_built_is_not_built_silently(self):
        with elsewhere([("crates.txt", ""), ("run", STUB)]) as (module, folder):
            self.assertIsNone(module.backend())
            for option, call in (("-q", module.answer), ("--rewrite", module.rewrite)):
                message = re.escape(f"the program is not built; `./run {option} jobs/sample.job` in {folder} proves and builds it")
                self.assertRaisesRegex(module.Unavailable, message, call, SIZE)

    def test_the_library_that_is_no_library(self):
        with elsewhere([("other.so", "no library")]) as (module, folder), self.machine("x86_64"):
            for place in (str(folder / "other.so"), str(folder / "none.so"), "libnone.so"):
                # The loader's own words, which name the place and say more.
                words = f"^the library cannot be loaded: {re.escape(place)}: .+; `make shared`"
                with self.subTest(place=place), mock.patch.dict(os.environ, SAGECRUET_LIBRARY=place):
                    self.assertRaisesRegex(module.Unavailable, words, module.reading, 0.5)

    def test_the_run_of_the_repository_answers(self):
        with self.repository() as (module, _):
            self.assertEqual(module.backend(), "program")
            self.assertEqual(module.answer(SIZE), {"answer": 0, "load": 7, "depth": 6, "credit": 5, "basis": "held", "volume": 4,
                                                   "removed": 3})
            self.assertRaises(module.Unavailable, module.answer, SIZE, T)
            with self.machine("aarch64"):
                words = "aarch64; here answer and answer_text work, .* by the program creditrun"
                self.assertRaisesRegex(module.Unavailable, words, module.reading, 0.5)

    def test_the_program_that_is_named_comes_first(self):
        with self.repository(run="#!/bin/sh\nexit 2\n") as (module, folder):
            named = folder / "a folder" / "mine"
            named.parent.mkdir()
            named.write_text(STUB)
            named.chmod(0o755)
            with mock.patch.dict(os.environ, SAGECRUET_PROGRAM=f"'{named}' -q"):
                self.assertEqual(module.answer(SIZE)["load"], 7)

    def test_the_run_of_the_repository_rewrites(self):
        with self.repository(run=REWRITER) as (module, folder):
            self.assertEqual(module.rewrite(STORED), STORED.replace("U", "C").encode())
            (folder / "target" / "bin" / "creditrun").unlink()
            self.assertEqual(module.rewrite(STORED), STORED.replace("U", "C").encode())
            (folder / "target" / "bin" / "rewriterun").unlink()
            self.assertRaisesRegex(module.Unavailable, "the program is not built", module.rewrite, STORED)

    def test_the_rewriter_that_is_named_comes_first(self):
        with self.repository(run=REWRITER, SAGECRUET_REWRITER="cat", SAGECRUET_PROGRAM="no-such-command") as (module, _):
            self.assertEqual(module.rewrite(STORED), STORED.encode())
            with mock.patch.dict(os.environ, SAGECRUET_REWRITER="no-such-command"):
                words = "SAGECRUET_REWRITER names a command that is not there, .* 'no-such-command'"
                self.assertRaisesRegex(module.Unavailable, words, module.rewrite, STORED)

    def test_what_is_no_rewriting_is_no_rewriting(self):
        for run, words in (
            ("exit 2", "status 2"),
            ("tr U C; exit 1", "status 1"),
            ("cat >/dev/null", "status 0"),
            ("head -n 3", "status 0"),
            ("tr U D", "status 0"),
            ("cat; echo", "status 0"),
            ("sed 's/U,300/C,300/; s/com/COM/'", "status 0"),
            ("tr U C; kill -9 $$", "status -9"),
        ):
            with self.subTest(run=run), self.repository(run=f"#!/bin/sh\n{run}\n") as (module, _):
                words = f"gave no rewriting and ended with {words}; .* the terminal"
                self.assertRaisesRegex(module.Unavailable, words, module.rewrite, STORED)

    def test_the_writer_of_the_repository_writes(self):
        for machine, before in (("x86_64", []), ("aarch64", sagecruet._EMULATOR)):
            with self.repository() as (module, folder), self.machine(machine):
                message = re.escape(f"the program is not built; `make -C examples/c entry` in {folder} builds it")
                self.assertRaisesRegex(module.Unavailable, message, module.job, *HEAD, PAVED)
                (folder / "examples" / "c").mkdir(parents=True)
                (folder / "examples" / "c" / "entry").write_text("")
                done = mock.Mock(returncode=0, stdout=SIZE.encode())
                with mock.patch("subprocess.run", return_value=done) as run:
                    self.assertEqual(module.job(*HEAD, PAVED), SIZE)
                numbers = "1 0 0 39 2 70000 0 0 6 257".split()
                self.assertEqual(run.call_args[0][0], before + [str(folder / "examples" / "c" / "entry")] + numbers)

    def test_the_writer_that_is_named_comes_first(self):
        with self.repository(SAGECRUET_WRITER="sh -c 'echo answer=14'") as (module, _):
            self.assertRaisesRegex(module.Unavailable, "gave no job and ended with status 0", module.job, *HEAD, PAVED)
            with mock.patch.dict(os.environ, SAGECRUET_WRITER="sh -c 'echo answer=14; exit 1'"):
                self.assertRaisesRegex(module.Refused, "^refused 14: ", module.job, *HEAD, PAVED)
            with mock.patch.dict(os.environ, SAGECRUET_WRITER="no-such-command"):
                words = "SAGECRUET_WRITER names a command that is not there, .* 'no-such-command'"
                self.assertRaisesRegex(module.Unavailable, words, module.job, *HEAD, PAVED)

    def test_what_is_no_job_is_no_job(self):
        for run, words in (
            ("exit 2", "status 2"),
            ("exit 1", "status 1"),
            ("exit 0", "status 0"),
            ("head -n 6 job", "status 0"),
            ("head -c -1 job", "status 0"),
            ("cat job; echo", "status 0"),
            ("cat job; exit 1", "status 1"),
            ("echo answer=1", "status 0"),
            ("echo answer=13; exit 1", "status 1"),
            ("cat job; kill -9 $$", "status -9"),
        ):
            with self.subTest(run=run), elsewhere([("job", SIZE), ("mine", f'#!/bin/sh\ncd "${{0%/*}}"\n{run}\n')]) as (module, folder):
                with mock.patch.dict(os.environ, SAGECRUET_WRITER=f"'{folder}/mine'"):
                    words = f"gave no job and ended with {words}; .* the terminal"
                    self.assertRaisesRegex(module.Unavailable, words, module.job, *HEAD, PAVED)

    def test_the_checker_of_the_repository_checks(self):
        for machine, before in (("x86_64", []), ("aarch64", sagecruet._EMULATOR)):
            with self.repository() as (module, folder), self.machine(machine):
                message = re.escape(f"the program is not built; `make -C examples/c review` in {folder} builds it")
                self.assertRaisesRegex(module.Unavailable, message, module.check, SIZE, SIZED)
                place = folder / "examples" / "c" / "review"
                place.parent.mkdir(parents=True)
                place.write_text("")
                handed = []

                def run(command, **_):
                    handed.extend((command[:-2], [Path(name).read_bytes() for name in command[-2:]]))
                    return mock.Mock(returncode=1, stdout=b"line 2 at byte 9 is wrong: load=45746\n")

                with mock.patch("subprocess.run", run):
                    self.assertEqual(module.check(SIZE, SIZED), (2, 9, b"load=45746"))
                self.assertEqual(handed, [before + [str(place)], [SIZE.encode(), SIZED.encode()]])

    def test_the_checker_that_is_named_comes_first(self):
        with self.repository(SAGECRUET_CHECKER="sh -c 'echo right'") as (module, _):
            self.assertIsNone(module.check(SIZE, "answer=0"))
            with mock.patch.dict(os.environ, SAGECRUET_CHECKER="sh -c 'echo line 1 at byte 8 is missing; exit 1'"):
                self.assertEqual(module.check(SIZE, "answer=0"), (1, 8, b""))
            with mock.patch.dict(os.environ, SAGECRUET_CHECKER="no-such-command"):
                words = "SAGECRUET_CHECKER names a command that is not there, .* 'no-such-command'"
                self.assertRaisesRegex(module.Unavailable, words, module.check, SIZE, SIZED)

    def test_what_is_no_check_is_no_check(self):
        for run, words in (
            ("exit 2", "status 2"),
            ("exit 1", "status 1"),
            ("exit 0", "status 0"),
            ("echo right; exit 1", "status 1"),
            ("echo right; echo right", "status 0"),
            ("printf right", "status 0"),
            ("echo line 2 at byte 9 is wrong: load=45746", "status 0"),
            ("echo line 2 at byte 9 is wrong: load=45747; exit 1", "status 1"),
            ("echo line 2 at byte 8 is wrong: load=45746; exit 1", "status 1"),
            ("echo line 2 at byte 900 is missing; exit 1", "status 1"),
            ("echo line 2 at byte 9 is missing; exit 1", "status 1"),
            ("echo line 2 at byte 9 is wrong: load; exit 1", "status 1"),
            ("echo line 0 at byte 9 is wrong: load=45746; exit 1", "status 1"),
            (f"echo 'line 8 at byte {len(SIZED)} is wrong: '; exit 1", "status 1"),
            ("echo line 2 at byte 9 is wrong; exit 1", "status 1"),
            ("echo right; kill -9 $$", "status -9"),
        ):
            with self.subTest(run=run), elsewhere([("mine", f"#!/bin/sh\n{run}\n")]) as (module, folder):
                with mock.patch.dict(os.environ, SAGECRUET_CHECKER=f"'{folder}/mine'"):
                    words = f"gave no check and ended with {words}; .* the terminal"
                    self.assertRaisesRegex(module.Unavailable, words, module.check, SIZE, SIZED)

    def test_a_refused_job_ends_with_1(self):
        with self.repository(run="#!/bin/sh\nprintf 'answer=10\\nline=0\\n'\nexit 1\n") as (module, _):
            self.assertEqual(module.answer(SIZE), {"answer": 10, "line": 0})

    def test_what_is_no_answer_is_no_answer(self):
        granted = "answer=0\\nload=7\\ndepth=6\\ncredit=5\\nbasis=held\\nvolume=4\\nremoved=3\\n"
        for run, words in (
            ("exit 2", "status 2"),
            (f"printf '{granted}'; exit 3", "status 3"),
            ("echo answer=0", "status 0"),
            (f"printf '{granted}more\\n'", "status 0"),
            (f"printf '{granted}'".replace("basis=held\\n", ""), "status 0"),
            (f"printf '{granted}'".replace("held", "helt"), "status 0"),
            (f"printf '{granted}'".replace("held", "4"), "status 0"),
            (f"printf '{granted}'".replace("held", "held "), "status 0"),
            (f"printf '{granted}'; kill -9 $$", "status -9"),
        ):
            with self.subTest(run=run), self.repository(run=f"#!/bin/sh\n{run}\n") as (module, _):
                words = f"gave no answer and ended with {words}; .* the terminal"
                self.assertRaisesRegex(module.Unavailable, words, module.answer, SIZE)

    def test_a_program_that_does_not_start(self):
        for named, words in (
            ("/nowhere/creditrun -q", "names a command that is not there, or may not be started: '/nowhere/creditrun'"),
            ("no-such-command", "is not there, .* 'no-such-command'"), ("''", "is not there, .* ''"),
            ("~/run -q", "is not there, .* '~/run'"),  # nothing is expanded
            ("'run -q", "SAGECRUET_PROGRAM is no command"),
        ):
            with self.subTest(named=named), elsewhere(SAGECRUET_PROGRAM=named) as (module, _):
                self.assertIsNone(module.backend())
                self.assertRaisesRegex(module.Unavailable, words, module.answer, SIZE)
        with elsewhere([("run", "#!/nowhere/sh\n")]) as (module, folder):
            with mock.patch.dict(os.environ, SAGECRUET_PROGRAM=f"'{folder}/run'"):
                self.assertRaisesRegex(module.Unavailable, "cannot be started", module.answer, SIZE)


if __name__ == "__main__":
    unittest.main()
