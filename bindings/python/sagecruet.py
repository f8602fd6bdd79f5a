"""Sagecruet from Python: stormwater loads, credits and design volumes.

    >>> import sagecruet
    >>> site = [("com", "imp", "-", sagecruet.from_acres("2.57"))]
    >>> job = sagecruet.job("basin", "P", "step", sagecruet.from_inches_per_hour("0.39"),
    ...                     "size", sagecruet.from_percent(70), site)
    >>> answer = sagecruet.answer(job)
    >>> answer
    {'answer': 0, 'load': 45746, 'depth': 36, 'credit': 70000, 'basis': 'between', 'volume': 335847600, 'removed': 32022}
    >>> sagecruet.natural(answer)["volume"]
    Decimal('3358.47600')

All numbers of a job and its answer are whole: areas in hundredths of an acre, depths in hundredths of an inch, rates in
hundredths of an inch per hour, volumes in hundred-thousandths of a cubic foot, loads in ten-thousandths of a pound per
year, percents in thousandths of a percent. from_acres, to_acres and their likes go from and to natural units, exactly.
REFUSALS says what the numbers given back mean; a job that cannot be written raises Refused with its number. The basis, a word
of BASES, says how the percent beside it was found.

The functions call the proved library, a shared object for x86-64 Linux. Where it cannot be loaded, answer and answer_text go
by the program creditrun, on the published tables, and rewrite by the program rewriterun; job goes by the program entry and
check by the program review, which call the library, and curve and plot by entry and creditrun. The rest raises Unavailable,
which says why and what to do. backend() says which answers a job: library or program. bindings/python/README.md says more.
"""

import ctypes
import functools
import math
import numbers
import operator
import os
import platform
import re
import shlex
import shutil
import subprocess
import tempfile
from decimal import Decimal, InvalidOperation
from pathlib import Path
from typing import NamedTuple

# The words of the numbers given back, as docs/words.tsv has them; a test holds them to it. 16 and 17 are for site records, which no
# function of this module takes: none gives them.
REFUSALS = {
    0: "The job is granted.",
    1: "The job cannot be read.",
    2: "A sub-area does not fit.",
    3: "The site is too large.",
    4: "There is no such practice.",
    5: "The lent sheet breaks a rule.",
    6: "The rate is out of range.",
    7: "The soil is too slow for the practice.",
    8: "The site has no impervious area.",
    9: "The amount is out of range for the task.",
    10: "No size reaches the target.",
    11: "The reading is no rate.",
    12: "The reading is too fast.",
    13: "There is no room for the text.",
    14: "The site has more than 32 sub-areas.",
    15: "A load or a volume is past the largest number.",
    16: "The site does not hold this number, or its numbers are not in order.",
    17: "The site has no number left for a sub-area.",
}

# How a percent was found, by the numbers that the library gives; docs/words.tsv has them too. printed: the depth is one of the
# sheet's, and no two rates are mixed; between: another depth from the first to the last, or any of these where rates are mixed;
# start: a depth below the first, 0 among them; held: a depth beyond the last; none: there is no percent.
BASES = ("none", "printed", "between", "start", "held")

# The words of a job, each list in the order of the codes, 0, 1, 2 and so on, that the library takes; docs/words.tsv has them too.
WORDS = {
    "practice": ("trench", "basin", "biofilter", "wetland", "isr", "sand", "wetpond", "drypond", "swale"),
    "nutrient": ("P", "N"),
    "mode": ("step", "mix"),
    "task": ("load", "credit", "size"),
    "use": ("com", "ind", "hdr", "mdr", "ldr", "hwy", "for", "open", "ag"),
    "cover": ("imp", "per"),
    "soil": ("A", "B", "C", "CD", "D", "U", "-"),
}

ROOM = 161  # enough for any answer text
JOB_ROOM = 837  # enough for any job text that is written

RATES = (17, 27, 52, 102, 241, 827)  # the rates of the tables of trench and basin; the other practices have none


class Unavailable(RuntimeError):
    """Neither the library nor, where it would do, the program can be used. The words say why, and what to do."""


class Refused(ValueError):
    """What was asked for is refused, and there is no answer to say so. `answer` is the number, and the words are its own."""

    def __init__(self, answer):
        super().__init__(answer)
        self.answer = answer

    def __str__(self):
        return f"refused {self.answer}: {REFUSALS[self.answer]}"


class Sheet(NamedTuple):
    """A curve sheet: depths, rates, and percents rate by rate, one per depth."""

    depths: list
    rates: list
    percents: list


# ---- Kinds of arguments

def _refuse_kind(what, expected, value):
    raise TypeError(f"{what}: expected {expected}, not {type(value).__name__}: {value!r}") from None


def _whole(what, value, unit=None):
    """A whole number, whatever its size. True and False are none; what counts as a whole number elsewhere (numpy's) is. The
    unit is that of the natural value, for the words of a refusal."""
    expected = f"a whole number of {_UNITS[unit][1]} (see from_{unit})" if unit else "a whole number"
    if isinstance(value, bool):
        _refuse_kind(what, expected, value)
    try:
        return operator.index(value)
    except TypeError:
        _refuse_kind(what, expected, value)


def _code(kind, value, what=None):
    """The code of a word of a job. A word that is not in its list has the code behind the last, which has no word: that there
    is no such job is for the library to say."""
    if not isinstance(value, str):
        _refuse_kind(what or kind, "a word", value)
    words = WORDS[kind]
    return words.index(value) if value in words else len(words)


def _flag(what, value):
    if not isinstance(value, bool):
        _refuse_kind(what, "True or False", value)
    return value


def _several(what, expected, values):
    """Anything that can be gone through, as a list; but no text, no dictionary, and no set, which has no order."""
    if isinstance(values, (str, bytes, dict, set, frozenset)) or not hasattr(values, "__iter__"):
        _refuse_kind(what, expected, values)
    return list(values)


def _text(text, what="job"):
    if not isinstance(text, (str, bytes)):
        _refuse_kind(what, "a text (str or bytes)", text)
    return text.encode() if isinstance(text, str) else text


# ---- Natural units

# What a whole number of a job counts: for each natural unit its decimals, and the name of the last of them.
_UNITS = {
    "acres": (2, "hundredths of an acre"),
    "inches": (2, "hundredths of an inch"),
    "inches_per_hour": (2, "hundredths of an inch per hour"),
    "percent": (3, "thousandths of a percent"),
    "cubic_feet": (5, "hundred-thousandths of a cubic foot"),
    "pounds": (4, "ten-thousandths of a pound"),
}

_PARTS = {"load": "pounds", "depth": "inches", "credit": "percent", "volume": "cubic_feet", "removed": "pounds"}

_AMOUNTS = {"credit": "cubic_feet", "size": "percent"}  # what the amount of a task counts

# A number as a string: a sign, ASCII digits with a point, an exponent. Decimal alone takes underscores, spaces and more digits.
_NUMBER = re.compile(r"[+-]?(?:[0-9]+\.?[0-9]*|\.[0-9]+)(?:[eE][+-]?[0-9]+)?")


def _decimal(unit, value):
    """A value in natural units as a Decimal, as exact as it was given. A float is refused: 10.13 as a float is not 10.13."""
    if isinstance(value, float):
        written = float.__repr__(value)  # and not numpy's, which has more than the number
        if not math.isfinite(value):
            raise ValueError(f"{unit}: not a number: {written}")
        raise TypeError(f'{unit}: a float is not exact; write it as a string, "{written}", or as a Decimal')
    if isinstance(value, Decimal):
        return value
    if isinstance(value, str):
        try:
            if _NUMBER.fullmatch(value):
                return Decimal(value)
        except InvalidOperation:  # an exponent past all bounds
            pass
        raise ValueError(f"{unit}: not a number: {value!r}")
    if isinstance(value, bool) or not isinstance(value, numbers.Integral):
        _refuse_kind(unit, "a string, a whole number or a Decimal", value)
    return Decimal(operator.index(value))


def _from(unit, value):
    """The whole number of a value in natural units. It goes by the digits, so no precision of decimals plays a part."""
    places, counted = _UNITS[unit]
    number = _decimal(unit, value)
    if not number.is_finite():
        raise ValueError(f"{unit}: not a number: {value!r}")
    if not number:
        return 0
    if number.is_signed():
        raise ValueError(f"{unit}: below zero: {value!r}")
    if number.adjusted() > 30:
        raise ValueError(f"{unit}: far above any number of a job: {value!r}")
    _, digits, exponent = number.as_tuple()
    written, shift = "".join(map(str, digits)), exponent + places
    if shift >= 0:
        return int(written) * 10**shift
    if written[shift:].strip("0"):
        raise ValueError(f"{unit}: not a whole number of {counted}: {value!r}")
    return int(written[:shift] or "0")


def _to(unit, value):
    """A whole number in natural units, with all the decimals that it carries."""
    places, counted = _UNITS[unit]
    number = _whole(counted, value)
    if number < 0:
        raise ValueError(f"{counted}: below zero: {value!r}")
    return Decimal((0, tuple(map(int, str(number))), -places))


def from_acres(value):
    """Hundredths of an acre, from acres as a string, a whole number or a Decimal. What is not exact is refused.

    >>> from_acres("10.13")
    1013
    >>> from_acres("10.135")
    Traceback (most recent call last):
    ValueError: acres: not a whole number of hundredths of an acre: '10.135'
    >>> from_acres(10.13)
    Traceback (most recent call last):
    TypeError: acres: a float is not exact; write it as a string, "10.13", or as a Decimal
    """
    return _from("acres", value)


def to_acres(value):
    """Acres as a Decimal, from hundredths of an acre.

    >>> to_acres(1013)
    Decimal('10.13')
    """
    return _to("acres", value)


def from_inches(value):
    """Hundredths of an inch, from inches."""
    return _from("inches", value)


def to_inches(value):
    """Inches as a Decimal, from hundredths of an inch."""
    return _to("inches", value)


def from_inches_per_hour(value):
    """Hundredths of an inch per hour, from inches per hour."""
    return _from("inches_per_hour", value)


def to_inches_per_hour(value):
    """Inches per hour as a Decimal, from hundredths of an inch per hour."""
    return _to("inches_per_hour", value)


def from_percent(value):
    """Thousandths of a percent, from percent."""
    return _from("percent", value)


def to_percent(value):
    """Percent as a Decimal, from thousandths of a percent."""
    return _to("percent", value)


def from_cubic_feet(value):
    """Hundred-thousandths of a cubic foot, from cubic feet."""
    return _from("cubic_feet", value)


def to_cubic_feet(value):
    """Cubic feet as a Decimal, from hundred-thousandths of a cubic foot."""
    return _to("cubic_feet", value)


def from_pounds(value):
    """Ten-thousandths of a pound, from pounds."""
    return _from("pounds", value)


def to_pounds(value):
    """Pounds as a Decimal, from ten-thousandths of a pound."""
    return _to("pounds", value)


def natural(answer):
    """An answer in natural units: load and removed in pounds a year, depth in inches, credit in percent, volume in cubic
    feet, as Decimals; the number given back, the basis, and the line of a refusal, as they are."""
    if not isinstance(answer, dict):
        _refuse_kind("natural", "an answer, as answer() gives it", answer)
    return {key: _to(_PARTS[key], value) if key in _PARTS else value for key, value in answer.items()}


# ---- The library and the program

def _repository():
    """The folder of the repository, where this file stands in one."""
    above = Path(__file__).resolve().parents
    found = above[2] if len(above) > 2 else None
    return found if found and (found / "crates.txt").is_file() and (found / "run").is_file() else None


def _place():
    """Where the shared object is looked for, or None."""
    named, repository = os.environ.get("SAGECRUET_LIBRARY"), _repository()
    return named or (str(repository / "target" / "staticlib" / "libsagecruet.so") if repository else None)


class _Part(ctypes.Structure):
    _fields_ = [("start", ctypes.c_size_t), ("length", ctypes.c_size_t)]


class _Verdict(ctypes.Structure):
    _fields_ = [("answer", ctypes.c_uint64), ("list", ctypes.c_uint64), ("place", ctypes.c_uint64)]


class _Percent(ctypes.Structure):
    _fields_ = [(name, ctypes.c_uint64) for name in ("answer", "percent", "basis", "list", "place")]


class _Written(ctypes.Structure):
    _fields_ = [("answer", ctypes.c_uint64), ("length", ctypes.c_size_t)]


class _Check(ctypes.Structure):
    _fields_ = [("line", ctypes.c_uint64), ("start", ctypes.c_size_t), ("length", ctypes.c_size_t)]


class _Value(ctypes.Structure):
    _fields_ = [("answer", ctypes.c_uint64), ("value", ctypes.c_uint64)]


@functools.lru_cache(maxsize=None)
def _loaded(place):
    """The shared object at a place, its functions typed as include/sagecruet.h has them. A failure is not kept: what is
    built later is found later."""
    library = ctypes.CDLL(place)
    text = [ctypes.c_char_p, ctypes.c_size_t]
    listed = [ctypes.POINTER(ctypes.c_uint64), ctypes.c_size_t]
    sheet = 3 * listed
    for name, takes, gives in (
        ("answer", text + text, ctypes.c_size_t),
        ("answer_on", text + sheet + text, ctypes.c_size_t),
        ("job", 6 * [ctypes.c_uint64] + listed + text, _Written),
        ("check", text + text, _Check),
        ("fault", text, _Part),
        ("rewrite", text, None),
        ("sheet", sheet, _Verdict),
        ("percent", sheet + [ctypes.c_bool, ctypes.c_uint64, ctypes.c_uint64], _Percent),
        ("reading", [ctypes.c_bool, ctypes.c_float], _Value),
    ):
        function = getattr(library, "sagecruet_" + name)
        function.argtypes, function.restype = takes, gives
    return library


_PROCESSORS = ("x86_64", "AMD64")  # those that the library is for, by the names that Python has for them
_EMULATOR = "qemu-x86_64 -L /usr/x86_64-linux-gnu -E LD_LIBRARY_PATH=/usr/x86_64-linux-gnu/lib".split()  # see examples/c/Makefile


def _library():
    """The library, or Unavailable with the reason."""
    place, machine = _place(), platform.machine()
    if place is None:
        why = "this module does not stand in the repository"
    else:
        try:
            return _loaded(place)
        except (OSError, AttributeError) as error:
            why = f"the library cannot be loaded: {error}"
    if machine not in _PROCESSORS:
        raise Unavailable(f"the library is for x86-64 and this processor is {machine}{_instead()}")
    raise Unavailable(f"{why}; `make shared` in the repository's folder, FOLDER, writes it, and SAGECRUET_LIBRARY says where it "
                      "is: FOLDER/target/staticlib/libsagecruet.so")


def _instead():
    """What can be done without the library, where the program is there."""
    try:
        _program()
    except Unavailable:
        return ""
    return ("; here answer and answer_text work, on the published tables, by the program creditrun, and with the program entry "
            "curve and plot")


# For each program the setting that names another command for it, and the option by which `run` starts it.
_PROGRAMS = {"creditrun": ("SAGECRUET_PROGRAM", "-q"), "rewriterun": ("SAGECRUET_REWRITER", "--rewrite")}


def _program(program="creditrun"):
    """The command that reads a job and prints its answer, or its rewriting, or Unavailable with the reason. The repository's
    `run` builds the program where it is not there, which takes minutes; that is left to whoever wants it."""
    setting, option = _PROGRAMS[program]
    named, repository = os.environ.get(setting, "").strip(), _repository()
    if named:
        return _command(setting, named)
    if repository is None:
        raise Unavailable(f'this module does not stand in the repository; set {setting} to "FOLDER/run {option}", FOLDER being '
                          "the repository's")
    if not (repository / "target" / "bin" / program).is_file():
        raise Unavailable(f"the program is not built; `./run {option} jobs/sample.job` in {repository} proves and builds it, "
                          "which takes some minutes")
    return [str(repository / "run"), option]


def _command(setting, named):
    """A command in words, parted at spaces outside quotes, whose first is there to be started."""
    try:
        words = shlex.split(named)
    except ValueError as error:
        raise Unavailable(f"{setting} is no command: {error}: {named!r}") from None
    if shutil.which(words[0]) is None:
        raise Unavailable(f"{setting} names a command that is not there, or may not be started: {words[0]!r}")
    return words


# For each C example that can stand in for the library, the setting that names another command for it.
_EXAMPLES = {"entry": "SAGECRUET_WRITER", "review": "SAGECRUET_CHECKER"}


def _example(program):
    """The command that writes a job from its numbers, or checks an answer, or Unavailable with the reason: a C example, which
    calls the library. It is built for x86-64 and runs under an emulator where the processor is another."""
    setting, repository = _EXAMPLES[program], _repository()
    named = os.environ.get(setting, "").strip()
    if named:
        return _command(setting, named)
    if repository is None:
        raise Unavailable(f"this module does not stand in the repository; {setting} says how examples/c/{program} is started")
    place = repository / "examples" / "c" / program
    if not place.is_file():
        raise Unavailable(f"the program is not built; `make -C examples/c {program}` in {repository} builds it, and the library "
                          "first")
    return ([] if platform.machine() in _PROCESSORS else _EMULATOR) + [str(place)]


def _found(program="creditrun"):
    """("library", it), ("program", its command), or Unavailable with the reasons of both."""
    try:
        return "library", _library()
    except Unavailable as error:
        no_library = error
    try:
        return "program", (_example if program in _EXAMPLES else _program)(program)
    except Unavailable as no_program:
        raise Unavailable(f"no library: {no_library}. No program: {no_program}.") from None


def backend():
    """What answers a job on the published tables: "library", "program", or None where neither is there."""
    try:
        return _found()[0]
    except Unavailable:
        return None


_ANSWER = re.compile((r"answer=0\nload=\d+\ndepth=\d+\ncredit=\d+\nbasis=(?:" + "|".join(BASES) + r")\nvolume=\d+\nremoved=\d+\n"
                      r"|answer=\d+\nline=\d+\n").encode())

# What the program entry prints: with status 0 a job, with status 1 the number of a refusal.
_WRITTEN = {0: re.compile(rb"practice=[a-z]+\n(?:[a-z]+=[\w,-]+\n){6,}"), 1: re.compile(rb"answer=(?:1|2|3|14)\n")}

# What the program review prints: with status 0 that an answer is right, with status 1 its first wrong line, with its place.
_CHECKED = {0: re.compile(rb"right\n"), 1: re.compile(rb"line ([1-9]\d{0,19}) at byte (\d{1,20}) is (?:missing|wrong: ([^\n]*))\n")}


def _by_program(command, job, what, fits):
    """What the program prints, where it ended as it should. Its standard error is left alone, so that a build that `run` starts
    is seen."""
    named = shlex.join(command)
    try:
        done = subprocess.run(command, input=job, stdout=subprocess.PIPE, check=False)
    except OSError as error:
        raise Unavailable(f"the command {named} cannot be started: {error}") from None
    if not fits(done):
        raise Unavailable(f"the command {named} gave no {what} and ended with status {done.returncode}; what it said went to "
                          "standard error (in a notebook: the terminal where the server was started)")
    return done.stdout


# ---- Jobs

def job(practice, nutrient, mode, rate, task, amount, areas):
    """The text of a job, from its values and a list of (use, cover, soil, area). The library writes it: what is written reads
    as these values. A word, a number or a site that no job may have raises Refused, with the number in its `answer`; a number
    below 0 or from 2**64 on is a plain ValueError. Whether the job is granted, answer() says. The soil U means not known, and
    counts as C for loads and as D for runoff; where C is meant, C is to be written.

    >>> print(job("basin", "N", "step", 0, "load", 0, [("ind", "imp", "-", 1013)]), end="")
    practice=basin
    nutrient=N
    mode=step
    rate=0
    task=load
    amount=0
    area=ind,imp,-,1013
    """
    values = [_code("practice", practice), _code("nutrient", nutrient), _code("mode", mode),
              _unsigned("rate", rate, "inches_per_hour"), _code("task", task), _unsigned("amount", amount, _AMOUNTS.get(task))]
    parts = []
    for place, area in enumerate(_several("areas", "a list of (use, cover, soil, area)", areas)):
        what, expected = f"areas[{place}]", "(use, cover, soil, area)"
        row = _several(what, expected, area)
        if len(row) != 4:
            _refuse_kind(what, expected, area)
        parts += [_code(kind, word, what) for kind, word in zip(("use", "cover", "soil"), row)]
        parts.append(_unsigned(what, row[3], "acres"))
    which, found = _found("entry")
    if which == "program":
        command = found + [str(number) for number in values + parts]
        fits = lambda done: done.returncode in _WRITTEN and _WRITTEN[done.returncode].fullmatch(done.stdout)
        text = _by_program(command, b"", "job", fits).decode()
        if text.startswith("answer="):
            raise Refused(int(text[len("answer="):]))
        return text
    text = ctypes.create_string_buffer(JOB_ROOM)
    written = found.sagecruet_job(*values, *_list(parts), text, JOB_ROOM)
    if written.answer:
        raise Refused(written.answer)
    return text.raw[:written.length].decode()


def _list(values):
    """A list of numbers as the library takes it: a pointer and a count. The memory behind it has one element more, so that
    no pointer is null."""
    return (ctypes.c_uint64 * (len(values) + 1))(*values), len(values)


def _lists(sheet):
    """The lists of a sheet as the library takes them."""
    expected = "three lists: depths, rates and percents"
    lists = _several("sheet", expected, sheet)
    if len(lists) != 3:
        _refuse_kind("sheet", expected, sheet)
    arguments = []
    for name, unit, values in zip(Sheet._fields, ("inches", "inches_per_hour", "percent"), lists):
        what = f"sheet: {name}"
        arguments += _list([_unsigned(what, value, unit) for value in _several(what, "a list of whole numbers", values)])
    return arguments


def _unsigned(what, value, unit=None):
    """A whole number that the library can be handed as it is."""
    number = _whole(what, value, unit)
    if not 0 <= number < 2**64:
        raise ValueError(f"{what}: not from 0 to 2**64 - 1: {value!r}")
    return number


def answer_text(job, sheet=None, room=ROOM):
    """The answer text of a job, on the published tables or on a lent sheet; None where `room` bytes are too few. A lent sheet
    needs the library."""
    job, room = _text(job), min(_unsigned("room", room), ROOM)
    lists = None if sheet is None else _lists(sheet)
    which, found = _found() if sheet is None else ("library", _library())
    if which == "program":
        text = _by_program(found, job, "answer", lambda done: done.returncode in (0, 1) and _ANSWER.fullmatch(done.stdout))
        return text.decode() if len(text) <= room else None
    text = ctypes.create_string_buffer(room + 1)
    if sheet is None:
        length = found.sagecruet_answer(job, len(job), text, room)
    else:
        length = found.sagecruet_answer_on(job, len(job), *lists, text, room)
    return text.raw[:length].decode() if length else None


def answer(job, sheet=None):
    """The answer of a job as a dictionary: answer, load, depth, credit, basis, volume and removed, or answer and line. The
    basis is a word of BASES, all else are whole numbers.

    >>> answer("practice=basin")
    {'answer': 1, 'line': 1}
    """
    pairs = (line.split("=") for line in answer_text(job, sheet).splitlines())
    return {key: value if key == "basis" else int(value) for key, value in pairs}


def check(job, answer):
    """The check of an answer text that somebody else made for a job: None where it is right, which is where it is byte for byte
    what the published tables give for the job, or else its first wrong line as (number of the line, from 1, place of its first
    byte, its bytes). Where the answer stops after whole right lines, that is an empty one at its end. Nothing is refused. A
    file is read as bytes, `open(name, "rb").read()`: otherwise Python reads CR LF as LF.

    >>> check("practice=basin", "answer=1\\nline=1\\n")
    >>> check("practice=basin", "answer=1\\nline=2\\n")
    (2, 9, b'line=2')
    >>> check("practice=basin", "answer=1\\n")
    (2, 9, b'')
    """
    job, answer = _text(job), _text(answer, "answer")
    which, found = _found("review")
    if which == "program":
        return _by_review(found, job, answer)
    checked = found.sagecruet_check(job, len(job), answer, len(answer))
    return (checked.line, checked.start, answer[checked.start:checked.start + checked.length]) if checked.line else None


def _by_review(command, job, answer):
    """What the program review says of two texts, which it is handed as files."""
    def fits(done):
        told = done.returncode in _CHECKED and _CHECKED[done.returncode].fullmatch(done.stdout)
        if not told or done.returncode == 0:
            return told
        start, line = int(told[2]), told[3]
        if line is None:
            return start == len(answer)
        end = start + len(line)
        return start < len(answer) and answer.startswith(line, start) and answer[end:end + 1] in (b"", b"\n")

    with tempfile.TemporaryDirectory() as folder:
        files = [Path(folder, "job"), Path(folder, "answer")]
        for file, text in zip(files, (job, answer)):
            file.write_bytes(text)
        told = _CHECKED[1].fullmatch(_by_program(command + list(map(str, files)), b"", "check", fits))
    return (int(told[1]), int(told[2]), told[3] or b"") if told else None


def rewrite(job):
    """A stored job with C for each soil U, as bytes. It is for jobs that were stored while U counted as C for runoff too:
    rewritten, each gets the answer that it got then. A job that is refused 1, 2, 3 or 14 comes back as it is. Rewrite only
    jobs that were stored then: in one that was stored since, U means not known, and would become C.

    >>> rewrite(job("basin", "P", "step", 39, "load", 0, [("com", "per", "U", 300)])).splitlines()[-1]
    b'area=com,per,C,300'
    """
    job = _text(job)
    which, found = _found("rewriterun")
    if which == "program":
        either = job, job.replace(b"U", b"C")
        return _by_program(found, job, "rewriting", lambda done: done.returncode == 0 and done.stdout in either)
    text = ctypes.create_string_buffer(job, len(job) + 1)
    found.sagecruet_rewrite(text, len(job))
    return text.raw[:len(job)]


# ---- What needs the library

def fault(job):
    """The offending line of a job text that is refused 1, as (place of its first byte, its bytes); any other text has
    an empty one at its end. Needs the library.

    >>> fault("practice=basin\\nnutrient=n\\n")
    (15, b'nutrient=n')
    """
    job = _text(job)
    part = _library().sagecruet_fault(job, len(job))
    return part.start, job[part.start:part.start + part.length]


def sheet_verdict(sheet):
    """The test of a sheet: (0, 0, 0), or 5 with the list (1 depths, 2 rates, 3 percents) and the offending index in it, from
    0; or (5, 0, 0) where the lengths of the lists do not go together. Needs the library.

    >>> sheet_verdict(Sheet([20, 60, 100], [25, 75], [20000, 50000, 70000, 40000, 35000, 80000]))
    (5, 3, 4)
    """
    lists = _lists(sheet)
    verdict = _library().sagecruet_sheet(*lists)
    return verdict.answer, verdict.list, verdict.place


def percent(sheet, rate, depth, mix=False):
    """(answer, percent, basis) of a sheet at a rate and a depth, in mode step or mix. The basis is a word of BASES; beside a
    refusal the percent is 0 and the basis 'none'. Of a sheet that is refused 5, sheet_verdict tells the list and the place.
    Needs the library.

    >>> percent(Sheet([20, 60, 100], [25, 75], [20000, 50000, 70000, 40000, 65000, 80000]), 50, 40, mix=True)
    (0, 43750, 'between')
    """
    arguments = _lists(sheet) + [_flag("mix", mix), _unsigned("rate", rate, "inches_per_hour")]
    arguments.append(_unsigned("depth", depth, "inches"))
    found = _library().sagecruet_percent(*arguments)
    return found.answer, found.percent, BASES[found.basis]


def reading(value, millimetres=False):
    """(answer, rate) of a probe reading in inches or millimetres per hour: a float, a whole number or a Fraction. The reading
    is rounded to a 32-bit float first, as a probe gives it; what is too large for one is infinite, and refused 11. Needs the
    library.

    The float's exact value, which for 0.52 is just below 0.52, goes to the nearest hundredth of an inch per hour, an exact
    half going down. A rate that is typed goes by from_inches_per_hour("0.52").

    >>> reading(127.0, millimetres=True)
    (0, 500)
    >>> reading(0.52), reading(0.125)
    ((0, 52), (0, 12))
    """
    if isinstance(value, bool) or not isinstance(value, numbers.Real):
        _refuse_kind("reading", "a float, a whole number or a Fraction, in inches or millimetres per hour", value)
    try:
        number = float(value)
    except OverflowError:
        number = math.inf if value > 0 else -math.inf
    millimetres = _flag("millimetres", millimetres)
    result = _library().sagecruet_reading(millimetres, number)
    return result.answer, result.value


# ---- Curves

def curve(practice, nutrient, rate=0, mode="step", depths=range(0, 201, 10)):
    """Points (depth, percent) of a published curve, in whole numbers, at the depths that are asked for, 0 to 200. Each point is
    the answer of a credit job: the practice has the volume of that depth on a hundredth of an acre of pavement. What the
    calculator refuses raises Refused. By the programs a point costs a start of each.

    >>> curve("basin", "P", rate=52, depths=[0, 10, 30])
    [(0, 0), (10, 38000), (30, 66500)]
    """
    points = []
    for depth in _several("depths", "a list of whole numbers", depths):
        depth = _whole("depth", depth, "inches")
        if not 0 <= depth <= 200:
            raise ValueError(f"depth: not from 0 to 200 hundredths of an inch: {depth!r}")
        given = answer(job(practice, nutrient, mode, rate, "credit", 121 * 300 * depth, [("com", "imp", "-", 1)]))
        if given["answer"]:
            raise Refused(given["answer"])
        points.append((depth, given["credit"]))
    return points


def plot(practice, nutrient, rates=None, mode="step", axes=None):
    """Draws the published curves of a practice with matplotlib, one for each rate, and gives back the axes. Without `rates`
    they are those of the tables."""
    try:
        from matplotlib import pyplot
    except ImportError:
        raise ImportError("plot needs matplotlib (Debian: python3-matplotlib; pip: matplotlib); docs/curves in the repository "
                          "has a picture of each practice") from None
    if rates is None:
        ask = job(practice, nutrient, mode, 0, "credit", 0, [("com", "imp", "-", 1)])
        rates = RATES if answer(ask)["answer"] == 7 else (0,)
    # All that can be refused comes before a figure is made.
    curves = [(rate, curve(practice, nutrient, rate, mode)) for rate in _several("rates", "a list of whole numbers", rates)]
    if not curves:
        raise ValueError("rates: expected one at least")
    axes = pyplot.subplots()[1] if axes is None else axes
    for rate, points in curves:
        label = f"{to_inches_per_hour(rate)} in/hr" if rate else practice
        axes.plot([depth / 100 for depth, _ in points], [credit / 1000 for _, credit in points], label=label)
    axes.set(title=f"{practice}, {nutrient}" + (", mode mix" if mode == "mix" else ""), xlim=(0, 2), ylim=(0, 102),
             xlabel="depth of runoff from impervious area, inches", ylabel="load removed, percent")
    axes.grid(True, alpha=0.3)
    axes.legend(loc="lower right")
    return axes
