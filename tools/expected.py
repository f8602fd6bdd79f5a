#!/usr/bin/env python3
"""Makes the stored output of the program `vectors` from document 001 and the rules, not using the library.

    tools/expected.py DOCUMENT > crates/vectors/stdout

The program prints lines of a word and whole numbers, with single spaces between them, and job texts. Numbers stand for
things as the rules number them: practices 0 to 8; nutrients P 0, N 1; modes step 0, mix 1; land uses com, ind, hdr, mdr,
ldr, hwy, for, open, ag 0 to 8; soils A, B, C, CD, D, U 0 to 5, and 6 for impervious cover; soil columns A, B, C, CD, D 0 to 4.
ANSWER is the number given back, 0 on every line but that of the sheet and some of the run; the values beside a refusal are
zeros. BASIS is how the percent before it was found: printed 1, between 2, start 3, held 4 (none 0 would stand beside a
refusal). In this order:

    runoff COLUMN RAIN NUMBER
        the rules' three numbers (A at 55, CD at 110, D at 200), then every number of Table 3-4, row by row, columns in
        turn: the runoff at that rain in thirty-thousandths of an inch

    unknown DEPTH VOLUME
        behind each row, V of one commercial pervious acre (area 100) on soil U, which is read as D for runoff, at the row's rain

    sheet ANSWER LIST PLACE
        the test of the rules' sheet T with 65000 read as 35000

    basis MODE RATE DEPTH PERCENT BASIS
        the percents of the rules' sheet T and how they were found, at every depth 0 to 200 in turn: in mode step at rate
        50, then in mode mix at the rates 25, 26, 50, 74, 75 and 76

    reading ANSWER RATE
        seven lines: 0.25 and 0.5 inches per hour, 127 millimetres per hour, 0.52 and 1.02 inches per hour, 6.858 and
        210.058 millimetres per hour; the exact value of each one's 32-bit float goes to the nearest hundredth of an
        inch per hour, an exact half going down

    sample ANSWER LOAD
        the load job of the rules: N, industrial impervious 1013, commercial pervious C 185, forest pervious C 89

    load NUTRIENT USE SOIL ANSWER LOAD
        every rate of Tables 3-1 and 3-2: the load of one acre (area 100), for each nutrient, land use and soil, the
        soils 0 to 6 in turn

    run ANSWER TOTAL COUNT COUNTER NUMBER..
        a run of adds and removals on one site, a line for each: its answer with the new total area, then of the record that
        was handed back the count, the counter and the numbers before the count. RUN has the steps: the area of a commercial
        impervious sub-area to add, a number to remove, and, where these alone do not come to a refusal, another count or
        counter that is put into the record, which has no line

    point PRACTICE NUTRIENT MODE RATE DEPTH PERCENT BASIS ANSWER DEPTH CREDIT BASIS REMOVED
          ANSWER DEPTH CREDIT BASIS VOLUME REMOVED
        on one line: every printed percent of Tables 3-6 to 3-25 but 3-22, for each practice, nutrient, mode, rate and
        depth in turn, rates and depths in the tables' order: the percent of the published sheet there; then the answer
        of crediting the volume V(DEPTH) on a site of one commercial impervious acre (area 100); then the answer of
        sizing on that site with the printed percent for the target

    check LINE FROM TO
        the check of a claimed answer text: the number of its first wrong line, counted from 1, and where in the text that line begins
        and ends, its line feed left out; for a text that is right 0 and twice its end. CLAIMED has the texts, for the load job of
        the rules, then for jobs/refused-1.job, whose eighth line has a soil that there is not, then for a job of 5,000 bytes

    written ANSWER LENGTH
        the writing of a job, and behind this line the text itself, as it was written: LENGTH bytes, whose last is a line feed.
        JOBS has the nine jobs, the practices 0 to 8 and the land uses 0 to 8 in turn. The site of each has seven sub-areas of its
        land use, pervious on the soils 0 to 5 in turn and then impervious; AREAS has their areas, which come to 1,000,000
"""

import re
import struct
from fractions import Fraction
from itertools import zip_longest
from math import ceil, floor
from typing import NamedTuple

from document import COLUMNS, LAND_USES, NUTRIENTS, PRACTICES, Document, words_for

GRID = range(201)
MODES = ("step", "mix")
BASES = ("none", "printed", "between", "start", "held")
COVERS = ("imp", "per")
SOILS = COLUMNS + ("U",)
NO_SOIL = "-"
FULL = 100_000

# the rules' sheet T, and the modes and rates at which its bases are told
T = [20, 60, 100], [25, 75], [20000, 50000, 70000, 40000, 65000, 80000]
TOLD = (("step", 50), ("mix", 25), ("mix", 26), ("mix", 50), ("mix", 74), ("mix", 75), ("mix", 76))

# an inch in inches and in millimetres, and the readings by what a probe shows in that unit
INCHES, MILLIMETRES = Fraction(1), Fraction(254, 10)
READINGS = (
    (0.25, INCHES), (0.5, INCHES), (127, MILLIMETRES),
    (0.52, INCHES), (1.02, INCHES), (6.858, MILLIMETRES), (210.058, MILLIMETRES),
)

# the most sub-areas and the most area of a site, and the counter at which its numbers are spent
MOST_PARTS, MOST_AREA, SPENT_AT = 32, 1_000_000, 1_000_000

# the steps of the run, and what is put into its record in between
RUN = (
    *(("add", area) for area in range(1_000, 1_031)), ("count", 32), ("add", 5), ("remove", 1), ("count", 31),
    ("add", 1_031), ("add", 1_032), ("add", 0), ("remove", 5), ("count", 32), ("add", 7), ("remove", 6), ("count", 31),
    ("add", 7), ("remove", 5), ("remove", 34), ("remove", 0),
    ("counter", 1_000_000), ("add", 1), ("remove", 33), ("add", 0), ("add", 968_509),
    ("counter", 999_999), ("add", 968_509), ("add", 968_508), ("remove", 999_999), ("add", 1),
    ("counter", 2_000_000), ("remove", 1), ("count", 32), ("remove", 2), ("count", 33), ("add", 0), ("count", 30),
    ("counter", 0), ("add", 1), ("counter", 32), ("remove", 2), ("counter", 33), ("remove", 2), ("add", 1_000_001),
)

# the jobs that are written, each with the land use of its sub-areas, and their areas
JOBS = (
    ("trench", "P", "step", 0, "load", 0, "com"),
    ("basin", "N", "step", 9, "credit", 10, "ind"),
    ("biofilter", "P", "mix", 17, "size", 999, "hdr"),
    ("wetland", "N", "mix", 102, "load", 5678, "mdr"),
    ("isr", "P", "step", 8270, "credit", 335_847_600, "ldr"),
    ("sand", "N", "step", 10_000, "size", 70_000, "hwy"),
    ("wetpond", "P", "mix", 123_456, "load", 1_100_343_750, "for"),
    ("drypond", "N", "mix", 99_999_999_999_999, "credit", 10_000_000_000_000, "open"),
    ("swale", "P", "step", 10_203_040_506_070, "size", 99_999_999_999_999, "ag"),
)
AREAS = (1, 20, 300, 4_000, 50_000, 600_000, 345_679)

# what is claimed to be the answer of the load job of the rules, of jobs/refused-1.job and of a job of 5,000 bytes
SAMPLE = "answer=0\nload=1568350\ndepth=0\ncredit=0\nbasis=none\nvolume=0\nremoved=0\n"
CLAIMED = (
    (
        SAMPLE, "", "answer=0\n", "answer=0", SAMPLE[:-1], SAMPLE + "x", SAMPLE + "\n", SAMPLE + SAMPLE,
        SAMPLE.replace("=1568350", "=1569000"), SAMPLE.replace("=1568350", "=01568350"), SAMPLE.replace("\n", "\r\n"),
        SAMPLE.replace("basis=none\n", ""), SAMPLE.replace("=none", "=held"), "\n" + SAMPLE, "answer=1\nline=0\n",
    ),
    ("answer=1\nline=8\n", "answer=1\nline=7\n", "answer=1\n", "answer=1\nline=8\nload=0\n"),
    ("answer=1\nline=0\n",),
)


def load_column(soil):
    """The column of a soil in Tables 3-1 and 3-2: an unknown one is read as C."""
    return "C" if soil == "U" else soil


def runoff_column(soil):
    """The column of a soil in Table 3-4: an unknown one is read as D."""
    return "D" if soil == "U" else soil


def export_rate(rates, use, soil):
    """One of the sixteen rates; no soil for impervious cover."""
    if soil is None:
        return rates[LAND_USES.index(use)]
    if use in ("for", "ag"):
        return rates[9 if use == "for" else 10]
    return rates[11 + COLUMNS.index(load_column(soil))]


def line(points, x):
    """The straight lines through points, at x."""
    for (x0, y0), (x1, y1) in zip(points, points[1:]):
        if x0 <= x <= x1:
            return y0 + Fraction((y1 - y0) * (x - x0), x1 - x0)
    raise ValueError(x)


def runoff(rows, soil, rain):
    """Runoff in thirty-thousandths of an inch."""
    if rain < rows[0][0]:
        return 0
    exact = 300 * line([(row[0], row[1 + COLUMNS.index(soil)]) for row in rows], rain)
    if exact.denominator != 1:
        raise SystemExit("a runoff is not whole")
    return int(exact)


def curve(sheet, row, depth):
    """The exact percent on one rate's curve."""
    depths, _, percents = sheet
    own = percents[row * len(depths):(row + 1) * len(depths)]
    return line([(0, 0)] + list(zip(depths, own)) + [(max(GRID) + 1, own[-1])], depth)


def percent(sheet, mode, rate, depth):
    """The percent of a sheet at a rate that is not below its slowest, rounded down once."""
    _, rates, _ = sheet
    row = max(k for k, r in enumerate(rates) if r <= rate)
    low = curve(sheet, row, depth)
    if mode == "mix" and row + 1 < len(rates):
        high = curve(sheet, row + 1, depth)
        return floor(low + (high - low) * Fraction(rate - rates[row], rates[row + 1] - rates[row]))
    return floor(low)


def mixes(sheet, mode, rate):
    """Mixing means a site rate strictly between two neighbouring sheet rates in mode mix."""
    _, rates, _ = sheet
    return mode == "mix" and any(r < rate for r in rates) and any(r > rate for r in rates) and rate not in rates


def basis(sheet, mode, rate, depth):
    """The number of how the percent of a sheet at a rate and a depth is found: start for depths below the first, including
    0; held beyond the last; printed where the depth is one of the sheet's and no mixing took place; between for other depths
    from the first to the last."""
    depths, _, _ = sheet
    if depth < min(depths):
        word = "start"
    elif depth > max(depths):
        word = "held"
    elif depth in depths and not mixes(sheet, mode, rate):
        word = "printed"
    else:
        word = "between"
    return BASES.index(word)


def volume(rows, parts, depth):
    """V(d) of sub-areas (land use, soil or None, area)."""
    return 121 * sum(
        area * (300 * depth if soil is None else runoff(rows, runoff_column(soil), depth)) for _, soil, area in parts
    )


class Site(NamedTuple):
    """A site record: 32 sub-areas (land use, cover, soil, area) and their numbers, of which those before the count are held."""
    parts: tuple = (("com", "imp", "A", 0),) * MOST_PARTS
    numbers: tuple = (0,) * MOST_PARTS
    count: int = 0
    counter: int = 1


def refused_part(part, total):
    """The refusal of one sub-area more beside a total area: 2 for an area outside 1 to 1,000,000 or a soil that does not suit
    the cover, 3 for a total that would pass 1,000,000; else 0."""
    _, cover, soil, area = part
    if not 1 <= area <= MOST_AREA or (cover == "imp") != (soil == NO_SOIL):
        return 2
    return 3 if total + area > MOST_AREA else 0


def judged(site):
    """The number given back for a record, and its total area: 14 for a count above 32, then 2 and 3 at each sub-area in turn,
    then 16 for a counter of 0 and for numbers that do not rise strictly from at least 1 and stay below the counter."""
    total = 0
    if site.count > MOST_PARTS:
        return 14, 0
    for part in site.parts[:site.count]:
        why = refused_part(part, total)
        if why:
            return why, 0
        total += part[-1]
    rising = (0, *site.numbers[:site.count], site.counter)
    if any(above <= below for below, above in zip(rising, rising[1:])):
        return 16, 0
    return 0, total


def added(site, part):
    """What an add gives: the number given back, the number of the sub-area, the new total area, and the site. The record is
    judged, then 2 is tried, 14 for a site that holds 32, 17 for a counter of 1,000,000 or more, 3."""
    why, total = judged(site)
    if not why:
        why = refused_part(part, total)
        if why != 2 and site.count == MOST_PARTS:
            why = 14
        elif why != 2 and site.counter >= SPENT_AT:
            why = 17
    if why:
        return why, 0, 0, site
    at, number = site.count, site.counter
    parts, numbers = list(site.parts), list(site.numbers)
    parts[at], numbers[at] = part, number
    return 0, number, total + part[-1], Site(tuple(parts), tuple(numbers), at + 1, number + 1)


def removed(site, number):
    """What a removal gives, in the same form: the record is judged, then 16 is tried for a number that is not held. Those behind
    it close up in order, and places past the new count keep what they held."""
    why, total = judged(site)
    held = site.numbers[:site.count]
    if why or number not in held:
        return why or 16, 0, 0, site
    at, last = held.index(number), site.count - 1
    parts, numbers = list(site.parts), list(site.numbers)
    for places in (parts, numbers):
        places[at:last] = places[at + 1:last + 1]
    return 0, 0, total - site.parts[at][-1], Site(tuple(parts), tuple(numbers), last, site.counter)


def run_of_steps():
    site = Site()
    for what, number in RUN:
        if what in ("count", "counter"):
            site = site._replace(**{what: number})
            continue
        part = "com", "imp", NO_SOIL, number
        answer, _, total, site = added(site, part) if what == "add" else removed(site, number)
        yield "run", answer, total, site.count, site.counter, *site.numbers[:site.count]


def job_text(practice, nutrient, mode, rate, task, amount, parts):
    """The text of a job with its sub-areas (land use, cover, soil, area)."""
    head = ("practice", practice), ("nutrient", nutrient), ("mode", mode), ("rate", rate), ("task", task), ("amount", amount)
    return "".join(f"{key}={value}\n" for key, value in head) + "".join("area={},{},{},{}\n".format(*part) for part in parts)


def written_jobs():
    for *head, use in JOBS:
        grounds = [("per", soil) for soil in SOILS] + [("imp", NO_SOIL)]
        text = job_text(*head, [(use, *ground, area) for ground, area in zip(grounds, AREAS)])
        yield "written", 0, len(text)
        for line in text.splitlines():
            yield (line,)


def lines_of(text):
    """The lines of a text, each with its LF if it has one."""
    return re.findall("[^\n]*\n|[^\n]+", text)


def checked(right, claimed):
    """The number of the first line of a claimed text that is not the same line of the right one, where it begins and where it ends."""
    begin = 0
    for number, (ours, theirs) in enumerate(zip_longest(lines_of(right), lines_of(claimed), fillvalue=""), 1):
        if ours != theirs:
            return number, begin, begin + len(theirs.rstrip("\n"))
        begin += len(theirs)
    return 0, begin, begin


def checks(load):
    """The checks, where the load job of the rules has this load."""
    granted = ("answer", 0), ("load", load), ("depth", 0), ("credit", 0), ("basis", BASES[0]), ("volume", 0), ("removed", 0)
    malformed, too_long = (("answer", 1), ("line", 8)), (("answer", 1), ("line", 0))
    for values, texts in zip((granted, malformed, too_long), CLAIMED):
        right = "".join(f"{key}={value}\n" for key, value in values)
        for text in texts:
            yield "check", *checked(right, text)


def first_break(depths, rates, percents):
    """The test of a sheet whose lengths are right: (0, 0, 0), or 5 with the list and the place."""
    for number, values, most in ((1, depths, 200), (2, [] if rates == [0] else rates, 10_000)):
        for place, value in enumerate(values):
            if not (values[place - 1] if place else 0) < value <= most:
                return 5, number, place
    for place, value in enumerate(percents):
        if not (percents[place - 1] if place % len(depths) else 0) <= value <= FULL:
            return 5, 3, place
    return 0, 0, 0


def value_sent(shown):
    """The exact value of the 32-bit float that a probe sends for the number it shows."""
    return Fraction(*struct.unpack("<f", struct.pack("<f", shown)))


def nearest(value):
    """The whole number nearest to a value, the lower one where two are equally near."""
    return ceil(value - Fraction(1, 2))


def bases_of_t():
    for mode, rate in TOLD:
        for depth in GRID:
            yield "basis", MODES.index(mode), rate, depth, percent(T, mode, rate, depth), basis(T, mode, rate, depth)


def volume_of_unknown(rows, rain):
    return "unknown", rain, volume(rows, [("com", "U", 100)], rain)


def output(document):
    rows = document.runoff_rows()
    for soil, rain in (("A", 55), ("CD", 110), ("D", 200)):
        yield "runoff", COLUMNS.index(soil), rain, runoff(rows, soil, rain)
    for row in rows:
        for place, soil in enumerate(COLUMNS):
            yield "runoff", place, row[0], runoff(rows, soil, row[0])
        yield volume_of_unknown(rows, row[0])
    yield ("sheet", *first_break([20, 60, 100], [25, 75], [20000, 50000, 70000, 40000, 35000, 80000]))
    yield from bases_of_t()
    for shown, unit in READINGS:
        yield "reading", 0, nearest(100 * value_sent(shown) / unit)

    rates = {n: document.export_rates(n) for n in NUTRIENTS}
    sample = [("ind", None, 1013), ("com", "C", 185), ("for", "C", 89)]
    sample_load = sum(area * export_rate(rates["N"], use, soil) for use, soil, area in sample)
    yield "sample", 0, sample_load
    for n, nutrient in enumerate(NUTRIENTS):
        for u, use in enumerate(LAND_USES):
            for s, soil in enumerate(SOILS + (None,)):
                yield "load", n, u, s, 0, 100 * export_rate(rates[nutrient], use, soil)
    yield from run_of_steps()

    acre = [("com", None, 100)]
    for practice in range(len(PRACTICES)):
        for n, nutrient in enumerate(NUTRIENTS):
            sheet = document.sheet(practice, nutrient)
            depths, own_rates, percents = sheet
            if first_break(*sheet) != (0, 0, 0):
                raise SystemExit(f"the sheet of {PRACTICES[practice][0]} breaks a rule")
            load = sum(area * export_rate(rates[nutrient], use, soil) for use, soil, area in acre)
            for m, mode in enumerate(MODES):
                for row, rate in enumerate(own_rates):
                    for place, depth in enumerate(depths):
                        printed = percents[row * len(depths) + place]
                        here = percent(sheet, mode, rate, depth)
                        if here != printed:
                            raise SystemExit("the rules and a printed percent differ")
                        lent = volume(rows, acre, depth)
                        reached = max(d for d in GRID if volume(rows, acre, d) <= lent)
                        credit = percent(sheet, mode, rate, reached)
                        least = min(d for d in GRID if percent(sheet, mode, rate, d) >= printed)
                        sized = percent(sheet, mode, rate, least)
                        yield (
                            "point", practice, n, m, rate, depth, here, basis(sheet, mode, rate, depth),
                            0, reached, credit, basis(sheet, mode, rate, reached), load * credit // FULL,
                            0, least, sized, basis(sheet, mode, rate, least), volume(rows, acre, least), load * sized // FULL,
                        )
    yield from checks(sample_load)
    yield from written_jobs()


if __name__ == "__main__":
    asked = words_for(__doc__)
    asked.add_argument("DOCUMENT", help="document 001 as text")
    for words in output(Document(asked.parse_args().DOCUMENT)):
        print(*words)
