#!/usr/bin/env python3
"""The figures of document 001, read off its text.

    tools/document.py DOCUMENT    print every figure that the project takes from it

The other scripts import this one. Every table is found by its heading and read cell by cell, so no figure is typed by
hand. What comes back is in the project's whole units: hundredths of an inch, of an inch per hour and of a pound per acre
and year, and thousandths of a percent. A table that has not the shape expected of it ends the run.
"""

import argparse
import re
import signal
import sys
import textwrap
from pathlib import Path

# What --help says of the argument DOCUMENT.
FORM = """\
DOCUMENT is a text file in UTF-8 with the words of document 001, the EPA's Attachment 3 to Appendix F of the New Hampshire
MS4 permit. EPA publishes a PDF; any tool may turn it into text, as long as its tables come out in this form:

  heading     a line of its own without a tab: `Table 3-7: Infiltration Trench (IR = 0.27 in/hr) ..`. A blank after the
              hyphen, a full stop for the colon and `**` in front are taken too. A line with a tab, as in the list of
              tables, is no heading. The table goes on to the next heading.
  row         one line, with a tab between each two cells; lines that are no row of the table are passed over
  3-1, 3-2    cells: land use, cover, pounds per acre and year, anything. An empty land use is the one above. A land use
              holds `(COM)`, `(IND)`, `(HDR)`, `(MDR)`, `Low Density`, `(HWY)`, `(FOR)`, `(OPEN)` or `(AG)`, or is
              `All Residential`; a soil's row ends its first cell with `HSG A`, `B`, `C`, `C/D` or `D`. The cover holds
              `impervious` or does not; a rate that starts with `See` is passed over.
  3-4         ten rows of six cells: rain as `0.80`, then the runoff on A, B, C, C/D and D, in inches
  3-6 to 3-25 but 3-22: a row whose first cell starts with `BMP Capacity` and has eight depths behind it; and one each
              of `Phosphorus Load Reduction` and `Nitrogen Load Reduction`, with or without `Cumulative` in front, that
              has eight percents, as `78%`. The rate stands in the heading, as `0.27 in/hr`; without it there is none.
"""

NUTRIENTS = ("P", "N")
LAND_USES = ("com", "ind", "hdr", "mdr", "ldr", "hwy", "for", "open", "ag")
COLUMNS = ("A", "B", "C", "CD", "D")

# The nine practices by number, each with the numbers of its tables.
PRACTICES = (
    ("trench", range(6, 12)),
    ("basin", range(12, 18)),
    ("biofilter", [18]),
    ("wetland", [19]),
    ("isr", [20]),
    ("sand", [21]),
    ("wetpond", [23]),
    ("drypond", [24]),
    ("swale", [25]),
)


def words_for(doc):
    """A reader of a script's words, whose --help prints the script's own text and the form of a document. A script whose output
    is cut off, as by `head`, ends without a word."""
    signal.signal(signal.SIGPIPE, signal.SIG_DFL)
    return argparse.ArgumentParser(description=doc, epilog=FORM, formatter_class=argparse.RawDescriptionHelpFormatter)


def scaled(word, places):
    """A printed decimal as a whole number of the unit that has so many decimal places."""
    found = re.fullmatch(r"(\d+)(?:\.(\d+))?", word.strip())
    if not found or len(found.group(2) or "") > places:
        raise SystemExit(f"not a decimal of at most {places} places: {word!r}")
    return int(found.group(1) + (found.group(2) or "").ljust(places, "0"))


def filled(numbers, indent="    "):
    """The numbers of an array as rt fmt lays them out: as many to a line as fit."""
    return textwrap.fill(" ".join(f"{number}," for number in numbers), 99, initial_indent=indent, subsequent_indent=indent)


class Document:
    def __init__(self, path):
        try:
            self.lines = Path(path).read_text(encoding="utf-8").splitlines()
        except (OSError, UnicodeDecodeError) as fault:
            raise SystemExit(f"the document cannot be read: {fault}")

    def table(self, number):
        """The heading of a table, and the rows under it as lists of cells. A line of the contents has its page after
        a tab, and a heading has none. The table ends where the next heading stands."""
        heading = re.compile(r"(?:^|\*\*)Table 3-\s?(\d+)(?:[:.]| (?=[A-Z]))\s*(.*)")
        title, rows = None, []
        for line in self.lines:
            found = None if "\t" in line else heading.search(line)
            if found and title is not None:
                break
            if found and int(found.group(1)) == number:
                title = found.group(2)
            elif title is not None:
                rows.append(line.split("\t"))
        if title is None:
            raise SystemExit(f"Table 3-{number} is not in the document")
        return title, rows

    def export_rates(self, nutrient):
        """Tables 3-1 and 3-2, sixteen numbers: the nine land uses' impervious rates, the pervious rates of forest and
        of agriculture, and the developed pervious rates of the five soil columns."""
        _, rows = self.table(1 if nutrient == "P" else 2)
        marks = dict(zip(LAND_USES, ("(COM)", "(IND)", "(HDR)", "(MDR)", "Low Density", "(HWY)", "(FOR)", "(OPEN)", "(AG)")))
        impervious, pervious, developed, label = {}, {}, {}, ""
        for cells in rows:
            if len(cells) < 3:
                continue
            label = cells[0] or label
            soil = re.search(r"HSG ([A-D](?:/D)?)$", label)
            if soil:
                developed[soil.group(1).replace("/", "")] = scaled(cells[2], 2)
                continue
            uses = [u for u in LAND_USES if marks[u] in label or (label == "All Residential" and u in ("hdr", "mdr", "ldr"))]
            for use in uses:
                if "impervious" in cells[1]:
                    impervious[use] = scaled(cells[2], 2)
                elif not cells[2].startswith("See"):
                    pervious[use] = scaled(cells[2], 2)
        if set(pervious) != {"for", "ag"}:
            raise SystemExit(f"pervious rates of their own: {sorted(pervious)}")
        return [impervious[u] for u in LAND_USES] + [pervious["for"], pervious["ag"]] + [developed[c] for c in COLUMNS]

    def runoff_rows(self):
        """Table 3-4: ten rows of the rain and the runoff in the five soil columns."""
        _, rows = self.table(4)
        printed = [[scaled(c, 2) for c in cells] for cells in rows if len(cells) == 6 and re.fullmatch(r"\d\.\d\d", cells[0])]
        if len(printed) != 10:
            raise SystemExit(f"Table 3-4 has {len(printed)} rows")
        return printed

    def curve(self, number):
        """A performance table: its rate (0 where it has none), its depths, and its percents for each nutrient."""
        title, rows = self.table(number)
        rate = re.search(r"(\d+\.\d+) in/hr", title)
        depths, percents = [], {"P": [], "N": []}
        for cells in rows:
            if cells[0].startswith("BMP Capacity"):
                depths += [scaled(c, 2) for c in cells[1:]]
            found = re.fullmatch(r"(?:Cumulative )?(Phosphorus|Nitrogen) Load Reduction", cells[0])
            if found:
                percents[found.group(1)[0]] += [scaled(c.rstrip("%"), 3) for c in cells[1:]]
        if len(depths) != 8 or any(len(p) != len(depths) for p in percents.values()):
            raise SystemExit(f"Table 3-{number} has not eight depths and a percent for each and for each nutrient")
        return scaled(rate.group(1), 2) if rate else 0, depths, percents

    def sheet(self, practice, nutrient):
        """A practice's depths, rates and percents, rate by rate."""
        curves = [self.curve(n) for n in PRACTICES[practice][1]]
        depths = curves[0][1]
        if any(c[1] != depths for c in curves):
            raise SystemExit(f"the tables of {PRACTICES[practice][0]} differ in their depths")
        return depths, [c[0] for c in curves], [p for c in curves for p in c[2][nutrient]]


def figures(document):
    """Every figure that the project takes, a line each with the table it stands in."""
    for number, nutrient in ((1, "P"), (2, "N")):
        yield f"Table 3-{number}, {nutrient}, hundredths of a pound per acre and year:"
        rates = document.export_rates(nutrient)
        names = [use + " impervious" for use in LAND_USES] + ["for pervious", "ag pervious"] + ["other pervious on " + soil for soil in COLUMNS]
        yield from (f"    {name} {rate}" for name, rate in zip(names, rates))
    yield "Table 3-4, hundredths of an inch: rain, then the runoff on " + ", ".join(COLUMNS)
    yield from ("    " + " ".join(map(str, row)) for row in document.runoff_rows())
    for name, tables in PRACTICES:
        for number in tables:
            rate, depths, percents = document.curve(number)
            yield f"Table 3-{number}, {name}, rate {rate}, hundredths of an inch and thousandths of a percent:"
            yield "    depths " + " ".join(map(str, depths))
            yield from (f"    {nutrient} " + " ".join(map(str, percents[nutrient])) for nutrient in NUTRIENTS)


def main():
    words = words_for(__doc__)
    words.add_argument("DOCUMENT", help="document 001 as text")
    for line in figures(Document(words.parse_args().DOCUMENT)):
        print(line)


if __name__ == "__main__":
    sys.exit(main())
