#!/usr/bin/env python3
"""Makes crates/runoff/src/entries.rt, the sheet of 1,005 runoff numbers, from the ten rows of Table 3-4.

    tools/runoff_sheet.py --write             write the file
    tools/runoff_sheet.py --check             say whether the file is what the rows make
    tools/runoff_sheet.py --check DOCUMENT    the same, and whether the rows are those of document 001

The rows are those of the definition `rows` in crates/runoff/specs/Runoff.antt; --check holds the constant ROWS in
crates/runoff/src/lib.rt to them too. An entry is the runoff of one soil at one depth in thirty-thousandths of an inch: 0
below the first row, and a straight line between two. Every gap between two rows divides 300, so each is a whole number.

Exit status: 0 where all is as it should be, 1 where something differs or a row cannot be, 2 for a wrong use.
"""

import re
import sys
from pathlib import Path

import document

ROOT = Path(__file__).resolve().parent.parent
DEFINITION = "crates/runoff/specs/Runoff.antt"
CODE = "crates/runoff/src/lib.rt"
SHEET = "crates/runoff/src/entries.rt"
DEEPEST = 200
SCALE = 300
LARGEST = 65_535

HEAD = """\
// The sheet of 1,005 numbers: five soils by 201 depths, thirty-thousandths of an inch.
ghost use Rattle.std.specs.Prelude.{◌≡◌};
ghost use Rattle.runoff.specs.Runoff.{runoff_sheet};

const SHEET: [u16; 1005] = [
"""
FOOT = """\
];

// The whole sheet, to be lent to whoever looks up entries.
pub fn sheet() -> [u16; 1005]
    ensures { result ≡ runoff_sheet }
{
    SHEET
}
"""


def rows_in(name, opened, row):
    """The rows of a table in a file: the lines after the one that opens it, as long as they have the form of a row."""
    lines = (ROOT / name).read_text(encoding="utf-8").splitlines()
    if opened not in lines:
        raise SystemExit(f"runoff_sheet: {name} has no line {opened!r}")
    rows = []
    for line in lines[lines.index(opened) + 1:]:
        if not re.fullmatch(row, line):
            break
        rows.append([int(number) for number in re.findall(r"\d+", line)])
    return rows


def believed_rows():
    """The rows of the definition: rain, and the runoff on five soils, in hundredths of an inch."""
    rows = rows_in(DEFINITION, "rows =", r"    \((\d+ ∷ ){6}\[\]\) ∷")
    rains = [row[0] for row in rows]
    if len(rows) != 10 or rains[-1] != DEEPEST:
        raise SystemExit(f"runoff_sheet: {DEFINITION} has {len(rows)} rows of six numbers, and not ten that end with rain {DEEPEST}")
    for low, high in zip(rains, rains[1:]):
        if not low < high or SCALE % (high - low):
            raise SystemExit(f"runoff_sheet: the gap from rain {low} to rain {high} does not divide {SCALE}")
    return rows


def runoff(rows, column, depth):
    """The runoff on a soil column at a depth, in thirty-thousandths of an inch."""
    if depth < rows[0][0]:
        return 0
    low = max(place for place, row in enumerate(rows) if row[0] <= depth)
    start = SCALE * rows[low][column]
    if rows[low][0] == depth:
        return start
    step = SCALE // (rows[low + 1][0] - rows[low][0])
    return start + step * (rows[low + 1][column] - rows[low][column]) * (depth - rows[low][0])


def sheet_text(rows):
    """The whole file."""
    entries = [runoff(rows, column, depth) for column in range(1, 6) for depth in range(DEEPEST + 1)]
    if not all(0 <= entry <= LARGEST for entry in entries):
        raise SystemExit(f"runoff_sheet: an entry is above {LARGEST}, the most that the sheet can hold")
    return HEAD + document.filled(entries) + "\n" + FOOT


def first_difference(stored, made):
    """Where two texts differ first, in words."""
    for number, (old, new) in enumerate(zip(stored.splitlines(), made.splitlines()), 1):
        if old != new:
            return f"line {number} has {old.strip()!r}, the rows make {new.strip()!r}"
    return "one is longer than the other"


def check(rows, paper):
    """What is wrong, a sentence each."""
    stored = (ROOT / SHEET).read_text(encoding="utf-8")
    made = sheet_text(rows)
    if stored != made:
        yield f"{SHEET}: {first_difference(stored, made)}"
    coded = rows_in(CODE, "const ROWS: [[u64; 6]; 10] = [", r"    \[(\d+, ){5}\d+\],")
    if coded != rows:
        yield f"{CODE}: ROWS is not what `rows` in {DEFINITION} says"
    if paper and document.Document(paper).runoff_rows() != rows:
        yield f"{DEFINITION}: `rows` is not Table 3-4 of the document"


def main():
    words = document.words_for(__doc__)
    act = words.add_mutually_exclusive_group(required=True)
    act.add_argument("--write", action="store_true", help="write the file")
    act.add_argument("--check", action="store_true", help="compare, and write nothing")
    words.add_argument("DOCUMENT", nargs="?", help="document 001 as text, with --check alone")
    asked = words.parse_args()
    rows = believed_rows()
    if asked.write:
        if asked.DOCUMENT:
            words.error("--write takes no DOCUMENT: the rows are those of the definition")
        (ROOT / SHEET).write_text(sheet_text(rows), encoding="utf-8")
        return 0
    wrong = list(check(rows, asked.DOCUMENT))
    for sentence in wrong:
        print("runoff_sheet:", sentence)
    return 1 if wrong else 0


if __name__ == "__main__":
    sys.exit(main())
