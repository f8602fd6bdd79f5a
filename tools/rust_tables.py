#!/usr/bin/env python3
"""Writes bench/src/tables.rs, the tables of the Rust implementation, from document 001.

    tools/rust_tables.py DOCUMENT > bench/src/tables.rs
"""

from document import LAND_USES, NUTRIENTS, PRACTICES, Document, words_for


def numbers(values):
    return "[" + ", ".join(map(str, values)) + "]"


def rust(document):
    out = [
        "// Made by tools/rust_tables.py from document 001. Do not edit.",
        "",
        "use crate::Sheet;",
        "",
        "/// Tables 3-1 and 3-2 (P, then N), hundredths of a pound per acre and year: nine impervious rates",
        f"/// ({', '.join(LAND_USES)}), pervious forest and agriculture, and the five soil columns.",
        "#[rustfmt::skip]",
        "pub static EXPORT_RATES: [[u64; 16]; 2] = [",
    ]
    out += [f"    {numbers(document.export_rates(n))}," for n in NUTRIENTS]
    out += [
        "];",
        "",
        "/// Table 3-4, hundredths of an inch: rain, then the runoff in columns A, B, C, CD and D.",
        "#[rustfmt::skip]",
        "pub const RUNOFF_ROWS: [[u64; 6]; 10] = [",
    ]
    out += [f"    {numbers(row)}," for row in document.runoff_rows()]
    out += ["];", "", "/// Tables 3-6 to 3-25 but 3-22: the sheet of each practice for P and for N.", "#[rustfmt::skip]",
            f"pub static PUBLISHED: [[Sheet<'static>; 2]; {len(PRACTICES)}] = ["]
    for practice, (name, _) in enumerate(PRACTICES):
        out += [f"    // {name}", "    ["]
        for nutrient in NUTRIENTS:
            depths, rates, percents = document.sheet(practice, nutrient)
            out += ["        Sheet {", f"            depths: &{numbers(depths)},", f"            rates: &{numbers(rates)},", "            percents: &["]
            for row in range(len(rates)):
                part = percents[row * len(depths):(row + 1) * len(depths)]
                out.append("                " + ", ".join(map(str, part)) + ",")
            out += ["            ],", "        },"]
        out.append("    ],")
    return "\n".join(out + ["];"])


if __name__ == "__main__":
    asked = words_for(__doc__)
    asked.add_argument("DOCUMENT", help="document 001 as text")
    print(rust(Document(asked.parse_args().DOCUMENT)))
