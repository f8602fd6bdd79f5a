#!/usr/bin/env python3
"""Writes the published sheets of the crate `published` from document 001.

    tools/published.py DOCUMENT specs  > crates/published/specs/Tables.antt
    tools/published.py DOCUMENT source > crates/published/src/tables.rt
    tools/published.py DOCUMENT docs      the rows of "Percent tables" in docs/TABLES.md

A column that breaks a sheet rule is left out: its practice keeps its other rates, and has none where none remains.
"""

from document import NUTRIENTS, PRACTICES, Document, filled, words_for


def fits(percents):
    return all(a <= b for a, b in zip([0] + percents, percents)) and percents[-1] <= 100_000


def columns(document, practice, nutrient):
    """A practice's columns that keep the rules: the number of the table, its rate and its percents."""
    read = [(number,) + document.curve(number) for number in PRACTICES[practice][1]]
    return [(number, rate, percents[nutrient]) for number, rate, _, percents in read if fits(percents[nutrient])]


def grid(document):
    depths = {tuple(document.curve(number)[1]) for _, tables in PRACTICES for number in tables}
    if len(depths) != 1:
        raise SystemExit("the tables differ in their depths")
    return list(depths.pop())


def underscored(n):
    return f"{n:_}"


def listed(numbers):
    """Numbers at the front of a list that goes on."""
    return "".join(underscored(n) + " ∷ " for n in numbers)


def field(name, values):
    """A field of a sheet as rt fmt lays it out: on one line where it fits."""
    line = f"        {name}: &[" + ", ".join(map(str, values)) + "],"
    return [line] if len(line) <= 100 else [f"        {name}: &[", filled(values, " " * 12), "        ],"]


def column(name, nutrient):
    """The name of a practice's percents."""
    return f"{name}_{nutrient.lower()}"


def specs(document):
    out = [
        '-- Rules, "Practices covered": the columns of Tables 3-6 to 3-25 but 3-22. Made by tools/published.py from document 001.',
        "-- Assumes nothing.",
        "use Rattle.std.specs.Prelude.{ℕ, List, [], ◌∷◌}",
        "use Rattle.units.specs.declared.Nutrient.{Nutrient}",
        "use Rattle.units.specs.declared.Nutrient.TheVariants.{P, N}",
        "",
        "-- the depths of every table",
        "abbrev pub depths : List ℕ",
        f"depths = {listed(grid(document))}[]",
    ]
    for nutrient in NUTRIENTS:
        for practice, (name, _) in enumerate(PRACTICES):
            kept = columns(document, practice, nutrient)
            tables = ", ".join(f"3-{number}" for number, _, _ in kept)
            out += ["", f"-- {name}, {nutrient}: Table{'s' if len(kept) > 1 else ''} {tables}", f"abbrev pub {column(name, nutrient)} : List ℕ", f"{column(name, nutrient)} ="]
            out += [f"    {listed(percents).rstrip()}" for _, _, percents in kept] + ["    []"]
    out += ["", "-- the sheets by practice number: rates, and percents rate by rate", "abbrev pub sheets : Nutrient → List (List ℕ × List ℕ)"]
    for nutrient in NUTRIENTS:
        out += [f"sheets {nutrient} ="]
        for practice, (name, _) in enumerate(PRACTICES):
            out += [f"    ({listed([rate for _, rate, _ in columns(document, practice, nutrient)])}[], {column(name, nutrient)}) ∷"]
        out += ["    []"]
    return out


def source(document):
    depths = grid(document)
    out = [
        "// Made by tools/published.py from document 001.",
        "",
        "use sheet::Sheet;",
        "",
        "// The depths of every table.",
        f"const DEPTHS: [u64; {len(depths)}] = [" + ", ".join(map(str, depths)) + "];",
    ]
    for nutrient in NUTRIENTS:
        out += ["", f"// The sheets for {nutrient} by practice number.", f"pub static FOR_{nutrient}: [Sheet<'static>; {len(PRACTICES)}] = ["]
        for practice, (name, _) in enumerate(PRACTICES):
            kept = columns(document, practice, nutrient)
            out += [f"    // {name}", "    Sheet {", "        depths: &DEPTHS,"]
            out += field("rates", [rate for _, rate, _ in kept])
            out += field("percents", [percent for _, _, percents in kept for percent in percents])
            out += ["    },"]
        out += ["];"]
    return out


def docs(document):
    out = []
    for practice, (name, tables) in enumerate(PRACTICES):
        for number in tables:
            rate, _, percents = document.curve(number)
            for nutrient in NUTRIENTS:
                verdict = "passes" if fits(percents[nutrient]) else "left out"
                out.append(f"| {practice} {name} | {nutrient} | {rate} | 3-{number} | {verdict} |")
    return out


if __name__ == "__main__":
    made = {"specs": specs, "source": source, "docs": docs}
    asked = words_for(__doc__)
    asked.add_argument("DOCUMENT", help="document 001 as text")
    asked.add_argument("WHAT", choices=made, help="what is to be written")
    words = asked.parse_args()
    print("\n".join(made[words.WHAT](Document(words.DOCUMENT))))
