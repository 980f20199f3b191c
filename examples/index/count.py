#!/usr/bin/env python3
"""An independent count of the matches of query.txt over the table of the index."""
import csv, os, sys
from fractions import Fraction

here = os.path.dirname(os.path.abspath(__file__))
sys.path.insert(0, os.path.dirname(here))
sys.dont_write_bytecode = True
import rules

rows = list(csv.DictReader(open(os.path.join(here, "events.csv"))))


def fell(row, bound):
    return Fraction(row["Close"]) < Fraction(row["Open"]) * Fraction("0.98")


rules.write(
    ["Fall", "Back"],
    [("one", ["Fall"]), ("never", ["Lower"]), ("one", ["Back"])],
    {
        "Fall": fell,
        "Lower": lambda row, bound: Fraction(row["Close"]) < Fraction(bound["Fall"]["Close"]) * Fraction("0.97"),
        "Back": lambda row, bound: Fraction(row["Close"]) >= Fraction(bound["Fall"]["Open"]),
    },
    "FIRST",
    {"Fall"},
    [list(range(n, min(n + 21, len(rows) + 1))) for n, row in enumerate(rows, 1) if fell(row, {})],
    rows,
)
