#!/usr/bin/env python3
"""An independent count of the matches of query.txt over events.csv, over exact fractions."""
import csv, os, sys
from fractions import Fraction

here = os.path.dirname(os.path.abspath(__file__))
sys.path.insert(0, os.path.dirname(here))
sys.dont_write_bytecode = True
import rules

rows = list(csv.DictReader(open(os.path.join(here, "events.csv"))))
for row in rows:
    row["price"], row["size"] = Fraction(row["price"]), int(row["size"])
windows = [list(range(first, min(first + 60, len(rows) + 1))) for first in range(1, len(rows) + 1, 20)]
rules.write(
    ["A", "B", "C"],
    [("one", ["A"]), ("one", ["B"]), ("one", ["C"])],
    {
        "A": lambda row, bound: row["sym"] == "AA" and row["size"] >= 200,
        "B": lambda row, bound: row["sym"] == "AA" and row["price"] < bound["A"]["price"] * Fraction("0.995"),
        "C": lambda row, bound: row["sym"] == "AA"
        and (row["price"] >= bound["A"]["price"] or row["price"] - bound["B"]["price"] > Fraction("1.5")),
    },
    "EACH",
    {"B", "C"},
    windows,
    rows,
)
