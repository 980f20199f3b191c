#!/usr/bin/env python3
"""An independent count of the matches of query.txt over events.csv."""
import csv, os, sys
from fractions import Fraction

here = os.path.dirname(os.path.abspath(__file__))
sys.path.insert(0, os.path.dirname(here))
sys.dont_write_bytecode = True
import rules

rows = list(csv.DictReader(open(os.path.join(here, "events.csv"))))
times = [int(row["at"]) for row in rows]
windows = [
    [n for n in range(first, len(rows) + 1) if times[n - 1] < times[first - 1] + 600]
    for first, row in enumerate(rows, 1)
    if row["kind"] == "docked"
]


def same(row, other, *columns):
    return all(row[column] == other[column] for column in columns)


rules.write(
    ["Docked", "Scanned", "Weighed", "Labelled", "Loaded"],
    [("one", ["Docked"]), ("one", ["Scanned"]), ("set", ["Weighed", "Labelled"]), ("one", ["Loaded"])],
    {
        "Docked": lambda row, bound: row["kind"] == "docked",
        "Scanned": lambda row, bound: row["kind"] == "scanned" and same(row, bound["Docked"], "gate"),
        "Weighed": lambda row, bound: row["kind"] == "weighed" and same(row, bound["Scanned"], "parcel") and Fraction(row["kg"]) <= 20,
        "Labelled": lambda row, bound: row["kind"] == "labelled" and same(row, bound["Scanned"], "parcel"),
        "Loaded": lambda row, bound: row["kind"] == "loaded" and same(row, bound["Docked"], "gate") and same(row, bound["Scanned"], "parcel"),
    },
    "LAST",
    {"Scanned", "Weighed", "Labelled", "Loaded"},
    windows,
    rows,
)
