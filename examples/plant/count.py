#!/usr/bin/env python3
"""An independent count of the matches of query.txt over events.csv."""
import csv, os, sys
from fractions import Fraction

here = os.path.dirname(os.path.abspath(__file__))
sys.path.insert(0, os.path.dirname(here))
sys.dont_write_bytecode = True
import rules

rows = list(csv.DictReader(open(os.path.join(here, "events.csv"))))
times = [int(row["at"]) for row in rows]
windows = [
    [n for n in range(first, len(rows) + 1) if times[n - 1] < times[first - 1] + 901]
    for first, row in enumerate(rows, 1)
    if row["kind"] == "alarm"
]
rules.write(
    ["Alarm", "High", "Valve"],
    [("one", ["Alarm"]), ("plus", ["High"]), ("one", ["Valve"])],
    {
        "Alarm": lambda row, bound: row["kind"] == "alarm",
        "High": lambda row, bound: row["kind"] == "pressure" and row["pump"] == bound["Alarm"]["pump"] and Fraction(row["bar"]) > Fraction("8.5"),
        "Valve": lambda row, bound: row["kind"] == "valve" and row["pump"] == bound["Alarm"]["pump"],
    },
    "EACH",
    {"Alarm", "Valve"},
    windows,
    rows,
)
