#!/usr/bin/env python3
"""An independent count of the matches of query.txt over the table of the pump house."""
import csv, os, sys
from fractions import Fraction

here = os.path.dirname(os.path.abspath(__file__))
sys.path.insert(0, os.path.dirname(here))
sys.dont_write_bytecode = True
import rules

rows = list(csv.DictReader(open(os.path.join(here, "events.csv"))))
times = [int(row["at"]) for row in rows]
spans = [
    [n for n, time in enumerate(times, 1) if begin <= time < begin + 900]
    for begin in range(0, times[-1] + 1, 300)
]
rules.write(
    ["Alarm", "High"],
    [("one", ["Alarm"]), ("never", ["Answer"]), ("one", ["High"])],
    {
        "Alarm": lambda row, bound: row["kind"] == "alarm",
        "Answer": lambda row, bound: row["kind"] == "valve" and row["pump"] == bound["Alarm"]["pump"],
        "High": lambda row, bound: row["kind"] == "pressure" and row["pump"] == bound["Alarm"]["pump"] and Fraction(row["bar"]) > Fraction("9.5"),
    },
    "EACH",
    {"Alarm"},
    [span for span in spans if span],
    rows,
)
