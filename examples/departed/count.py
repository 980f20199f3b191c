#!/usr/bin/env python3
"""An independent count of the matches of query.txt over the table of the depot."""
import csv, os, sys

here = os.path.dirname(os.path.abspath(__file__))
sys.path.insert(0, os.path.dirname(here))
sys.dont_write_bytecode = True
import rules

rows = list(csv.DictReader(open(os.path.join(here, "events.csv"))))
times = [int(row["at"]) for row in rows]
spans = [
    [n for n, time in enumerate(times, 1) if begin <= time < begin + 600]
    for begin in range(0, times[-1] + 1, 60)
]
rules.write(
    ["Scanned", "Loaded"],
    [("one", ["Scanned"]), ("never", ["Docked"]), ("one", ["Loaded"])],
    {
        "Scanned": lambda row, bound: row["kind"] == "scanned",
        "Docked": lambda row, bound: row["kind"] == "docked" and row["gate"] == bound["Scanned"]["gate"],
        "Loaded": lambda row, bound: row["kind"] == "loaded" and row["parcel"] == bound["Scanned"]["parcel"],
    },
    "EACH",
    {"Scanned"},
    [span for span in spans if span],
    rows,
)
