#!/usr/bin/env python3
"""An independent count of the matches of query.txt over events.csv: shift by shift, each by itself."""
import csv, itertools, os, sys

here = os.path.dirname(os.path.abspath(__file__))
sys.path.insert(0, os.path.dirname(here))
sys.dont_write_bytecode = True
import rules

rows = list(csv.DictReader(open(os.path.join(here, "events.csv"))))
shifts = itertools.groupby(range(1, len(rows) + 1), key=lambda n: int(rows[n - 1]["at"]) // 28800)
rules.write(
    ["Stop", "Start", "Scrap"],
    [("one", ["Stop"]), ("one", ["Start"]), ("never", ["Check"]), ("one", ["Scrap"])],
    {
        "Stop": lambda row, bound: row["kind"] == "stop",
        "Start": lambda row, bound: row["kind"] == "start" and row["press"] == bound["Stop"]["press"],
        "Check": lambda row, bound: row["kind"] == "check" and row["press"] == bound["Stop"]["press"],
        "Scrap": lambda row, bound: row["kind"] == "count" and row["press"] == bound["Stop"]["press"] and int(row["scrap"]) > 3,
    },
    "EACH",
    {"Stop", "Scrap"},
    [list(numbers) for _, numbers in shifts],
    rows,
)
