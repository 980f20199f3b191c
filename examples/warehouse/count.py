#!/usr/bin/env python3
"""An independent account of what schedule.txt prints of query.txt over events.csv."""
import csv, os, sys

here = os.path.dirname(os.path.abspath(__file__))
sys.path.insert(0, os.path.dirname(here))
sys.dont_write_bytecode = True
import machine

rows = list(csv.DictReader(open(os.path.join(here, "events.csv"))))
calls = [number for number, row in enumerate(rows, 1) if row["kind"] == "call"]


def windows(fed, ended):
    """Each call that was fed opens a window of five rows."""
    found = [[number for number in range(call, call + 5) if number <= fed] for call in calls if call <= fed]
    return [(members, ended or len(members) == 5) for members in found]


query = (
    [("one", ["Call"]), ("one", ["Lift"]), ("one", ["Drop"])],
    {name: lambda row, bound, name=name: row["kind"] == name.lower() for name in ("Call", "Lift", "Drop")},
    "FIRST",
    {"Call", "Lift", "Drop"},
)
steps = open(os.path.join(here, "schedule.txt"))
machine.write(machine.Machine(["Call", "Lift", "Drop"], query, windows, rows), steps)
