#!/usr/bin/env python3
"""Makes events.csv: a day of a pump house, one event a row, by a fixed sequence of numbers."""
import os

KINDS = ["pressure"] * 10 + ["alarm", "alarm", "valve", "valve", "flow", "level"]
here = os.path.dirname(os.path.abspath(__file__))
x, at = 20261126, 21600
with open(os.path.join(here, "events.csv"), "w") as table:
    table.write("at,pump,kind,bar\n")
    for _ in range(1200):
        x = (1664525 * x + 1013904223) % 2**32
        at += (x >> 16) % 60
        bar = 700 + (x >> 20) % 300
        table.write("%d,P%d,%s,%d.%02d\n" % (at, 1 + (x >> 30), KINDS[(x >> 24) % 16], bar // 100, bar % 100))
