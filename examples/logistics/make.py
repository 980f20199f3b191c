#!/usr/bin/env python3
"""Makes events.csv: a night at a parcel depot, one event a row, by a fixed sequence of numbers."""
import os

here = os.path.dirname(os.path.abspath(__file__))
x = 20261125


def draw(limit):
    global x
    x = (1664525 * x + 1013904223) % 2**32
    return (x >> 8) % limit


events = []
for van in range(60):
    at = 72000 + 240 * van + draw(120)
    events.append((at, "G%d" % (1 + van % 2), "docked", 0, 0))
for parcel in range(1, 301):
    gate, at, grams = "G%d" % (1 + draw(2)), 72000 + draw(14000), 200 + draw(30000)
    steps = ["scanned"] + (["weighed", "labelled"] if draw(2) else ["labelled", "weighed"]) + ["loaded"]
    for step in steps[: 4 - draw(5) // 4]:
        events.append((at, gate, step, parcel, grams))
        at += 5 + draw(180)
events.sort()
with open(os.path.join(here, "events.csv"), "w") as table:
    table.write("at,gate,kind,parcel,kg\n")
    for at, gate, kind, parcel, grams in events:
        table.write("%d,%s,%s,%d,%d.%03d\n" % (at, gate, kind, parcel, grams // 1000, grams % 1000))
