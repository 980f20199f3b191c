#!/usr/bin/env python3
"""Makes events.csv: the rows of the pump house in the order in which they reach the log. Each is on its way for up to 60
seconds, by a fixed sequence of numbers."""
import csv
import os

here = os.path.dirname(os.path.abspath(__file__))
x = 20261130


def draw(limit):
    global x
    x = (1664525 * x + 1013904223) % 2**32
    return (x >> 8) % limit


with open(os.path.join(here, "../plant/events.csv"), newline="") as table:
    header, *rows = csv.reader(table)
arrivals = [(int(row[0]) + draw(61), number, row) for number, row in enumerate(rows, 1)]
with open(os.path.join(here, "events.csv"), "w") as table:
    table.write(",".join(header) + "\n")
    for _, _, row in sorted(arrivals):
        table.write(",".join(row) + "\n")
