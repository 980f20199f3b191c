#!/usr/bin/env python3
"""Makes events.csv: two shifts of a bottling line with five machines, by a fixed sequence of numbers. A machine that runs
counts its bottles, or stops; one that stands is started again, mostly within some minutes, and at times a mechanic is
called to it first. Each machine has an hour or so in which it stops more often."""
import os

here = os.path.dirname(os.path.abspath(__file__))
x = 14


def draw(limit):
    global x
    x = (1664525 * x + 1013904223) % 2**32
    return (x >> 8) % limit


machines = ["filler", "capper", "labeller", "packer", "wrapper"]
# When each machine's bad hour begins, and when it next does something.
bad = {name: 22000 + 10500 * place + draw(1500) for place, name in enumerate(machines)}
due = {name: 21600 + draw(240) for name in machines}
standing = {name: "" for name in machines}
rows = []
while (at := min(due.values())) < 79200:
    name = min(machines, key=lambda it: due[it])
    is_bad = bad[name] <= at < bad[name] + 4200
    if standing[name] == "stop" and draw(8) == 0:
        kind, standing[name], wait = "call", "call", 300 + draw(900)
    elif standing[name]:
        kind, standing[name], wait = "start", "", 60 + draw(150 if is_bad else 300)
    elif draw(2 if is_bad else 6) == 0:
        kind, standing[name], wait = "stop", "stop", 8 + draw(120) if draw(4) else 200 + draw(200)
    else:
        kind, wait = "count", 120 + draw(240)
    rows.append("%d,%s,%s,%d" % (at, name, kind, 20 + draw(180) if kind == "count" else 0))
    due[name] = at + wait
with open(os.path.join(here, "events.csv"), "w") as table:
    table.write("at,machine,kind,bottles\n" + "".join(row + "\n" for row in rows))
