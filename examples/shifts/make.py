#!/usr/bin/env python3
"""Makes events.csv: ten days of four presses, by a fixed sequence of numbers. Each quarter of an hour or so a press counts
its scrap, stops, starts or is checked; on the fourth and the eighth day nobody works in the night shift."""
import os

here = os.path.dirname(os.path.abspath(__file__))
x = 28800


def draw(limit):
    global x
    x = (1664525 * x + 1013904223) % 2**32
    return (x >> 8) % limit


rows, at, running = [], 30, {press: True for press in "ABCD"}
while (at := at + 60 + draw(1200)) < 10 * 86400:
    if at // 28800 in (9, 21):
        continue
    press = "ABCD"[draw(4)]
    if not running[press]:
        kind, running[press] = "start", True
    elif draw(5) == 0:
        kind, running[press] = "stop", False
    else:
        kind = "check" if draw(3) == 0 else "count"
    rows.append("%d,%s,%s,%d" % (at, press, kind, draw(7) if kind == "count" else 0))
with open(os.path.join(here, "events.csv"), "w") as table:
    table.write("at,press,kind,scrap\n" + "".join(row + "\n" for row in rows))
