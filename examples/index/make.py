#!/usr/bin/env python3
"""Makes events.csv: six years of a share index as an exchange gives them, one row a trading day, by a fixed sequence of numbers."""
import datetime
import os

here = os.path.dirname(os.path.abspath(__file__))
x = 20261130


def draw(limit):
    global x
    x = (1664525 * x + 1013904223) % 2**32
    return (x >> 8) % limit


def drift():
    """A day's move in hundredths of a percent: small on most days, large on some."""
    move = sum(draw(201) for _ in range(4)) - 396
    return move * 2 if draw(25) == 0 else move


day, close = datetime.date(2018, 1, 2), 400000
with open(os.path.join(here, "events.csv"), "w") as table:
    table.write("Date,Open,High,Low,Close,Volume\n")
    while day < datetime.date(2024, 1, 1):
        if day.weekday() < 5:
            opened = close + close * (draw(41) - 20) // 10000
            close = opened + opened * drift() // 10000
            high = max(opened, close) + opened * draw(60) // 10000
            low = min(opened, close) - opened * draw(60) // 10000
            cells = ["%d.%02d" % divmod(price, 100) for price in (opened, high, low, close)]
            table.write("%s,%s,%d\n" % (day, ",".join(cells), 90000000 + draw(80000000)))
        day += datetime.timedelta(days=1)
