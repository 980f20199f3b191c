#!/usr/bin/env python3
"""Makes events.csv: quotes of four shares through a morning, one event a row, by a fixed sequence of numbers."""
import os

SHARES = ["AA", "BB", "CC", "DD"]
here = os.path.dirname(os.path.abspath(__file__))
x, at = 20261127, 32400000
price = {share: 10000 + 700 * place for place, share in enumerate(SHARES)}
with open(os.path.join(here, "events.csv"), "w") as table:
    table.write("at,sym,price,size,venue\n")
    for _ in range(1200):
        x = (1664525 * x + 1013904223) % 2**32
        share = SHARES[x >> 30]
        at += 1 + (x >> 16) % 900
        price[share] += (x >> 12) % 301 - 150
        venue = '"X, main"' if (x >> 8) % 10 == 0 else "Y"
        table.write("%d,%s,%d.%02d,%d,%s\n" % (at, share, price[share] // 100, price[share] % 100, 10 * (1 + (x >> 20) % 40), venue))
