#!/usr/bin/env python3
"""The question itself, without windows and partial matches: each alarm in turn is answered by the first valve of its
pump that no earlier alarm has, behind a reading above 8.5 bar, at most 15 minutes after the alarm. Prints the alarms
that were answered as lines have them, in the order of their texts."""
import csv, os
from fractions import Fraction

here = os.path.dirname(os.path.abspath(__file__))
rows = list(enumerate(csv.DictReader(open(os.path.join(here, "events.csv"))), 1))
taken, lines = set(), []
for alarm, raised in rows:
    if raised["kind"] != "alarm":
        continue
    high = []
    for number, row in rows[alarm:]:
        if int(row["at"]) > int(raised["at"]) + 15 * 60:
            break
        if row["pump"] != raised["pump"]:
            continue
        if row["kind"] == "pressure" and Fraction(row["bar"]) > Fraction("8.5"):
            high.append(number)
        if row["kind"] == "valve" and high and number not in taken:
            taken.add(number)
            lines.append("Alarm=%d High=%s Valve=%d" % (alarm, ",".join(map(str, high)), number))
            break
print("\n".join(sorted(lines)))
