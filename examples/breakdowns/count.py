#!/usr/bin/env python3
"""An independent count of the matches of second.txt over what the matches of query.txt return, without windows and partial
matches. With the word `first` it prints the matches of query.txt alone.

A small stop is a machine's stop and its next start, at most 300 seconds later, without a call for it in between. It is found
in the first window that holds both, which is that of the first stop of any machine at most 300 seconds before the start; in
that window small stops complete by their starts. A breakdown is the third of three small stops of one machine, each of 20
seconds and more, that no breakdown before has used, among ten small stops and within 2,400 seconds; it is found in the first
window of ten that holds the three."""
import csv, os, sys

here = os.path.dirname(os.path.abspath(__file__))
rows = list(enumerate(csv.DictReader(open(os.path.join(here, "events.csv"))), 1))
opened = [int(row["at"]) for _, row in rows if row["kind"] == "stop"]


def small_stops():
    """The number of the window, of the start and of the stop of each, with the machine and both times, in their order."""
    stopped, found = {}, []
    for number, row in rows:
        machine, at = row["machine"], int(row["at"])
        if row["kind"] == "stop":
            stopped[machine] = (number, at)
        elif row["kind"] == "call":
            stopped.pop(machine, None)
        elif row["kind"] == "start" and machine in stopped:
            stop, since = stopped.pop(machine)
            if at - since <= 300:
                window = next(place for place, time in enumerate(opened, 1) if at - time <= 300)
                found.append((window, number, stop, machine, since, at))
    return sorted(found)


def breakdowns(stops):
    """The numbers of the three small stops of each, in the order in which they are complete."""
    waiting = {}
    for number, (_, _, _, machine, since, at) in enumerate(stops, 1):
        if at - since < 20:
            continue
        # those that still are among the ten, and not too long ago
        before = [(other, time) for other, time in waiting.get(machine, []) if number - other < 10 and at - time <= 2400]
        waiting[machine] = before + [(number, at)]
        if len(before) == 2:
            yield before[0][0], before[1][0], number
            waiting[machine] = []


if sys.argv[1:] == ["first"]:
    for count, (window, start, stop, *_) in enumerate(small_stops(), 1):
        print("w=%d m=%d Stop=%d Start=%d used=%d,%d" % (window, count, stop, start, stop, start))
else:
    for count, (one, two, three) in enumerate(breakdowns(small_stops()), 1):
        print("w=%d m=%d One=%d Two=%d Three=%d used=%d,%d,%d" % (max(1, three - 9), count, one, two, three, one, two, three))
