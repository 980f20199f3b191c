"""The order in which the program takes the events of a table, where their times may go back by up to a slack.

The rules are those of docs/formats.md, "Late events": by time, events of one time as they stand in the table, and without
those that come too late."""

import contextlib
import itertools
import re
import sys
from bisect import bisect_right
from collections import namedtuple

sys.dont_write_bytecode = True
import tables

# The greatest slack, and the greatest time.
GREATEST = 10**15
# What may become of an event that comes too late.
RULES = ("refuse", "drop")
# A whole number as a cell writes it; 10^15 has 16 digits.
WHOLE = re.compile(rb"([+-]?)0*(\d{1,16})(?:\.0+)?")

# By how much a time may be below the greatest one before it, and which of the rules is for one that is further below.
Lateness = namedtuple("Lateness", "slack rule")
# Where the events end before the table does: the line of the row, and what is wrong with it; None where it comes too late,
# and then its time and the greatest one before it.
Stop = namedtuple("Stop", "line fault time greatest", defaults=[None, None])


def time_in(cells, place):
    """The time in a row's cell at this place from 0, None where there is none."""
    found = WHOLE.fullmatch(cells[place].strip(tables.BLANKS)) if place < len(cells) else None
    time = int(found[1] + found[2]) if found else -1
    return time if 0 <= time <= GREATEST else None


def times_of_digits(stretch, place):
    """The times of a stretch's events; None where one of them isn't digits alone."""
    with contextlib.suppress(IndexError, ValueError):
        if stretch.is_plain:
            cells = [content.split(b",", place + 1)[place] for content in stretch.contents]
        else:
            cells = [tables.cells_of(content)[place] for content in stretch.contents]
        times = list(map(int, cells)) if b"".join(cells).isdigit() else []
        if times and max(times) <= GREATEST:
            return times
    return None


def times_of(stretch, place):
    """The times of a stretch's events, up to the first one that has none."""
    times = times_of_digits(stretch, place)
    if times is not None:
        return times
    read = (time_in(tables.cells_of(content), place) for content in stretch.contents)
    return list(itertools.takewhile(lambda time: time is not None, read))


class InOrder:
    """Puts events in the order in which the program takes them. `place` is the place of the time's cell in a row. Once they were
    all asked for, `stop` tells where they ended before the table did, and `late` how many were passed over."""

    def __init__(self, stretches, place, lateness):
        self.stretches = stretches
        self.place = place
        self.lateness = lateness
        self.stop = None
        self.late = 0
        # The greatest time that came. No time is below 0, so none is late before the first one.
        self.greatest = 0
        # Of the events that wait for their place: their times, the lines of their rows, and the rows; whether they are in
        # their order; and how many of them were left when some were given for the last time.
        self.times, self.lines, self.contents = [], [], []
        self.is_sorted = True
        self.left = 0

    def __iter__(self):
        """The lines and the rows of the events in their order, many at a time."""
        try:
            yield from self.given_on_the_way()
        except tables.TwoRecords as error:
            self.stop = Stop(error.args[0], "it reads as two records")
        # Where reading stops before the table's end, the events that still wait are not used.
        yield self.given(self.greatest - self.lateness.slack if self.stop else self.greatest)

    def given_on_the_way(self):
        for stretch in self.stretches:
            self.add(stretch)
            if self.stop:
                return
            # Each event is sorted a few times only, whatever the slack.
            if len(self.times) >= 2 * self.left:
                yield self.given(self.greatest - self.lateness.slack)

    def add(self, stretch):
        """Takes the events of a stretch, up to one that ends them."""
        times, lines, contents = times_of(stretch, self.place), stretch.lines, stretch.contents
        if len(times) < len(contents):
            self.stop = Stop(lines[len(times)], "its time can't be read")
        if times != sorted(times) or times[:1] < [self.greatest]:
            self.is_sorted = False
            kept = self.kept_of(times, lines)
            times, lines, contents = ([it[at] for at in kept] for it in (times, lines, contents))
        self.greatest = max(self.greatest, max(times, default=0))
        self.times.extend(times)
        self.lines.extend(lines[: len(times)])
        self.contents.extend(contents[: len(times)])

    def kept_of(self, times, lines):
        """The places of those of the events that are kept, up to one that ends them."""
        greatest = list(itertools.accumulate(times, max, initial=self.greatest))
        late = [at for at, time in enumerate(times) if time < greatest[at] - self.lateness.slack]
        if late and self.lateness.rule == "refuse":
            self.stop = Stop(lines[late[0]], None, times[late[0]], greatest[late[0]])
            return range(late[0])
        self.late += len(late)
        return sorted(set(range(len(times))) - set(late)) if late else range(len(times))

    def given(self, last):
        """Those of the events that wait whose time is up to this one, which leave."""
        if not self.is_sorted:
            # Events of one time stay as they came.
            order = sorted(range(len(self.times)), key=self.times.__getitem__)
            self.times, self.lines, self.contents = ([it[at] for at in order] for it in (self.times, self.lines, self.contents))
            self.is_sorted = True
        end = bisect_right(self.times, last)
        given = self.lines[:end], self.contents[:end]
        del self.times[:end], self.lines[:end], self.contents[:end]
        self.left = len(self.times)
        return given
