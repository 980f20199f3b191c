"""What is false in an entry of a listing, as far as the listing and its query tell it without the table.

The rules are those of docs/formats.md, "Listings". The entry is the first that isn't right: all before it are, so what these
have used is known, and up to which number matches were counted."""

import re
from collections import namedtuple

import queries

LIST = r"(?:-|\d+(?:,\d+)*)"
HEAD = re.compile(rf"p w=(\d+) from=(\d+) to=(\d+) skip=({LIST}) used=({LIST})", re.ASCII)
MATCH = re.compile(rf"w=(\d+) m=(\d+)((?: \w+={LIST})+) used=({LIST})", re.ASCII)
# How many numbers are told of a list.
TOLD = 4

# The line of a window, or that of a match: where it stands in the listing from 1, and what it says. Of a match `bound` has the
# numbers of each name behind it, in pairs.
Head = namedtuple("Head", "line window first last skipped used")
Match = namedtuple("Match", "line window number bound used")
# What a query says of a match: the names of each element that isn't negated, and those whose events are used up.
Pattern = namedtuple("Pattern", "elements consumed")
# What is false: at which line of the listing, and in words.
Fault = namedtuple("Fault", "line says")


def numbers_in(text):
    return [] if text == "-" else [int(number) for number in text.split(",")]


def told(numbers):
    """Numbers as they are told: not too many."""
    more = f" and {len(numbers) - TOLD} more" if len(numbers) > TOLD else ""
    return ", ".join(map(str, numbers[:TOLD])) + more


def head_in(line, text):
    """The line of a window; None where it is another one."""
    found = HEAD.fullmatch(text.rstrip("\n"))
    if found is None:
        return None
    window, first, last = map(int, found.groups()[:3])
    return Head(line, window, first, last, frozenset(numbers_in(found[4])), frozenset(numbers_in(found[5])))


def match_in(line, text):
    """The line of a match; None where it is another one."""
    found = MATCH.fullmatch(text.rstrip("\n"))
    if found is None:
        return None
    bound = [(name, numbers_in(numbers)) for name, numbers in (part.split("=") for part in found[3].split())]
    return Match(line, int(found[1]), int(found[2]), bound, numbers_in(found[4]))


# ---- The query.


def elements_of(query):
    """The names of each element of the pattern that isn't negated: more than one of a SET."""
    pieces = [piece.text for piece in queries.clauses_of(query)["PATTERN"][2:-1]]
    elements, is_set = [], False
    for before, text in zip(["", *pieces], pieces):
        if text in ("(", ")"):
            is_set = text == "("
            elements += [[]] * is_set
        elif text not in ("SET", "!", "+") and before != "!":
            elements[len(elements) - is_set :] = [[*elements.pop(), text]] if is_set else [[text]]
    return elements


def pattern_of(query):
    """The pattern of a query."""
    elements, words = elements_of(query), [piece.text for piece in queries.clauses_of(query)["CONSUME"][1:]]
    return Pattern(elements, [name for element in elements for name in element if name in words or words == ["ALL"]])


def wrong_span(query, head):
    """What is false in a window's first and last event by its query, in words."""
    clauses = queries.clauses_of(query)
    length, opening = [piece.text for piece in clauses["WITHIN"][1:]], [piece.text for piece in clauses["FROM"][1:4]]
    is_counted = opening[0] == "EVERY" and opening[2] == "EVENTS"
    first = 1 + (head.window - 1) * int(opening[1]) if is_counted else head.first
    if head.first != first:
        yield f"window {head.window} begins at event {first}, and not at {head.first}"
    if length[1] == "EVENTS" and head.last - head.first >= int(length[0]):
        yield f"it has {head.last + 1 - head.first} events from {head.first} to {head.last}, and a window at most {length[0]}"


def wrong_order(pattern, match):
    """What is false in the order and the use of a match's events by its query, in words."""
    bound = dict(match.bound)
    if list(bound) != [name for element in pattern.elements for name in element]:
        return
    before = 0
    for element in pattern.elements:
        events = sorted(event for name in element for event in bound[name])
        if events and events[0] <= before:
            yield f"{events[0]}, of {' and '.join(element)}, doesn't come behind {before}, of a name before"
        before = max([before, *events])
    used = sorted(event for name in pattern.consumed for event in bound[name])
    if used != match.used:
        yield f"by the query it uses {told(used) or 'nothing'}, and not {told(match.used) or 'nothing'}"


# ---- The entry.


def wrong_head(head, before, consumed):
    """What is false in the line of a window, but for what its matches use, in words."""
    if head.first > head.last:
        yield f"its first event, {head.first}, is behind its last one, {head.last}"
    if before and head.first < before.first:
        yield f"it begins at event {head.first}, and window {before.window} at {before.first}"
    skipped = {event for event in consumed if head.first <= event <= head.last}
    lacking, extra = sorted(skipped - head.skipped), sorted(head.skipped - skipped)
    if lacking:
        yield f"skip= lacks {told(lacking)}, used up by windows before it"
    if extra:
        yield f"skip= has {told(extra)}, not in the window, or not used up before it"


def wrong_use(head, matches):
    """What is false in what a window's matches use, in words."""
    used = {event for match in matches for event in match.used}
    lacking, extra = sorted(used - head.used), sorted(head.used - used)
    if lacking:
        yield f"used= lacks {told(lacking)}, which a match below it uses"
    if extra:
        yield f"used= has {told(extra)}, which no match below it uses"


def wrong_match(match, head, due, taken):
    """What is false in the line of a match, in words. `taken` are the events that matches of its window used before it."""
    if match.window != head.window:
        yield f"it says window {match.window}, and stands in window {head.window}"
    if match.number != due:
        yield f"it is match {match.number}, and match {due} is due: a line is missing before it, or one too many"
    events = set()
    for event in (event for _, numbers in match.bound for event in numbers):
        if event > head.last:
            yield f"{event} is past the window's last event, {head.last}"
        elif event < head.first:
            yield f"{event} is before the window's first event, {head.first}"
        elif event in head.skipped:
            yield f"{event} is among those that the window was read without"
        elif event in taken:
            yield f"{event} was used up by a match of this window before it"
        elif event in events:
            yield f"{event} is bound twice"
        events.add(event)
    strange = [event for event in match.used if event not in events]
    if strange:
        yield f"it uses {told(strange)}, which it doesn't bind"


def wrong_matches(head, matches, counted, query):
    """The first fault of each line of a match."""
    due, taken, ended, pattern = counted + 1, set(), 0, pattern_of(query) if query else None
    for match in matches:
        found = [*wrong_match(match, head, due, taken), *(wrong_order(pattern, match) if pattern else ())]
        last = max((event for _, numbers in match.bound for event in numbers), default=0)
        if not found and last < ended:
            found = [f"it is complete at event {last}, and the match in front of it at {ended}"]
        if found:
            yield Fault(match.line, found[0])
        else:
            ended = last
        due = match.number + 1
        taken.update(match.used)


def faults_in(lines, number, query):
    """What is false in the entry of this number in the lines of a listing, as far as that is known: the first fault of each
    line. `query` is None where it isn't known."""
    read = [head_in(line, text) or match_in(line, text) for line, text in enumerate(lines, 1)]
    places = [at for at, it in enumerate(read) if isinstance(it, Head)]
    if not 1 <= number <= len(places):
        return []
    begin, end = [*places, len(read)][number - 1 : number + 1]
    head, matches = read[begin], [it for it in read[begin + 1 : end] if it]
    if head.window != number:
        what = "is missing before it" if head.window > number else "stands twice, or has another number"
        return [Fault(head.line, f"it is window {head.window}, and window {number} is due: an entry {what}")]
    consumed = {event for at in places[: number - 1] for event in read[at].used}
    counted = sum(isinstance(it, Match) for it in read[:begin])
    wrong = [*(wrong_span(query, head) if query else ()), *wrong_head(head, read[places[number - 2]] if number > 1 else None, consumed)]
    found = list(wrong_matches(head, matches, counted, query))
    # Where a match is false, what it uses is no sign.
    wrong += [] if found else wrong_use(head, matches)
    return [*(Fault(head.line, says) for says in wrong[:1]), *found]
