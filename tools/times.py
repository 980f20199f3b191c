"""Times as people write them, as whole units since 1970 or another time, by whole numbers alone.

A time is ISO 8601, or a plain number of seconds, or of the form that was asked for. What is finer than the unit is cut off
downwards."""

import re
from datetime import date

# How many decimals of a second each unit has.
UNITS = {"s": 0, "ms": 3, "us": 6, "ns": 9}
DAY_ZERO = date(1970, 1, 1).toordinal()
DATE = r"(\d{4})-(\d\d)-(\d\d)"
HOUR, SIXTIETH = r"[01]\d|2[0-3]", r"[0-5]\d"
ZONE_FORM = rf"[Zz]|[+-](?:{HOUR})(?::?{SIXTIETH})?"
MINUTE = re.compile(rf"{DATE}[Tt ]({HOUR}):({SIXTIETH})", re.ASCII)
# What stands behind the seconds: a fraction and a zone.
REST = re.compile(rf"(?:[.,](\d+))?(?: ?({ZONE_FORM}))?", re.ASCII)
# A date without a time of day or with one, which may lack its seconds.
WHOLE = re.compile(rf"{DATE}(?:[Tt ]({HOUR}):({SIXTIETH})(?::({SIXTIETH})(?:[.,](\d+))?)?)?(?: ?({ZONE_FORM}))?", re.ASCII)
ZONE = re.compile(ZONE_FORM, re.ASCII)
# A plain number; longer ones are no time.
COUNT = re.compile(r"([+-]?\d{1,20})(?:[.,](\d{1,100}))?", re.ASCII)
# Where the seconds of a time begin, with the colon before them, and where they end.
SECONDS, BEHIND = len("2026-03-01T00:00"), len("2026-03-01T00:00:00")
REMEMBERED = 100_000
# Of each letter of a form the part of a time that it stands for, and the texts that it takes.
ONE_OR_TWO, TWO = r"\d\d?", r"\d\d"
LETTERS = {
    "Y": ("year", r"\d{4}"), "y": ("year", TWO), "m": ("month", ONE_OR_TWO), "b": ("month", "[a-z]+"), "B": ("month", "[a-z]+"),
    "d": ("day", ONE_OR_TWO), "H": ("hour", ONE_OR_TWO), "I": ("hour", ONE_OR_TWO), "p": ("half", "[ap]m"), "M": ("minute", ONE_OR_TWO),
    "S": ("second", ONE_OR_TWO), "f": ("fraction", r"\d+"), "z": ("zone", ZONE_FORM),
}  # fmt: skip
DIGITS = frozenset("YymdHIMSf")
PARTS = ("year", "month", "day", "hour", "half", "minute", "second", "fraction", "zone")
MONTHS = ("january", "february", "march", "april", "may", "june", "july", "august", "september", "october", "november", "december")
# A date with the day or the month first, and the time of day behind it, as a form would have to take them.
OTHER_DATE = re.compile(
    r"(\d{1,2})([./-])(\d{1,2})\2(\d{4}|\d\d)(?:([T ])\d{1,2}:\d\d(:\d\d)?(?:([.,])\d+)?(?:( ?)[AP]M)?)?", re.ASCII | re.IGNORECASE
)
# A time of day without its date.
DAY_TIME = re.compile(r"\d{1,2}:\d\d(:\d\d([.,]\d+)?)?( ?[AP]M)?", re.ASCII | re.IGNORECASE)


class Unreadable(Exception):
    """A text that is no time."""


class BadForm(Exception):
    """A form of times that can't be meant; the text says why."""


class Known(dict):
    """What texts mean, each worked out when it is asked for first: the same minutes and fractions come again and again."""

    def __init__(self, meaning):
        super().__init__()
        self.meaning = meaning

    def __missing__(self, text):
        value = self.meaning(text)
        if len(self) >= REMEMBERED:
            self.clear()
        self[text] = value
        return value


def seconds_of(zone):
    """By how many seconds a zone is ahead of UTC; None where the text is no zone."""
    if ZONE.fullmatch(zone) is None:
        return None
    digits = zone[1:].replace(":", "").ljust(4, "0")
    ahead = int(digits[:2]) * 3600 + int(digits[2:]) * 60
    return -ahead if zone[0] == "-" else ahead


def found_in(form, text):
    """The parts of a text of this form; an Unreadable where it is none."""
    found = form.fullmatch(text)
    if found is None:
        raise Unreadable
    return found.groups()


class Clock:
    """Reads times in one unit. `zone` is how many seconds a time without a zone is ahead of UTC, `counted` the unit of a
    time that is a plain number, `since` the text of the time from which is counted."""

    def __init__(self, unit, zone=0, counted="s", since=None):
        self.decimals = UNITS[unit]
        self.second = 10**self.decimals
        self.zone = zone
        self.shift = self.decimals - UNITS[counted]
        self.seconds = {f":{second:02}": second * self.second for second in range(60)}
        self.origin, self.had_hours = 0, False
        self.origin = 0 if since is None else self.whole(since)
        self.minutes, self.rests, self.wholes = Known(self.minute), Known(self.rest), Known(self.whole)
        # Whether a time had no zone, and whether one was more than a date alone.
        self.lacked_zone = self.had_hours = False

    def units_of(self, text):
        """The time in units; an Unreadable where it is none."""
        try:
            return self.minutes[text[:SECONDS]] + self.seconds[text[SECONDS:BEHIND]] + self.rests[text[BEHIND:]]
        except (KeyError, Unreadable):
            return self.wholes[text.strip()]

    def minute(self, text):
        """The units up to the beginning of a minute."""
        units = self.day_units(*found_in(MINUTE, text)) - self.origin
        self.had_hours = True
        return units

    def rest(self, text):
        """The units of a fraction, less those by which the zone behind it is ahead of UTC."""
        fraction, zone = found_in(REST, text)
        return self.finer(fraction) - self.ahead(zone)

    def whole(self, text):
        """The units of a whole time of any form."""
        if COUNT.fullmatch(text):
            self.had_hours = True
            return self.counted(text) - self.origin
        *day, second, fraction, zone = found_in(WHOLE, text)
        self.had_hours = self.had_hours or day[-1] is not None
        return self.day_units(*day) + int(second or 0) * self.second + self.finer(fraction) - self.ahead(zone) - self.origin

    def counted(self, text):
        """The units of a plain number, which counts from 1970."""
        whole, fraction = (part or "" for part in found_in(COUNT, text))
        digits, shift = int(whole + fraction), self.shift - len(fraction)
        return digits * 10**shift if shift >= 0 else digits // 10**-shift

    def day_units(self, year, month, day, hour, minute):
        try:
            days = date(int(year), int(month), int(day)).toordinal() - DAY_ZERO
        except ValueError:
            raise Unreadable from None
        return (days * 1440 + int(hour or 0) * 60 + int(minute or 0)) * 60 * self.second

    def finer(self, fraction):
        """The units of a fraction of a second."""
        return int((fraction or "")[: self.decimals].ljust(self.decimals, "0") or 0)

    def ahead(self, zone):
        """The units by which a zone, or none, is ahead of UTC."""
        if zone is None:
            self.lacked_zone = True
            return self.zone * self.second
        return seconds_of(zone) * self.second


# ---- Times of another form.


def forms_like(text):
    """The forms by which a text may be a time that isn't ISO 8601; none where it has none of the usual ones. Where a number is
    no month, it is the day; else with points the day comes first, and with other marks either may."""
    found = OTHER_DATE.fullmatch(text.strip())
    if found is None:
        return []
    first, mark, second, year, between, seconds, point, before_half = found.groups()
    if mark == "-" and len(year) == 2:
        return []
    hours = "%H:%M" if before_half is None else "%I:%M"
    half = "" if before_half is None else before_half + "%p"
    behind = f"{between}{hours}{':%S' if seconds else ''}{f'{point}%f' if point else ''}{half}" if between else ""
    fits = {"dm": 1 <= int(second) <= 12, "md": 1 <= int(first) <= 12}
    orders = [order for order, fit in fits.items() if fit][: 1 if mark == "." else 2]
    letter = "Y" if len(year) == 4 else "y"
    return [mark.join("%" + it for it in order + letter) + behind for order in orders]


def pieces_of(form):
    """The pieces of a form: each a letter behind a %, and none, or a text that stands for itself, and no letter."""
    pieces = re.findall(r"%(.?)|([^%]+)", form, re.DOTALL)
    pieces = [("", "%") if letter == "%" else (letter, text) for letter, text in pieces]
    for letter, text in pieces:
        if not text and letter not in LETTERS:
            raise BadForm(f"--form has %{letter}, and takes " + " ".join("%" + known for known in LETTERS) + " and %%")
    return pieces


def pattern_of(form):
    """What finds the parts of a time of this form. One that the form lacks is found as an empty text."""
    pieces = pieces_of(form.strip())
    parts = [LETTERS[letter][0] for letter, _ in pieces if letter]
    if len(set(parts)) < len(parts):
        raise BadForm("--form names a part of the time twice")
    if not {"year", "month", "day"} <= set(parts):
        raise BadForm("--form needs a year, a month and a day, as '%d.%m.%Y'")
    if ("half" in parts) != any(letter == "I" for letter, _ in pieces):
        raise BadForm("--form takes %I and %p together, or neither")
    pattern = "".join(piece_pattern(pieces, place) for place in range(len(pieces)))
    return re.compile(pattern + "".join(f"(?P<{part}>)" for part in PARTS if part not in parts), re.ASCII | re.IGNORECASE)


def piece_pattern(pieces, place):
    """The pattern of one piece of a form. Digits right beside others are always two, so that a text has one reading."""
    letter, text = pieces[place]
    if not letter:
        return r"\s+".join(map(re.escape, re.split(r"\s+", text)))
    part, takes = LETTERS[letter]
    is_beside = any(other in DIGITS for other, _ in pieces[max(place - 1, 0) : place] + pieces[place + 1 : place + 2])
    return f"(?P<{part}>{TWO if is_beside and takes == ONE_OR_TWO else takes})"


def month_in(text):
    """The number of a month that is a number, or an English name or the first three letters of one."""
    if text.isdigit():
        return int(text)
    for number, name in enumerate(MONTHS, 1):
        if text.lower() in (name, name[:3]):
            return number
    raise Unreadable


def year_in(text):
    """The year; one of two digits is from 1969 to 2068."""
    year = int(text)
    return year if len(text) > 2 else year + (1900 if year >= 69 else 2000)


class FormClock(Clock):
    """Reads times of one form alone, that of Python's strptime, with any number of digits behind the second."""

    def __init__(self, form, *others, **more):
        super().__init__(*others, **more)
        self.find = pattern_of(form).fullmatch
        self.begun, self.behind = Known(self.minute_of), Known(self.rest_of)

    def units_of(self, text):
        found = self.find(text.strip())
        if found is None:
            raise Unreadable
        year, month, day, hour, half, minute, second, fraction, zone = found.group(*PARTS)
        return self.begun[year, month, day, hour, half, minute] + self.behind[second, fraction, zone]

    def minute_of(self, parts):
        """The units up to the beginning of a minute."""
        year, month, day, hour, half, minute = parts
        self.had_hours = self.had_hours or hour != ""
        hour, minute = int(hour or 0), int(minute or 0)
        if minute > 59 or hour > 23 or half and not 1 <= hour <= 12:
            raise Unreadable
        if half:
            hour = hour % 12 + (12 if half.lower() == "pm" else 0)
        return self.day_units(year_in(year), month_in(month), day, hour, minute) - self.origin

    def rest_of(self, parts):
        """The units behind the beginning of a minute."""
        second, fraction, zone = parts
        if int(second or 0) > 59:
            raise Unreadable
        return int(second or 0) * self.second + self.finer(fraction) - self.ahead(zone or None)
