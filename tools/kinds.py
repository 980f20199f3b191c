"""Numbers as people write them, as the program reads them (docs/formats.md, "Input"); and the kind that a column has by
its cells."""

import re
from decimal import Decimal

# A number that the program reads as it stands.
PLAIN = re.compile(r"[ \t]*[+-]?[0-9]+(?:\.[0-9]+)?[ \t]*")
# The greatest magnitude of a number in units of its last decimal, and how many decimals a kind may have.
MAGNITUDE = 10**15
DECIMALS = 6
# What stands for a missing value, in small letters.
MISSING = ("", "na", "n/a", "#n/a", "nan", "null", "none", "-")
# What may part the thousands of a number, beside the mark that isn't the decimal one: apostrophes, and blanks of any kind.
THOUSANDS = "'\u2019 \u00a0\u202f\u2009"
# When a column has so many numbers, it remembers no more of them.
SEEN = 50_000
MINUS = "\u2212"


def form_of(mark, thousands):
    """A number with this decimal mark. One of `thousands` may stand between each three digits, and always the same one."""
    parted = rf"|[0-9]{{1,3}}(?P<between>[{re.escape(thousands)}])[0-9]{{3}}(?:(?P=between)[0-9]{{3}})*" if thousands else ""
    whole = rf"(?P<whole>[0-9]+{parted})"
    return re.compile(
        rf"(?P<sign>[+-]?)(?:{whole}(?:{re.escape(mark)}(?P<behind>[0-9]*))?|{re.escape(mark)}(?P<alone>[0-9]+))"
        r"(?:[eE](?P<power>[+-]?[0-9]{1,2}))?"
    )


class Numbers:
    """Reads numbers. `mark` is the decimal mark where it was asked for, which allows marks between thousands too; `missing`
    are texts that stand for a missing value beside those that always do."""

    def __init__(self, mark=None, missing=()):
        thousands = "" if mark is None else THOUSANDS + (".," if mark not in (".", ",") else "." if mark == "," else ",")
        self.takes_plain = mark in (None, ".")
        self.form = form_of(mark or ".", thousands)
        self.missing = frozenset(MISSING) | {text.strip().lower() for text in missing}
        # Whether digits alone are always a number, and never stand for a missing one.
        self.takes_digits = self.takes_plain and not any(text.isdigit() for text in self.missing)

    def is_missing(self, cell):
        return cell.strip().lower() in self.missing

    def plain(self, cell):
        """The number as the program reads it; None where the cell is none, or is missing."""
        if self.takes_plain and (cell.isdigit() and cell.isascii() or PLAIN.fullmatch(cell)):
            return None if cell.strip() in self.missing else cell
        found = None if self.is_missing(cell) else self.form.fullmatch(cell.strip().replace(MINUS, "-"))
        if found is None:
            return None
        whole = re.sub("[^0-9]", "", found["whole"] or "0")
        behind = found["behind"] or found["alone"]
        number = found["sign"] + whole + ("." + behind if behind else "")
        return number if found["power"] is None else format(Decimal(f"{number}e{found['power']}"), "f")


def are_short(cells):
    """Whether the cells are whole numbers of eight digits at most, none of which is near a limit."""
    digits = "".join(cells)
    return digits.isdigit() and digits.isascii() and "" not in cells and max(map(len, cells)) <= 8


class Column:
    """What the cells of a column have been: numbers alone, or a text among them."""

    def __init__(self, numbers):
        self.numbers = numbers
        # Numbers that came, and need no second look.
        self.seen = set()
        self.has_text = self.has_number = False
        # Whether all cells can stay as they are.
        self.is_plain = numbers.takes_plain
        # How many values were missing, and what stood for them.
        self.missing, self.missing_texts = 0, set()
        # The most decimals as they stand, and without zeros at the end; the greatest magnitude.
        self.written = self.needed = 0
        self.greatest = Decimal(0)

    def look_at(self, cells):
        """Takes cells in, each text once, and nothing behind the first text that is no number."""
        if self.numbers.takes_digits and are_short(cells):
            self.has_number = True
            return
        new = set(cells) - self.seen
        for cell in new:
            self.look_at_one(cell)
        if len(self.seen) < SEEN:
            self.seen |= new - self.missing_texts
        self.missing += sum(map(cells.count, self.missing_texts))

    def look_at_one(self, cell):
        number = self.numbers.plain(cell)
        if number is not cell:
            self.is_plain = False
        if number is not None:
            self.take(number.strip())
        elif self.numbers.is_missing(cell):
            self.missing_texts.add(cell)
        else:
            self.has_text = True

    def take(self, number):
        self.has_number = True
        whole, _, decimals = number.partition(".")
        if len(decimals) > self.written:
            self.written = len(decimals)
        if len(decimals) > self.needed:
            self.needed = max(self.needed, len(decimals.rstrip("0")))
        # Shorter numbers are far below any limit.
        if len(whole) > 8:
            self.greatest = max(self.greatest, abs(Decimal(number)))

    def is_number(self):
        return self.has_number and not self.has_text

    def decimals(self):
        """How many decimals its kind has; None where no kind of numbers holds all of its cells."""
        fitting = (count for count in (self.written, self.needed) if count <= DECIMALS and self.greatest * 10**count <= MAGNITUDE)
        return next(fitting, None) if self.is_number() else None

    def kind(self):
        decimals = self.decimals()
        return "TEXT" if decimals is None else f"DEC {decimals}" if decimals else "INT"
