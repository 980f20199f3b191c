"""The heading of a table: what parts its cells, and names of the language for its columns."""

import csv
import re
import unicodedata
from collections import namedtuple

import queries

SEPARATORS = (",", ";", "\t", "|")
NAME = re.compile(r"[A-Za-z_][A-Za-z0-9_]*")
# Letters that have no ASCII letter in them by Unicode.
LETTERS = str.maketrans({
    "ß": "ss", "æ": "ae", "Æ": "AE", "œ": "oe", "Œ": "OE", "ø": "o", "Ø": "O", "ł": "l", "Ł": "L", "đ": "d", "Đ": "D",
    "ð": "d", "þ": "th", "ı": "i", "\u00b5": "u", "\u03bc": "u",
})  # fmt: skip

# What begins a comment, in files of some programs.
COMMENT = "#"

# What stands over a table: how many lines behind the first, how many cells the table's first line has, what parts these.
Title = namedtuple("Title", "more cells separator")


def count_of(heading, separator):
    """Into how many cells a separator parts the text of a heading; none where that can't be read."""
    try:
        return len(next(csv.reader([heading], delimiter=separator)))
    except csv.Error:
        return 0


def separator_of(heading):
    """What parts the text of a heading into most cells; a comma where nothing does."""
    return max(SEPARATORS, key=lambda separator: count_of(heading, separator))


def title_over(first, lines, separators):
    """Whether these lines are of a table, and the first one, which stands before them, its title, with those of one cell behind
    it: before which of the lines, from 0, the table begins, how many cells that one has, and what parts them. None where most
    have one cell too. A first line that begins as a comment is a title also where it has some cells, if another comment follows
    it, or if most lines have another count of cells."""
    separator = max(separators, key=lambda mark: sum(count_of(line, mark) > 1 for line in lines))
    counts = [0 if line.startswith(COMMENT) else count_of(line, separator) for line in lines]
    parted = [place for place, count in enumerate(counts) if count > 1]
    is_over = len(parted) * 2 > sum(count > 0 for count in counts)
    own = count_of(first, separator)
    if own > 1 and not any(line.startswith(COMMENT) for line in lines[:1]):
        is_over = is_over and sum(count != own for count in counts if count) * 2 > sum(count > 0 for count in counts)
    return Title(parted[0], counts[parted[0]], separator) if is_over else None


def is_name(text):
    """Whether a text is a name of the language."""
    return NAME.fullmatch(text) is not None and text not in queries.WORDS


def name_of(heading, place):
    """A name for the column at a place, from 1."""
    plain = unicodedata.normalize("NFKD", heading.translate(LETTERS))
    letters = "".join(letter for letter in plain if not unicodedata.combining(letter))
    name = re.sub("_+", "_", re.sub("[^A-Za-z0-9_]", "_", letters)).strip("_") if not NAME.fullmatch(heading) else heading
    if not name:
        return f"column_{place}"
    if name[0].isdigit():
        return "_" + name
    return name + "_" if name in queries.WORDS else name


def names_of(headings, renamed):
    """A name for each heading, none of them twice. `renamed` has those that were asked for, by their place from 0."""
    names, taken = dict(renamed), set(renamed.values())
    for place, heading in enumerate(headings):
        if place not in names:
            wanted = name = name_of(heading, place + 1)
            number = 2
            while name in taken:
                name, number = f"{wanted}_{number}", number + 1
            names[place] = name
            taken.add(name)
    return [names[place] for place in range(len(headings))]
