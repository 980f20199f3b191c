"""Tables as the program reads them: rows of bytes, their cells, the header, and the events behind it.

The rules are those of docs/formats.md, "Input". What makes a row faulty for a query is no concern of this module."""

import io
import itertools
import re
from collections import namedtuple

MARK = b"\xef\xbb\xbf"
BLANKS = b" \t"
LINE_END = b"\r\n"
# A cell: what stands in quotes, where two stand for one, and what stands behind these or without any.
CELL = re.compile(rb'(?:"((?:[^"]|"")*)(?:"|\Z))?([^,\r\n]*)')
# In a row without a quote, a line's end and the first byte of a mark the commas alone part the cells.
BREAK = re.compile(rb'["\r\n\xef]')
# How many bytes are read at a time, where rows are read many at a time.
BLOCK = 2**18

# A row: its number from 1, the line of the file where it begins, its bytes without the line's end, and whether the file
# ends inside its quotes.
Row = namedtuple("Row", "number line content is_open")
# An event: its number from 1, its row, and the cells of it.
Event = namedtuple("Event", "number row cells")
# Rows that follow one another, and none of which is blank: the line of the file at which each begins, their bytes without
# the line's end, and whether the commas alone part the cells of each.
Stretch = namedtuple("Stretch", "lines contents is_plain")


class TwoRecords(Exception):
    """A row that reads as two records; the program stops at it."""


def text_of(cell):
    """The bytes as a text, from which the same bytes can be had again."""
    return cell.decode("utf-8", "surrogateescape")


def without_mark(content):
    """The bytes without a byte order mark in front."""
    return content[len(MARK) :] if content.startswith(MARK) else content


def without_line_end(content):
    """The bytes without one line feed, and one carriage return before it, at their end."""
    content = content[:-1] if content.endswith(b"\n") else content
    return content[:-1] if content.endswith(b"\r") else content


def rows_of(file):
    """The rows of a file that is read as bytes. A line feed with an even number of quotes before it ends a row."""
    number, begun, pieces, quotes = 1, 1, [], 0
    for line, piece in enumerate(file, 1):
        pieces.append(without_mark(piece) if line == 1 else piece)
        quotes += piece.count(b'"')
        if piece.endswith(b"\n") and quotes % 2 == 0:
            yield Row(number, begun, without_line_end(b"".join(pieces)), False)
            number, begun, pieces, quotes = number + 1, line + 1, [], 0
    rest = b"".join(pieces)
    if rest:
        yield Row(number, begun, without_line_end(rest), quotes % 2 == 1)


def cells_of(content):
    """The cells of a row, None where it is blank."""
    if BREAK.search(content) is None:
        return content.split(b",") if content else None
    while content.startswith(MARK):
        content = without_mark(content)
    content = content.lstrip(LINE_END)
    if not content:
        return None
    cells, place = [], 0
    while True:
        cell = CELL.match(content, place)
        quoted, plain = cell.groups(default=b"")
        cells.append(quoted.replace(b'""', b'"') + plain)
        place = cell.end()
        if content[place : place + 1] != b",":
            break
        place += 1
    if content[place:].strip(LINE_END):
        raise TwoRecords
    return cells


def texts_of(content):
    """The cells of a row that isn't blank, as texts."""
    if BREAK.search(content) is None:
        return text_of(content).split(",")
    return [text_of(cell) for cell in cells_of(content)]


def filled_rows(rows):
    """The rows that aren't blank, each with its cells."""
    for row in rows:
        cells = cells_of(row.content)
        if cells is not None:
            yield row, cells


def read_table(file):
    """The row of the header, its headings, and the events, one after another; None, no heading and no event where the
    file has no header."""
    filled = filled_rows(rows_of(file))
    row, cells = next(filled, (None, []))
    events = (Event(number, row, cells) for number, (row, cells) in enumerate(filled, 1))
    return row, [cell.strip(BLANKS) for cell in cells], events


# ---- Many rows at a time: the same rows and events, and only those that are asked for have to be cut into cells.


def end_of_rows(content):
    """Where the last whole row ends in bytes that begin with a row."""
    end = content.rfind(b"\n") + 1
    quotes = content.count(b'"', 0, end)
    while quotes % 2:
        before = content.rfind(b"\n", 0, end - 1) + 1
        quotes -= content.count(b'"', before, end)
        end = before
    return end


def blocks_of(file):
    """The bytes of a file in blocks of whole rows. What stands behind the last whole row is the last block."""
    rest = b""
    while True:
        # A row that is longer than a block is looked through again each time: so there are few times.
        more = file.read(max(BLOCK, len(rest)))
        if not more:
            break
        content = rest + more
        end = end_of_rows(content)
        if end:
            yield content[:end]
        rest = content[end:]
    if rest:
        yield rest


def lines_as_rows(block):
    """The rows of a block, blank ones too, where each is a line, and is blank only where it has no byte; None where some may
    be otherwise."""
    lines = block.replace(b"\r\n", b"\n") if b"\r" in block else block
    if b"\r" in lines or MARK in lines or not lines.endswith(b"\n"):
        return None
    contents = lines[:-1].split(b"\n")
    if b'"' in lines and any(content.count(b'"') % 2 for content in contents):
        return None
    return contents


def is_filled(content):
    """Whether a row has a cell. It has to be cut only where it may be blank by other bytes, or be two records."""
    if b"\r" in content or b"\n" in content or content.startswith(MARK):
        return cells_of(content) is not None
    return content != b""


def careful_stretches(block, line):
    """The stretch of a block, which begins at this line, by the rules for any row."""
    lines, contents, stop = [], [], None
    for row in rows_of(io.BytesIO(block)):
        try:
            filled = is_filled(row.content)
        except TwoRecords:
            stop = line + row.line - 1
            break
        if filled:
            lines.append(line + row.line - 1)
            contents.append(row.content)
    yield Stretch(lines, contents, False)
    if stop:
        raise TwoRecords(stop)


def stretches_of(file):
    """The rows of a file that aren't blank, many at a time, up to one that reads as two records. Then that is told, with
    the line at which it begins."""
    line = 1
    for block in blocks_of(file):
        contents = lines_as_rows(block)
        if contents is None:
            yield from careful_stretches(block, line)
        else:
            lines = range(line, line + len(contents))
            if b"" in contents:
                lines, contents = list(itertools.compress(lines, contents)), list(filter(None, contents))
            yield Stretch(lines, contents, b'"' not in block)
        line += block.count(b"\n")


def read_stretches(file):
    """The headings, and the events behind them in stretches; no heading and no event where the file has no header."""
    stretches = (stretch for stretch in stretches_of(file) if stretch.contents)
    first = next(stretches, Stretch([], [], True))
    headings = cells_of(first.contents[0]) if first.contents else []
    behind = Stretch(first.lines[1:], first.contents[1:], first.is_plain)
    return [cell.strip(BLANKS) for cell in headings], itertools.chain([behind], stretches)
