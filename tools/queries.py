"""The text of a query: its pieces, its clauses, and what the grammar takes at a place."""

import re
import sys
from collections import namedtuple

# 64 levels of nesting, with some thirty calls of a reading for each.
sys.setrecursionlimit(5_000)

# The grammar of docs/language.md, word for word.
GRAMMAR = """\
query   = EVENT "(" column { "," column } ")" [ TIME name ]
          PATTERN "(" element { element } ")"
          [ DEFINE define { "," define } ]
          WITHIN whole ( EVENTS | TIME )
          FROM ( EVERY whole ( EVENTS | TIME ) | WHEN pred )
          SELECT ( FIRST | LAST | EACH )
          CONSUME ( ALL | NONE | "(" name { "," name } ")" )
column  = name ( INT | DEC whole | TEXT )
element = name [ "+" ] | SET "(" name name { name } ")" | "!" name
define  = name AS pred
pred    = conj { OR conj }
conj    = atom { AND atom }
atom    = NOT atom | "[" pred "]" | sum compare sum
compare = "=" | "<>" | "<" | "<=" | ">" | ">="
sum     = term { ( "+" | "-" ) term }
term    = factor { "*" factor }
factor  = whole | decimal | literal | name [ "." name ] | "-" factor | "(" sum ")"
"""
# That of what a match returns, which stands there too.
RETURNS_GRAMMAR = """\
returns = item { "," item }
item    = sum AS name
"""
WORDS = frozenset(re.findall(r"\b[A-Z]+\b", GRAMMAR))
CLAUSES = ("EVENT", "TIME", "PATTERN", "DEFINE", "WITHIN", "FROM", "SELECT", "CONSUME")
PIECE = re.compile(
    rb"""(?P<blank>[ \t\r\n]+)
    | (?P<word>[A-Za-z_][A-Za-z0-9_]*)
    | (?P<decimal>[0-9]+\.[0-9]+) | (?P<whole>[0-9]+)
    | (?P<literal>'(?:[^']|'')*')
    | (?P<mark><>|<=|>=|[()\[\],.+*=<>!-])""",
    re.VERBOSE,
)

# A piece of a query: `word` (one of the language), `name`, `whole`, `decimal`, `literal` or `mark`; its text; the byte
# at which it begins.
Piece = namedtuple("Piece", "kind text place")
# A column of EVENT: its name, and its kind as it is written, as in `DEC 2`.
Column = namedtuple("Column", "name kind")


def pieces_of(query):
    """The pieces of a query's bytes, up to the first byte that begins none."""
    pieces, place = [], 0
    while place < len(query):
        found = PIECE.match(query, place)
        if found is None:
            break
        kind, text = found.lastgroup, found.group().decode("utf-8", "replace")
        if kind == "word" and text not in WORDS:
            kind = "name"
        if kind != "blank":
            pieces.append(Piece(kind, text, place))
        place = found.end()
    return pieces


# ---- What may stand at a place.


def parts_of(rule):
    """The right side of a rule as nested lists, each behind its kind: `sequence`, `choice`, `optional`, `repeated`."""
    words = re.findall(r'"[^"]+"|\w+|[][(){}|]', rule)[::-1]

    def choice():
        found = ["choice", sequence()]
        while words and words[-1] == "|":
            words.pop()
            found.append(sequence())
        return found

    def sequence():
        found = ["sequence"]
        while words and words[-1] not in "|)]}":
            found.append(part(words.pop()))
        return found

    def part(word):
        kind = {"(": "choice", "[": "optional", "{": "repeated"}.get(word)
        if kind is None:
            return word
        inside = choice()
        words.pop()
        return [kind, inside]

    return choice()


RULES = {name: parts_of(right) for name, right in re.findall(r"^(\w+) *=((?:.|\n +)*)$", GRAMMAR + RETURNS_GRAMMAR, re.MULTILINE)}


def fits(piece, part):
    """Whether a piece is the one that the grammar names: a word, a mark in quotes, or a kind."""
    if part.startswith('"'):
        return piece.text == part[1:-1]
    return piece.text == part if part in WORDS else piece.kind == part


class Reading:
    """A reading of pieces by the grammar. It keeps how far it came, and what it looked for there."""

    def __init__(self, pieces):
        self.pieces = pieces
        self.reached = 0
        self.wanted = []

    def read(self, part, at):
        """The number of the piece behind this part, which begins at piece `at`; None where it doesn't stand there."""
        if isinstance(part, list):
            return getattr(self, "read_" + part[0])(part[1:], at)
        return self.read(RULES[part], at) if part in RULES else self.take(part, at)

    def take(self, part, at):
        if at < len(self.pieces) and fits(self.pieces[at], part):
            return at + 1
        if at > self.reached:
            self.reached, self.wanted = at, []
        if at == self.reached and part not in self.wanted:
            self.wanted.append(part)
        return None

    def read_sequence(self, parts, at):
        for part in parts:
            at = self.read(part, at)
            if at is None:
                return None
        return at

    def read_choice(self, parts, at):
        return next((end for end in (self.read(part, at) for part in parts) if end is not None), None)

    def read_optional(self, parts, at):
        end = self.read_sequence(parts, at)
        return at if end is None else end

    def read_repeated(self, parts, at):
        end = self.read_sequence(parts, at)
        while end is not None:
            at, end = end, self.read_sequence(parts, end)
        return at


def wanted_at(text, place, rule="query"):
    """What the grammar takes at a place of a query, or of what another rule says: an empty list where a whole one ends there
    and nothing may follow, None where the text up to the place begins none."""
    before = [piece for piece in pieces_of(text) if piece.place < place]
    reading = Reading(before)
    is_whole = reading.read(rule, 0) == len(before)
    if reading.reached == len(before):
        return reading.wanted
    return [] if is_whole else None


def is_query(query):
    """Whether the bytes are a query by the grammar."""
    return wanted_at(query, len(query)) == []


def are_returns(text):
    """Whether the bytes say what a match returns, by the grammar."""
    pieces = pieces_of(text)
    return Reading(pieces).read("returns", 0) == len(pieces)


# ---- What a query says.


def clauses_of(query):
    """The pieces of each clause by its word, which is the first of them, in their order."""
    clauses, word = {}, None
    for piece in pieces_of(query):
        begins = piece.kind == "word" and piece.text in CLAUSES and piece.text not in clauses
        if begins and (piece.text != "TIME" or "PATTERN" not in clauses):
            word = piece.text
        clauses.setdefault(word, []).append(piece)
    return clauses


def clause_at(query, place):
    """The word of the clause in which a place is."""
    begun = [word for word, pieces in clauses_of(query).items() if word and pieces[0].place <= place]
    return begun[-1] if begun else None


def columns_of(query):
    """The columns of a query, in its order."""
    inside = " ".join(piece.text for piece in clauses_of(query).get("EVENT", [])[1:])
    parts = [part.split(maxsplit=1) for part in inside.strip("() ").split(",")]
    return [Column(name, kind.strip()) for name, kind in parts]


def time_of(query):
    """The name of the time's column, None where there is none."""
    return next((piece.text for piece in clauses_of(query).get("TIME", [])[1:]), None)


def names_of(query):
    """The names of the pattern, in its order."""
    return [piece.text for piece in clauses_of(query).get("PATTERN", []) if piece.kind == "name"]


def negated_of(query):
    """The negated names of the pattern, in its order."""
    pieces = clauses_of(query).get("PATTERN", [])
    return [piece.text for mark, piece in zip(pieces, pieces[1:]) if mark.text == "!" and piece.kind == "name"]


def literals_of(query):
    """The texts in quotes that a query has, as they are written, each once."""
    return list(dict.fromkeys(piece.text for piece in pieces_of(query) if piece.kind == "literal"))


def returned_of(text):
    """The columns for which the items of a text are, in its order."""
    pieces = pieces_of(text)
    return [name.text for word, name in zip(pieces, pieces[1:]) if word.text == "AS" and name.kind == "name"]


def span_of(query, first, behind):
    """The text from the word of one clause up to that of another."""
    clauses = clauses_of(query)
    return query[clauses[first][0].place : clauses[behind][0].place].decode("utf-8").rstrip()


def openers_query(query):
    """A query that finds each event of the windows of another one, or the first event alone where this suffices. The
    first line of each window names its opener."""
    event, opening = span_of(query, "EVENT", "PATTERN"), span_of(query, "FROM", "SELECT")
    by_spans = re.match(r"FROM\s+EVERY\s+[0-9]+\s+TIME\b", opening)
    length = span_of(query, "WITHIN", "FROM") if by_spans else "WITHIN 1 EVENTS"
    return f"{event} PATTERN (Opener) {length} {opening} SELECT FIRST CONSUME NONE"
