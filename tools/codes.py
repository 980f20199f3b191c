"""What the codes of the program mean, and what a text mostly has where one comes: data for explain."""

from collections import namedtuple

TEXT = 'docs/language.md, "Why a text is refused"'
QUERY = 'docs/language.md, "Why a query is refused"'
INPUT = 'docs/formats.md, "Input"'
LATE = 'docs/formats.md, "Late events"'
COMMAND = 'docs/formats.md, "The command line"'
SCHEDULES = 'docs/formats.md, "Schedules"'
LISTINGS = 'docs/formats.md, "Listings"'
RETURNS = 'docs/language.md, "Why a text of returns is refused"'
STEPS = 'docs/formats.md, "Printed steps"'
STATUSES = 'docs/formats.md, "Statuses"'
LIMITS = 'docs/formats.md, "Limits"'

# What a code or a status means: its name, in words, and the page.
Meaning = namedtuple("Meaning", "name words page")

# The faults of a query, by their codes.
QUERY_CODES = {
    1: Meaning("BadCharacter", "a character that begins no piece of the language", TEXT),
    2: Meaning("OpenText", "a text whose closing quote is missing; a quote inside a text is written twice", TEXT),
    3: Meaning("LongNumber", "a number of more than six decimals, or one that passes 10^15 when it is read without its point", TEXT),
    11: Meaning("Unexpected", "a piece that can't stand here", TEXT),
    12: Meaning("TooDeep", "level 65 of nesting: each (, [, NOT and minus in front of something opens one, and 64 may be open at once", TEXT),
    21: Meaning("Unknown", "a column that EVENT doesn't have, or a name that the pattern doesn't have", QUERY),
    22: Meaning("Twice", "a column, a name of the pattern, a definition or a name of CONSUME that stands a second time", QUERY),
    23: Meaning("WrongKind", "kinds that don't go together", QUERY),
    24: Meaning("PlusLast", "one or more events as the last element: such a match would have no end", QUERY),
    25: Meaning("LateReference", "a name in front of a point that is of no earlier element", QUERY),
    26: Meaning("TooWide", "a value that may pass 10^36, or have more than 36 decimals", QUERY),
    27: Meaning("BadWindow", "a window, or a step, past its limits", QUERY),
    28: Meaning("TooMany", "column 65, or name 33 of the pattern", QUERY),
    29: Meaning("NeverEnds", "a negated name as the first or the last element: it has to stand between two others", QUERY),
    30: Meaning("NeverBound", "a negated name in front of a point or in CONSUME: no event is ever bound to it", QUERY),
}

# Those of the text of what a match returns: the faults of its pieces and of its grammar are those of a query's.
RETURN_CODES = {
    **{code: QUERY_CODES[code] for code in (1, 2, 3, 11, 12)},
    21: Meaning("Unknown", "a column or a name that isn't there, a text that the first query doesn't have, or a column without an item", RETURNS),
    22: Meaning("Twice", "a second item for a column of the second query", RETURNS),
    23: Meaning("WrongKind", "kinds that don't go together, or more decimals than the column has", RETURNS),
    26: Meaning("TooWide", "a value that may pass 10^36, or have more than 36 decimals", RETURNS),
    30: Meaning("NeverBound", "a negated name in front of a point: no event is ever bound to it", RETURNS),
}

# The faults of the input, by their codes.
INPUT_CODES = {
    1: Meaning("no header", "the input has no row with a cell", INPUT),
    2: Meaning("no column", "the header lacks a column of the query", INPUT),
    3: Meaning("no cell", "the row has too few cells", INPUT),
    4: Meaning("no number", "the cell is no number of its column's kind, or too great, or a time below 0", INPUT),
    5: Meaning("not UTF-8", "the cell of a text isn't UTF-8: in Latin-1, say, which `iconv -f latin1 -t utf-8` changes", INPUT),
    6: Meaning("back in time", "the time is below that of the event before; with --slack D, below the greatest time before it less D", INPUT),
    7: Meaning("two records", "the row reads as two records: a carriage return without a line feed ends one, and so does a line feed behind an odd quote", INPUT),
    8: Meaning("long row", "the row has more than 65,536 bytes: mostly a quote that nothing closes", INPUT),
    9: Meaning("open quote", "the input ends inside the quotes of this row", INPUT),
}

# The refusals of a step, as `trace` prints them, by their codes, with what their numbers are.
STEP_CODES = {
    1: Meaning("input has ended", "", STEPS),
    2: Meaning("the version is not live", "the version", STEPS),
    3: Meaning("a run of the label is no open group of the parent", "the first such run", STEPS),
    4: Meaning("there is a child of that label already, or a root", "that version", STEPS),
    5: Meaning("the window has not begun", "its number", STEPS),
    6: Meaning("as many versions are live as --live allows", "how many are live, and the bound", STEPS),
    7: Meaning("a ticket is out for the version", "the ticket", STEPS),
    8: Meaning("the version is in conflict", "the event", STEPS),
    9: Meaning("the version is in no conflict", "the version", STEPS),
    10: Meaning("there is nothing to read", "how many events the version, or the ticket, has read", STEPS),
    11: Meaning("there is no root, or it is not done", "how many windows are finished", STEPS),
    12: Meaning("1,048,576 events are fed", "the limit", STEPS),
    13: Meaning("the ticket is not out", "the ticket", STEPS),
}

# The lines of the other statuses, without their numbers.
STATUS_LINES = {
    "late": Meaning("status 0", "so many events came too late and were passed over, as --late drop asks for", LATE),
    "memory": Meaning("status 1", "memory ran out; what was written is a beginning of the right text", STATUSES),
    "usage": Meaning("status 2", "the words are no command of the program, or a predictor's name isn't even, steady or markov, or predictors are to take turns beside several trees; nothing was read", COMMAND),
    "read fault": Meaning("status 5", "reading failed: the input, or the file of the query, of the schedule or of the listing", STATUSES),
    "write fault": Meaning("status 6", "writing failed: a full disk, or a reader that has gone, as `head` has once it has its lines", STATUSES),
    "limit": Meaning("status 7", "more of something than the program takes", LIMITS),
    "schedule": Meaning("status 8", "a line that is no step", SCHEDULES),
    "listing line": Meaning("status 9", "a line that is neither that of a window nor, behind one, that of a match of the query", LISTINGS),
    "listing window": Meaning("status 9", "the listing is not that of the query over this table: it first differs, has an entry missing or has one too many", LISTINGS),
}

# The most bytes of a text of a query.
TEXT_LIMIT = 16_384
# What the number of a limit is of.
LIMIT_NUMBERS = {
    TEXT_LIMIT: "the query's text or file, or of a graph the second query or what is returned, has more than 16,384 bytes",
    1_048_576: "the input has more than 1,048,576 events, or of a graph its first query more matches, or the schedule's file more bytes than this",
    10**15: "a match of a graph's first query returns a number past 10^15, in units of its column, on either side of 0",
    16_777_216: "the listing's file has more than 16,777,216 bytes",
    2_097_152: "the input has more than 2,097,152 rows, the header and blank ones counted",
}

# Those that a long table meets, and the page that says how it is read then.
LIMITS_OF_ROWS = (1_048_576, 2_097_152)
LONGER = 'docs/recipes.md, "Past a million rows"'
# Two more pages that are named.
NEGATED = 'docs/language.md, "Negated names"'
NO_LINE = 'docs/recipes.md, "No line, and why"'

# ---- What is written as in other languages, and refused. A hint is shown where the code is this one, what stands at the
# place begins as said, and the grammar takes there what is said (all of it, where nothing is).
Hint = namedtuple("Hint", "code begins wants words")

COMPARES = "=|<>|<=|>=|<|>"
HINTS = [
    Hint(1, r'"', None, "A text stands in single quotes, k = 'a', and a column's name in none."),
    Hint(1, r"[/%]", None, "There is no division: x > 2 * y stands for x / 2 > y. There are no comments either."),
    Hint(1, r";", None, "Nothing stands between the clauses, or behind the last one."),
    Hint(1, r"[&|]", None, "The words are AND and OR."),
    Hint(1, r"[{}?]", None, "Elements are names, names with +, SETs of names and negated names; none is counted, and none may be absent."),
    Hint(1, "[\u2018\u2019\u201c\u201d`\u00b4]", None, "The quote of a text is the straight one, '."),
    Hint(1, "[\u00a0\u2007\u202f\ufeff]", None, "It looks like a blank, and is none: blanks, tabs and line ends are."),
    Hint(1, "[\u2013\u2014\u2212]", None, "The minus is the ASCII one, -."),
    Hint(1, r"(?![\0-\x7f])\w", None, "A name has ASCII letters, digits and _ alone: tools/prepare renames the table's headings (docs/prepare.md)."),
    Hint(11, r"=", "literal", "Equal is one =."),
    Hint(11, r"!", "=", "`Not equal` is <>."),
    Hint(11, r"!", "literal", "A ! stands in front of a name of the pattern; a predicate is negated by NOT."),
    Hint(11, r"!", "name", "A negated name, !N, is an element of its own, and stands in no SET."),
    Hint(11, r"\+", "SET", "A + stands behind a name alone: neither a SET nor a negated name is taken more than once."),
    Hint(11, COMPARES, ")", "Round parentheses group expressions, square brackets predicates: [k = 'a' OR k = 'b'] AND .."),
    Hint(11, r"AND|OR|NOT", ")", "Round parentheses group expressions, square brackets predicates: [k = 'a' OR k = 'b'] AND .."),
    Hint(11, r"\]", "=", "Square brackets hold a predicate; round parentheses group expressions: (x + 1) * 2 > 5."),
    Hint(11, r"(?i)IN\b", "=", "There are no lists of values: k = 'a' OR k = 'b'."),
    Hint(11, r"(?i)(LIKE|MATCHES|REGEXP)\b", "=", "Texts are equal or not, and have no patterns."),
    Hint(11, r"(?i)BETWEEN\b", "=", "x >= 1 AND x <= 2 stands for it."),
    Hint(11, r"(?i)IS\b", "=", "There is no missing value: a row without one is left out before, docs/recipes.md."),
    Hint(11, r"(?i)(MS|MILLIS\w*|SEC|SECS|SECONDS?|MIN|MINS|MINUTES?|HOURS?|DAYS?)\b", "TIME", "The unit is the one of the TIME column: where it counts seconds, WITHIN 901 TIME holds what comes up to a quarter of an hour later."),
    Hint(11, r"[A-Za-z]\w*", "INT", "The kinds are INT, DEC with its decimals, as DEC 2, and TEXT."),
    Hint(11, r"[-.']", "INT", "There are no quoted names, and a heading such as price-usd or Solar.R can't be written: change the table's heading."),
    Hint(11, r"\*", "SET", "One or more is B+; none or more there isn't."),
    Hint(11, r",", "SET", "The elements of a pattern are parted by blanks."),
    Hint(11, r"(?i)(PARTITION|GROUP)\b", None, "There is no partition by key: docs/recipes.md says what stands in for it."),
    Hint(11, r"(?i)(WHERE|HAVING|ORDER|SKIP|MEASURES)\b", None, "The clauses are EVENT, TIME, PATTERN, DEFINE, WITHIN, FROM, SELECT, CONSUME, in this order."),
    Hint(11, r"\.|-", "decimal", "A number has digits on both sides of its point."),
]

# ---- What a cell mostly is that is no number.
CELL_HINTS = [
    (r"", "The cell is empty. Rows without a value are left out before (docs/recipes.md)."),
    (r"(?i)na|n/a|nan|null|none|-|\?|inf(inity)?", "A missing value. Rows without one are left out before (docs/recipes.md), or the column is read as TEXT."),
    (r"\d{4}-\d\d?-\d\d?.*|\d\d?[./]\d\d?[./]\d{2,4}.*", "A date: times are whole numbers, such as seconds since 1970 (docs/recipes.md)."),
    (r"\d\d?:\d\d(:\d\d)?.*", "A time of day: times are whole numbers, such as the second of the day (docs/recipes.md)."),
    (r"[+-]?\d*\.?\d+[eE][+-]?\d+", "An exponent; numbers are digits, a point and digits."),
    (r"[+-]?\d{1,3}(,\d{3})+(\.\d+)?", "Commas between the digits; numbers have none."),
    (r"[+-]?\d+,\d+", "A comma as the decimal mark; it is the point."),
    (r"[+-]?(\.\d+|\d+\.)", "A number has digits on both sides of its point."),
    (r"(?i)true|false|yes|no", "A truth; read the column as TEXT."),
    (r"[#/;].*", "A comment; a table has none."),
    (r"\D*[$\u20ac\u00a3]\s*[\d.,]+|[\d.,]+\s*\D+", "A number with its unit; numbers are digits, a point and digits."),
]
