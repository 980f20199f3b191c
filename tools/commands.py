"""The words that the program is started with: its commands, their options, and the first fault of words that are no command's."""

import difflib
import os
import re
import shlex
from collections import namedtuple

import queries

# A number that an option takes: the least, the greatest, and how many digits may write it at most.
Number = namedtuple("Number", "least greatest digits")
# An option: its long name, its letter, how its value is called (None for a flag), and the number or the names that it takes.
Option = namedtuple("Option", "name letter value takes", defaults=[None, None, None])
# An option that was met: from the word `at` up to the word `behind`, with its value.
Use = namedtuple("Use", "option at behind value")
# A fault: of the words from `at` up to `behind`; what is said of it, in lines; and the words as they are after each change that
# is proposed, none where no exact one is.
Fault = namedtuple("Fault", "at behind says changes", defaults=[()])

OPTIONS = {
    option.name: option
    for option in (
        Option("query", "q", "TEXT"),
        Option("file", "f", "FILE"),
        Option("slack", None, "D", Number(0, 10**15, 16)),
        Option("late", None, "RULE", ("refuse", "drop")),
        Option("instances", None, "N", Number(0, 16, 10)),
        Option("live", None, "N", Number(1, 4_096, 10)),
        Option("batch", None, "N", Number(1, 1_024, 10)),
        Option("rotate", None, "N", Number(0, 65_536, 10)),
        Option("predictor", None, "NAME", ("even", "steady", "markov")),
        Option("trees", None, "N", Number(1, 16, 10)),
        Option("proof"),
        Option("schedule", None, "FILE"),
        Option("list", None, "FILE"),
        Option("then", None, "TEXT"),
        Option("return", None, "TEXT"),
    )
}
SPEED = ["instances", "live", "batch", "rotate", "predictor"]
# The options of each command, in the order in which the program looks at their values. The predictor comes last of all.
COMMANDS = {
    "run": ["query", "file", *SPEED, "slack", "late", "trees", "proof"],
    "plain": ["query", "file", "slack", "late"],
    "trace": ["query", "file", "schedule", "live"],
    "check": ["query", "file", "list"],
    "graph": ["query", "file", "then", "return", *SPEED],
    "drill": SPEED,
}
# Those that have to be there where a command has them.
NEEDED = {"schedule", "list", "then", "return"}
# What the launcher answers.
HELPS = ["--help", "--version", "help", "version"]
# What is written for these as of other programs.
HELP_LETTERS = {"-v": "--version", "-H": "--help", "-?": "--help"}
# What stands behind `drill`, before its options.
DRILL = [("how many events", Number(1, 1_048_576, 10)), ("the seed", Number(0, 4_294_967_295, 10))]
HYPHENS = "\u2010\u2011\u2012\u2013\u2014\u2212"
# How much of a word is shown, and of the words before and behind a fault.
SHOWN, BEFORE, BEHIND = 40, 60, 40


def shown_word(word):
    """A word as a shell takes it, with what can't be seen in it, and not too much of it."""
    text = shlex.quote(word) if word.isprintable() else re.sub(r"\\udc([89a-f][0-9a-f])", r"\\x\1", repr(word))
    return text if len(text) <= SHOWN else text[: SHOWN - 2] + ".."


def listed(words, last="and"):
    """The words as `a, b and c`."""
    return f" {last} ".join(filter(None, [", ".join(words[:-1]), *words[-1:]]))


def nearest(name, names):
    """The one of these names that looks like this one; None where none does, or several begin so."""
    folded = name.lower()
    begun = [other for other in names if folded and other.startswith(folded)]
    if begun:
        return begun[0] if len(begun) == 1 else None
    return next(iter(difflib.get_close_matches(folded, names, n=1)), None)


def spelled(option):
    """An option as it is named in a sentence."""
    return f"-{option.letter}" if option.letter else f"--{option.name}"


def options_of(command):
    return [OPTIONS[name] for name in COMMANDS[command]]


def takers(name):
    """The commands that have an option of this name."""
    return [command for command, names in COMMANDS.items() if name in names]


def pointed(words, fault):
    """The words with carets below those that are at fault."""
    front = " ".join(["spectre", *map(shown_word, words[: fault.at])]) + " "
    wrong = " ".join(map(shown_word, words[fault.at : fault.behind]))
    rest = "".join(" " + shown_word(word) for word in words[fault.behind :])
    short = front if len(front) <= BEFORE else ".." + front[-BEFORE:]
    return [f"    {short}{wrong}{rest[:BEHIND]}".rstrip(), "    " + " " * len(short) + "^" * max(len(wrong), 1)]


# ---- Values.


def ranged(takes):
    """What a number may be, in words."""
    return f"a number from {takes.least} to {takes.greatest}"


def wrong_number(text, takes):
    """Why a text is no such number, and the text that is meant, if it can be told; None where it is one."""
    if not re.fullmatch("[0-9]+", text, re.ASCII):
        digits = re.sub(r"[+,_' ]", "", text)
        meant = digits if re.fullmatch("[0-9]{1,16}", digits, re.ASCII) else None
        meant = meant if meant and wrong_number(meant, takes) is None else None
        why = "is empty" if not text else "has a sign" if re.match(r"[+-][0-9]", text) else "isn't digits alone"
        return why, meant
    digits = text.lstrip("0") or "0"
    if len(digits) > takes.digits or int(digits) > takes.greatest:
        return "is too great", str(takes.greatest)
    if int(digits) < takes.least:
        return "is too small", str(takes.least)
    return ("has too many zeros in front", digits) if len(text) > takes.digits else None


def wrong_value(text, takes):
    """Why a text is no value of an option, in words, and the one that is meant, if it can be told; None where it is one."""
    if isinstance(takes, Number):
        found = wrong_number(text, takes)
        return found and (f"takes {ranged(takes)}, and {shown_word(text)} {found[0]}.", found[1])
    if takes is None or text in takes:
        return None
    return f"takes {listed(takes, 'or')}, and not {shown_word(text)}.", nearest(text, takes)


def with_value(words, use, value):
    """The words with another value for an option."""
    word = words[use.at]
    if use.behind > use.at + 1:
        new = [word, value]
    else:
        new = [f"{word[: word.index('=')]}={value}"]
    return [*words[: use.at], *new, *words[use.behind :]]


def without(words, at, behind):
    return [*words[:at], *words[behind:]]


# ---- The reading.


class Reading:
    """A reading of words in the program's order. It keeps the options that were met, by their names, and the first fault."""

    def __init__(self, words):
        self.words, self.uses = words, {}
        self.command = words[0] if words and words[0] in COMMANDS else None
        # The option that was met last: it counts when the next one is met, or at the end.
        self.pending, self.closed_at = None, None
        self.fault = unreadable(words) or wrong_command(words) or self.drilled() or self.walked() or self.compared()

    def values(self):
        return {name: use.value for name, use in self.uses.items()}

    def drilled(self):
        """The fault of the two numbers behind `drill`."""
        if self.command != "drill":
            return None
        for at, (what, takes) in enumerate(DRILL, 1):
            if len(self.words) < 3:
                break
            found = wrong_number(self.words[at], takes)
            if found and self.words[at].startswith("-"):
                return Fault(at, at + 1, ["The two numbers of drill stand before its options: spectre drill EVENTS SEED .."])
            if found:
                changes = [without(self.words, at, at + 1)[:at] + [found[1]] + self.words[at + 1 :]] if found[1] else []
                return Fault(at, at + 1, [f"Word {at} behind drill says {what}, {ranged(takes)}; {shown_word(self.words[at])} {found[0]}."], changes)
        if len(self.words) < 3:
            return Fault(len(self.words), len(self.words), ["drill takes two numbers, how many events and a seed, before its options: spectre drill 100000 7"])
        return None

    def walked(self):
        """The first fault of the words behind the command, one after another."""
        for at in range(3 if self.command == "drill" else 1, len(self.words)):
            fault = self.read(at)
            if fault:
                return fault
        return self.settled()

    def read(self, at):
        word = self.words[at]
        if self.closed_at is not None:
            return self.closed(at)
        if word == "--":
            self.closed_at = at
        elif word.startswith("-") and word != "-":
            return self.read_option(at)
        elif self.pending and self.pending.value is None:
            self.pending = Use(self.pending.option, at - 1, at + 1, word)
        else:
            return stray(self, at)
        return None

    def closed(self, at):
        """The fault of a word behind --, which closes the options."""
        if self.words[at].startswith("-") or (self.pending and self.pending.value is None):
            return Fault(at, at + 1, ["Behind -- no word may stand: leave the -- out."], [without(self.words, self.closed_at, self.closed_at + 1)])
        return Fault(at, at + 1, ["Behind -- no word may stand: leave out what stands there."], [self.words[:at]])

    def read_option(self, at):
        option, value = self.option_in(self.words[at])
        if option is None:
            return unknown_option(self, at)
        if option.value is None and value is not None:
            return Fault(at, at + 1, [f"--{option.name} stands alone, without a value."], [[*self.words[:at], f"--{option.name}", *self.words[at + 1 :]]])
        fault = self.settled()
        if fault:
            return fault
        use = Use(option, at, at + 1, value)
        if option.value is None or value is not None:
            return self.counted(use)
        self.pending = use
        return None

    def option_in(self, word):
        """The command's option that a word names, None where it has none, and the value in the word, None where there is none."""
        own = options_of(self.command)
        if word.startswith("--"):
            name, mark, value = word[2:].partition("=")
            return next((it for it in own if it.name == name), None), value if mark else None
        rest = word[2:]
        value = rest[1:] if rest.startswith("=") else rest or None
        return next((it for it in own if it.letter == word[1]), None), value

    def settled(self):
        """The option that was met last counts."""
        use, self.pending = self.pending, None
        if use is None:
            return None
        return missing_value(self, use) if use.value is None else self.counted(use)

    def counted(self, use):
        if use.option.name not in self.uses:
            self.uses[use.option.name] = use
            return None
        before = shown_word(self.words[self.uses[use.option.name].at])
        says = f"{before} and {shown_word(self.words[use.at])} are one option, which may stand once: leave one out."
        if before == shown_word(self.words[use.at]):
            says = f"{before} stands twice, and may stand once: leave one out."
        return Fault(use.at, use.behind, [says], [without(self.words, use.at, use.behind)])

    def compared(self):
        """The first fault of the options' values, of what is missing, and of what doesn't go together."""
        names = [name for name in COMMANDS[self.command] if name not in ("query", "file", "predictor")]
        faults = (fault for fault in map(self.value_fault, names) if fault)
        return self.source_fault() or next(faults, None) or self.turns_fault() or self.value_fault("predictor")

    def source_fault(self):
        """Just one of two options says the query."""
        if "query" not in COMMANDS[self.command]:
            return None
        there = [self.uses[name] for name in ("query", "file") if name in self.uses]
        end = len(self.words)
        if not there:
            return Fault(end, end, ["The query is missing: -f FILE names its file, or -q TEXT is its text."])
        if len(there) == 1:
            return None
        last = max(there, key=lambda use: use.at)
        says = "Both -f FILE and -q TEXT say the query, and just one of them may: leave one out."
        return Fault(last.at, last.behind, [says], [without(self.words, use.at, use.behind) for use in there])

    def value_fault(self, name):
        use, option, end = self.uses.get(name), OPTIONS[name], len(self.words)
        if name in NEEDED and use is None:
            return Fault(end, end, [f"--{name} {option.value} is missing: {self.command} needs {NEEDS[name]}."])
        found = wrong_value(use.value, option.takes) if use else None
        if not found:
            return None
        says, meant = found
        more = f" Is it {meant}?" if meant else ""
        unit = ["It counts in the unit of the query's TIME column."] if name == "slack" and "alone" in says else []
        return Fault(use.at, use.behind, [f"--{name} {says}{more}", *unit], [with_value(self.words, use, meant)] if meant else [])

    def turns_fault(self):
        """With several trees no predictor takes turns."""
        pair = [self.uses[name] for name in ("trees", "rotate") if name in self.uses and int(self.uses[name].value) > (name == "trees")]
        if self.command != "run" or len(pair) < 2:
            return None
        last = max(pair, key=lambda use: use.at)
        says = "Above 1 --trees doesn't go with --rotate above 0: leave one of the two out."
        return Fault(last.at, last.behind, [says], [without(self.words, use.at, use.behind) for use in pair])


NEEDS = {
    "schedule": "the name of the schedule's file",
    "list": "the name of the listing's file, which `spectre run --proof` writes",
    "then": "the text of the second query",
    "return": "the text of what a match of the first query returns",
}


# ---- The faults of a word.


def unreadable(words):
    at = next((at for at, word in enumerate(words) if re.search("[\ud800-\udfff]", word)), None)
    if at is None:
        return None
    return Fault(at, at + 1, ["This word isn't UTF-8, and then the program takes no word at all: write it in UTF-8, or rename the file."])


def wrong_command(words):
    if not words:
        return Fault(0, 0, ["The command is missing, the first word: spectre plain -f QUERY < TABLE"])
    word, every = words[0], listed(list(COMMANDS), "or")
    if word in COMMANDS:
        return None
    if word in ("--help", "-h") and len(words) > 1 and words[1] not in COMMANDS:
        return Fault(1, len(words), [f"Behind {word} stands one command, or nothing; it is {every}."])
    answered = HELP_LETTERS.get(word) if len(words) == 1 else None
    answered = answered or nearest(word, HELPS)
    if answered not in (None, word) and len(words) <= 2 and nearest(word, list(COMMANDS)) is None:
        return Fault(0, 1, [f"There is no {'option' if word.startswith('-') else 'command'} {shown_word(word)}. Is it {answered}?"])
    at = next((at for at, it in enumerate(words) if it in COMMANDS), None)
    if word.startswith("-") and at is not None:
        return Fault(0, 1, [f"The command stands first: spectre {words[at]} .."], [[words[at], *without(words, at, at + 1)]])
    if word.startswith("-") or os.path.exists(word):
        return Fault(0, 1, [f"The command is missing: it is the first word, {every}. Is it spectre plain ..?"], [["plain", *words]])
    near = nearest(word, list(COMMANDS))
    if near:
        return Fault(0, 1, [f"There is no command {shown_word(word)}; it is {every}. Is it {near}?"], [[near, *words[1:]]])
    return Fault(0, 1, [f"There is no command {shown_word(word)}; it is {every}. spectre plain -f QUERY < TABLE is the plain one."])


def missing_value(reading, use):
    """The fault of an option without its value."""
    option, words = use.option, reading.words
    says = [f"{shown_word(words[use.at])} has no value: {called(option)}."]
    if option.takes is None and use.behind < len(words) and words[use.behind] != "--":
        says.append(f"The next word is an option; a value that begins with a hyphen stands behind =: --{option.name}={shown_word(words[use.behind])}")
    return Fault(use.at, use.behind, says)


def called(option):
    """What an option takes, in words."""
    if isinstance(option.takes, Number):
        return f"it takes {ranged(option.takes)}"
    if option.takes:
        return f"it takes {listed(option.takes, 'or')}"
    return f"it takes {'the name of a file' if option.value == 'FILE' else 'a text, as one word in quotes'}"


def unknown_option(reading, at):
    """The fault of an option that the command doesn't have."""
    words, command = reading.words, reading.command
    name, mark, value = words[at].lstrip("-").partition("=")
    own = [it.name for it in options_of(command)]
    waits = reading.pending.option if reading.pending and reading.pending.value is None else None
    if waits and waits.takes is None and name not in OPTIONS:
        joined = f"--{waits.name}={words[at]}"
        says = f"A value that begins with a hyphen stands behind =, as one word: --{waits.name}={shown_word(words[at])}"
        return Fault(at, at + 1, [f"{shown_word(words[at])} is no option of {command}. {says}"], [[*words[: at - 1], joined, *words[at + 1 :]]])
    if waits and isinstance(waits.takes, Number):
        return Fault(at, at + 1, [f"--{waits.name} takes {ranged(waits.takes)}, without a sign; {shown_word(words[at])} is read as an option."])
    letter = next((it.letter for it in options_of(command) if it.letter and it.letter == name.lower()), None)
    near = nearest(name, own)
    if letter or (near and (name not in OPTIONS or name in own)):
        new = (f"-{letter}" if letter else f"--{near}") + mark + value
        return Fault(at, at + 1, [f"There is no option {shown_word(words[at])}. Is it {shown_word(new)}?"], [[*words[:at], new, *words[at + 1 :]]])
    return foreign_option(reading, at, name)


def foreign_option(reading, at, name):
    """The fault of an option of another command, or of none."""
    words, command = reading.words, reading.command
    known = name if name in OPTIONS else {it.letter: it.name for it in OPTIONS.values() if it.letter}.get(name[:1] if words[at][1:2] != "-" else "")
    near = known or nearest(name, list(OPTIONS))
    of_this = f"{command} takes {listed([spelled(it) for it in options_of(command)])}."
    if not near or near in COMMANDS[command]:
        return Fault(at, at + 1, [f"There is no option {shown_word(words[at])}. {of_this}"])
    option = OPTIONS[near]
    has = f"{listed(takers(near))} {'takes' if len(takers(near)) == 1 else 'take'} {spelled(option)}"
    if not known:
        return Fault(at, at + 1, [f"There is no option {shown_word(words[at])}; {has}, and {command} doesn't. {of_this}"])
    is_attached = option.value is None or "=" in words[at] or (words[at][1:2] != "-" and len(words[at]) > 2)
    has_value = not is_attached and at + 1 < len(words) and (words[at + 1] == "-" or not words[at + 1].startswith("-"))
    behind = at + 1 + has_value
    says = f"{command} takes no {spelled(option)}; {has}: leave it out, or take the other command."
    return Fault(at, behind, [says, of_this], [without(words, at, behind)])


def stray(reading, at):
    """The fault of a word that is neither an option nor the value of one."""
    words, command = reading.words, reading.command
    word, left = words[at], without(words, at, at + 1)
    has_source = any(re.match(r"-[qf]|--(query|file)\b", it) for it in words)
    if "query" in COMMANDS[command] and not has_source and source_letter(word):
        letter = source_letter(word)
        what = "the text of the query" if letter == "q" else "the file of a query"
        return Fault(at, at + 1, [f"{shown_word(word)} looks like {what}. Then -{letter} stands in front of it."], [[*words[:at], f"-{letter}", *words[at:]]])
    new = hyphenated(command, word)
    if new:
        says = "The hyphens are others than the ASCII one." if word.startswith(tuple(HYPHENS)) else f"{shown_word(word)} is a word too many."
        return Fault(at, at + 1, [f"{says} Is it {shown_word(new)}?"], [[*words[:at], new, *words[at + 1 :]]])
    before = reading.pending.option if reading.pending else None
    if before is None and words[at - 1] == "--proof":
        return Fault(at, at + 1, [f"--proof stands alone, without a value: leave {shown_word(word)} out."], [left])
    if os.path.isfile(word) and command != "drill":
        return Fault(at, at + 1, [f"{shown_word(word)} is a word too many: a table comes on standard input, < {shown_word(word)}"], [left])
    says = [f"{shown_word(word)} is a word too many: {command} takes {'two numbers, and then ' if command == 'drill' else ''}options. Leave it out."]
    if before and before.takes is None:
        says.append(f"If it belongs to {spelled(before)}: a {'text' if before.value == 'TEXT' else 'name'} with blanks is one word, in quotes.")
    return Fault(at, at + 1, says, [left])


def hyphenated(command, word):
    """An option of the command that is written without hyphens, or with others, as it should be; None where a word is none."""
    bare = word.lstrip(HYPHENS)
    name = bare.split("=")[0]
    if name in COMMANDS[command]:
        return f"--{bare}"
    letters = [it.letter for it in options_of(command) if it.letter]
    return f"-{bare}" if bare != word and name in letters else None


def source_letter(word):
    """The letter of the option that a word lacks, if it looks like a query or like the name of a query's file; None else."""
    if begins_query(word.encode("utf-8", "replace")):
        return "q"
    try:
        with open(word, "rb") as file:
            return "f" if begins_query(file.read(4_096)) else None
    except (OSError, ValueError):
        return None


def begins_query(text):
    """Whether a text begins as a query does."""
    pieces = queries.pieces_of(text[3:] if text.startswith(b"\xef\xbb\xbf") else text)
    return [piece.text for piece in pieces[:2]] == ["EVENT", "("]
