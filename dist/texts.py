"""The texts of help.txt as a man page, and as completions for bash and zsh. tools/install writes them.

A section begins with a line `== NAME: WHAT IT DOES`. In it, lines that begin with four blanks are to be typed, those with
two blanks are a term and its meaning, and all others are text. Where terms begin with a hyphen they are options.
"""

import re
from collections import namedtuple

# A section: its name, what its heading says of it, and its lines.
Section = namedtuple("Section", "name about lines")
# An option: its words, as -f and --file; the name of its value, empty where it has none; its meaning.
Option = namedtuple("Option", "words value about")

# What may stand for the value of this name, besides the names of files.
VALUES = {"RULE": ["refuse", "drop"], "NAME": ["even", "steady", "markov"]}
# Words that stand in the place of a command.
OTHER_WORDS = ["help", "--help", "--version"]


def sections_of(text):
    """The sections by their names, in their order."""
    found = {}
    for line in text.splitlines():
        if line.startswith("== "):
            name, _, about = line[3:].partition(": ")
            found[name] = Section(name, about, [])
        elif found:
            found[name].lines.append(line)
    return found


def commands_of(sections):
    """The sections of the commands: they have a meaning in their heading."""
    return [section for section in sections.values() if section.about]


def term_of(line):
    """The term of a line and its meaning."""
    term, _, meaning = line.strip().partition("  ")
    return term, meaning.strip()


def options_of(section):
    """The options of a command."""
    found = []
    for line in section.lines:
        if line.startswith("  -"):
            term, about = term_of(line)
            parts = [part.split() for part in term.split(", ")]
            found.append(Option([part[0] for part in parts], " ".join(parts[0][1:]), about))
    return found


# ---- The man page.


def roff(text):
    """A text as roff has it: hyphens and quotes as they are typed, and no line that reads as a request."""
    for plain, escaped in (("\\", "\\e"), ("-", "\\-"), ("`", "\\(ga"), ("'", "\\(aq")):
        text = text.replace(plain, escaped)
    return "\\&" + text if text.startswith(".") else text


def roff_term(term, meaning):
    return [".TP", f"\\fB{roff(term)}\\fR", roff(meaning)]


def roff_lines(section, commands):
    """The lines of a section in roff; these commands stand where it lists them."""
    found, is_typed = [], False
    for line in section.lines:
        if is_typed != line.startswith("    "):
            is_typed = not is_typed
            found.extend([".PP", ".nf", ".RS 4"] if is_typed else [".RE", ".fi"])
        if line == "{commands}":
            found.extend(part for command in commands for part in roff_term(command.name, command.about))
        elif not line:
            found.append(".PP")
        elif line.startswith("  ") and not is_typed:
            found.extend(roff_term(*term_of(line)))
        else:
            found.append(roff(line.strip()))
    return found + ([".RE", ".fi"] if is_typed else [])


def man_page(sections, tools):
    """The man page of all sections, which names the tools, too."""
    version = " ".join(sections["version"].lines).strip()
    general, commands = sections["spectre"], commands_of(sections)
    first = " ".join(general.lines).split(".")[0].replace("spectre ", "", 1)
    lines = [f'.TH SPECTRE 1 "" "spectre {version}" ""', ".SH NAME", f"spectre \\- {roff(first)}", ".SH DESCRIPTION"]
    lines.extend(roff_lines(general, commands))
    lines.append(".SH COMMANDS")
    for command in commands:
        lines.extend([f".SS spectre {command.name}", roff(f"It {command.about}."), *roff_lines(command, commands)])
    lines.append(".SH SEE ALSO")
    for tool in tools:
        lines.extend([".PP", roff(f"spectre-{tool} --help")])
    return "\n".join(lines) + "\n"


# ---- Completions.

BASH = r"""# Completions of spectre for bash, as tools/install makes them of the help texts.
_spectre() {
  local word=${COMP_WORDS[COMP_CWORD]} before=${COMP_WORDS[COMP_CWORD - 1]} words=
  # A value behind = belongs to the option before that.
  if [ "$word" = = ]; then
    word=
  elif [ "$before" = = ]; then
    before=${COMP_WORDS[COMP_CWORD - 2]}
  fi
  COMPREPLY=()
  case $before in
    {files} | '<' | '>' | '>>')
      compopt -o filenames 2>/dev/null
      mapfile -t COMPREPLY < <(compgen -f -- "$word")
      return
      ;;
{values}
    *)
      case $COMP_CWORD-${COMP_WORDS[1]} in
        1-*) words='{first}' ;;
        2-help) words='{names}' ;;
{commands}
      esac
      ;;
  esac
  mapfile -t COMPREPLY < <(compgen -W "$words" -- "$word")
}
complete -F _spectre spectre
"""


def filled(template, **parts):
    """A template with these parts in the place of their names in braces."""
    for name, part in parts.items():
        template = template.replace("{" + name + "}", part)
    return template


def bash_completions(sections):
    commands = commands_of(sections)
    valued = {word: option.value for command in commands for option in options_of(command) for word in option.words if option.value}
    kinds = [(value, [word for word in valued if valued[word] == value]) for value in dict.fromkeys(valued.values())]
    values = [f"    {' | '.join(words)}) words='{' '.join(VALUES.get(value, []))}' ;;" for value, words in kinds if value != "FILE"]
    lines = [f"        *-{it.name}) words='{' '.join(word for option in options_of(it) for word in option.words)}' ;;" for it in commands]
    names = [command.name for command in commands]
    return filled(
        BASH,
        files=" | ".join(word for value, words in kinds if value == "FILE" for word in words),
        values="\n".join(values),
        first=" ".join(names + OTHER_WORDS),
        names=" ".join(names),
        commands="\n".join(lines),
    )


ZSH = r"""#compdef spectre
# Completions of spectre for zsh, as tools/install makes them of the help texts.
local -a spectre_commands
spectre_commands=(
{names}
)
if (( CURRENT == 2 )); then
  _describe command spectre_commands
  return
fi
local spectre_command=$words[2]
shift words
(( CURRENT-- ))
case $spectre_command in
  help) _describe command spectre_commands ;;
{commands}
esac
"""


def zsh_quoted(text):
    """A text in single quotes."""
    return "'" + text.replace("'", "'\\''") + "'"


def zsh_option(option):
    """The words of one option for `_arguments`: each of them excludes the others."""
    about = re.sub(r"([\[\]\\])", r"\\\1", option.about)
    action = "_files" if option.value == "FILE" else f"({' '.join(VALUES[option.value])})" if option.value in VALUES else ""
    value = f":{option.value}:{action or ' '}" if option.value else ""
    return [zsh_quoted(f"({' '.join(option.words)}){word}[{about}]{value}") for word in option.words]


def zsh_completions(sections):
    commands = commands_of(sections)
    named = [zsh_quoted(f"{command.name}:{command.about}") for command in commands]
    named += [zsh_quoted(f"{word}:tells how it is used" if "help" in word else f"{word}:tells what it was built of") for word in OTHER_WORDS]
    lines = []
    for command in commands:
        words = [word for option in options_of(command) for word in zsh_option(option)]
        lines.append(f"  {command.name})\n    _arguments \\\n      " + " \\\n      ".join(words) + "\n    ;;")
    return filled(ZSH, names="\n".join("  " + name for name in named), commands="\n".join(lines))
