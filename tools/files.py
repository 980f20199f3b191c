"""Why a file can't be read, in words, and which name was meant; and how the tools and the pages are called here."""

import difflib
import errno
import itertools
import os
import shutil
import sys

# What tools/install put somewhere has a list of its files in the folder above the tools, and no pages.
IS_INSTALLED = os.path.isfile(os.path.join(os.path.dirname(os.path.dirname(os.path.realpath(__file__))), "installed"))
# How many names of a folder are looked at, and how alike two names are at least, and so without their endings.
NAMES = 10_000
LIKENESS = 0.6
NO_PERMISSION = "there is no permission to read it: `ls -l` shows whose it is"
REASONS = {
    errno.EISDIR: "it is a folder, and no file: name a file in it",
    errno.EACCES: NO_PERMISSION,
    errno.EPERM: NO_PERMISSION,
    errno.ENOTDIR: "a part of its path is a file, and no folder",
    errno.ELOOP: "its links lead round in a circle",
    errno.ENAMETOOLONG: "its name is too long: -f has a file's name, and -q a text",
}


def tool(name):
    """A tool as it can be typed."""
    return f"spectre-{name}" if IS_INSTALLED else f"tools/{name}"


def called(name):
    """This tool as it was called: by its name alone, where the PATH leads to it."""
    if IS_INSTALLED:
        return tool(name)
    bare = os.path.basename(sys.argv[0])
    return bare if shutil.which(bare) == sys.argv[0] else sys.argv[0]


def page(name):
    """A page as it can be found."""
    return f"{name}, in the folder of the sources" if IS_INSTALLED else name


def is_near(name, other):
    """Whether two names look alike, and that not by their endings alone."""
    stems = (os.path.splitext(name)[0], os.path.splitext(other)[0])
    return all(difflib.SequenceMatcher(None, *pair).ratio() >= LIKENESS for pair in ((name, other), stems))


def nearest_in(folder, name):
    """The name in a folder that looks like this one; None where none does."""
    try:
        with os.scandir(folder or ".") as entries:
            names = [entry.name for entry in itertools.islice(entries, NAMES)]
    except OSError:
        return None
    folded = {other.lower(): other for other in names if other != name}
    close = difflib.get_close_matches(name.lower(), sorted(folded), n=10, cutoff=LIKENESS)
    near = next((it for it in close if is_near(name.lower(), it)), None)
    return None if near is None else folded[near]


def missing(name):
    """What is said of a name that isn't there: the part of its path that is missing, and the one that was meant."""
    if not name:
        return ["its name is empty", "Is a variable of the shell empty?"]
    if name == "-":
        return ["a hyphen is a file's name here; the standard input has the table"]
    if os.path.islink(name):
        return [f"it is a link to {os.readlink(name)!r}, which isn't there"]
    if name.startswith("~") and os.path.exists(os.path.expanduser(name)):
        return ["the shell leaves a ~ as it is behind = and in quotes", f"Is it {os.path.expanduser(name)!r}?"]
    part = name.rstrip("/") or name
    while os.path.dirname(part) and not os.path.isdir(os.path.dirname(part)) and os.path.dirname(part) != part:
        part = os.path.dirname(part)
    folder, last = os.path.split(part)
    what = "it isn't there" if part == name.rstrip("/") else f"there is no folder {part!r}"
    near = nearest_in(folder, last)
    if near is None:
        return [f"{what}, and no name in {os.path.abspath(folder or '.')!r} looks like it"]
    return [what, f"Is it {os.path.join(folder, near) + name[len(part) :]!r}?"]


def is_file(name):
    """Whether the name is that of a file which can be read again, and from its start."""
    return os.path.isfile(name)


def is_read_once(name):
    """Whether what the name stands for gives its bytes once, as a pipe or the shell's <(..) does."""
    return name.startswith(("/dev/fd/", "/dev/stdin", "/proc/self/fd/")) or (os.path.exists(name) and not os.path.isfile(name) and not os.path.isdir(name))


def why_unread(name):
    """Why the file of this name can't be read, and which one was meant, in words; None where it can, or can't be tried."""
    if is_read_once(name):
        return None
    try:
        with open(name, "rb") as file:
            file.read(1)
    except FileNotFoundError:
        return missing(name)
    except OSError as error:
        return [REASONS.get(error.errno, os.strerror(error.errno))]
    return None
