"""What the benches share: the program and its runs, tables of events, scattered numbers, callgrind's counts, and the file of
their figures."""
import collections, csv, datetime, functools, operator, os, re, subprocess, sys, tempfile, time

TOP = os.path.dirname(os.path.dirname(os.path.abspath(__file__)))
# The figures that the benches have appended, the newest last.
FIGURES = os.path.join(TOP, "bench", "figures.csv")
# Of a figure: its day; the command that measured it; what it counts, with the unit; of which query or case; with how many
# instances, which batch, and how many events, where that is said; and the figure.
COLUMNS = ["day", "command", "what", "query", "instances", "batch", "events", "figure"]

# Seconds by the clock; processor seconds; bytes of memory at most; lines written, where they were counted.
Ran = collections.namedtuple("Ran", "seconds processor memory lines")


def stop(why):
    sys.exit("%s: %s" % (os.path.basename(sys.argv[0]), why))


@functools.lru_cache(maxsize=None)
def program():
    """The path of the program itself, which is built where it must be. It is asked for once, since each start of
    ./spectre takes some time to find it."""
    asked = subprocess.run([os.path.join(TOP, "dist", "program")], stdout=subprocess.PIPE, text=True)
    if asked.returncode != 0:
        sys.exit(asked.returncode)
    return asked.stdout.rstrip("\n")


def run(words, source, counts_lines=False, path=None):
    """A run of the program with these words, or of the one at a path. `source` is the path of its input, or a function
    that writes the input to a descriptor. A run that does not end with status 0 stops the bench."""
    command, writes = [path or program(), *words], callable(source)
    with open(os.devnull if writes else source, "rb") as rows:
        begin = time.monotonic()
        child = subprocess.Popen(
            command,
            stdin=subprocess.PIPE if writes else rows,
            stdout=subprocess.PIPE if counts_lines else subprocess.DEVNULL,
        )
        if writes:
            source(child.stdin.fileno())
            child.stdin.close()
        lines = child.stdout.read().count(b"\n") if counts_lines else None
        _, status, usage = os.wait4(child.pid, 0)
        seconds = time.monotonic() - begin
    child.returncode = os.waitstatus_to_exitcode(status)
    if child.returncode != 0:
        stop("the program answered %d" % child.returncode)
    return Ran(seconds, usage.ru_utime + usage.ru_stime, usage.ru_maxrss * 1024, lines)


def best(words, source, by="seconds", path=None):
    """The best of three runs, by the clock or by `processor`: what else runs on the machine only adds to a time."""
    return min((run(words, source, path=path) for _ in range(3)), key=operator.attrgetter(by))


def scattered(count):
    """The numbers 1 to `count`, each with a number below 2^32 that is the same in each run, and looks drawn by lot."""
    x = 7
    for at in range(1, count + 1):
        x = (1664525 * x + 1013904223) % 2**32
        yield at, x


def table(path, heading, rows):
    """Writes a table of events, with a line for the heading and for each row."""
    with open(path, "w") as out:
        out.write(heading + "\n")
        for row in rows:
            out.write(row + "\n")


def profile(words, path):
    """The instructions of a run over the table, by callgrind. For the whole run, whose name is PROGRAM TOTALS, and then
    for each function, the dearest first: how many, the name, and callgrind's line."""
    with tempfile.NamedTemporaryFile() as counts, open(path) as rows:
        command = ["valgrind", "--tool=callgrind", "--callgrind-out-file=" + counts.name, program(), *words]
        if subprocess.run(command, stdin=rows, capture_output=True).returncode != 0:
            stop("callgrind failed")
        text = subprocess.run(["callgrind_annotate", "--threshold=99.9", counts.name], capture_output=True, text=True).stdout
    found = re.finditer(r"^ *([\d,]+) \([ \d.]+%\) +(\S.*)$", text, re.M)
    return [(int(it[1].replace(",", "")), it[2], it[0]) for it in found]


def keep(what, query, figure, instances="", batch="", events=""):
    """Appends a figure to the file of figures where the bench was called with the word `append`."""
    if "append" not in sys.argv[1:]:
        return
    words = [os.path.basename(sys.argv[0]), *(word for word in sys.argv[1:] if word != "append")]
    row = [datetime.date.today(), "bench/" + " ".join(words), what, query, instances, batch, events, "%.3g" % figure]
    with open(FIGURES, "a", newline="") as out:
        csv.writer(out, lineterminator="\n").writerow(row)


def figures():
    """The rows of the file of figures, in their order, each by the names of its columns."""
    with open(FIGURES, newline="") as source:
        return list(csv.DictReader(source))
