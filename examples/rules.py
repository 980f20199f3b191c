"""An independent reading of the rules in docs/language.md, for the count.py of each example.

It shares nothing with the program: windows are lists of rows, a run is a list of pairs, and each rule is
looked up anew at each event. A pattern is a list of elements, each (kind, names) with the kind "one", "plus",
"set" or "never", which is a negated name; a predicate takes the row and the last row bound to each earlier name.
"""


def take(pattern, predicates, run, row):
    """The name under which a run takes a row, or None."""
    bound = {name: other for name, _, other in run}
    for kind, names in pattern:
        if kind == "never":
            continue
        lacking = [name for name in names if name not in bound]
        if lacking:
            for name in lacking:
                if predicates[name](row, bound):
                    return name
            if len(lacking) < len(names):
                return None
            break
    for kind, names in pattern:
        if run and kind == "plus" and names[0] == run[-1][0] and predicates[names[0]](row, bound):
            return names[0]
    return None


def guards(pattern, run):
    """The negated names behind the element of a run's last row, where each name of that element has a row."""
    bound = {name for name, _, _ in run}
    for place, (kind, names) in enumerate(pattern):
        if run and kind != "never" and run[-1][0] in names and bound.issuperset(names):
            behind = [kind == "never" and names[0] for kind, names in pattern[place + 1 :]]
            return behind[: behind.index(False)] if False in behind else behind
    return []


def ended(pattern, predicates, run, row):
    """Whether a row that a run doesn't take ends it: it fulfils a name that guards the run."""
    bound = {name: other for name, _, other in run}
    return any(predicates[name](row, bound) for name in guards(pattern, run))


def runs_over(pattern, predicates, select, consumed, rows):
    """What these (number, row) come to: the runs that are open, those that completed, each in order, and all that
    began, in the order of their beginning. A run is a list of (name, number, row)."""
    count = sum(len(names) for kind, names in pattern if kind != "never")

    def used(run):
        return {number for name, number, _ in run if name in consumed}

    def complete(run):
        return len({name for name, _, _ in run}) == count

    runs, done, began = [], [], []

    def finish(run):
        runs.remove(run)
        done.append(run)
        gone = used(run)
        runs[:] = [other for other in runs if not any(number in gone for _, number, _ in other)]
        return gone

    for number, row in rows:
        gone, none_before, left = set(), not runs, False
        first = take(pattern, predicates, [], row)
        for run in list(runs):
            if run not in runs or number in gone:
                continue
            name = take(pattern, predicates, run, row)
            if name is not None:
                run.append((name, number, row))
                if complete(run):
                    gone |= finish(run)
            elif (select == "LAST" and first is not None) or ended(pattern, predicates, run, row):
                runs.remove(run)
                left = True
        begins = {"FIRST": none_before, "LAST": none_before or left, "EACH": number not in gone and len(runs) < 64}
        if first is not None and begins[select]:
            runs.append([(first, number, row)])
            began.append(runs[-1])
            if complete(runs[-1]):
                finish(runs[-1])
    return runs, done, began


def line(names, consumed, window, count, run):
    """The line of a match."""
    bound = "".join(" %s=%s" % (name, ",".join(str(n) for other, n, _ in run if other == name)) for name in names)
    used = sorted(number for name, number, _ in run if name in consumed)
    return "w=%d m=%d%s used=%s" % (window, count, bound, ",".join(map(str, used)) or "-")


def write(names, pattern, predicates, select, consumed, windows, rows):
    """Prints the lines of all windows, which are lists of the numbers of rows, from 1."""
    gone, count = set(), 0
    for window, members in enumerate(windows, 1):
        given = [(number, rows[number - 1]) for number in members if number not in gone]
        for run in runs_over(pattern, predicates, select, consumed, given)[1]:
            count += 1
            gone |= {number for name, number, _ in run if name in consumed}
            print(line(names, consumed, window, count, run))
