"""An independent reading of docs/machine.md, for the count.py of an example that is stepped by a schedule.

It shares nothing with the program. A version is a dict, its runs are worked out anew from the rows that it read and did
not skip, and what is suppressed for it is gathered anew whenever it is asked for.
"""
import rules


class Refused(Exception):
    pass


def text(numbers):
    return ",".join(map(str, sorted(numbers))) or "-"


class Machine:
    """`windows` gives, of how many rows are fed and whether input has ended, each window that has begun: the numbers of
    its rows so far, and whether it is closed. `query` has the arguments of rules.runs_over but the last one."""

    def __init__(self, names, query, windows, rows, live=64):
        self.names, self.query, self.windows_of, self.rows, self.bound = names, query, windows, rows, live
        self.consumed_names = query[3]
        self.fed, self.ended, self.finished, self.count = 0, False, 0, 0
        self.consumed, self.versions, self.tickets = set(), {}, {}
        self.ids = self.numbers = 1

    # What a version is

    def windows(self):
        return self.windows_of(self.fed, self.ended)

    def used(self, run):
        return {number for name, number, _ in run if name in self.consumed_names}

    def runs(self, read, skipped):
        """Of these numbers: the open runs and the completed ones, by their numbers, those in the order of completion."""
        given = [(number, self.rows[number - 1]) for number in read if number not in skipped]
        opened, done, began = rules.runs_over(*self.query, given)
        number = {id(run): at for at, run in enumerate(began, 1)}
        return {number[id(run)]: run for run in opened}, {number[id(run)]: run for run in done}

    def runs_of(self, version):
        opened, done = self.runs(version["read"], version["skipped"])
        return ({} if version["done"] else opened), done

    def groups(self, version):
        return {number: self.used(run) for number, run in self.runs_of(version)[0].items() if self.used(run)}

    def suppressed(self, version):
        gone = set(self.consumed)
        while version["parent"] is not None:
            above = self.versions[version["parent"]]
            for run in self.runs_of(above)[1].values():
                gone |= self.used(run)
            for run in version["label"]:
                gone |= self.groups(above)[run]
            version = above
        return gone

    def out(self, version):
        return next((at for at, ticket in self.tickets.items() if ticket["version"] == version), None)

    def conflict(self, version):
        of = self.versions[version]
        reads = set(of["read"]) - of["skipped"]
        ticket = self.tickets.get(self.out(version))
        if ticket:
            reads |= set(ticket["lent"]) - ticket["snapshot"]
        return min(reads & self.suppressed(of), default=None)

    # What changes versions

    def fresh(self, parent, window, label):
        new, self.ids = self.ids, self.ids + 1
        self.versions[new] = {"parent": parent, "window": window, "label": label, "read": [], "skipped": set(), "done": False}
        return new

    def below(self, version):
        return [at for at, other in self.versions.items() if other["parent"] == version]

    def lose(self, version):
        for child in self.below(version):
            self.lose(child)
        del self.versions[version]

    def anew(self, version):
        """The version begins anew, with a new id, and all below it goes."""
        old = self.versions[version]
        self.lose(version)
        return self.fresh(old["parent"], old["window"], old["label"])

    def root(self):
        return next((at for at, version in self.versions.items() if version["parent"] is None), None)

    def need(self, holds, *refusal):
        if not holds:
            raise Refused(" ".join(map(str, refusal)))

    # The steps; each gives the lines that it prints

    def feed(self):
        if self.fed == len(self.rows):
            return ["feed none"]
        self.need(not self.ended, 1)
        self.fed += 1
        return ["feed %d" % self.fed]

    def end(self):
        self.need(not self.ended, 1)
        self.ended = True
        return ["end"]

    def spawn(self, parent, label=None):
        begun = len(self.windows())
        if parent == "root":
            self.need(self.root() is None, 4, self.root())
            self.need(self.finished < begun, 5, self.finished + 1)
            return ["spawn %d" % self.fresh(None, self.finished + 1, set())]
        parent, label = int(parent), set() if label == "-" else set(map(int, label.split(",")))
        self.need(parent in self.versions, 2, parent)
        window = self.versions[parent]["window"] + 1
        self.need(window <= begun, 5, window)
        for run in sorted(label):
            self.need(run in self.groups(self.versions[parent]), 3, run)
        for child in self.below(parent):
            self.need(self.versions[child]["label"] != label, 4, child)
        self.need(len(self.versions) < self.bound, 6, len(self.versions), self.bound)
        return ["spawn %d" % self.fresh(parent, window, label)]

    def lease(self, version, most):
        version, most = int(version), int(most)
        self.need(version in self.versions, 2, version)
        self.need(self.out(version) is None, 7, self.out(version))
        self.need(self.conflict(version) is None, 8, self.conflict(version))
        of = self.versions[version]
        members, closed = self.windows()[of["window"] - 1]
        position = len(of["read"])
        lent = members[position:position + most]
        closes = closed and position + len(lent) == len(members)
        self.need(not of["done"] and (lent or closes), 10, position)
        ticket, self.numbers = self.numbers, self.numbers + 1
        first, snapshot = members[0] + position, self.suppressed(of) & set(lent)
        self.tickets[ticket] = {"version": version, "first": first, "lent": lent, "snapshot": snapshot, "closes": closes, "read": 0, "closed": False}
        return ["lease %d first=%d count=%d skip=%s closes=%d" % (ticket, first, len(lent), text(snapshot), closes)]

    def event(self, at):
        self.need(int(at) in self.tickets, 13, at)
        ticket = self.tickets[int(at)]
        if ticket["read"] < len(ticket["lent"]):
            number = ticket["lent"][ticket["read"]]
            ticket["read"] += 1
            return ["event %s %d%s" % (at, number, " skip" if number in ticket["snapshot"] else "")]
        self.need(ticket["closes"] and not ticket["closed"], 10, ticket["read"])
        ticket["closed"] = True
        return ["event %s close" % at]

    def give_back(self, at):
        self.need(int(at) in self.tickets, 13, at)
        ticket = self.tickets.pop(int(at))
        version = self.versions.get(ticket["version"])
        if version is None:
            return ["return %s stale" % at]
        open_before, done_before = self.runs_of(version)
        read = ticket["lent"][: ticket["read"]]
        version["read"] += read
        version["skipped"] |= set(read) & ticket["snapshot"]
        version["done"] = ticket["closed"]
        open_after, done_after = self.runs_of(version)
        completed = {run for run in done_after if run not in done_before and self.used(done_after[run])}
        gone = {run for run in open_before if run not in open_after and run not in completed}
        for child in self.below(ticket["version"]):
            label = self.versions[child]["label"]
            if completed <= label and not gone & label:
                self.versions[child]["label"] = label - completed
            else:
                self.lose(child)
        return ["return %s home" % at]

    def roll(self, version):
        self.need(int(version) in self.versions, 2, version)
        self.need(self.conflict(int(version)) is not None, 9, version)
        return ["roll %s %d" % (version, self.anew(int(version)))]

    def finish(self):
        root = self.root()
        self.need(root is not None and self.versions[root]["done"], 11, self.finished)
        children, done = self.below(root), self.runs_of(self.versions.pop(root))[1].values()
        lines = []
        self.finished += 1
        for run in done:
            self.count += 1
            self.consumed |= self.used(run)
            lines.append(rules.line(self.names, self.consumed_names, self.finished, self.count, run))
        heir = children[0] if children else None
        if heir is not None:
            self.versions[heir]["parent"] = None
            if self.conflict(heir) is not None:
                heir = self.anew(heir)
        return ["finish %d matches=%d root=%s" % (self.finished, len(lines), heir or "-"), *lines]

    def state(self):
        whole = len(self.windows()), self.finished, len(self.versions), text(self.consumed)
        lines = ["state events=%d ended=%d windows=%d finished=%d live=%d consumed=%s" % (self.fed, self.ended, *whole)]
        for at, of in sorted(self.versions.items()):
            groups = ";".join("%d:%s" % (run, text(group)) for run, group in sorted(self.groups(of).items())) or "-"
            held = text(of["label"]), len(of["read"]), text(of["skipped"]), of["done"], self.out(at) or "-", groups
            lines.append("v=%d parent=%s window=%d label=%s position=%d skipped=%s done=%d out=%s groups=%s" % (at, of["parent"] or "-", of["window"], *held))
        for at, of in sorted(self.tickets.items()):
            held = of["first"], len(of["lent"]), of["read"], text(of["snapshot"]), of["closes"]
            lines.append("t=%d v=%d first=%d count=%d read=%d snapshot=%s closes=%d" % (at, of["version"], *held))
        return lines

    def step(self, words):
        call = self.give_back if words[0] == "return" else getattr(self, words[0])
        try:
            return call(*words[1:])
        except Refused as why:
            return ["%s refused %s" % (words[0], why)]


def write(machine, schedule):
    """Prints what each step of the schedule's lines prints."""
    for words in map(str.split, schedule):
        if words:
            print("\n".join(machine.step(words)))
