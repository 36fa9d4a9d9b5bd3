"""A source, call by call, with no regard for time: its clock, its tablets, the transactions that were begun and what
was committed, as docs/formats.md says of the commands of a source script. What the tests compare the program with.
"""
from definitions import hash_of, is_plain, record_line

LAST_TIME = 2 ** 62 - 1


def written(record):
    return record[2] if record[1] == "write" else record[4] if record[1] == "intent" else []


class Refused(Exception):
    """A call is refused: nothing changes. The argument is the kind."""


class Transaction:
    def __init__(self):
        # Each write: its operation, its subtransaction, and whether no record has applied or aborted it.
        self.writes = []
        self.sub, self.undone = 0, set()
        self.commit, self.live = None, True

    def waits_at(self, tablet):
        return any(waits and tablet.holds(op) for op, _, waits in self.writes)

    def take(self, tablet):
        self.writes = [(op, sub, waits and not tablet.holds(op)) for op, sub, waits in self.writes]


class Tablet:
    def __init__(self, id, lo, hi, parent=None):
        self.id, self.lo, self.hi, self.parent = id, lo, hi, parent
        self.records, self.open = [], True

    def holds(self, op):
        return self.lo <= hash_of(op[0]) <= self.hi

    def header(self):
        return f"tablet {self.id} {self.lo} {self.hi} " + ("root" if self.parent is None else f"child {self.parent}")


class Machine:
    """A source: its clock, its tablets, the transactions that were begun, and what was committed."""

    def __init__(self, roots, start):
        self.time = start
        self.tablets = [Tablet(id, lo, hi) for id, (lo, hi) in enumerate(roots)]
        self.txns, self.commits = [], []

    def need(self, times):
        if self.time + times > LAST_TIME:
            raise Refused("clock-end")

    def log(self, tablet, *record):
        self.time += 1
        tablet.records.append((self.time,) + record)

    def begun(self, n):
        if not 1 <= n <= len(self.txns):
            raise Refused("unknown")
        return self.txns[n - 1]

    def live(self, n):
        txn = self.begun(n)
        if not txn.live:
            raise Refused("ended")
        return txn

    def free(self, op, but=None):
        """Refused where another live transaction has a waiting write of the key."""
        for txn in self.txns:
            if txn is not but and txn.live and any(waits and other[0] == op[0] for other, _, waits in txn.writes):
                raise Refused("conflict")

    def open_tablet(self, id):
        if id >= len(self.tablets) or not self.tablets[id].open:
            raise Refused("not-open")
        return self.tablets[id]

    def tablet_of(self, op):
        return next(tablet for tablet in self.tablets if tablet.open and tablet.holds(op))

    def begin(self):
        self.txns.append(Transaction())

    def write(self, n, op):
        txn = self.live(n)
        self.free(op, txn)
        self.need(1)
        self.log(self.tablet_of(op), "intent", n, txn.sub, [op])
        txn.writes.append((op, txn.sub, True))

    def put(self, op):
        self.free(op)
        self.need(1)
        self.log(self.tablet_of(op), "write", [op])
        self.commits.append((self.time, 0, 0, [op]))

    def commit(self, n):
        txn = self.live(n)
        self.need(1)
        self.time += 1
        txn.commit, txn.live = self.time, False
        if txn.writes:
            self.commits.append((self.time, n, 0, [op for op, sub, _ in txn.writes if sub not in txn.undone]))

    def abort(self, n):
        txn = self.live(n)
        where = [tablet for tablet in self.tablets if tablet.open and txn.waits_at(tablet)]
        self.need(len(where))
        for tablet in where:
            self.log(tablet, "abort", n)
            txn.take(tablet)
        txn.live = False

    def apply(self, n, id):
        txn, tablet = self.begun(n), self.open_tablet(id)
        if txn.commit is None:
            raise Refused("not-committed")
        if not txn.waits_at(tablet):
            raise Refused("not-there")
        self.need(1)
        self.applied(n, txn, tablet)

    def applied(self, n, txn, tablet):
        self.log(tablet, "apply", n, txn.commit, sorted(txn.undone))
        txn.take(tablet)

    def safe(self, id):
        tablet = self.open_tablet(id)
        self.need(1)
        waiting = [txn.commit for txn in self.txns if txn.commit is not None and txn.waits_at(tablet)]
        self.log(tablet, "safe", min([self.time + 1] + [commit - 1 for commit in waiting]))

    def split(self, id, at):
        tablet = self.open_tablet(id)
        if not tablet.lo < at <= tablet.hi:
            raise Refused("bad-place")
        if len(self.tablets) > 62:
            raise Refused("full")
        self.need(1)
        left = len(self.tablets)
        self.log(tablet, "split", at, left, left + 1)
        tablet.open = False
        self.tablets += [Tablet(left, tablet.lo, at - 1, id), Tablet(left + 1, at, tablet.hi, id)]

    def tick(self, to):
        if to < self.time:
            raise Refused("back")
        self.time = to

    def savepoint(self, n):
        txn = self.live(n)
        if txn.sub == 64:
            raise Refused("full")
        txn.sub += 1

    def rollback(self, n, sub):
        txn = self.live(n)
        if sub == 0 or sub > txn.sub or sub in txn.undone:
            raise Refused("no-savepoint")
        if txn.sub == 64:
            raise Refused("full")
        txn.undone |= set(range(sub, txn.sub + 1))
        txn.sub += 1

    def finish(self):
        opens = [tablet for tablet in self.tablets if tablet.open]
        where = [(n, txn, tablet) for n, txn in enumerate(self.txns, 1) if txn.commit is not None for tablet in opens
                 if txn.waits_at(tablet)]
        self.need(len(where) + len(opens))
        for n, txn, tablet in where:
            self.applied(n, txn, tablet)
        for tablet in opens:
            self.safe(tablet.id)

    def text(self):
        names = [name for tablet in self.tablets for record in tablet.records for op in written(record) for name in op
                 if name is not None]
        version = 1 if all(is_plain(name) for name in names) else 2
        lines = [f"xclog {version}"] + [tablet.header() for tablet in self.tablets]
        lines += [record_line(tablet.id, record) for tablet in self.tablets for record in tablet.records]
        return "\n".join(lines + ["end", ""])

    def safe_time(self):
        """The least last safe value over the open tablets; one that has none has that of its nearest ancestor."""
        def last(tablet):
            values = [record[2] for record in tablet.records if record[1] == "safe"]
            return values[-1] if values else 0 if tablet.parent is None else last(self.tablets[tablet.parent])
        return min(last(tablet) for tablet in self.tablets if tablet.open)
