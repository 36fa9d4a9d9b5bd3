"""The definitions of docs/model.md, written out plainly, key by key and record by record, with no regard for time or
memory: what the tests compare the program with. And the spelling of logs as a text.

A key and a value are bytes, an operation is a key and a value, which is None where the key is removed. A record is a
tuple: its log time, its kind, and the kind's fields. Those of a write are the operations; of an intent the
transaction, the subtransaction or 0, and the operations; of an apply the transaction, the commit, and the list of
subtransactions that were rolled back; of an abort the transaction; of a safe-time record the value; of a split the
first hash of the right child, and both children.
"""

PLAIN = b"abcdefghijklmnopqrstuvwxyzABCDEFGHIJKLMNOPQRSTUVWXYZ0123456789_.-/:"


def hash_of(key):
    h = 0
    for byte in key:
        h = (31 * h + byte) % 65536
    return h


class Tablet:
    """A tablet of the source: its number, its range, its parent, or None, and its records."""

    def __init__(self, id, lo, hi, parent=None):
        self.id, self.lo, self.hi, self.parent, self.records = id, lo, hi, parent, []

    def holds(self, key):
        return self.lo <= hash_of(key) <= self.hi

    def header(self):
        return f"tablet {self.id} {self.lo} {self.hi} " + ("root" if self.parent is None else f"child {self.parent}")


# ---- what counts of a log


def break_of(floor, last, split, record):
    """The first order rule that the record breaks, or None."""
    time, kind, *fields = record
    commit = fields[1] if kind == "apply" else None
    value = fields[0] if kind == "safe" else None
    rules = [
        ("time-back", time <= last),
        ("commit-ahead", commit is not None and commit > time),
        ("commit-below", commit is not None and commit <= floor),
        ("safe-back", value is not None and value < floor),
        ("safe-ahead", value is not None and value > time),
        ("after-split", split),
    ]
    return next((name for name, broken in rules if broken), None)


class Accepted:
    """The accepted records of a tablet, its final floor and last log time, and the number and kind of its break."""

    def __init__(self, tablet, before):
        self.tablet, self.records, self.halt = tablet, [], None
        self.parent = None if tablet.parent is None else before[tablet.parent]
        self.reached = self.parent is None or (self.parent.reached and self.parent.split)
        self.floor, self.last = (0, 0) if self.parent is None else (self.parent.floor, self.parent.last)
        self.split = False
        for record in tablet.records if self.reached else []:
            kind = break_of(self.floor, self.last, self.split, record)
            if kind:
                self.halt = (len(self.records) + 1, kind)
                break
            self.records.append(record)
            self.last = record[0]
            self.floor = record[2] if record[1] == "safe" else self.floor
            self.split = self.split or record[1] == "split"


def accepted_of(tablets):
    """The accepted records of all tablets, in order of number."""
    accepted = []
    for tablet in tablets:
        accepted.append(Accepted(tablet, accepted))
    return accepted


# ---- transactions, and what agrees


def applies(accepted, n):
    """The applies of a transaction, those of the least tablet first."""
    return [record for a in accepted for record in a.records if record[1] == "apply" and record[2] == n]


def applied(accepted):
    """The transactions that have an apply, by rising number."""
    return sorted({record[2] for a in accepted for record in a.records if record[1] == "apply"})


def waits(n, key, path):
    """Whether an operation of transaction n on the key waits after the records of a path."""
    found = False
    for _, kind, *fields in path:
        if kind == "intent" and fields[0] == n and any(name == key for name, _ in fields[2]):
            found = True
        if kind in ("apply", "abort") and fields[0] == n:
            found = False
    return found


def keys_of(n, accepted):
    """The keys of a transaction's operations."""
    return {key for a in accepted for r in a.records if r[1] == "intent" and r[2] == n for key, _ in r[4]}


def straggles(n, commit, a, accepted):
    """Whether n waits, on some key's path, at a safe record of this tablet of value at or above the commit."""
    for key in keys_of(n, accepted):
        if a.tablet.holds(key):
            above = [b for b in accepted if b.tablet.holds(key) and b.tablet.id < a.tablet.id]
            path = [record for b in above for record in b.records]
            for i, record in enumerate(a.records):
                if record[1] == "safe" and record[2] >= commit and waits(n, key, path + a.records[:i]):
                    return True
    return False


def disagreement(accepted):
    """The case of the least transaction, then of the least tablet, then the first kind, or None."""
    for n in applied(accepted):
        _, _, _, commit, undone = applies(accepted, n)[0]
        for a in accepted:
            cases = [
                ("commit-differs", any(r[1] == "apply" and r[2] == n and r[3] != commit for r in a.records)),
                ("rollback-differs", any(r[1] == "apply" and r[2] == n and r[4] != undone for r in a.records)),
                ("late-intent", any(r[1] == "intent" and r[2] == n and r[0] >= commit for r in a.records)),
                ("aborted", any(r[1] == "abort" and r[2] == n for r in a.records)),
                ("straggler", straggles(n, commit, a, accepted)),
            ]
            for kind, stands in cases:
                if stands:
                    return n, a.tablet.id, kind
    return None


def commits(accepted):
    """The commits, in order: each with its time, its transaction or 0, its tablet, and its operations."""
    found = [(r[0], 0, a.tablet.id, r[2]) for a in accepted for r in a.records if r[1] == "write"]
    for n in applied(accepted):
        _, _, _, commit, undone = applies(accepted, n)[0]
        intents = [(r[0], a.tablet.id, r[4]) for a in accepted for r in a.records
                   if r[1] == "intent" and r[2] == n and r[3] not in undone]
        ops = [op for _, _, some in sorted(intents, key=lambda intent: intent[:2]) for op in some]
        found.append((commit, n, 0, ops))
    return sorted(found, key=lambda entry: entry[:3])


def rows(all_commits, t):
    """The rows that the commits up to the time t leave."""
    found = {}
    for commit, _, _, ops in all_commits:
        for key, value in ops if commit <= t else []:
            if value is None:
                found.pop(key, None)
            else:
                found[key] = value
    return found


# ---- texts


def is_plain(bytes_):
    return all(byte in PLAIN for byte in bytes_)


def word(bytes_):
    """The word of a key or of a value: plain bytes stand for themselves."""
    return "".join(chr(byte) if byte in PLAIN else f"%{byte:02X}" for byte in bytes_)


def op_word(op):
    key, value = op
    return f"-{word(key)}" if value is None else f"+{word(key)}={word(value)}"


def ops_of(record):
    """The operations of a record, of whatever kind."""
    return record[2] if record[1] == "write" else record[4] if record[1] == "intent" else []


def record_line(id, record):
    time, kind, *fields = record
    words = [id, time, kind]
    if kind == "write":
        words += [op_word(op) for op in fields[0]]
    elif kind == "intent":
        txn, sub, ops = fields
        words += [txn] + (["sub", sub] if sub else []) + [op_word(op) for op in ops]
    elif kind == "apply":
        txn, commit, without = fields
        words += [txn, commit] + (["without"] + without if without else [])
    else:
        words += fields
    return " ".join(str(word) for word in words)


def logs_text(tablets, rng):
    """The logs as a text, of any version that can spell them, the lines of different tablets mixed by chance."""
    records = [record for tablet in tablets for record in tablet.records]
    names = [name for record in records for op in ops_of(record) for name in op if name is not None]
    version = rng.choice([1, 2]) if all(is_plain(name) for name in names) else 2
    lines = [f"xclog {version}"] + [tablet.header() for tablet in tablets]
    left = [(tablet.id, list(tablet.records)) for tablet in tablets if tablet.records]
    while left:
        id, records = rng.choice(left)
        lines.append(record_line(id, records.pop(0)))
        left = [(i, rs) for i, rs in left if rs]
    return "\n".join(lines + ["end", ""])
