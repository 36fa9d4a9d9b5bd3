#!/usr/bin/env python3
"""workloads.py [PROGRAM [NUMBER]]

Makes generated workloads as docs/formats.md says, drains each to target tablets that keep plain lists of versions and
of operations that wait, and scans them. `xcr gen` is run on the same numbers: of NUMBER (100) small ones, and of some
that are known or large. Of one with 20,000 steps the logs are replayed too: a drain, scans, reads at many times, prunes
and a failover answer as the plain lists do. Prints each difference, and closes with 'N passed, M failed'.
"""
import bisect, os, random, subprocess, sys, tempfile
from definitions import hash_of
from machine import Machine

ROOT = os.path.dirname(os.path.dirname(os.path.abspath(__file__)))
QUARTERS = [(0, 16383), (16384, 32767), (32768, 49151), (49152, 65535)]
ALL = 2**64 - 1
KNOWN = [
    ("0 1", "records 6 commits 0 safe 3 rows 0 digest 0"),
    ("0 3", "records 9 commits 1 safe 6 rows 1 digest 1271599064"),
    ("1 100000", "records 186308 commits 81352 safe 223973 rows 943 digest 629626475"),
]


def words(number):
    """SplitMix64 from this number on."""
    state = number
    while True:
        state = (state + 0x9E3779B97F4A7C15) & ALL
        z = state
        z = (z ^ (z >> 30)) * 0xBF58476D1CE4E5B9 & ALL
        z = (z ^ (z >> 27)) * 0x94D049BB133111EB & ALL
        yield z ^ (z >> 31)


class Workload(Machine):
    """A source at which the steps of a workload are done. Between two steps no transaction is live, so no call looks
    for a conflict, and what isn't applied yet is in a list of its own."""

    def __init__(self, number, size):
        super().__init__(QUARTERS, 0)
        self.unapplied = []
        drawn = words(number)
        for i in range(1, size + 1):
            if i % 1000 == 0 and len(self.tablets) < 16:
                self.split_widest()
            self.step(next(drawn))
        self.apply_all()
        for tablet in self.opens():
            self.safe(tablet.id)

    def opens(self):
        return [tablet for tablet in self.tablets if tablet.open]

    def free(self, op, but=None):
        pass

    def split_widest(self):
        widest = max(self.opens(), key=lambda tablet: (tablet.hi - tablet.lo, -tablet.id))
        self.split(widest.id, widest.lo + (widest.hi - widest.lo + 1) // 2)

    def step(self, w):
        c, a, b, v = w % 16, w // 16 % 1000, w // 16000 % 1000, w // 16000000 % 1000
        key, other, value = f"k{a}".encode(), f"k{b}".encode(), str(v).encode()
        if c <= 5:
            self.put((key, value))
        elif c == 6:
            self.put((key, None))
        elif c == 13:
            self.apply_all()
        elif c == 14:
            opens = self.opens()
            self.safe(opens[a % len(opens)].id)
        else:
            self.begin()
            n = len(self.txns)
            self.write(n, (key, value))
            if c == 15:
                self.abort(n)
            else:
                self.write(n, (other, value))
                self.commit(n)
                self.unapplied.append(n)

    def apply_all(self):
        for n in self.unapplied:
            txn = self.txns[n - 1]
            for tablet in self.opens():
                if txn.waits_at(tablet):
                    self.applied(n, txn, tablet)
        self.unapplied = []

    def safe(self, id):
        tablet = self.tablets[id]
        waiting = [self.txns[n - 1].commit for n in self.unapplied if self.txns[n - 1].waits_at(tablet)]
        self.log(tablet, "safe", min([self.time + 1] + [commit - 1 for commit in waiting]))


class PlainTablet:
    """A target tablet: its versions in order, and the operations that wait in the order in which they came."""

    def __init__(self, lo, hi):
        self.lo, self.hi, self.versions, self.held, self.place = lo, hi, [], [], 0

    def add(self, op, commit, n):
        bisect.insort(self.versions, (op[0], commit, n, self.place, op[1]))
        self.place += 1

    def deliver(self, tablet, record):
        mine = lambda op: self.lo <= hash_of(op[0]) <= self.hi
        if record[1] == "write":
            for op in filter(mine, record[2]):
                self.add(op, record[0], 0)
        elif record[1] == "intent":
            self.held += [(record[2], op) for op in record[4] if mine(op)]
        elif record[1] in ("apply", "abort"):
            taken = [n == record[2] and tablet.holds(op) for n, op in self.held]
            if record[1] == "apply":
                for (n, op), is_taken in zip(self.held, taken):
                    if is_taken:
                        self.add(op, record[3], n)
            self.held = [kept for kept, is_taken in zip(self.held, taken) if not is_taken]

    def at(self, t):
        """Each key's value at t, or None."""
        return {key: value for key, commit, _, _, value in self.versions if commit <= t}


class PlainTarget:
    """Target tablets, drained of all logs, one source tablet after another."""

    def __init__(self, workload):
        self.tablets = [PlainTablet(lo, hi) for lo, hi in QUARTERS]
        for tablet in workload.tablets:
            for record in tablet.records:
                for target in self.tablets:
                    target.deliver(tablet, record)

    def at(self, t):
        return {key: value for target in self.tablets for key, value in target.at(t).items()}

    def rows(self, t):
        return sorted((key, value) for key, value in self.at(t).items() if value is not None)


def rows_text(rows):
    return "".join(f"row {key.decode()} ={value.decode()}\n" for key, value in rows)


def summary(name, workload, target):
    """The line of a workload of this number and size."""
    t = workload.safe_time()
    rows = target.rows(t)
    digest = 0
    for byte in rows_text(rows).encode():
        digest = (31 * digest + byte) % 2**32
    records = sum(len(tablet.records) for tablet in workload.tablets)
    return f"gen {name} records {records} commits {len(workload.commits)} safe {t} rows {len(rows)} digest {digest}\n"


def replayed(workload, target, rng):
    """A script over the logs of the workload, and what it prints."""
    t = workload.safe_time()
    scan = lambda word, rows: f"{word} {t} {len(rows)}\n" + rows_text(rows)
    lines, told = ["drain", "scan"], f"drain {t}\n" + scan("scan", target.rows(t))
    cutoff = 0
    for u in sorted(rng.randrange(t + 1) for _ in range(8)) + [t]:
        lines.append(f"prune {u}")
        told += f"prune {u}\n"
        for time in sorted(rng.randrange(u, t + 1) for _ in range(4)) + [u]:
            at = target.at(time)
            for number in range(0, 1000, 3):
                lines.append(f"readat {time} k{number}")
                value = at.get(f"k{number}".encode())
                told += f"readat {time} k{number} " + ("absent" if value is None else "=" + value.decode()) + "\n"
    lines += ["scan", "failover", "scan"]
    told += scan("scan", target.rows(t)) + scan("failover", target.rows(t)) + scan("scan", target.rows(t))
    return "\n".join(["xcscript 1", "target 0 16384 32768 49152"] + lines + ["end", ""]), told


def run(program, words):
    done = subprocess.run([program] + words, stdout=subprocess.PIPE)
    return done.returncode, done.stdout.decode()


def main(words):
    program = os.path.abspath(words[0] if words else os.path.join(ROOT, "crates", "xcr", "out", "xcr"))
    number = int(words[1]) if len(words) > 1 else 100
    rng = random.Random(31)
    passed = failed = 0

    def compare(found, want, what):
        nonlocal passed, failed
        if found == (0, want):
            passed += 1
        else:
            failed += 1
            print(f"{what} gives {found[0]} {found[1][:300]!r} in place of {want[:300]!r}")

    for name, line in KNOWN:
        compare(run(program, ["gen"] + name.split()), f"gen {name} {line}\n", name)
    names = [f"{rng.choice([0, 1, rng.randrange(2**64)])} {rng.randrange(1, 2500)}" for _ in range(number)]
    for name in names + [f"{ALL} 17000", "5 20000"]:
        workload = Workload(*map(int, name.split()))
        target = PlainTarget(workload)
        compare(run(program, ["gen"] + name.split()), summary(name, workload, target), name)
    with tempfile.TemporaryDirectory() as folder:
        logs, path = os.path.join(folder, "logs"), os.path.join(folder, "script")
        script, told = replayed(workload, target, rng)
        for file, text in ((logs, workload.text()), (path, script)):
            with open(file, "w") as out:
                out.write(text)
        compare(run(program, ["replay", logs, path]), told, "a replay of the last")
    print(f"{passed} passed, {failed} failed")
    return 1 if failed else 0


sys.exit(main(sys.argv[1:]))
