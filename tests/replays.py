#!/usr/bin/env python3
"""replays.py [PROGRAM [NUMBER]]

Runs `xcr replay` beside a plain program that computes the same by the definitions alone (definitions.py, and a session
below): on NUMBER (2000) small logs made from random numbers, with splits, breaks, transactions, subtransactions and
keys of any bytes, each with a script of random commands, of version 1 or 2. What the program writes and its status are
compared. Prints each difference, says how often each kind of line came, and closes with 'N passed, M failed'.
"""
import os, random, subprocess, sys, tempfile
from definitions import PLAIN, Tablet, accepted_of, commits, disagreement, hash_of, is_plain, logs_text, rows, word

ROOT = os.path.dirname(os.path.dirname(os.path.abspath(__file__)))
SHOWN = 10


# ---- the session


class Session:
    """A replication session over logs: for each source tablet a place, a cursor and an acknowledged place, besides a
    cutoff, and whether it is closed."""

    def __init__(self, accepted):
        self.accepted, self.commits = accepted, commits(accepted)
        self.places, self.cursors, self.acks = ([0] * len(accepted) for _ in range(3))
        self.cutoff, self.closed = 0, False

    def is_closed(self, a):
        """Whether all that a tablet has was applied, and it ends in a split."""
        return a.split and self.places[a.tablet.id] == len(a.records)

    def last_safe(self, a):
        """The value of the last safe record that was applied, else the final floor of the parent, else 0."""
        values = [record[2] for record in a.records[:self.places[a.tablet.id]] if record[1] == "safe"]
        return values[-1] if values else a.parent.floor if a.parent else 0

    def safe_time(self):
        return min(self.last_safe(a) for a in self.accepted if not self.is_closed(a))

    def ask(self, command, *words):
        """The lines that answer a command."""
        if self.closed and command in ("poll", "stop", "ack", "restart", "drain", "prune", "failover"):
            return [f"closed {self.safe_time()}"]
        return getattr(self, command)(*words)

    def safe(self):
        return [f"safe {self.safe_time()}"]

    def polled(self, id, n):
        """The line that a poll answers before it polls anything, and else None, and the number of records."""
        a = self.accepted[id]
        left = len(a.records) - self.cursors[id]
        if a.parent and not self.is_closed(a.parent):
            return f"wait {id} {a.parent.tablet.id}", 0
        if left == 0 and a.halt:
            return "halt %d %d %s" % (id, *a.halt), 0
        return (None if left else f"atend {id}"), min(n, left)

    def poll(self, id, n):
        line, count = self.polled(id, n)
        self.cursors[id] += count
        self.places[id] = max(self.places[id], self.cursors[id])
        return [line or f"polled {id} {count}"]

    def stop(self, id, n, last):
        line, count = self.polled(id, n)
        if line is None:
            self.cursors[id] = self.acks[id]
        return [line or f"stopped {id} {count}"]

    def ack(self, id):
        self.acks[id] = self.cursors[id]
        return [f"ack {id} {self.acks[id]}"]

    def restart(self, id):
        self.cursors[id] = self.acks[id]
        return [f"restart {id} {self.cursors[id]}"]

    def drain(self):
        self.places = [len(a.records) for a in self.accepted]
        self.cursors = list(self.places)
        halts = ["halt %d %d %s" % (a.tablet.id, *a.halt) for a in self.accepted if a.halt]
        return [f"drain {self.safe_time()}"] + halts

    def value(self, key, t):
        found = rows(self.commits, t).get(key)
        return "absent" if found is None else "=" + word(found)

    def all_rows(self, command):
        t = self.safe_time()
        found = sorted(rows(self.commits, t).items())
        return [f"{command} {t} {len(found)}"] + [f"row {word(key)} ={word(value)}" for key, value in found]

    def report(self):
        closed = "true" if self.closed else "false"
        numbers = [str(some).replace(" ", "") for some in (self.acks, self.cursors, self.places)]
        return ['report {"acks":%s,"closed":%s,"cursors":%s,"cutoff":%d,"places":%s,"safe":%d}'
                % (numbers[0], closed, numbers[1], self.cutoff, numbers[2], self.safe_time())]

    def read(self, key):
        t = self.safe_time()
        return [f"read {t} {word(key)} {self.value(key, t)}"]

    def readat(self, u, key):
        if u > self.safe_time():
            return [f"ahead {u} {self.safe_time()}"]
        return [f"pruned {u} {self.cutoff}" if u < self.cutoff else f"readat {u} {word(key)} {self.value(key, u)}"]

    def scan(self):
        return self.all_rows("scan")

    def prune(self, u):
        if u > self.safe_time():
            return [f"ahead {u} {self.safe_time()}"]
        self.cutoff = max(self.cutoff, u)
        return [f"prune {self.cutoff}"]

    def failover(self):
        self.closed = True
        return self.all_rows("failover")


def replay(tablets, commands):
    """The status and the output of a replay."""
    accepted = accepted_of(tablets)
    case = disagreement(accepted)
    if case:
        return 3, "disagree %d %d %s\n" % case
    session = Session(accepted)
    lines = [line for command in commands for line in session.ask(*command)]
    return 8 if any(line.startswith("halt ") for line in lines) else 0, "".join(line + "\n" for line in lines)


# ---- the logs


class Source:
    """A source that logs as a good one does, but that it breaks a rule of the order or contradicts itself by chance:
    `faults` and `contradicts` are how often of a thousand times."""

    def __init__(self, rng):
        self.rng = rng
        self.faults = rng.choice([0, 0, 0, 60, 150])
        self.contradicts = rng.choice([0, 0, 0, 0, 0, 0, 0, 200])
        self.clock, self.keys = rng.choice([0, 0, 0, 2**61]), names(rng)
        self.tablets, self.last, self.floor, self.open = [], {}, {}, []
        self.live, self.waiting, self.decided, self.begun = {}, {}, {}, 0
        bounds = sorted({0} | {cut(rng, self.keys) for _ in range(rng.choice([0, 0, 1, 1, 2, 3]))})
        for lo, hi in zip(bounds, [bound - 1 for bound in bounds[1:]] + [65535]):
            self.start(Tablet(len(self.tablets), lo, hi), 0, 0)

    def start(self, tablet, floor, last):
        self.tablets.append(tablet)
        self.open.append(tablet)
        self.floor[tablet.id], self.last[tablet.id] = floor, last

    def happens(self, permille):
        return self.rng.randrange(1000) < permille

    def time(self, tablet, least=1):
        """The log time of the next record of a tablet."""
        self.clock += self.rng.choice([0, 0, 1, 1, 1, 3])
        time = max(self.last[tablet.id] + 1, least, self.clock)
        if self.happens(self.faults // 3):
            time = max(1, self.last[tablet.id] - self.rng.choice([0, 0, 1]))
        self.clock = max(self.clock, time - self.rng.choice([0, 0, 1, 2]))
        return time

    def log(self, tablet, record):
        tablet.records.append(record)
        self.last[tablet.id] = max(self.last[tablet.id], record[0])

    def ops(self, tablet):
        keys = [key for key in self.keys if tablet.holds(key)]
        values = [b"", b"1", b"2", b"3", None, None, any_bytes(self.rng, 64)]
        count = self.rng.choice([1, 1, 1, 2, 3]) if keys else 0
        return [(self.rng.choice(keys), self.rng.choice(values)) for _ in range(count)]

    def write(self, tablet):
        ops = self.ops(tablet)
        if ops:
            self.log(tablet, (self.time(tablet), "write", ops))

    def intent(self, tablet):
        """An operation of a transaction that isn't decided."""
        if not self.live or self.rng.random() < 0.3:
            self.begun += 1
            n = self.rng.choice([self.begun, 10 - self.begun]) if self.begun < 5 else self.begun + 10
            if n not in self.decided:
                self.live[n] = 0
                self.waiting.setdefault(n, [])
        ops = self.ops(tablet)
        if ops and self.live:
            n = self.rng.choice(sorted(self.live))
            if self.decided and self.happens(self.contradicts):
                n = self.rng.choice(sorted(self.decided))
            time = self.time(tablet)
            self.log(tablet, (time, "intent", n, self.rng.choice([0, 0, 0, 1, 2, 64]), ops))
            self.waiting[n] += [key for key, _ in ops]
            if n in self.live:
                self.live[n] = max(self.live[n], time)

    def decide(self, tablet):
        """Commits or gives up a transaction, whose tablets are told later."""
        if self.live:
            n = self.rng.choice(sorted(self.live))
            floors = [self.floor[t.id] for t in self.open if any(t.holds(key) for key in self.waiting[n])]
            least = max([self.live.pop(n)] + floors) + 1
            commit = max(least, self.clock + 1) if self.rng.random() < 0.5 else least
            undone = self.rng.choice([[], [], [], [1], [2], [1, 2], [1, 64]])
            self.decided[n] = (commit, undone) if self.rng.random() < 0.85 else None

    def tell(self, tablet):
        """An apply or an abort: mostly of what waits on the tablet."""
        here = [n for n in self.decided if any(tablet.holds(key) for key in self.waiting[n])]
        if not here and self.rng.random() < 0.8:
            return
        if not self.decided:
            return
        n = self.rng.choice(sorted(here or self.decided))
        if self.decided[n] is None:
            record = (self.time(tablet), "abort", n)
        else:
            commit, undone = self.decided[n]
            # an apply at or below the floor would be a break
            if commit <= self.floor[tablet.id] and not self.happens(self.faults):
                return
            if self.happens(self.contradicts):
                commit, undone = commit + self.rng.choice([0, 1]), self.rng.choice([undone, [1], []])
            time = self.time(tablet, commit)
            record = (time, "apply", n, time + 1 if self.happens(self.faults // 4) else commit, undone)
            if self.happens(self.contradicts):
                record = (time, "abort", n)
        self.log(tablet, record)
        self.waiting[n] = [key for key in self.waiting[n] if not tablet.holds(key)]

    def safe(self, tablet):
        time = self.time(tablet)
        here = [c[0] for n, c in self.decided.items() if c and any(tablet.holds(key) for key in self.waiting[n])]
        most = min([time] + [commit - 1 for commit in here])
        if self.happens(self.contradicts):
            most = time
        value = max(self.floor[tablet.id], 1, most - self.rng.choice([0, 0, 0, 1, 2, 5]))
        if self.happens(self.faults // 3):
            value = self.rng.choice([max(1, self.floor[tablet.id] - 1), time + 1])
        elif value > most:
            return
        self.log(tablet, (time, "safe", value))
        self.floor[tablet.id] = max(self.floor[tablet.id], value)

    def split(self, tablet):
        if tablet.lo == tablet.hi or len(self.tablets) > 8:
            return
        at = min(max(cut(self.rng, self.keys), tablet.lo + 1), tablet.hi)
        left, right = len(self.tablets), len(self.tablets) + 1
        self.log(tablet, (self.time(tablet), "split", at, left, right))
        self.open.remove(tablet)
        for child in (Tablet(left, tablet.lo, at - 1, tablet.id), Tablet(right, at, tablet.hi, tablet.id)):
            self.start(child, self.floor[tablet.id], self.last[tablet.id])

    def finish(self):
        """All that is decided is told, and safe times cover it."""
        for _ in range(3):
            self.decide(None)
        for _ in range(4):
            for tablet in list(self.open):
                self.tell(tablet)
        for tablet in list(self.open):
            self.safe(tablet)


def grown(rng):
    """The tablets of a source that ran for a while."""
    source = Source(rng)
    events = ["write"] * 4 + ["intent"] * 5 + ["decide"] * 2 + ["tell"] * 4 + ["safe"] * 4 + ["split"]
    for _ in range(rng.choice([0, 5, 15, 25, 40, 60, 80])):
        getattr(source, rng.choice(events))(rng.choice(source.open))
    if rng.random() < 0.8:
        source.finish()
    return source.tablets, source.keys


def any_bytes(rng, most):
    """Up to so many bytes: plain ones, or any."""
    of = PLAIN if rng.random() < 0.5 else bytes(range(256))
    return bytes(rng.choice(of) for _ in range(rng.choice([1, 2, 3, most])))


def names(rng):
    """Some keys: plain ones alone, or any."""
    found = [b"aaa", b"bbb", b"mmm", b"ttt", b"zzz"]
    if rng.random() < 0.5:
        found += [any_bytes(rng, 32) for _ in range(rng.randint(1, 5))] + [b"\0", b"a\0", b"%", b"\xff\xff"]
    return sorted(set(rng.sample(found, rng.randint(1, len(found)))))


def cut(rng, keys):
    """A hash, near that of a key or anywhere."""
    near = hash_of(rng.choice(keys)) + rng.choice([-1, 0, 0, 1])
    return min(max(near if rng.random() < 0.5 else rng.randint(1, 65535), 1), 65535)


# ---- the scripts


def asked(rng, tablets, keys):
    """The bounds of the target, and the commands: many polls, with restarts and stops between them."""
    bounds = sorted({0} | {cut(rng, keys) for _ in range(rng.choice([0, 1, 1, 2, 3, 15]))})[:16]
    times = [0, 1, 2**62 - 1]
    for tablet in tablets:
        times += [record[0] for record in tablet.records if record[1] == "write"]
        times += [record[2] for record in tablet.records if record[1] == "safe"] * 2
    kinds = rng.choice([["poll"] * 12, ["poll"] * 6 + ["stop"] * 3 + ["restart"] * 3 + ["ack"] * 2])
    kinds = kinds + ["read"] * 3 + ["readat"] * 3 + ["prune"] * 2 + ["safe", "scan", "report", "ack", "restart", "stop"]
    counts = rng.choice([[1, 1, 2, 3], [1, 2, 5, 100, 2**20]])
    made = []

    def command(kind):
        id, n = rng.randrange(len(tablets)), rng.choice(counts)
        key = rng.choice(keys + [b"none"])
        near = min(max(rng.choice(times) + rng.choice([0, 0, 0, -1, 1]), 0), 2**62 - 1)
        words = {"poll": [id, n], "stop": [id, n, rng.randrange(len(bounds))], "ack": [id], "restart": [id],
                 "read": [key], "readat": [near, key], "prune": [near]}
        made.append((kind, *words.get(kind, [])))

    for kind in rng.choice([[], [], ["drain"]]):
        command(kind)
    for _ in range(rng.choice([0, 3, 10, 20, 40, 60])):
        kind = rng.choice(kinds)
        if kind != "scan" or made.count(("scan",)) < 7:
            command(kind)
        if rng.random() < 0.02:
            command("drain")
        if rng.random() < 0.01:
            command("failover")
    for kind in rng.choice([[], ["drain"], ["drain", "scan"], ["failover"], ["drain", "prune", "failover"]]):
        command(kind)
    for _ in range(rng.choice([0, 2, 5])):
        command(rng.choice(["read", "readat", "safe", "report", "poll", "drain", "prune", "ack", "failover"]))
    return bounds, made


def script_text(bounds, commands, keys, rng):
    """The script as a text, of any version that can spell it."""
    keys_asked = [key for command in commands for key in command if isinstance(key, bytes)]
    watched = rng.sample(keys, rng.randint(1, len(keys))) if rng.random() < 0.2 else []
    version = rng.choice([1, 2]) if all(is_plain(key) for key in keys_asked + watched) else 2
    lines = [["xcscript", version], ["target"] + bounds] + ([["watch"] + watched] if watched else []) + commands
    words = [[word(part) if isinstance(part, bytes) else str(part) for part in line] for line in lines + [["end"]]]
    return "".join(" ".join(line) + "\n" for line in words)


def run(program, folder, logs, script):
    paths = [os.path.join(folder, name) for name in ("logs", "script")]
    for path, text in zip(paths, (logs, script)):
        with open(path, "w") as out:
            out.write(text)
    done = subprocess.run([program, "replay"] + paths, stdout=subprocess.PIPE)
    return done.returncode, done.stdout.decode("latin-1")


def main(words):
    program = os.path.abspath(words[0] if words else os.path.join(ROOT, "crates", "xcr", "out", "xcr"))
    rng = random.Random(11)
    passed, failed, seen = 0, 0, {}
    with tempfile.TemporaryDirectory() as folder:
        for _ in range(int(words[1]) if len(words) > 1 else 2000):
            tablets, keys = grown(rng)
            bounds, commands = asked(rng, tablets, keys)
            logs, script = logs_text(tablets, rng), script_text(bounds, commands, keys, rng)
            want = replay(tablets, commands)
            for kind in {kind_of(line) for line in want[1].splitlines()} | {f"status {want[0]}"}:
                seen[kind] = seen.get(kind, 0) + 1
            got = run(program, folder, logs, script)
            passed, failed = passed + (got == want), failed + (got != want)
            if got != want and failed <= SHOWN:
                print(f"{logs}{script}gives {got[0]}\n{got[1]}in place of {want[0]}\n{want[1]}")
    print("how many replays show what: " + ", ".join(f"{kind} {count}" for kind, count in sorted(seen.items())))
    print(f"{passed} passed, {failed} failed")
    return 1 if failed else 0


def kind_of(line):
    """A line's first word, and the kind that it names, or whether it has a value."""
    first, *rest = line.split(" ")
    last = ("a value" if rest[-1][0] == "=" else "absent") if first in ("read", "readat") else rest[-1]
    return f"{first} {last}" if first in ("halt", "disagree", "read", "readat") else first


sys.exit(main(sys.argv[1:]))
