#!/usr/bin/env python3
"""audits.py [PROGRAM [NUMBER]]

Runs `xcr audit` beside a plain program that computes the same by the definitions alone (definitions.py): on a table of
every kind of disagreement, alone and two at once, in every order of transaction and tablet, with the applies on the
first tablet or on the second, and on NUMBER (2000) small logs made from random numbers, with splits, breaks,
transactions and subtransactions. Prints each difference, and closes with 'N passed, M failed'.
"""
import os, random, subprocess, sys, tempfile
from definitions import Tablet, accepted_of, commits, disagreement, logs_text

ROOT = os.path.dirname(os.path.dirname(os.path.abspath(__file__)))
KEYS = [b"aaa", b"bbb", b"mmm", b"ttt", b"zzz"]


def state(a):
    if not a.reached:
        return "unreached"
    return f"halt {a.halt[0]} {a.halt[1]}" if a.halt else "split" if a.split else "open"


def audit(tablets):
    """The status and the output of an audit of the logs."""
    accepted = accepted_of(tablets)
    case = disagreement(accepted)
    if case:
        return 3, "disagree %d %d %s\n" % case
    lines = [f"log {a.tablet.id} {len(a.records)} {a.floor} {state(a)}\n" for a in accepted]
    return 8 if any(a.halt for a in accepted) else 0, "".join(lines) + f"agrees {len(commits(accepted))}\n"


# ---- the logs

def two_roots():
    return [Tablet(0, 0, 32767), Tablet(1, 32768, 65535)]


# what makes a case of the kind, of transaction n at tablet s, whose commit is 50, without subtransaction 1, by
# an apply on one of the tablets
CASES = {
    "commit-differs": lambda n, key: [(60 + n, "apply", n, 51, [1])],
    "rollback-differs": lambda n, key: [(65 + n, "apply", n, 50, [2])],
    "late-intent": lambda n, key: [(70 + n, "intent", n, 0, [(key, b"1")])],
    "aborted": lambda n, key: [(80 + n, "abort", n)],
    "straggler": lambda n, key: [(n, "intent", n, 0, [(key, b"1")]), (90 + n, "safe", 50)],
    "straggler, rolled back": lambda n, key: [(20 + n, "intent", n, 1, [(key, b"1")]), (90 + n, "safe", 50)],
}


def table():
    """Logs with each kind alone, and with two at once, for two transactions and two tablets in every order. On
    the tablet of the applies no straggler stands alone: what waits there is settled, or was logged after the
    commit."""
    for home in (0, 1):
        alone = [
            [(n, s, kind)]
            for n in (5, 7)
            for s in (0, 1)
            for kind in CASES
            if s != home or not kind.startswith("straggler")
        ]
        for chosen in alone:
            tablets = made(home, chosen)
            (n, s, kind), = chosen
            case = disagreement(accepted_of(tablets))
            # where an apply differs on the first tablet, it's the others that differ from it
            at = 1 if kind in ("commit-differs", "rollback-differs") and (s, home) == (0, 1) else s
            assert case == (n, at, kind.split(",")[0]), f"{chosen} makes {case}"
            yield tablets
        for a in alone:
            for b in alone:
                if a != b:
                    yield made(home, a + b)


def made(home, chosen):
    """Two roots with the applies of both transactions on the tablet `home`, and what makes the chosen cases."""
    tablets = two_roots()
    tablets[home].records += [(55, "apply", 5, 50, [1]), (57, "apply", 7, 50, [1])]
    for n, s, kind in chosen:
        tablets[s].records += CASES[kind](n, b"aaa" if s == 0 else b"zzz")
    for tablet in tablets:
        # one record at a time, and what a case holds before the apply stays before it
        tablet.records = sorted(set_of(tablet.records), key=lambda record: record[0])
    return tablets


def set_of(records):
    found = []
    for record in records:
        if all(record[0] != other[0] for other in found):
            found.append(record)
    return found


def grown(rng):
    """Small logs: trees of tablets, and records that mostly keep the rules and sometimes break them."""
    tablets = [Tablet(0, 0, 65535)] if rng.random() < 0.5 else two_roots()
    for _ in range(rng.choice([0, 0, 1, 1, 2])):
        parent = rng.choice([t for t in tablets if all(t.id != c.parent for c in tablets) and t.lo < t.hi])
        at = rng.randint(parent.lo + 1, parent.hi)
        left = Tablet(len(tablets), parent.lo, at - 1, parent.id)
        tablets += [left, Tablet(len(tablets) + 1, at, parent.hi, parent.id)]
    commits = {n: rng.randint(4, 30) for n in (1, 2, 3)}
    undone = {n: rng.choice([[], [], [1], [2], [1, 64]]) for n in (1, 2, 3)}
    ends = {}
    for tablet in tablets:
        time = ends.get(tablet.parent, 0)
        keys = [key for key in KEYS if tablet.holds(key)]
        for _ in range(rng.randint(0, 7)):
            time += rng.choice([1, 1, 2, 3, 5]) if rng.random() < 0.98 else 0
            time = max(time, 1)
            n = rng.choice([1, 1, 2, 3])
            kind = rng.choice(["write", "intent", "intent", "apply", "apply", "abort", "safe", "safe"])
            count = rng.randint(1, 3) if keys else 0
            ops = [(rng.choice(keys), rng.choice([b"1", b"2", None])) for _ in range(count)]
            if kind in ("write", "intent") and ops:
                sub = rng.choice([0, 0, 1, 2, 64])
                tablet.records.append((time, kind, ops) if kind == "write" else (time, kind, n, sub, ops))
            elif kind == "apply":
                commit = commits[n] if rng.random() < 0.9 else commits[n] + 1
                without = undone[n] if rng.random() < 0.9 else rng.choice([[], [1], [1, 2]])
                time = max(time, commit) if rng.random() < 0.9 else time
                tablet.records.append((time, kind, n, commit, without))
            elif kind == "abort" and rng.random() < 0.4:
                tablet.records.append((time, kind, n))
            elif kind == "safe":
                tablet.records.append((time, kind, max(1, time - rng.choice([0, 1, 2, 5, 9]))))
        children = [t for t in tablets if t.parent == tablet.id]
        if children:
            time += 1
            tablet.records.append((time, "split", children[1].lo, children[0].id, children[1].id))
        ends[tablet.id] = time
    return tablets


def main(words):
    program = os.path.abspath(words[0] if words else os.path.join(ROOT, "crates", "xcr", "out", "xcr"))
    rng = random.Random(7)
    logs = list(table()) + [grown(rng) for _ in range(int(words[1]) if len(words) > 1 else 2000)]
    passed, failed, seen = 0, 0, {}
    with tempfile.TemporaryDirectory() as folder:
        path = os.path.join(folder, "logs")
        for tablets in logs:
            text = logs_text(tablets, rng)
            with open(path, "w") as out:
                out.write(text)
            done = subprocess.run([program, "audit", path], stdout=subprocess.PIPE)
            want = audit(tablets)
            last = want[1].split()[-1] if want[0] == 3 else {0: "agrees", 8: "halts"}[want[0]]
            seen[last] = seen.get(last, 0) + 1
            if (done.returncode, done.stdout.decode()) == want:
                passed += 1
            else:
                failed += 1
                print(f"{text}gives {done.returncode} {done.stdout.decode()!r} in place of {want}")
    print("what the logs come to: " + ", ".join(f"{kind} {count}" for kind, count in sorted(seen.items())))
    print(f"{passed} passed, {failed} failed")
    return 1 if failed else 0


sys.exit(main(sys.argv[1:]))
