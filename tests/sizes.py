#!/usr/bin/env python3
"""sizes.py [PROGRAM]

Runs `xcr audit` and `xcr replay` on logs near the limits, so that no call may say that memory ran out where there is
enough: 64 tablets, of which all but two come of splits; 2^20 records; a hundred thousand transactions, each over two
tablets. What is written is compared with what these logs say by their making. Closes with 'N passed, M failed'.
"""
import os, subprocess, sys, tempfile
from definitions import hash_of

ROOT = os.path.dirname(os.path.dirname(os.path.abspath(__file__)))
RECORDS = 2**20
TABLETS = 64
TXNS = 100_000
SCRIPT = "xcscript 1\ntarget 0 10000 20000 30000 40000 50000\ndrain\nscan\nfailover\nsafe\nend\n"


def text(headers, records):
    """The log text of these headers and records."""
    return "\n".join(["xclog 1"] + headers + records + ["end", ""])


def headers_of(ranges, parents):
    return [f"tablet {id} {lo} {hi} " + ("root" if parent is None else f"child {parent}")
            for id, ((lo, hi), parent) in enumerate(zip(ranges, parents))]


def keys_by(ranges, count):
    """So many keys for each range."""
    found = [[] for _ in ranges]
    n = 0
    while any(len(keys) < count for keys in found):
        key = f"k{n}"
        n += 1
        hash = hash_of(key.encode())
        for (lo, hi), keys in zip(ranges, found):
            if lo <= hash <= hi and len(keys) < count:
                keys.append(key)
    return found


def replayed(rows, t):
    """What the script prints of these rows at the safe time t."""
    shown = "".join(f"row {key} ={rows[key]}\n" for key in sorted(rows))
    return f"drain {t}\nscan {t} {len(rows)}\n{shown}failover {t} {len(rows)}\n{shown}safe {t}\n"


def records():
    """The most records: writes on 64 roots in turn, a safe-time record as the last of each."""
    ranges = [(1024 * id, 1024 * id + 1023) for id in range(TABLETS)]
    keys = keys_by(ranges, 20)
    lines, rows = [], {}
    for i in range(RECORDS - TABLETS):
        id, key = i % TABLETS, keys[i % TABLETS][i // TABLETS % 20]
        lines.append(f"{id} {i + 1} write +{key}={i}")
        rows[key] = i
    lines += [f"{id} {RECORDS + id} safe {RECORDS}" for id in range(TABLETS)]
    count = (RECORDS - TABLETS) // TABLETS + 1
    audit = "".join(f"log {id} {count} {RECORDS} open\n" for id in range(TABLETS)) + f"agrees {RECORDS - TABLETS}\n"
    return text(headers_of(ranges, [None] * TABLETS), lines), audit, replayed(rows, RECORDS)


def transactions():
    """So many transactions, each over two tablets: all intents first, then each apply, the last begun first."""
    ranges = [(0, 32767), (32768, 65535)]
    left, right = keys_by(ranges, 1000)
    lines, rows = [], {}
    for n in range(1, TXNS + 1):
        lines += [f"0 {n} intent {n} +{left[n % 1000]}={n}", f"1 {n} intent {n} +{right[n % 999]}={n} -{right[999]}"]
    for i, n in enumerate(range(TXNS, 0, -1)):
        time = TXNS + i + 1
        lines += [f"{id} {time} apply {n} {time}" for id in (0, 1)]
        rows[left[n % 1000]] = rows[right[n % 999]] = n
    last = 2 * TXNS + 1
    lines += [f"{id} {last} safe {last}" for id in (0, 1)]
    audit = "".join(f"log {id} {2 * TXNS + 1} {last} open\n" for id in (0, 1)) + f"agrees {TXNS}\n"
    return text(headers_of(ranges, [None, None]), lines), audit, replayed(rows, last)


def splits():
    """64 tablets: two roots, of which the one that was split longest ago is split again and again. A transaction waits
    at every hash from the first record on, and is applied where its operations came to."""
    ranges, parents, closed = [(0, 32767), (32768, 65535)], [None, None], []
    keys = [keys[0] for keys in keys_by([(1024 * id, 1024 * id + 1023) for id in range(TABLETS)], 1)]
    held = [[key for key in keys if lo <= hash_of(key.encode()) <= hi] for lo, hi in ranges]
    lines = [f"{id} 1 intent 7 " + " ".join(f"+{key}=7" for key in held[id]) for id in (0, 1)]
    counts, time = [1, 1], 1
    while len(ranges) < TABLETS:
        id = len(closed)
        (lo, hi), child, time = ranges[id], len(ranges), time + 1
        middle = lo + (hi - lo + 1) // 2
        ranges += [(lo, middle - 1), (middle, hi)]
        parents += [id, id]
        lines.append(f"{id} {time} split {middle} {child} {child + 1}")
        counts[id] += 1
        counts += [0, 0]
        closed.append(id)
    commit, rows = time + 1, {key: 7 for key in keys}
    open_ones = range(len(closed), TABLETS)
    for id in open_ones:
        lines += [f"{id} {commit + 1} apply 7 {commit}", f"{id} {commit + 2} safe {commit + 2}"]
        counts[id] += 2
    floors = [commit + 2 if id in open_ones else 0 for id in range(TABLETS)]
    audit = "".join(f"log {id} {counts[id]} {floors[id]} {'open' if id in open_ones else 'split'}\n"
                    for id in range(TABLETS)) + "agrees 1\n"
    return text(headers_of(ranges, parents), lines), audit, replayed(rows, commit + 2)


def main(words):
    program = os.path.abspath(words[0] if words else os.path.join(ROOT, "crates", "xcr", "out", "xcr"))
    passed = failed = 0
    with tempfile.TemporaryDirectory() as folder:
        logs, script = os.path.join(folder, "logs"), os.path.join(folder, "script")
        with open(script, "w") as out:
            out.write(SCRIPT)
        for made in (records, transactions, splits):
            body, audit, replay = made()
            with open(logs, "w") as out:
                out.write(body)
            for command, want in ((["audit", logs], audit), (["replay", logs, script], replay)):
                done = subprocess.run([program] + command, stdout=subprocess.PIPE)
                if (done.returncode, done.stdout.decode()) == (0, want):
                    passed += 1
                else:
                    failed += 1
                    print(f"{made.__name__}: {command[0]} ends with {done.returncode}: {done.stdout[:200]!r}")
    print(f"{passed} passed, {failed} failed")
    return 1 if failed else 0


sys.exit(main(sys.argv[1:]))
