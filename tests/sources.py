#!/usr/bin/env python3
"""sources.py [PROGRAM [NUMBER]]

Runs `xcr make` beside a plain program that goes through the calls of a source one by one (machine.py), on NUMBER (2000)
source scripts made from random numbers, of version 1 or 2, with splits, savepoints, keys of any bytes and calls that
are refused. The text that is made, or the refusal, is compared. Where a text is made, it is replayed by a drain and a
scan: the scan's time is the least last safe value, and its rows are those of the commits that were accepted up to then.
Prints each difference, says how often each refusal came, and closes with 'N passed, M failed'.
"""
import os, random, subprocess, sys, tempfile
from definitions import is_plain, op_word, rows, word
from machine import LAST_TIME, Machine, Refused

ROOT = os.path.dirname(os.path.dirname(os.path.abspath(__file__)))
SHOWN = 10
KINDS = ["begin", "write", "write", "write", "put", "commit", "abort", "apply", "apply", "safe", "split", "tick"]
KINDS += ["finish", "savepoint", "rollback"]


def an_op(rng, keys):
    return rng.choice(keys), rng.choice([None, b"", b"1", b"22", bytes([rng.randrange(256)])])


def asked(rng):
    """A version, a start, roots and commands, of which most aren't refused."""
    version = rng.choice([1, 2])
    cuts = sorted(rng.sample(range(1, 65536), rng.randrange(4)))
    roots = list(zip([0] + cuts, [cut - 1 for cut in cuts] + [65535]))
    start = rng.choice([0, 0, 7, 100, LAST_TIME - rng.randrange(2, 60)])
    any_key = lambda: bytes(rng.randrange(256) for _ in range(rng.randrange(1, 5)))
    plain_key = lambda: "".join(rng.choice("abcxyz") for _ in range(rng.randrange(1, 4))).encode()
    keys = [any_key() if version == 2 and rng.random() < 0.3 else plain_key() for _ in range(rng.randrange(2, 9))]
    commands, begun, tablets = [], 0, len(roots)
    for _ in range(rng.randrange(1, 40)):
        kind = rng.choice(KINDS)
        n = rng.randrange(1, begun + 1) if begun and rng.random() < 0.995 else begun + 1
        id = rng.randrange(min(tablets, 64))
        if kind == "begin":
            begun += 1
            commands.append(("begin",))
        elif kind == "write":
            commands.append(("write", n, an_op(rng, keys)))
        elif kind == "put":
            commands.append(("put", an_op(rng, keys)))
        elif kind in ("commit", "abort"):
            commands.append((kind, n))
        elif kind == "apply":
            commands.append(("apply", n, id))
        elif kind == "safe":
            commands.append(("safe", id))
        elif kind == "split" and rng.random() < 0.5:
            commands.append(("split", id, rng.randrange(65536)))
            tablets += 2
        elif kind == "tick" and rng.random() < 0.3:
            commands.append(("tick", min(LAST_TIME, rng.choice([0, start, start + 20, start + 200, LAST_TIME]))))
        elif kind == "finish" and rng.random() < 0.5:
            commands.append(("finish",))
        elif version == 2 and kind == "savepoint":
            commands.append(("savepoint", n))
        elif version == 2 and kind == "rollback":
            commands.append(("rollback", n, rng.randrange(1, 4)))
    return version, start, roots, commands


def line_of(command):
    words = [op_word(part) if isinstance(part, tuple) else str(part) for part in command]
    return " ".join(words)


def plain_enough(version, command):
    return version == 2 or all(is_plain(name) for part in command if isinstance(part, tuple) for name in part
                               if name is not None)


def made(version, start, roots, commands):
    """The status and the output of `make`, and the machine, where no command is refused."""
    machine = Machine(roots, start)
    first = 3 + len(roots)
    for i, (name, *words) in enumerate(commands):
        try:
            getattr(machine, name)(*words)
        except Refused as why:
            return (4, f"bad source {first + i} {why}\n"), None
    return (0, machine.text()), machine


def without_refused(version, start, roots, commands, rng):
    """The commands, of which most of those that are refused are left out."""
    machine, kept = Machine(roots, start), []
    for command in commands:
        if not plain_enough(version, command):
            continue
        try:
            getattr(machine, command[0])(*command[1:])
        except Refused:
            if rng.random() < 0.97:
                continue
        kept.append(command)
    return kept


def run(program, words):
    done = subprocess.run([program] + words, stdout=subprocess.PIPE)
    return done.returncode, done.stdout.decode("latin-1")


def main(words):
    program = os.path.abspath(words[0] if words else os.path.join(ROOT, "crates", "xcr", "out", "xcr"))
    rng = random.Random(5)
    passed, failed, seen = 0, 0, {}
    with tempfile.TemporaryDirectory() as folder:
        source, logs, script = (os.path.join(folder, name) for name in ("source", "logs", "script"))
        with open(script, "w") as out:
            out.write("xcscript 2\ntarget 0 30000\ndrain\nscan\nend\n")
        for _ in range(int(words[1]) if len(words) > 1 else 2000):
            version, start, roots, commands = asked(rng)
            commands = without_refused(version, start, roots, commands, rng)
            headers = [f"tablet {id} {lo} {hi} root" for id, (lo, hi) in enumerate(roots)]
            lines = [f"xcsource {version}", f"start {start}"] + headers + [line_of(command) for command in commands]
            text = "\n".join(lines + ["end", ""])
            with open(source, "w") as out:
                out.write(text)
            want, machine = made(version, start, roots, commands)
            got = run(program, ["make", source])
            kind = want[1].split()[3] if machine is None else "made"
            if got == want and machine:
                with open(logs, "w") as out:
                    out.write(got[1])
                t = machine.safe_time()
                shown = rows(machine.commits, t)
                want = 0, "".join(line + "\n" for line in [f"drain {t}", f"scan {t} {len(shown)}"] + [
                    f"row {word(key)} ={word(shown[key])}" for key in sorted(shown)])
                got = run(program, ["replay", logs, script])
            seen[kind] = seen.get(kind, 0) + 1
            passed, failed = passed + (got == want), failed + (got != want)
            if got != want and failed <= SHOWN:
                print(f"{text}gives {got[0]}\n{got[1]}in place of {want[0]}\n{want[1]}")
    print("how many scripts end how: " + ", ".join(f"{kind} {count}" for kind, count in sorted(seen.items())))
    print(f"{passed} passed, {failed} failed")
    return 1 if failed else 0


sys.exit(main(sys.argv[1:]))
