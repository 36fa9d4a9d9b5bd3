#!/usr/bin/env python3
"""texts.py [PROGRAM]

Runs `xcr audit` on a table of log texts, each with one bad line, or none: the line and the kind that are told; and on
one that is too long.
Prints each difference, and closes with 'N passed, M failed'.
"""
import os, subprocess, sys, tempfile

ROOT = os.path.dirname(os.path.dirname(os.path.abspath(__file__)))
ONE = "tablet 0 0 65535 root"
HALVES = "tablet 0 0 32767 root\ntablet 1 32768 65535 root"
SPLIT = f"{ONE}\ntablet 1 0 32767 child 0\ntablet 2 32768 65535 child 0"
GOOD = None
MOST_BYTES = 2**26


def one(line):
    """A text of one tablet with this line as its third."""
    return f"xclog 1\n{ONE}\n{line}\nend\n"


def two(line):
    """The same of version 2."""
    return f"xclog 2\n{ONE}\n{line}\nend\n"


def ops(count):
    return " ".join(["+aaa=1"] * count)


def many(record, count):
    """A text of one tablet with so many of this record, at rising times."""
    return f"xclog 1\n{ONE}\n" + "".join(f"0 {i + 1} {record}\n" for i in range(count)) + "end\n"


RECORDS = 2**20
FULL = "write" + 64 * " -a"
FULL_RECORDS = 2**22 // 64

TABLE = [
    ("", (1, "no-end")),
    ("xclog 1", (1, "form")),
    ("xclog 2\n", (2, "no-end")),
    ("xclog 2 \n", (1, "form")),
    ("xclog 3\n", (1, "form")),
    ("xclog 02\n", (1, "form")),
    ("tablet 0 0 99999 root\n", (1, "form")),
    (f"xclog 1\n{ONE}\n", (3, "no-end")),
    (f"xclog 1\n{ONE}\nend", (3, "form")),
    (f"xclog 1\n{ONE}\nend\n", GOOD),
    (f"xclog 1\n{ONE}\nend\nend\n", (4, "form")),
    (f"xclog 1\n{ONE}\nend\n{ONE}\n", (4, "form")),
    (f"xclog 1\r\n{ONE}\nend\n", (1, "form")),
    ("xclog 1\nend\n", (2, "header")),
    ("xclog 1\ntablet 0 0 65534 root\nend\n", (3, "header")),
    ("xclog 1\ntablet 0 1 65535 root\n", (2, "header")),
    ("xclog 1\ntablet 1 0 65535 root\n", (2, "header")),
    ("xclog 1\ntablet 64 0 65535 root\n", (2, "number")),
    ("xclog 1\ntablet 0 0 65536 root\n", (2, "number")),
    (f"xclog 1\n{ONE}\ntablet 1 0 32767 child 0\nend\n", (4, "header")),
    (one(ONE), (3, "header")),
    (one(f"0 1 abort 3\n{ONE}"), (4, "header")),
    (one("0 0 abort 3"), (3, "number")),
    (one("0 1 abort 3"), GOOD),
    (one("0 4611686018427387903 abort 3"), GOOD),
    (one("0 4611686018427387904 abort 3"), (3, "number")),
    (one("0 99999999999999999999999 abort 3"), (3, "number")),
    (one("0 01 abort 3"), (3, "form")),
    (one("0 1 abort 0"), (3, "number")),
    (one("0 1 abort 4294967295"), GOOD),
    (one("0 1 abort 4294967296"), (3, "number")),
    (one("63 1 abort 3"), (3, "unknown-tablet")),
    (one("64 1 abort 3"), (3, "number")),
    (one("0 1 abort"), (3, "form")),
    (one("0  1 abort 3"), (3, "form")),
    (one("0 1 abort 3 "), (3, "form")),
    (one(" 0 1 abort 3"), (3, "form")),
    (one(""), (3, "form")),
    (one("0 1 write"), (3, "form")),
    (one("0 1 write aaa=1"), (3, "form")),
    (one("0 1 write +aaa"), (3, "form")),
    (one("0 1 write +=1"), (3, "key")),
    (one("0 1 write --a"), GOOD),
    (one("0 1 write -"), (3, "key")),
    (one("0 1 write +a\x00=1"), (3, "key")),
    (one("0 1 write +a\xe9=1"), (3, "key")),
    (one("0 1 write +aaa=1 x"), (3, "form")),
    (one("0 0 write +=1"), (3, "number")),
    (one("0 1 write +" + 32 * "a" + "=1"), GOOD),
    (one("0 1 write +" + 33 * "a" + "=1"), (3, "key")),
    (one("0 1 write +aaa=" + 64 * "1"), GOOD),
    (one("0 1 write +aaa=" + 65 * "1"), (3, "key")),
    (one("0 1 write " + ops(64)), GOOD),
    (one("0 1 write " + ops(65)), (3, "limit")),
    (one("0 1 intent 0 " + ops(65)), (3, "number")),
    (one("0 1 write +a%20b=2"), (3, "key")),
    (two("0 1 write +a%20b=2"), GOOD),
    (two("0 1 write +aaa=1 -zzz"), GOOD),
    (two("0 1 write +a=%00%FF"), GOOD),
    (two("0 1 write +a%3D=2"), GOOD),
    (two("0 1 write +a%3d=2"), (3, "key")),
    (two("0 1 write +a%61=2"), (3, "key")),
    (two("0 1 write +a%=2"), (3, "key")),
    (two("0 1 write +a%2=2"), (3, "key")),
    (two("0 1 write +a%%=2"), (3, "key")),
    (two("0 1 write +=1"), (3, "key")),
    (two("0 1 write +a\xe9=1"), (3, "key")),
    (two("0 1 write +" + 32 * "%00" + "=1"), GOOD),
    (two("0 1 write +" + 33 * "%00" + "=1"), (3, "key")),
    (two("0 1 write +aaa=" + 64 * "%FF"), GOOD),
    (two("0 1 write +aaa=" + 65 * "%FF"), (3, "key")),
    (two("0 0 write +%=1"), (3, "number")),
    (one("0 1 intent 3 sub 1 +aaa=1"), GOOD),
    (one("0 1 intent 3 sub 64 +aaa=1"), GOOD),
    (one("0 1 intent 3 sub 0 +aaa=1"), (3, "number")),
    (one("0 1 intent 3 sub 65 +aaa=1"), (3, "number")),
    (one("0 1 intent 3 sub 01 +aaa=1"), (3, "form")),
    (one("0 1 intent 3 sub +aaa=1"), (3, "form")),
    (one("0 1 intent 3 sub 1"), (3, "form")),
    (one("0 1 intent 3 sub"), (3, "form")),
    (one("0 1 intent 3 1 +aaa=1"), (3, "form")),
    (one("0 1 write sub 1 +aaa=1"), (3, "form")),
    (two("0 1 intent 3 sub 1 +a%20=1"), GOOD),
    (two("0 1 intent 3 sub 0 +a%20=1"), (3, "number")),
    (one("0 9 apply 1 8 without 1"), GOOD),
    (one("0 9 apply 1 8 without 1 2 64"), GOOD),
    (one("0 9 apply 1 8 without " + " ".join(str(sub) for sub in range(1, 65))), GOOD),
    (one("0 9 apply 1 8 without"), (3, "form")),
    (one("0 9 apply 1 8 with 1"), (3, "form")),
    (one("0 9 apply 1 8 1"), (3, "form")),
    (one("0 9 apply 1 8 without 0"), (3, "number")),
    (one("0 9 apply 1 8 without 65"), (3, "number")),
    (one("0 9 apply 1 8 without 2 1"), (3, "number")),
    (one("0 9 apply 1 8 without 1 1"), (3, "number")),
    (one("0 9 apply 1 8 without 1 x"), (3, "form")),
    (one("0 9 apply 1 8 without 2 1 x"), (3, "form")),
    (two("0 9 apply 1 8 without 1 2"), GOOD),
    (two("0 9 apply 1 8 without 2 1"), (3, "number")),
    (one("0 9 apply 1 0"), (3, "number")),
    (one("0 9 safe 4611686018427387904"), (3, "number")),
    (one("0 9 split 32768 1 2"), (3, "range")),
    (f"xclog 1\n{HALVES}\n0 10 write +zzz=1\nend\n", (4, "range")),
    (f"xclog 1\n{SPLIT}\nend\n", (5, "orphan")),
    (f"xclog 1\n{SPLIT}\n0 9 split 32767 1 2\nend\n", (5, "range")),
    (f"xclog 1\n{SPLIT}\n0 9 split 32768 2 1\nend\n", (5, "range")),
    (f"xclog 1\n{SPLIT}\n0 9 split 32768 1 2\n0 10 abort 9\nend\n", (6, "after-split")),
    (f"xclog 1\n{SPLIT}\n0 9 split 32768 1 2\nend\n", GOOD),
    (many("abort 3", RECORDS), GOOD),
    (many("abort 3", RECORDS + 1), (3 + RECORDS, "limit")),
    (many(FULL, FULL_RECORDS), GOOD),
    (many(FULL, FULL_RECORDS + 1), (3 + FULL_RECORDS, "limit")),
    ("xclog 1\n".ljust(MOST_BYTES - 1, "x") + "\n", (2, "form")),
    ("xclog 1\n".ljust(MOST_BYTES, "x") + "\n", "logs too long\n"),
]


def main(words):
    program = os.path.abspath(words[0] if words else os.path.join(ROOT, "crates", "xcr", "out", "xcr"))
    failed = 0
    with tempfile.TemporaryDirectory() as folder:
        path = os.path.join(folder, "logs")
        for text, bad in TABLE:
            with open(path, "wb") as out:
                out.write(text.encode("latin-1"))
            done = subprocess.run([program, "audit", path], stdout=subprocess.PIPE)
            told = done.stdout.decode("latin-1")
            want = "bad logs %d %s\n" % bad if isinstance(bad, tuple) else bad
            right = done.returncode == 0 if bad is GOOD else (done.returncode, told) == (2, want)
            if not right:
                failed += 1
                print(f"{text[:120]!r} gives {done.returncode} {told!r} in place of {bad}")
    print(f"{len(TABLE) - failed} passed, {failed} failed")
    return 1 if failed else 0


sys.exit(main(sys.argv[1:]))
