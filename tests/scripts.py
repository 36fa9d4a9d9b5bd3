#!/usr/bin/env python3
"""scripts.py [PROGRAM]

Runs `xcr replay` on a table of script texts, each with one bad line, or none: the line and the kind that are told, or
what the script answers. The logs have two tablets, which no script finds polled. Prints each difference, and closes
with 'N passed, M failed'.
"""
import os, subprocess, sys, tempfile

ROOT = os.path.dirname(os.path.dirname(os.path.abspath(__file__)))
LOGS = """xclog 1
tablet 0 0 32767 root
tablet 1 32768 65535 root
0 10 write +aaa=1
0 12 safe 11
1 12 safe 11
end
"""
LAST_TIME = 2**62 - 1
REPORT = 'report {"acks":[0,0],"closed":false,"cursors":[0,0],"cutoff":0,"places":[0,0],"safe":0}\n'
MOST_LINES = 65536
MOST_BYTES = 2**20
ANY = None

# the words of a line that a script of either version may have as its third, for a target of two tablets, and what is
# told: a kind, or the answer, which ends in a line end
THIRD = [
    ("", "form"),
    ("poll", "form"),
    ("poll 0", "form"),
    ("poll 0 1 1", "form"),
    ("poll 0 1 ", "form"),
    (" poll 0 1", "form"),
    ("poll  0 1", "form"),
    ("poll\t0 1", "form"),
    ("poll 0 1\r", "form"),
    ("Poll 0 1", "form"),
    ("polls 0 1", "form"),
    ("poll x 1", "form"),
    ("poll 00 1", "form"),
    ("poll 0 01", "form"),
    ("poll 0 -1", "form"),
    ("poll 0 +1", "form"),
    ("poll 64 x", "form"),
    ("poll 0 1", "polled 0 1\n"),
    ("poll 1 1", "polled 1 1\n"),
    ("poll 0 2", "polled 0 2\n"),
    ("poll 0 1048576", "polled 0 2\n"),
    ("poll 0 0", "number"),
    ("poll 0 1048577", "number"),
    ("poll 0 18446744073709551617", "number"),
    ("poll 64 1", "number"),
    ("poll 18446744073709551616 1", "number"),
    ("poll 99999999999999999999999 1", "number"),
    ("poll 2 0", "number"),
    ("poll 2 1", "unknown-tablet"),
    ("poll 63 1", "unknown-tablet"),
    ("stop 0 1", "form"),
    ("stop 0 1 0 0", "form"),
    ("stop 0 1 x", "form"),
    ("stop 0 1 00", "form"),
    ("stop 0 0 x", "form"),
    ("stop 64 1 0", "number"),
    ("stop 0 0 0", "number"),
    ("stop 0 1048577 0", "number"),
    ("stop 0 1 16", "number"),
    ("stop 2 1 16", "number"),
    ("stop 2 1 0", "unknown-tablet"),
    ("stop 0 1 2", "unknown-tablet"),
    ("stop 0 1 15", "unknown-tablet"),
    ("stop 0 1 0", "stopped 0 1\n"),
    ("stop 0 1048576 1", "stopped 0 2\n"),
    ("ack", "form"),
    ("ack 0 0", "form"),
    ("ack 01", "form"),
    ("ack x", "form"),
    ("ack 64", "number"),
    ("ack 2", "unknown-tablet"),
    ("ack 1", "ack 1 0\n"),
    ("restart", "form"),
    ("restart 0 0", "form"),
    ("restart 01", "form"),
    ("restart 64", "number"),
    ("restart 2", "unknown-tablet"),
    ("restart 1", "restart 1 0\n"),
    ("drain 1", "form"),
    ("drain", "drain 11\n"),
    ("safe 1", "form"),
    ("safe", "safe 0\n"),
    ("read", "form"),
    ("read ", "form"),
    ("read aaa bbb", "form"),
    ("read +", "key"),
    ("read =", "key"),
    ("read a=", "key"),
    ("read \xe9", "key"),
    ("read a\0", "key"),
    ("read %", "key"),
    ("read a%2", "key"),
    ("read a%61", "key"),
    ("read a%3d", "key"),
    ("read " + 33 * "a", "key"),
    ("read " + 32 * "a", f"read 0 {32 * 'a'} absent\n"),
    ("read -", "read 0 - absent\n"),
    ("read _./:-", "read 0 _./:- absent\n"),
    ("readat", "form"),
    ("readat 0", "form"),
    ("readat aaa", "form"),
    ("readat 0 aaa aaa", "form"),
    ("readat x aaa", "form"),
    ("readat 00 aaa", "form"),
    ("readat x +", "form"),
    (f"readat {LAST_TIME + 1} aaa", "number"),
    (f"readat {LAST_TIME + 1} +", "number"),
    ("readat 0 +", "key"),
    ("readat 0 " + 33 * "a", "key"),
    ("readat 0 aaa", "readat 0 aaa absent\n"),
    (f"readat {LAST_TIME} aaa", f"ahead {LAST_TIME} 0\n"),
    ("scan 1", "form"),
    ("scan", "scan 0 0\n"),
    ("prune", "form"),
    ("prune 0 0", "form"),
    ("prune x", "form"),
    ("prune 00", "form"),
    (f"prune {LAST_TIME + 1}", "number"),
    ("prune 0", "prune 0\n"),
    (f"prune {LAST_TIME}", f"ahead {LAST_TIME} 0\n"),
    ("failover 1", "form"),
    ("failover", "failover 0 0\n"),
    ("report 1", "form"),
    ("report", REPORT),
    ("watch", "form"),
    ("watch ", "form"),
    ("watch aaa  bbb", "form"),
    ("watch +", "key"),
    ("watch aaa +", "key"),
    ("watch " + 33 * "a", "key"),
    ("watch aaa", ""),
    ("watch aaa aaa", ""),
    ("watch" + 16 * " aaa", ""),
    ("watch" + 17 * " aaa", "limit"),
    ("watch" + 17 * " aaa" + " +", "key"),
    ("target 0", "form"),
    ("xcscript 1", "form"),
    ("tablet 0 0 65535 root", "form"),
    ("end 1", "form"),
    ("end ", "form"),
    ("End", "form"),
]

# the second line, and what is told
SECOND = [
    ("", "form"),
    ("safe", "form"),
    ("end", "form"),
    ("watch aaa", "form"),
    ("xcscript 1", "form"),
    ("target", "form"),
    ("target ", "form"),
    ("target 0 ", "form"),
    ("target  0", "form"),
    ("target x", "form"),
    ("target 00", "form"),
    ("target 0 x", "form"),
    ("target 65536 x", "form"),
    ("target" + "".join(f" {i}" for i in range(16)) + " x", "form"),
    ("target 65536", "number"),
    ("target 0 65536", "number"),
    ("target 1 65536", "number"),
    ("target 0 18446744073709551617", "number"),
    ("target" + "".join(f" {i}" for i in range(17)) + " 65536", "number"),
    ("target 1", "target"),
    ("target 0 0", "target"),
    ("target 0 5 5", "target"),
    ("target 0 5 4", "target"),
    ("target" + "".join(f" {i}" for i in range(17)), "target"),
    ("target" + "".join(f" {i}" for i in range(16)), ""),
    ("target 0 65535", ""),
    ("target 0", ""),
]

# keys as version 2 alone has them: the word, and whether it is one
ESCAPED = [
    ("a%20b", True),
    ("%00", True),
    ("%FF%25%3D", True),
    (32 * "%00", True),
    (33 * "%00", False),
    ("a%2Fb", False),
    ("a%5fb", False),
    ("a%5Fb", False),
    ("%%", False),
    ("%F", False),
    ("%GG", False),
]

# whole texts, and the bad line and its kind, or the answer
WHOLE = [
    ("", (1, "no-end")),
    ("xcscript 1", (1, "form")),
    ("xcscript 1\n", (2, "no-end")),
    ("xcscript 2\n", (2, "no-end")),
    ("xcscript 3\n", (1, "form")),
    ("xcscript 01\n", (1, "form")),
    ("xcscript\n", (1, "form")),
    ("xcscript 1 1\n", (1, "form")),
    ("xcscript 1 \n", (1, "form")),
    ("xcscript  1\n", (1, "form")),
    (" xcscript 1\n", (1, "form")),
    ("xcscript 1\r\n", (1, "form")),
    ("xclog 1\n", (1, "form")),
    ("\n", (1, "form")),
    ("\xef\xbb\xbfxcscript 1\n", (1, "form")),
    ("target 0\n", (1, "form")),
    ("end\n", (1, "form")),
    ("xcscript 1\ntarget 0", (2, "form")),
    ("xcscript 1\ntarget 0\n", (3, "no-end")),
    ("xcscript 1\ntarget 0\nend", (3, "form")),
    ("xcscript 1\ntarget 0\nsafe", (3, "form")),
    ("xcscript 1\ntarget 0\nwatch aaa\n", (4, "no-end")),
    ("xcscript 1\ntarget 0\nwatch aaa\nwatch aaa\nend\n", (4, "form")),
    ("xcscript 1\ntarget 0\nsafe\nwatch aaa\nend\n", (4, "form")),
    ("xcscript 1\ntarget 0\nsafe\ntarget 0\nend\n", (4, "form")),
    ("xcscript 1\ntarget 0\nwatch aaa\ntarget 0\nend\n", (4, "form")),
    ("xcscript 1\ntarget 0\nwatch aaa\nsafe\nend\n", "safe 0\n"),
    ("xcscript 1\ntarget 0\nend\n", ""),
    ("xcscript 1\ntarget 0\nend\nend\n", (4, "form")),
    ("xcscript 1\ntarget 0\nend\nsafe\n", (4, "form")),
    ("xcscript 1\ntarget 0\nend\n\n", (4, "form")),
    ("xcscript 1\ntarget 0\nend\nx", (4, "form")),
    ("xcscript 1\ntarget 0\nsafe\nsafe x\nread +\nend\n", (4, "form")),
    ("xcscript 1\ntarget 0\nread +\nsafe x\nend\n", (3, "key")),
    ("xcscript 1\ntarget 1\npoll 2 1\n", (2, "target")),
    ("xcscript 1\ntarget 0\nstop 0 1 1\nend\n", (3, "unknown-tablet")),
]


def script(lines):
    """A script of version 1 for a target of one tablet, with these lines before its end."""
    return "xcscript 1\ntarget 0\n" + "".join(line + "\n" for line in lines) + "end\n"


def lines_in(count, line="safe"):
    """A script of so many lines, its end among them, with this line before the end."""
    return script(["safe"] * (count - 4) + [line])


def bytes_in(count):
    """A script of so many bytes."""
    # lines of 38 bytes, and two of 7 to 37 that come to the rest
    whole, rest = divmod(count - len(script([])) - 14, 38)
    keys = [32] * whole + [1 + rest // 2, 1 + rest - rest // 2]
    return script(["read " + key * "a" for key in keys])


LIMITS = [
    (script(["scan"] * 8), "scan 0 0\n" * 8),
    (script(["scan"] * 9), (11, "limit")),
    (script(["scan"] * 8 + ["safe", "scan"]), (12, "limit")),
    (script(["scan"] * 8 + ["scan 1"]), (11, "form")),
    (script(["drain"] * 64), "drain 11\n" * 64),
    (script(["drain"] * 65), (67, "limit")),
    (lines_in(MOST_LINES), "safe 0\n" * (MOST_LINES - 3)),
    (lines_in(MOST_LINES + 1), (MOST_LINES + 1, "limit")),
    (lines_in(MOST_LINES + 2), (MOST_LINES + 1, "limit")),
    (lines_in(MOST_LINES + 2, "poll 2 1"), (MOST_LINES + 1, "unknown-tablet")),
    (lines_in(MOST_LINES + 2, "read +"), (MOST_LINES + 1, "key")),
    (lines_in(MOST_LINES + 2, "poll 0 0"), (MOST_LINES + 1, "number")),
    (lines_in(MOST_LINES + 2, "safe 1"), (MOST_LINES + 1, "form")),
    (lines_in(MOST_LINES + 1)[:-len("end\n")], (MOST_LINES + 1, "no-end")),
    (bytes_in(MOST_BYTES), ANY),
    (bytes_in(MOST_BYTES + 1), "script too long\n"),
    ("x" * MOST_BYTES, (1, "form")),
    ("x" * (MOST_BYTES + 1), "script too long\n"),
]


def table():
    """Each text, and the bad line and its kind, or the answer."""
    for version in (1, 2):
        for line, told in THIRD:
            text = f"xcscript {version}\ntarget 0 40000\n{line}\nend\n"
            yield text, told if told == "" or told.endswith("\n") else (3, told)
        for line, told in SECOND:
            yield f"xcscript {version}\n{line}\nend\n", told and (2, told)
        for word, is_key in ESCAPED:
            is_read = is_key and version == 2
            for command, answer in (("read", f"read 0 {word} absent\n"), ("readat 0", f"readat 0 {word} absent\n"),
                                    ("watch aaa", "")):
                text = f"xcscript {version}\ntarget 0\n{command} {word}\nend\n"
                yield text, answer if is_read else (3, "key")
    yield from WHOLE
    yield from LIMITS


def main(words):
    program = os.path.abspath(words[0] if words else os.path.join(ROOT, "crates", "xcr", "out", "xcr"))
    passed = failed = 0
    with tempfile.TemporaryDirectory() as folder:
        logs, path = os.path.join(folder, "logs"), os.path.join(folder, "script")
        with open(logs, "w") as out:
            out.write(LOGS)
        for text, told in table():
            with open(path, "wb") as out:
                out.write(text.encode("latin-1"))
            done = subprocess.run([program, "replay", logs, path], stdout=subprocess.PIPE)
            found = done.returncode, done.stdout.decode("latin-1")
            want = (4, "bad script %d %s\n" % told) if isinstance(told, tuple) else (0, told)
            want = (4, told) if told == "script too long\n" else want
            if found == want or told is ANY and found[0] == 0:
                passed += 1
            else:
                failed += 1
                print(f"{text[:120]!r} gives {found[0]} {found[1][:200]!r} in place of {told!r}"[:600])
    print(f"{passed} passed, {failed} failed")
    return 1 if failed else 0


sys.exit(main(sys.argv[1:]))
