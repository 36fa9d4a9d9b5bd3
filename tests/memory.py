#!/usr/bin/env python3
"""memory.py [PROGRAM]

Runs the program with less and less memory: an address space of every size between that at which it starts at all and
that at which it ends whole, in STEPS steps. It may write the whole output and end as with ample memory, or write a
prefix of it and end with status 7. Closes with 'N passed, M failed' and how often memory ran out.
"""
import os, resource, subprocess, sys, tempfile

ROOT = os.path.dirname(os.path.dirname(os.path.abspath(__file__)))
STEPS = 60
PAGE = 4096


def logs():
    """A log of two tablets, which writes many keys, over them, and over one tablet, and splits."""
    lines = ["xclog 1", "tablet 0 0 65535 root", "tablet 1 0 32767 child 0", "tablet 2 32768 65535 child 0"]
    for i in range(1, 4001):
        lines.append(f"0 {2 * i} write +k{i}={i}" if i % 2 else f"0 {2 * i} intent {i} +aaa{i}={i} +zzz{i % 50}={i}")
    lines += ["0 9000 safe 8500", "0 9001 split 32768 1 2"]
    for i in range(2, 4001, 2):
        lines += [f"{tablet} {9001 + i} apply {i} {9000 + i}" for tablet in (1, 2)]
    lines += [f"{tablet} 19000 safe 19000" for tablet in (1, 2)]
    return "\n".join(lines + ["end", ""])


SCRIPT = "xcscript 1\ntarget 0 20000 40000\npoll 0 1000\nread k7\ndrain\nscan\nprune 9000\nreport\nfailover\nend\n"


def run(program, folder, words, most):
    """The status and the output of a run whose address space has at most so many bytes."""
    limit = lambda: resource.setrlimit(resource.RLIMIT_AS, (most, most))
    done = subprocess.run([program] + words, cwd=folder, stdout=subprocess.PIPE, stderr=subprocess.DEVNULL,
                          preexec_fn=limit)
    return done.returncode, done.stdout


def least(low, high, suffices):
    """The least number of bytes, but for a page, that suffices; `high` does."""
    while high - low > PAGE:
        middle = (low + high) // 2
        low, high = (low, middle) if suffices(middle) else (middle, high)
    return high


def main(words):
    program = os.path.abspath(words[0] if words else os.path.join(ROOT, "crates", "xcr", "out", "xcr"))
    passed = failed = short = 0
    with tempfile.TemporaryDirectory() as folder:
        for name, text in (("logs", logs()), ("script", SCRIPT)):
            with open(os.path.join(folder, name), "w") as out:
                out.write(text)
        for words in (["replay", "logs", "script"], ["audit", "logs"], ["upgrade", "logs"]):
            whole = run(program, folder, words, 2**32)
            starts = least(0, 2**32, lambda most: run(program, folder, [], most)[0] == 1)
            ends = least(starts, 2**32, lambda most: run(program, folder, words, most) == whole)
            for step in range(STEPS):
                found = run(program, folder, words, starts + (ends - starts) * step // STEPS // PAGE * PAGE)
                if found == whole or found[0] == 7 and whole[1].startswith(found[1]):
                    passed, short = passed + 1, short + (found != whole)
                else:
                    failed += 1
                    print(f"{' '.join(words)}: status {found[0]}, and {len(found[1])} bytes")
    print(f"{passed} passed, {failed} failed; memory ran out in {short}")
    return 1 if failed or not short else 0


sys.exit(main(sys.argv[1:]))
