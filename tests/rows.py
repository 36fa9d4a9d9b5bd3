#!/usr/bin/env python3
"""rows.py PROGRAM

Runs the program over the worked examples of rows.txt, which says how they are written: each is run in a folder of its
own with its files, and its output and status are compared. Closes with 'N passed, M failed'.
"""
import os
import subprocess
import sys
import tempfile


def examples(path):
    """The examples of the table, each with its title, its words, its files, its output and its status."""
    with open(path, encoding="latin-1", newline="") as table:
        lines = table.read().split("\n")
    found, part = [], None
    for line in lines:
        if line.startswith("== "):
            found.append({"title": line[3:], "files": {}})
        elif line.startswith("#") or not line:
            continue
        elif line.startswith("words: "):
            found[-1]["words"] = line[7:].split(" ")
        elif line.startswith("status: "):
            found[-1]["status"] = int(line[8:])
        elif line.startswith("    "):
            text = line[4:]
            found[-1]["files"][part] += text[:-1] if text.endswith("\\") else text + "\n"
        else:
            part = line[:-1]
            found[-1]["files"][part] = ""
    return found


def run(program, example):
    """The output and the status of the program over the example's files."""
    with tempfile.TemporaryDirectory() as folder:
        for name in ("logs", "script", "source"):
            if name in example["files"]:
                with open(os.path.join(folder, name), "w", encoding="latin-1", newline="") as file:
                    file.write(example["files"][name])
        done = subprocess.run([program] + example["words"], cwd=folder, capture_output=True)
        return done.stdout.decode("latin-1"), done.returncode


def main(program):
    passed = failed = 0
    for example in examples(os.path.join(os.path.dirname(os.path.abspath(__file__)), "rows.txt")):
        output, status = run(program, example)
        wanted = example["files"]["output"], example["status"]
        if (output, status) == wanted:
            passed += 1
        else:
            failed += 1
            print(f"{example['title']}: {output!r} with status {status}, not {wanted[0]!r} with {wanted[1]}")
    print(f"{passed} passed, {failed} failed")
    return 1 if failed else 0


if __name__ == "__main__":
    sys.exit(main(os.path.abspath(sys.argv[1])))
