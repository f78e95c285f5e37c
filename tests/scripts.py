#!/usr/bin/env python3
"""Hands each script of tests/scripts to the program, and compares all that it answers and its status.

    python3 tests/scripts.py [PROGRAM]

PROGRAM is build/retro where none is named. A file has cases, one after another:

    == TITLE
    $ retro WORDS
    > LINE          a line of the input; below it stand the answers that come before the next one
    exit STATUS

In a line of the input \\r, \\xff and the like are single bytes, and a backslash at its end takes its line feed away. Lines that begin with
a `#` before the first case say what a file is about. Two things are seen beside each case of `run`: with `pqf` for `pq` where a timeline
is made it has the same answers, and `check` accepts the evidence among them. The last line says how many have passed and failed.
"""

import difflib
import glob
import os
import subprocess
import sys

LIMIT = 60  # seconds that a case may take
ROOT = os.path.dirname(os.path.dirname(os.path.abspath(__file__)))


class Case:
    """The words of a command line, what the program reads, and what it has to write and to end with."""

    def __init__(self, title, words):
        self.title = title
        self.words = words
        self.read = []
        self.answers = []
        self.status = None

    def given(self):
        text = "".join(line + "\n" for line in self.read)
        return text.encode().decode("unicode_escape").encode("latin-1")

    def wanted(self):
        return "".join(line + "\n" for line in self.answers)


def cases(path):
    """The cases of a file."""
    case = title = None
    with open(path) as lines:
        for number, line in enumerate(lines, 1):
            line = line.rstrip("\n")
            if case is not None and line.startswith("exit "):
                case.status = int(line.removeprefix("exit "))
                yield case
                case = None
            elif case is not None and line.startswith(">"):
                case.read.append(line[2:])
            elif case is not None:
                case.answers.append(line)
            elif line.startswith("== "):
                title = line.removeprefix("== ")
            elif line.startswith("$ retro"):
                case = Case("%s: %s" % (os.path.basename(path), title), line.split()[2:])
            elif line and not line.startswith("#"):
                sys.exit("%s:%d stands in no case" % (path, number))
    if case is not None:
        sys.exit("%s: the last case has no status" % path)


def in_pieces(given):
    """The script with `pqf` for `pq` in each line that makes a timeline."""
    lines = given.split(b"\n")
    return b"\n".join(line + b"f" if line.startswith(b"new ") and line.endswith(b" pq") else line for line in lines)


def passes(program, title, words, given, wanted, status):
    """Whether the program writes and ends with what is wanted; where it does not, the difference is shown."""
    done = subprocess.run([program] + words, input=given, capture_output=True, timeout=LIMIT)
    found = done.stdout.decode("latin-1")
    if (found, done.stderr, done.returncode) == (wanted, b"", status):
        return True
    print("%s: status %d, wanted %d" % (title, done.returncode, status))
    for line in difflib.unified_diff(wanted.splitlines(), found.splitlines(), "wanted", "written", lineterm=""):
        print("    " + line)
    if done.stderr:
        print("    standard error: %r" % done.stderr)
    return False


def results(program, case):
    """Whether a case passes, and what is seen beside it."""
    given, wanted = case.given(), case.wanted()
    yield passes(program, case.title, case.words, given, wanted, case.status)
    if case.words == ["run"]:
        fused = in_pieces(given)
        if fused != given:
            yield passes(program, case.title + ", in pieces", case.words, fused, wanted, case.status)
        edits = sum(line.startswith("edit ") for line in case.answers)
        judgement = "accepted %d\n" % edits
        yield passes(program, case.title + ", judged", ["check"], wanted.encode(), judgement, 0)


def main():
    program = os.path.abspath(sys.argv[1] if len(sys.argv) > 1 else os.path.join(ROOT, "build", "retro"))
    passed = failed = 0
    for path in sorted(glob.glob(os.path.join(ROOT, "tests", "scripts", "*.txt"))):
        for case in cases(path):
            for passing in results(program, case):
                passed += passing
                failed += not passing
    print("%d passed, %d failed" % (passed, failed))
    sys.exit(failed != 0 or passed == 0)


if __name__ == "__main__":
    main()
