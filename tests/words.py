#!/usr/bin/env python3
"""Checks the words of the built program where no test of a crate goes.

    python3 tests/words.py [PROGRAM]

PROGRAM is build/retro where none is named. The script that `gen` sums up is generated here once more, for each kind, and
answered by `run`: the summary has to be that of its answers. And a timeline of 131,072 rows is handed to `check`, which has to
accept it, and to refuse one row more. Words of no form are given to it as the system hands them on: each of them has to end
with status 2, and with nothing written.
"""

import os
import subprocess
import sys

LINES = 2_000
ROWS = 131_072
ROOT = os.path.dirname(os.path.dirname(os.path.abspath(__file__)))
QUESTIONS = {"queue": "front", "stack": "top", "deque": "left", "dict": "succ 50", "pq": "min"}


# Words that are none of the forms, among them one that is no text.
NO_FORMS = [
    [],
    [""],
    ["Run"],
    ["runn"],
    ["run", "run"],
    ["run", ""],
    ["run", b"\xff"],
    [b"run\xff"],
    [b"\xff", "run"],
    ["check", "check"],
    ["gen"],
    ["gen", "queue", "1"],
    ["gen", "queue", "1", "7", "8"],
    ["gen", "queue", "1", "7", b"\xff"],
    ["gen", "heap", "1", "7"],
    ["gen", "queue", "-1", "7"],
]


class Draws:
    def __init__(self, start):
        self.state = start

    def below(self, limit):
        self.state = (6364136223846793005 * self.state + 1442695040888963407) % 2**64
        return (self.state >> 33) % limit


def adding(kind, draws):
    if kind == "deque":
        side = "lr"[draws.below(2)]
        return "push%s %d" % (side, draws.below(1000))
    if kind == "dict":
        key = draws.below(100)
        return "put %d %d" % (key, draws.below(1000))
    return "%s %d" % ({"queue": "enq", "stack": "push", "pq": "ins"}[kind], draws.below(1000))


def taking(kind, draws):
    if kind == "deque":
        return "pop" + "lr"[draws.below(2)]
    if kind == "dict":
        return "del %d" % draws.below(100)
    return {"queue": "deq", "stack": "pop", "pq": "delmin"}[kind]


def script(kind, start):
    draws = Draws(start)
    yield "new g " + kind
    for number in range(1, LINES + 1):
        form = draws.below(10)
        if form <= 6:
            time = draws.below(1_000_000)
            yield "g at %d %s" % (time, (adding if form <= 4 else taking)(kind, draws))
        elif form == 7:
            yield "g delete #%d" % (1 + draws.below(number))
        elif form == 8:
            yield "g ask at %d %s" % (draws.below(1_000_000), QUESTIONS[kind])
        else:
            yield "g ask size"


def answered(program, words, given):
    done = subprocess.run([program] + words, input=given.encode(), stdout=subprocess.PIPE, timeout=300)
    return done.stdout.decode(), done.returncode


def summary_of(program, kind, start):
    """The summary of a generated script, read off the answers of `run`."""
    lines = list(script(kind, start))
    answers = answered(program, ["run"], "\n".join(lines) + "\n")[0].splitlines()
    refused = sum(answer.startswith("refused") for answer in answers)
    after = answered(program, ["run"], "\n".join(lines + ["g ask size", "save g"]) + "\n")[0].splitlines()[len(answers):]
    size = int(after[0].removeprefix("= "))
    rows = sum(line.startswith("#") for line in after)
    return "lines %d accepted %d refused %d rows %d size %d\n" % (len(lines), len(lines) - refused, refused, rows, size)


def main():
    program = os.path.abspath(sys.argv[1] if len(sys.argv) > 1 else os.path.join(ROOT, "build", "retro"))
    failed = 0
    for kind in QUESTIONS:
        for start in (7, 2**64 - 1):
            wanted = (summary_of(program, kind, start), 0)
            found = answered(program, ["gen", kind, str(LINES), str(start)], "")
            if found != wanted:
                print("gen %s %d %d: %r in place of %r" % (kind, LINES, start, found, wanted))
                failed += 1
    evidence = "".join("edit p add %d #%d ins 1 bridge %d gain #%d 1\n" % (i, i + 1, i, i + 1) for i in range(ROWS + 1))
    for given, wanted in (
        (evidence[: evidence.rindex("edit")], ("accepted %d\n" % ROWS, 0)),
        (evidence, ("refused line %d full\n" % (ROWS + 1), 1)),
    ):
        found = answered(program, ["check"], given)
        if found != wanted:
            print("check: %r in place of %r" % (found, wanted))
            failed += 1
    for words in NO_FORMS:
        done = subprocess.run([program] + words, input=b"new q queue\n", capture_output=True, timeout=300)
        found = (done.stdout, done.stderr, done.returncode)
        if found != (b"", b"", 2):
            print("%r: %r" % (words, found))
            failed += 1
    print("the words of the program: %s" % ("as they should be" if failed == 0 else "%d are wrong" % failed))
    sys.exit(failed != 0)


if __name__ == "__main__":
    main()
