#!/usr/bin/env python3
"""Draws edits of each kind, and compares the answers with those of a second bench that replays (`hostile/second_bench.py`).

    python3 tests/drawn.py [PROGRAM]

PROGRAM is build/retro where none is named. After each edit a moment of the past is asked about, and the present. The draws are the same
in each run. The last line says how many scripts have passed and failed.
"""

import os
import random
import subprocess
import sys

ROOT = os.path.dirname(os.path.dirname(os.path.abspath(__file__)))
sys.path.insert(0, os.path.join(ROOT, "tests", "hostile"))

import second_bench

LIMIT = 120  # seconds that one script may take
TIMES = 500
ADDING = {"queue": ["enq %d"], "stack": ["push %d"], "deque": ["pushl %d", "pushr %d"], "dict": ["put %d 1", "put %d 2"], "pq": ["ins %d"]}
TAKING = {"queue": ["deq"], "stack": ["pop"], "deque": ["popl", "popr"], "dict": ["del %d"], "pq": ["delmin"]}
ASKING = {
    "queue": ["front", "back", "nth 3"],
    "stack": ["top", "nth 3"],
    "deque": ["left", "right", "nth 3"],
    "dict": ["get %d", "succ %d", "pred %d", "count 3 %d", "sum 3 %d"],
    "pq": ["min", "nth 3"],
}


def filled(draws, forms):
    """One of the forms, with a number of twenty in it."""
    return draws.choice(forms).replace("%d", str(draws.randrange(20)))


def edit(draws, kind, rows):
    """A row that is put in, more often one that adds; or one that is taken out, which had one of so many numbers."""
    draw = draws.random()
    if draw < 0.15:
        return "x delete #%d" % draws.randint(1, rows)
    return "x at %d %s" % (draws.randrange(TIMES), filled(draws, (ADDING if draw < 0.6 else TAKING)[kind]))


def asked(draws, kind):
    """A question about a moment, and the present."""
    yield "x ask at %d %s" % (draws.randrange(TIMES), filled(draws, ASKING[kind] + ["size", "all"]))
    yield "x ask %s" % filled(draws, ASKING[kind] + ["size"])


def drawn(word, draws, edits):
    """A timeline that is made by `new` with a word, and edited."""
    kind = word.removesuffix("f")
    yield "new x " + word
    for number in range(edits):
        yield edit(draws, kind, number + 1)
        yield from asked(draws, kind)
    yield "save x"


def between_checkpoints(draws, rows, edits):
    """A priority queue with so many rows that it has checkpoints once its past is asked, and is then edited. A third of its rows take."""
    yield "timeline x pq next %d" % (rows + 1)
    for number in range(1, rows + 1):
        op = "delmin" if number % 3 == 0 else "ins %d" % number
        yield "#%d %d %s" % (number, number * TIMES // (rows + 1), op)
    yield "end"
    for number in range(edits):
        yield edit(draws, "pq", rows)
        yield from asked(draws, "pq")


def scripts():
    for word in ("queue", "stack", "deque", "dict", "pq", "pqf"):
        for start in (1, 2):
            yield "%s from %d" % (word, start), drawn(word, random.Random(start), 400)
    yield "pq between checkpoints", between_checkpoints(random.Random(7), 1_500, 100)


def passes(program, title, script):
    given = "".join(line + "\n" for line in script).encode()
    texts, refused = second_bench.output(given, ["run"])
    wanted, met = b"".join(texts).splitlines(), None
    done = subprocess.run([program, "run"], input=given, stdout=subprocess.PIPE, timeout=LIMIT)
    met = done.stdout.splitlines()
    if (met, done.returncode) == (wanted, int(refused)):
        return True
    print("%s: status %d, wanted %d" % (title, done.returncode, int(refused)))
    for index in range(max(len(met), len(wanted))):
        if met[index : index + 1] != wanted[index : index + 1]:
            print("    answer %d: %.200r, wanted %.200r" % (index + 1, met[index : index + 1], wanted[index : index + 1]))
            break
    return False


def main():
    program = os.path.abspath(sys.argv[1] if len(sys.argv) > 1 else os.path.join(ROOT, "build", "retro"))
    passings = [passes(program, title, script) for title, script in scripts()]
    print("%d passed, %d failed" % (sum(passings), len(passings) - sum(passings)))
    sys.exit(not all(passings))


if __name__ == "__main__":
    main()
