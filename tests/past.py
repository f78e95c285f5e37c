#!/usr/bin/env python3
"""Asks `retro run` about the past of a full deque half a million times, and compares each answer.

    python3 tests/past.py [PROGRAM]

PROGRAM is build/retro where none is named. The deque is loaded as one block, whose row N puts N in at the left,
so before row N the leftmost item is N - 1. A program that performs the rows again for each question runs out of
the processor time that is given; no contract speaks of time. The exit status is 0 where all is answered.
"""

import os
import resource
import subprocess
import sys
import tempfile

ROWS = 131_072
QUESTIONS = 500_000
NEAREST = 1_000  # the questions are about the last rows, as many as this
SECONDS = 60  # of processor time
ROOT = os.path.dirname(os.path.dirname(os.path.abspath(__file__)))


def asked():
    """The rows that the questions are about."""
    return (ROWS - index % NEAREST for index in range(QUESTIONS))


def script():
    """The lines of the script."""
    yield "timeline d deque next %d" % (ROWS + 1)
    for row in range(1, ROWS + 1):
        yield "#%d 1 pushl %d" % (row, row)
    yield "end"
    for row in asked():
        yield "d ask before #%d left" % row


def answers():
    """Their answers."""
    yield "ok"
    for row in asked():
        yield "= %d" % (row - 1)


def limit_time():
    resource.setrlimit(resource.RLIMIT_CPU, (SECONDS, SECONDS))


def main():
    program = sys.argv[1] if len(sys.argv) > 1 else os.path.join(ROOT, "build", "retro")
    with tempfile.TemporaryFile() as given, tempfile.TemporaryFile() as taken:
        given.writelines(b"%s\n" % line.encode() for line in script())
        given.seek(0)
        done = subprocess.run([program, "run"], stdin=given, stdout=taken, preexec_fn=limit_time)
        taken.seek(0)
        met = taken.read().decode().splitlines()
    wanted = list(answers())
    used = resource.getrusage(resource.RUSAGE_CHILDREN)
    print("%d of %d answers, in %.1f of %d seconds" % (len(met), len(wanted), used.ru_utime + used.ru_stime, SECONDS))
    if done.returncode != 0:
        sys.exit("the program ended with status %d" % done.returncode)
    if met != wanted:
        first = next(index for index, pair in enumerate(zip(met + [None], wanted + [None])) if pair[0] != pair[1])
        sys.exit("answer %d is another one: %r" % (first + 1, (met + [None])[first]))


if __name__ == "__main__":
    main()
