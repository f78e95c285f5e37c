#!/usr/bin/env python3
"""Makes 100,000 edits and questions through the client of clients/python, one by one and in a stream, and compares each answer.

    python3 tests/client.py [PROGRAM]

PROGRAM is build/retro where none is named. What the lines answer is known without a replay: jobs come at the end and are taken in their
order, and orders come and go at random times with rising keys. The last line says how many lines a second were answered, there and back,
and how many where none waits for an answer; then how many plain lines a stream and a pipe written by hand answer. A stream that is less than an
eighth as fast as the pipe fails; half as fast is meant, on a machine that does nothing else.
"""

import os
import random
import subprocess
import sys
import threading
import time

ROOT = os.path.dirname(os.path.dirname(os.path.abspath(__file__)))
sys.dont_write_bytecode = True
sys.path.insert(0, os.path.join(ROOT, "clients", "python"))

from retro import Retro  # noqa: E402

LINES = 100_000


def expect(line, wanted, answers):
    if answers != wanted:
        sys.exit("%s: %r in place of %r" % (line, answers, wanted))


def orders(order):
    """The lines of an order with their answers: it comes, is moved, and goes."""
    gains = "edit orders add 0 #%d ins %d bridge 0 gain #%d %d"
    yield "orders at 7 ins %d" % order, [gains % (order, order, order, order)]
    late = order + 1
    cut = "edit orders cut %d #%d ins %d bridge none lose #%d %d"
    moved = gains % (late, order, late, order), cut % (1, order, order, order, order)
    yield "orders move #%d at 5" % order, list(moved)
    added = "edit orders add 1 #%d ins %d bridge 1 gain #%d %d"
    yield "orders undo", [added % (order, order, order, order), cut % (0, late, order, late, order)]
    yield "orders redo", list(moved)
    yield "orders delete #%d" % late, [cut % (0, late, order, late, order)]


def lines():
    """The lines with their answers."""
    draw = random.Random(1)
    yield "new jobs queue", ["ok"]
    yield "new orders pq", ["ok"]
    sent = 2
    number = first = last = order = 0
    while sent < LINES:
        number += 1
        if first < last and draw.random() < 0.4:
            first += 1
            yield "jobs at %d deq" % number, ["ok #%d" % number]
        else:
            last += 1
            yield "jobs at %d enq %d" % (number, last), ["ok #%d" % number]
        yield "jobs ask front", ["= %d" % (first + 1) if first < last else "= none"]
        sent += 2
        if number % 50 == 0:
            yield from orders(order + 1)
            order += 2
            sent += 5
        if number % 1000 == 0:
            yield "jobs at 0 deq", ["refused at #%d 0" % (number + 1)]
            sent += 1
    yield "jobs ask size", ["= %d" % (last - first)]


def one_by_one(retro):
    for line, wanted in lines():
        expect(line, wanted, list(retro.send(line).answers))
    saved = retro.save("jobs")
    expect("a block", list(saved.rows), retro.load(saved.renamed("copy")).rows())


def in_a_stream(retro):
    for reply, (line, wanted) in zip(retro.stream(line for line, _ in lines()), lines()):
        expect(line, wanted, list(reply.answers))


PLAIN = ["new q queue"] + ["q at %d enq %d" % (at, at) if at % 2 else "q ask size" for at in range(250_000)]


def by_a_pipe(program):
    """How many plain lines a second a pipe answers that a thread writes and a loop reads."""
    began = time.monotonic()
    with subprocess.Popen([program, "run"], stdin=subprocess.PIPE, stdout=subprocess.PIPE) as pipe:

        def write():
            for at in range(0, len(PLAIN), 1000):
                pipe.stdin.write(("\n".join(PLAIN[at : at + 1000]) + "\n").encode())
            pipe.stdin.close()

        writer = threading.Thread(target=write)
        writer.start()
        expect("the lines of a pipe", len(PLAIN), sum(1 for _ in pipe.stdout))
        writer.join()
    return len(PLAIN) / (time.monotonic() - began)


def by_a_stream(program):
    """How many plain lines a second a stream answers."""
    began = time.monotonic()
    with Retro(program) as retro:
        expect("the lines of a stream", len(PLAIN), sum(1 for _ in retro.stream(PLAIN)))
    return len(PLAIN) / (time.monotonic() - began)


def main():
    program = os.path.abspath(sys.argv[1] if len(sys.argv) > 1 else os.path.join(ROOT, "build", "retro"))
    rates = []
    for talk in (one_by_one, in_a_stream):
        began = time.monotonic()
        retro = Retro(program)
        talk(retro)
        expect("the end", 1, retro.end())
        rates.append(LINES / (time.monotonic() - began))
    print("client: %d lines, %d a second one by one, %d a second in a stream" % (LINES, *rates))
    pipe, stream = (max(way(program) for _ in range(3)) for way in (by_a_pipe, by_a_stream))
    print("client: %d plain lines, %d a second by a pipe, %d by a stream: %.2f" % (len(PLAIN), pipe, stream, stream / pipe))
    sys.exit(int(stream < pipe / 8))


if __name__ == "__main__":
    main()
