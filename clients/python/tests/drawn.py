"""Drawn bytes: lines of all forms, comments and junk, each of which has its own answer and no other line's.

Two judges say so. Among the lines stand questions to timelines that do not exist, each with another name, which the answer repeats; a reader
that is one line off gives one of them another name. And a second reading of the language, tests/hostile/second_bench.py, says of shorter
scripts what each single line is answered.
"""

import os
import random
import time
import unittest
from unittest import mock

import second_bench
from retro import Retro, answer, answer_divided, pool
from retro.grammar import opens

PROGRAM = os.environ["RETRO"]
LINES = int(os.environ["DRAWN_LINES"])
OF_A_PROCESS = 20_000  # lines that one process is sent
KINDS = ("queue", "stack", "deque", "dict", "pq", "pqf")
OPERATIONS = {
    "queue": ["enq %d", "enq %d", "deq"],
    "stack": ["push %d", "push %d", "pop"],
    "deque": ["pushl %d", "pushr %d", "popl", "popr"],
    "dict": ["put %d 7", "put %d 8", "del %d"],
    "pq": ["ins %d", "ins %d", "ins %d", "delmin"],
}
QUESTIONS = ["size", "all", "front", "back", "top", "left", "right", "min", "nth %d", "get %d", "succ %d", "pred %d", "count 0 %d", "sum 0 %d"]
BLANKS = [b"\t", b"\f", b"\v", b"\r", b"\r\r", b"\x00", b"\x1c", b"\x85", b"\xa0", b"\xef\xbb\xbf", b"", b"   "]
JUNK = BLANKS + [b"end", b" end ", b"end\r", b"end;", b"END", b"#1 5 enq 1"]
HEADERS = [b"timeline %s %s next %d", b"timeline %s %s next %d rows 2", b" timeline  %s %s next 00%d ", b"timeline %s %s next %d rows 131073",
           b"timeline %s %s next -%d", b"timeline %s %s next %d rows", b"timeline %s\t%s next %d", b"timeline %s %s next %d; rows 1"]


class Drawn:
    """Lines of a script, one after another."""

    def __init__(self, draws, names):
        self.draws = draws
        self.kinds = {b"t%d" % index: draws.choice(KINDS) for index in range(names)}
        self.made = 0

    def operation(self, kind):
        form = self.draws.choice(OPERATIONS.get(kind, OPERATIONS["pq"]))
        return (form % self.draws.randint(-2, 9) if "%d" in form else form).encode()

    def comment(self):
        inner = bytes(self.draws.choice(b"; \t\r\x00\xff\xc3\xbcend") for _ in range(self.draws.randint(0, 12)))
        if self.draws.random() < 0.05:
            inner += b"x" * self.draws.choice([4083, 4094, 4095, 4096, 4097, 9000])
        return b" " * self.draws.randint(0, 2) + b";" + inner

    def block(self, name, kind):
        kind = self.draws.choice([kind, "pq", "queue", "pqf"])
        header = self.draws.choice(HEADERS) % (name, kind.encode(), self.draws.randint(0, 6))
        rows = []
        for number in range(self.draws.randint(0, 4)):
            time = self.draws.randint(number, number + 2)
            rows.append(b"%s#%d %d %s" % (b" " * self.draws.randint(0, 2), number + 1, time, self.operation(kind)))
            if self.draws.random() < 0.3:
                rows.append(self.draws.choice([self.comment(), b"", b"\t", self.junk()]))
        return [header, *rows] + ([b"end"] if self.draws.random() < 0.98 else [])

    def junk(self):
        if self.draws.random() < 0.5:
            return self.draws.choice(JUNK)
        return bytes(self.draws.randrange(256) for _ in range(self.draws.randint(1, 9))).replace(b"\n", b"")

    def edit(self, name, kind):
        number = self.draws.randint(1, 30)
        draw = self.draws.random()
        if draw < 0.35:
            return b"%s at %d %s" % (name, self.draws.randint(0, 40), self.operation(kind))
        if draw < 0.45:
            return b"%s %s #%d %s" % (name, self.draws.choice([b"before", b"after"]), number, self.operation(kind))
        if draw < 0.62:
            return b"%s delete #%d" % (name, number)
        if draw < 0.70:
            return b"%s move #%d at %d" % (name, number, self.draws.randint(0, 40))
        if draw < 0.78:
            return b"%s change #%d %s" % (name, number, self.operation(kind))
        return b"%s %s" % (name, self.draws.choice([b"undo", b"undo", b"redo"]))

    def question(self, name):
        form = self.draws.choice(QUESTIONS)
        moment = self.draws.choice([b"", b"", b"at %d " % self.draws.randint(0, 40), b"before #%d " % self.draws.randint(1, 9)])
        return b"%s ask %s%s" % (name, moment, (form % self.draws.randint(0, 9) if "%d" in form else form).encode())

    def lines(self):
        """The next line, or a block."""
        draw = self.draws.random()
        name = self.draws.choice(list(self.kinds))
        kind = self.kinds[name]
        if draw < 0.06:
            return [b"new %s %s" % (name, kind.encode())]
        if draw < 0.50:
            return [self.edit(name, kind)]
        if draw < 0.64:
            return [self.question(name)]
        if draw < 0.67:
            return [self.draws.choice([b"save %s", b"%s fate #3", b"mute 0 %s", b"save %s x"]) % name]
        if draw < 0.72:
            return self.block(b"b%d" % self.draws.randint(0, 9) if self.draws.random() < 0.5 else name, kind)
        if draw < 0.80:
            return [self.comment()]
        return [self.junk()] if draw < 0.90 else [self.asked()]

    def asked(self):
        """A question to a timeline that does not exist, whose answer has its name."""
        self.made += 1
        return b"z%d ask size" % self.made

    def script(self, count):
        told = []
        while len(told) < count:
            told += self.lines()
        return told


class Judged(unittest.TestCase):
    def right(self, reply, open_block):
        """Whether a question to a timeline that does not exist has its own answer, or none within a block."""
        name = reply.line.split(b" ")[0].decode()
        self.assertEqual(reply.answers, () if open_block else ("refused no timeline " + name,), reply)

    def test_drawn_lines_in_a_stream(self):
        began, sent, asked, start = time.monotonic(), 0, 0, 0
        while sent < LINES:
            start += 1
            script = Drawn(random.Random(start), 6).script(OF_A_PROCESS)
            within = False
            with Retro(PROGRAM) as retro:
                for reply in retro.stream(script):
                    sent += 1
                    if reply.line.startswith(b"z") and reply.line.endswith(b" ask size"):
                        asked += 1
                        self.right(reply, within)
                    within = opens(within, [reply.line])
            self.assertEqual(len(retro.reports), int(within))
            self.assertLess(retro.status, 2)
        self.assertGreater(asked, LINES / 20)
        print("drawn: %d lines in %d processes, %d of them questions that repeat their name, %.0f seconds" % (sent, start, asked, time.monotonic() - began))

    def test_drawn_lines_beside_a_second_reading(self):
        for start in range(1, 25):
            script = Drawn(random.Random(start), 6).script(250)
            bench = second_bench.Bench()
            wanted = [tuple(bench.line(line[:-1] if line.endswith(b"\r") else line)) for line in script]
            with Retro(PROGRAM) as retro:
                told = [reply.answers for reply in retro.stream(script)]
            self.assertEqual(told, wanted)
            self.assertEqual(tuple(retro.reports), tuple(bench.close(False)))
            with Retro(PROGRAM) as retro:
                self.assertEqual([retro.send(line).answers for line in script], wanted)
            self.assertEqual([reply.answers for reply in answer(script, PROGRAM).replies], wanted)

    def test_drawn_lines_divided_by_their_timelines(self):
        for start in range(1, 9):
            script = Drawn(random.Random(start), 60).script(3_000)
            with mock.patch.object(pool, "LEAST", 1):
                divided = answer_divided(script, PROGRAM, 4)
            bench = second_bench.Bench()
            bench.free = lambda name, bench=bench: taken(bench, name)
            wanted = [tuple(bench.line(line[:-1] if line.endswith(b"\r") else line)) for line in script]
            self.assertEqual([reply.answers for reply in divided.replies], wanted)
            self.assertEqual(divided.rest, bench.close(False))


def taken(bench, name):
    """Of a bench that holds any number of timelines: whether a name is free."""
    if name in bench.timelines:
        raise second_bench.Refused("refused name taken")
