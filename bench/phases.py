"""The lines that are measured: a history of one kind, and on it what a user does, phase by phase.

Each line is accepted, which is known beforehand: the first sixteenth of the rows puts something in, so that at every later time
there is more to take than the phases take; what a phase puts in is its own, and nothing of the history rests on it.
"""

import collections
import random

KINDS = ["queue", "stack", "deque", "dict", "pq", "pqf"]
KEYS = 1_000  # keys of a dictionary
MANY_KEYS = 60_000  # and of one with many
PACE = 1_000  # between the times of two rows
WIDEST = 1_000_000  # keys of a priority queue

QUESTIONS = {
    "queue": ["front", "back", "nth 3", "size"],
    "stack": ["top", "nth 3", "size"],
    "deque": ["left", "right", "nth 3", "size"],
    "dict": ["get", "get", "succ", "pred"],
    "pq": ["min"],
    "pqf": ["min"],
}

# What is measured, in the order in which it is run, with the most lines.
PHASES = [
    ("end", None),
    ("edit", 20_000),
    ("now", 20_000),
    ("first", 1),
    ("past", 20_000),
    ("forward", 20_000),
    ("mixed", 20_000),
    ("later", 20_000),
    ("move", 1_000),
    ("undo", 1_000),
    ("redo", 1_000),
    ("fate", 200),
    ("burst", 512),
    ("save", 1),
    ("load", 1),
]

# And of a dictionary with many keys.
MANY_PHASES = [("end", None), ("edit", 20_000), ("past", 20_000), ("wide", 20_000)]


Case = collections.namedtuple("Case", "kind rows phase")


def margin(rows):
    """How many rows the phases may add to these."""
    return max(rows // 64, 16)


class History:
    """A timeline `g` of one kind, with so many rows, and what phases have put into it."""

    def __init__(self, kind, rows, seed=1, keys=KEYS):
        self.kind, self.rows, self.keys = kind, rows, keys
        self.draw = random.Random("%s %d %d" % (kind, rows, seed))
        self.next = 1
        self.own = []  # rows of phases: lists of numbers, the last of which can be deleted
        self.adding = []  # rows of the history that put something in
        self.ahead = 0
        self.new_keys = keys
        self.moved = []

    def number(self):
        self.next += 1
        return self.next - 1

    def add(self):
        """An operation that puts something in."""
        value = self.draw.randrange(1000)
        if self.kind in ("pq", "pqf"):
            return "ins %d" % self.draw.randrange(WIDEST)
        if self.kind == "dict":
            return "put %d %d" % (self.draw.randrange(self.keys), value)
        return "%s %d" % ({"queue": "enq", "stack": "push"}.get(self.kind) or self.draw.choice(["pushl", "pushr"]), value)

    def take(self):
        return {"queue": "deq", "stack": "pop", "pq": "delmin", "pqf": "delmin"}.get(self.kind) or self.draw.choice(["popl", "popr"])

    def history(self):
        """Rows put in at the end, one after another."""
        present, keys = [], set()
        for index in range(self.rows - margin(self.rows)):
            time, number = PACE * (index + 1), self.number()
            if index < self.rows // 16 or self.draw.random() >= 0.375:
                op = self.add()
                self.adding.append(number)
                if self.kind == "dict" and op.split()[1] not in keys:
                    keys.add(op.split()[1])
                    present.append(op.split()[1])
            elif self.kind != "dict":
                op = self.take()
            else:
                place = self.draw.randrange(len(present))
                present[place], present[-1] = present[-1], present[place]
                op = "del " + present[-1]
                keys.remove(present.pop())
            yield "g at %d %s" % (time, op)

    def time(self, first=0):
        return self.draw.randrange(PACE * first, PACE * self.rows)

    def put(self):
        self.own.append([self.number()])
        return "g at %d %s" % (self.time(), self.add())

    def put_taking(self):
        """A row that takes something out, where there is always something."""
        if self.kind != "dict":
            self.own.append([self.number()])
            return ["g at %d %s" % (self.time(self.rows // 16 + 1), self.take())]
        time, key = self.time(), self.new_keys
        self.new_keys += 1
        self.own.append([self.number(), self.number()])
        return ["g at %d put %d 7" % (time, key), "g at %d del %d" % (self.draw.randrange(time, PACE * self.rows), key)]

    def delete(self):
        place = self.draw.randrange(len(self.own))
        self.own[place], self.own[-1] = self.own[-1], self.own[place]
        number = self.own[-1].pop()
        if not self.own[-1]:
            self.own.pop()
        return "g delete #%d" % number

    def edits(self, count):
        lines = []
        while len(lines) < count:
            there = sum(map(len, self.own[:margin(self.rows)]))
            if self.own and (there > margin(self.rows) - 4 or self.draw.random() < 0.5):
                lines.append(self.delete())
            elif self.draw.random() < 0.6:
                lines.append(self.put())
            else:
                lines += self.put_taking()
        return lines

    def question(self, moment=""):
        question = self.draw.choice(QUESTIONS[self.kind])
        if self.kind == "dict":
            question += " %d" % self.draw.randrange(self.keys)
        return "g ask %s%s" % (moment, question)

    def past(self):
        return self.question("at %d " % self.time(1))

    def wide(self):
        """A question about half of the keys of a dictionary."""
        low = self.draw.randrange(self.keys // 2)
        return "g ask at %d %s %d %d" % (self.time(1), self.draw.choice(["count", "sum"]), low, low + self.keys // 2)

    def first(self):
        return self.question("at %d " % (PACE * self.rows - PACE * margin(self.rows) - PACE))

    def forward(self):
        self.ahead = (self.ahead + 4 * PACE) % (PACE * self.rows)
        return self.question("at %d " % self.ahead)

    def mixed(self, count):
        edits = self.edits((count + 1) // 2)
        return [line for edit in edits for line in (edit, self.past())]

    def clear(self):
        """Takes out again what phases have put in."""
        lines = ["g delete #%d" % number for numbers in self.own for number in reversed(numbers)]
        self.own = []
        return lines

    def mover(self):
        """Rows that can be moved."""
        lines = self.clear()
        for _ in range(8):
            lines.append(self.put())
        return lines

    def move(self):
        numbers = self.draw.choice(self.own)
        line = "g move #%d at %d" % (numbers[0], self.time())
        numbers[0] = self.number()
        return line

    def burst(self):
        """Rows at one time in the middle, each of which stands after those before it."""
        self.own.append([self.number()])
        return "g at %d %s" % (PACE * self.rows // 2, self.add())

    def lines(self, phase, count):
        """So many lines of a phase, or one or two more."""
        if phase in ("undo", "redo"):
            return ["g " + phase] * count
        if phase in ("edit", "later"):
            return self.edits(count)
        if phase == "mixed":
            return self.mixed(count)
        one = {"now": self.question, "first": self.first, "past": self.past, "wide": self.wide, "forward": self.forward, "move": self.move, "burst": self.burst}.get(phase)
        if one:
            return [one() for _ in range(count)]
        if phase == "fate":
            return ["g fate #%d" % self.draw.choice(self.adding) for _ in range(count)]
        return ["save g"]

    def before(self, phase):
        """Lines before a phase that are not measured."""
        return self.mover() if phase == "move" else self.clear() if phase in ("burst", "save") else []
