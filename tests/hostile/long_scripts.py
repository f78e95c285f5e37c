#!/usr/bin/env python3
"""Runs long drawn scripts and compares the answers with those of the programs without proofs in bench/peers.

    python3 tests/hostile/long_scripts.py [PROGRAM [SECONDS [START]]]

PROGRAM is build/retro where none is named; it goes on for so many SECONDS (60), with draws from START (1). Each script has one
timeline of some thousand rows or some ten thousand, so that checkpoints are made, split and dropped and labels run out, and half of
its lines look at the past. The programs in plain Rust, which `rustc` builds, refuse in one form all that no row contradicts.
"""

import os
import random
import re
import subprocess
import sys
import tempfile
import time

ROOT = os.path.dirname(os.path.dirname(os.path.dirname(os.path.abspath(__file__))))
KINDS = {
    "queue": (["enq"], ["deq"], ["front", "back", "nth 5", "size"]),
    "stack": (["push"], ["pop"], ["top", "nth 5", "size"]),
    "deque": (["pushl", "pushr"], ["popl", "popr"], ["left", "right", "nth 5", "size"]),
    "dict": (["put"], ["del"], ["get", "succ", "pred", "count", "sum", "size"]),
    "pq": (["ins"], ["delmin"], ["min", "nth 5", "size"]),
    "pqf": (["ins"], ["delmin"], ["min", "nth 5", "size"]),
}


class Script:
    def __init__(self, draw, kind):
        self.draw, self.kind = draw, kind
        self.adds, self.takes, self.asks = KINDS[kind]
        self.rows = draw.choice([1_000, 3_000, 20_000])
        self.times = draw.choice([50, 10_000, 10**9])
        self.keys = draw.choice([8, 1_000])
        self.number = 1
        self.burst = 0

    def op(self, adding):
        word = self.draw.choice(self.adds if self.draw.random() < adding else self.takes)
        if word in ("put", "del"):
            key = self.draw.randrange(self.keys)
            return "put %d %d" % (key, self.draw.randrange(1000)) if word == "put" else "del %d" % key
        return word if word in self.takes else "%s %d" % (word, self.draw.randrange(self.keys))

    def moment(self):
        if self.draw.random() < 0.8:
            return "at %d" % self.draw.randrange(self.times)
        return "%s #%d" % (self.draw.choice(["before", "after"]), self.any())

    def any(self):
        return self.draw.randint(1, self.number + 2)

    def question(self):
        question = self.draw.choice(self.asks)
        if self.kind == "dict" and question != "size":
            count = 2 if question in ("count", "sum") else 1
            question += "".join(" %d" % self.draw.randrange(self.keys) for _ in range(count))
        return "g ask %s %s" % (self.moment() if self.draw.random() < 0.9 else "", question)

    def edit(self):
        if self.burst:
            self.burst -= 1
            self.number += 1
            return "g at %d %s" % (self.times // 2, self.op(0.9))
        chance = self.draw.random()
        if chance < 0.5:
            self.number += 1
            return "g %s %s" % (self.moment(), self.op(0.6))
        if chance < 0.7:
            return "g delete #%d" % self.any()
        if chance < 0.8:
            return "g move #%d at %d" % (self.any(), self.draw.randrange(self.times))
        if chance < 0.99:
            return "g " + self.draw.choice(["undo", "undo", "redo"])
        self.burst = 100
        return "g fate #%d" % self.any()

    def text(self):
        yield "new g " + self.kind
        for index in range(self.rows):
            self.number += 1
            yield "g at %d %s" % (self.times * index // self.rows, self.op(0.7))
        for _ in range(2_000):
            yield self.edit() if self.draw.random() < 0.5 else self.question()
        yield "save g"


def plainly(answers):
    """The answers with one form for each refusal that no row is the cause of."""
    return re.sub(rb"^refused (?!at #).*$", b"refused syntax", answers, flags=re.M)


def main():
    program = os.path.abspath(sys.argv[1] if len(sys.argv) > 1 else os.path.join(ROOT, "build", "retro"))
    until = time.time() + (float(sys.argv[2]) if len(sys.argv) > 2 else 60)
    start = seed = int(sys.argv[3]) if len(sys.argv) > 3 else 1
    lines = 0
    with tempfile.TemporaryDirectory() as folder:
        peers = os.path.join(folder, "peers")
        subprocess.run(["rustc", "--edition", "2024", "-O", "-o", peers, os.path.join(ROOT, "bench", "peers", "main.rs")], check=True)
        while time.time() < until:
            for kind in KINDS:
                given = "".join(line + "\n" for line in Script(random.Random("%s %d" % (kind, seed)), kind).text()).encode()
                said = plainly(subprocess.run([program, "run"], input=given, stdout=subprocess.PIPE).stdout)
                for design in ("best", "same"):
                    if subprocess.run([peers, design], input=given, stdout=subprocess.PIPE).stdout != said:
                        kept = os.path.abspath("differs_%s_%d.script" % (kind, seed))
                        with open(kept, "wb") as file:
                            file.write(given)
                        sys.exit("%s is answered otherwise by the design `%s`" % (kept, design))
                lines += given.count(b"\n")
            seed += 1
    print("%d long scripts with %d lines: all as they should be" % ((seed - start) * len(KINDS), lines))


if __name__ == "__main__":
    main()
