#!/usr/bin/env python3
"""Runs drawn scripts and compares the answers, byte by byte, with those of a second bench that replays (`second_bench.py`).

    python3 tests/hostile/random_scripts.py [PROGRAM [SECONDS [START]]]

PROGRAM is build/retro where none is named; it goes on for so many SECONDS (60), with draws from START (1). Each script comes
through a pipe in pieces of random sizes. One in four has its input cut off within a line, one in eight a reader that
closes the pipe after some bytes of answers: then the answers are a prefix, and the status is 4 or the whole was written.
Half of them are followed, by a tally and most of these by a mirror of a name, and mute them at times. What a script answers
is handed to `check`, which has to accept it.
"""

import os
import random
import subprocess
import sys
import threading
import time

import second_bench

ROOT = os.path.dirname(os.path.dirname(os.path.dirname(os.path.abspath(__file__))))
ADDING = {"queue": ["enq %d"], "stack": ["push %d"], "deque": ["pushl %d", "pushr %d"], "dict": ["put {k} %d"], "pq": ["ins %d"]}
TAKING = {"queue": ["deq"], "stack": ["pop"], "deque": ["popl", "popr"], "dict": ["del {k}"], "pq": ["delmin"]}
ASKING = {"queue": ["front", "back", "nth %d"], "stack": ["top", "nth %d"], "deque": ["left", "right", "nth %d"],
          "dict": ["get {k}", "succ {k}", "pred {k}", "count {k} %d", "sum {k} %d"], "pq": ["min", "nth %d"]}
ODD = [b"", b"  ", b"; a remark", b"\xff", b"q", b"q ask", b"new", b"new end queue", b"new x heap", b"q at 1", b"q at -1 enq 1", b"q ask nth -1",
       b"q\tat 1 enq 1", b"end", b"save", b"q undo now", b"q at 18446744073709551616 enq 1", b"q at 1 enq 9223372036854775808", b"timeline q queue next 0",
       b"a" * 4097, b"q ask size" + b" " * 4087, b"#1 1 enq 1", b"edit p add 0 #1 ins 1 bridge 0 gain #1 1", b"q ask front\r", b"mute 0", b"mute 4294967296", b"new x pqf pq", b"timeline x pqf next 1",
       b"q move #1 5", b"q move #1 at", b"q change #1", b"q fate", b"timeline q queue next 3 rows", b"timeline q queue next 3 rows 131073"]


class Script:
    def __init__(self, draws):
        self.draws = draws
        self.lines = []
        self.names = {}

    def filled(self, form):
        return form.replace("{k}", str(self.draws.randint(-3, 9))).replace("%d", str(self.draws.choice([0, 1, 2, 5, 7, -4, 2**63 - 1])) if "nth" not in form
                                                                            else str(self.draws.randint(0, 6)))

    def op(self, kind):
        forms = ADDING if self.draws.random() < 0.62 else TAKING
        return self.filled(self.draws.choice(forms[kind if self.draws.random() < 0.97 else "stack"]))

    def moment(self):
        draw = self.draws.random()
        if draw < 0.6:
            return "at %d" % self.draws.randint(0, 40)
        return "%s #%d" % (self.draws.choice(["before", "after"]), self.draws.randint(1, 40))

    def block(self):
        name, kind = "b%d" % self.draws.randint(0, 9), self.draws.choice(list(ADDING))
        self.names.setdefault(name, kind)
        rows = self.draws.randint(0, 12)
        count = " rows %d" % (rows if self.draws.random() < 0.8 else self.draws.randint(0, 12)) if self.draws.random() < 0.6 else ""
        self.lines.append("timeline %s %s next %d%s" % (name, kind, self.draws.randint(1, 30), count))
        moment = 0
        for i in range(rows):
            moment += self.draws.choice([0, 1, 3, 3, -1] if self.draws.random() < 0.1 else [0, 1, 3])
            self.lines.append("#%d %d %s" % (i + 1 if self.draws.random() < 0.97 else 1, moment, self.op(kind)))
        if self.draws.random() < 0.95:
            self.lines.append("end")

    def step(self):
        draw = self.draws.random()
        if not self.names or draw < 0.04:
            name, kind = self.draws.choice("pqrstuvwxyz"), self.draws.choice(list(ADDING))
            self.names.setdefault(name, kind)
            self.lines.append("new %s %s" % (name, "pqf" if kind == "pq" and self.draws.random() < 0.5 else kind))
            return
        name = self.draws.choice(list(self.names))
        kind = self.names[name]
        if draw < 0.40:
            self.lines.append("%s %s %s" % (name, self.moment(), self.op(kind)))
        elif draw < 0.44:
            self.lines.append("%s move #%d at %d" % (name, self.draws.randint(1, 40), self.draws.randint(0, 40)))
        elif draw < 0.48:
            self.lines.append("%s change #%d %s" % (name, self.draws.randint(1, 40), self.op(kind)))
        elif draw < 0.52:
            self.lines.append("%s fate #%d" % (name, self.draws.randint(1, 40)))
        elif draw < 0.60:
            self.lines.append("%s delete #%d" % (name, self.draws.randint(1, 40)))
        elif draw < 0.70:
            self.lines.append("%s %s" % (name, self.draws.choice(["undo", "undo", "redo"])))
        elif draw < 0.92:
            moment = self.moment() + " " if self.draws.random() < 0.7 else ""
            self.lines.append("%s ask %s%s" % (name, moment, self.filled(self.draws.choice(ASKING[kind] + ["size", "all"]))))
        elif draw < 0.94:
            self.lines.append("save %s" % name)
        elif draw < 0.955:
            self.block()
        elif draw < 0.96:
            self.lines.append("mute %d" % self.draws.choice([0, 1, 1, 2]))
        else:
            self.lines.append(self.draws.choice(ODD))

    def words(self):
        """The words of the program; a priority queue is followed where there is one."""
        if self.draws.random() < 0.5:
            return ["run"]
        queues = [name for name, kind in self.names.items() if kind == "pq"]
        return ["follow"] + ([self.draws.choice(queues or ["p"])] if self.draws.random() < 0.8 else [])

    def text(self):
        for _ in range(self.draws.choice([5, 30, 120, 400])):
            self.step()
        ends = [b"\n", b"\n", b"\n", b"\r\n"]
        return b"".join((line if isinstance(line, bytes) else line.encode()) + self.draws.choice(ends) for line in self.lines)


def feed(stream, script, sizes):
    at = 0
    try:
        for size in sizes:
            stream.write(script[at:at + size])
            stream.flush()
            at += size
        stream.write(script[at:])
        stream.close()
    except (BrokenPipeError, ValueError):
        pass


def run(program, words, given, draws, most=None):
    """The output and the status of a run over a pipe in pieces; with `most` the reader closes after so many bytes."""
    process = subprocess.Popen([program] + words, stdin=subprocess.PIPE, stdout=subprocess.PIPE)
    sizes = [draws.choice([1, 2, 7, 100, 5_000]) for _ in range(draws.randint(0, 40))]
    writer = threading.Thread(target=feed, args=(process.stdin, given, sizes))
    writer.start()
    out = process.stdout.read() if most is None else process.stdout.read(most)
    process.stdout.close()
    status = process.wait(timeout=60)
    writer.join()
    return out, status


def main():
    program = os.path.abspath(sys.argv[1] if len(sys.argv) > 1 else os.path.join(ROOT, "build", "retro"))
    until = time.time() + (float(sys.argv[2]) if len(sys.argv) > 2 else 60)
    start = int(sys.argv[3]) if len(sys.argv) > 3 else 1
    scripts = lines = cut = closed = followed = 0
    while time.time() < until:
        draws = random.Random(start + scripts)
        drawn = Script(draws)
        script, words = drawn.text(), drawn.words()
        if draws.random() < 0.25 and script:
            script = script[:draws.randint(1, len(script))]
            cut += 1
        texts, refused = second_bench.output(script, words)
        wanted = b"".join(texts)
        if draws.random() < 0.125:
            most = draws.randint(0, len(wanted))
            out, status = run(program, words, script, draws, most)
            fits = out == wanted[:most] and status in (int(refused), 4)
            closed += 1
        else:
            out, status = run(program, words, script, draws)
            fits = (out, status) == (wanted, int(refused))
            if fits:
                count = sum(line.startswith(b"edit ") for line in wanted.splitlines())
                fits = run(program, ["check"], out, draws) == (b"accepted %d\n" % count, 0)
        if not fits:
            kept = os.path.abspath("differs_%d.script" % (start + scripts))
            with open(kept, "wb") as file:
                file.write(script)
            print("script %d with the words %s differs (%s)" % (start + scripts, " ".join(words), kept))
            sys.exit(1)
        scripts += 1
        lines += script.count(b"\n")
        followed += words[0] == "follow"
    print("%d scripts with %d lines, %d followed, %d cut off, %d with a reader that closes: all as they should be" % (scripts, lines, followed, cut, closed))


if __name__ == "__main__":
    main()
