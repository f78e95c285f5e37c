#!/usr/bin/env python3
"""Refuses the program its memory, one growth a run, and looks at what it has written by then.

    python3 tests/hostile/refusals.py [PROGRAM [MOST]]

PROGRAM is build/retro where none is named. A shim of malloc, made by `cc`, lets the Nth growth fail: alone, and with all
that come after it. Each run has to write the whole output and end as it does with ample memory, or to end with status 5
after the whole answers of some first lines and nothing else; `check` and `gen` write nothing at 5. Every N up to MOST
(400 where none is named) is tried, and from there on one in so many that each script has some MOST runs more.
"""

import os
import subprocess
import sys
import tempfile

ROOT = os.path.dirname(os.path.dirname(os.path.dirname(os.path.abspath(__file__))))

SHIM = r"""
#define _GNU_SOURCE
#include <dlfcn.h>
#include <stdlib.h>
#include <unistd.h>

static long seen, at = -1, on;

static int refused(void)
{
    if (at < 0) {
        char *n = getenv("REFUSE_AT"), *all = getenv("REFUSE_ON");
        at = n ? atol(n) : 0;
        on = all && *all == '1';
    }
    seen++;
    if (at && (seen == at || (on && seen > at))) {
        if (seen == at) write(2, "r", 1);
        return 1;
    }
    return 0;
}

#define REAL(name) static __typeof__(&name) real; if (!real) real = (__typeof__(&name))dlsym(RTLD_NEXT, #name)

void *malloc(size_t size) { REAL(malloc); return refused() ? NULL : real(size); }
void *realloc(void *old, size_t size) { REAL(realloc); return refused() ? NULL : real(old, size); }
void *aligned_alloc(size_t align, size_t size) { REAL(aligned_alloc); return refused() ? NULL : real(align, size); }
int posix_memalign(void **out, size_t align, size_t size) { REAL(posix_memalign); return refused() ? 12 : real(out, align, size); }
"""


def lines(*texts):
    return "".join(text + "\n" for text in texts).encode()


def mixed(kind, first, later, takes, asks):
    """A script of one kind that edits, asks of the past, undoes, saves, and puts so many rows at one place that labels run out."""
    script = ["new t %s" % kind]
    script += ["t at %d %s" % (10 * i, first(i)) for i in range(1, 31)]
    script += ["t at %d %s" % (10 * i + 5, takes(i)) for i in range(3, 18)]
    script += ["t before #7 %s" % later(i) for i in range(60)]
    script += ["t ask %s" % ask for ask in asks] + ["t ask at 105 %s" % ask for ask in asks] + ["t ask at 106 all", "t ask all"]
    script += ["t delete #%d" % i for i in range(20, 40)] + ["t undo"] * 12 + ["t redo"] * 5
    script += ["t at 101 %s" % takes(3), "t at 300 %s" % first(77), "save t", "t ask before #9 all"]
    return lines(*script)


JOBS = ["new j pq"]
for i in range(1, 21):
    JOBS += ["j at %d ins %d" % (10 * i, 41 - i), "j at %d delmin" % (10 * i + 5)]
JOBS += ["j at %d ins %d" % (10 * i, 41 - i) for i in range(21, 41)]
JOBS += ["j ask min", "j ask at 105 min", "j at 102 ins 100", "j ask at 105 min", "j delete #20", "j ask at 105 min", "j undo",
         "j at 50 ins 7", "j ask at 55 min", "j delete #60", "j ask min", "j ask size"]

SCRIPTS = {
    "first script": lines("new q queue", "q at 10 enq 5", "q at 20 enq 7", "q ask front", "q at 15 deq", "q ask front", "q at 5 enq 9", "q ask front"),
    "pairs": lines("new d dict", "d at 1 put 1 10", "d at 2 del 1", "d ask get 1", "d delete #1", "d delete #2", "d ask get 1"),
    "block": lines("timeline q queue next 3 rows 2", "#1 10 enq 5", "#2 20 deq", "end", "save q"),
    "job list": lines(*JOBS),
    "queue": mixed("queue", lambda i: "enq %d" % i, lambda i: "enq %d" % -i, lambda i: "deq", ["front", "back", "nth 3", "size"]),
    "stack": mixed("stack", lambda i: "push %d" % i, lambda i: "push %d" % -i, lambda i: "pop", ["top", "nth 3", "size"]),
    "deque": mixed("deque", lambda i: "pushl %d" % i, lambda i: "pushr %d" % -i, lambda i: "popl" if i % 2 else "popr", ["left", "right", "nth 3"]),
    "dict": mixed("dict", lambda i: "put %d %d" % (i % 9, i), lambda i: "put %d %d" % (i % 5, -i), lambda i: "del %d" % (i % 9),
                  ["get 4", "succ 3", "pred 3", "count 0 9", "sum 0 9"]),
    "pq": mixed("pq", lambda i: "ins %d" % (50 - i), lambda i: "ins %d" % (i % 7), lambda i: "delmin", ["min", "nth 2", "size"]),
}


class Tried:
    def __init__(self, program, shim):
        self.program = program
        self.shim = shim
        self.runs = self.short = 0
        self.wrong = []

    def run(self, words, given, at, on):
        shimmed = {"LD_PRELOAD": self.shim, "REFUSE_AT": str(at), "REFUSE_ON": "1" if on else "0"}
        done = subprocess.run([self.program] + words, input=given, capture_output=True, timeout=120, env=shimmed)
        return done.stdout, done.returncode, b"r" in done.stderr

    def growth(self, name, words, given, whole, status, pieces, at, on):
        """One run with one growth refused. It answers whether there was one to refuse."""
        out, ended, was_refused = self.run(words, given, at, on)
        if not was_refused:
            return False
        self.runs += 1
        if ended == 5:
            self.short += 1
            fits = out in pieces
        else:
            fits = (out, ended) == (whole, status)
        if not fits:
            self.wrong.append("%s, growth %d%s: status %d after %d bytes" % (name, at, " and all after it" if on else "", ended, len(out)))
        return True

    def script(self, name, words, given, pieces, most):
        whole, status, _ = self.run(words, given, 0, False)
        last = 1
        while self.growth(name, words, given, whole, status, pieces(whole), last, False):
            last *= 2
        numbers = sorted(set(range(1, min(last, most) + 1)) | set(range(most, last + 1, max(1, (last - most) // most))))
        for at in numbers:
            for on in (False, True):
                if not self.growth(name, words, given, whole, status, pieces(whole), at, on):
                    break


def whole_answers(program, script):
    """What may stand where memory ran out: the whole answers of some first lines. A block has one at its end, a save a line a row."""
    stops = {b""}
    answered = subprocess.run([program, "run"], input=script, capture_output=True).stdout.splitlines(keepends=True)
    texts = b"".join(answered)
    place = index = 0
    inside = False
    for line in script.splitlines():
        words = line.split()
        if words[0] == b"timeline":
            inside = True
            continue
        if inside and words[0] != b"end":
            continue
        inside = False
        many = 1
        if words[0] == b"save" and answered[index].startswith(b"timeline"):
            while answered[index + many - 1] != b"end\n":
                many += 1
        place += sum(len(text) for text in answered[index:index + many])
        index += many
        stops.add(texts[:place])
    return stops


def main():
    program = os.path.abspath(sys.argv[1] if len(sys.argv) > 1 else os.path.join(ROOT, "build", "retro"))
    most = int(sys.argv[2]) if len(sys.argv) > 2 else 400
    with tempfile.TemporaryDirectory() as folder:
        source, shim = os.path.join(folder, "shim.c"), os.path.join(folder, "shim.so")
        with open(source, "w") as file:
            file.write(SHIM)
        subprocess.run(["cc", "-shared", "-fPIC", "-O1", "-o", shim, source, "-ldl"], check=True)
        tried = Tried(program, shim)
        for name, script in SCRIPTS.items():
            stops = whole_answers(program, script)
            tried.script(name, ["run"], script, lambda whole: stops, most)
        evidence = subprocess.run([program, "run"], input=SCRIPTS["job list"], capture_output=True).stdout
        tried.script("check", ["check"], evidence, lambda whole: {b""}, most)
        for kind in ("queue", "stack", "deque", "dict", "pq"):
            tried.script("gen " + kind, ["gen", kind, "60", "7"], b"", lambda whole: {b""}, most)
    for text in tried.wrong[:20]:
        print(text)
    print("%d runs with a growth refused, %d of them ended with status 5, %d fell short" % (tried.runs, tried.short, len(tried.wrong)))
    sys.exit(bool(tried.wrong))


if __name__ == "__main__":
    main()
