#!/usr/bin/env python3
"""Measures `retro run` beside programs without proofs and beside SQLite, and writes docs/MEASURED.md with its plots.

    python3 bench/measure.py [--quick] [PROGRAM]

PROGRAM is build/retro where none is named. `--quick` takes few rows and one run, and leaves the page in build/ in place of docs/. Every program gets the same lines over a pipe, phase by phase, and the processor time is that which
Linux counts for the process (/proc/PID/schedstat), system calls included. Of up to three runs the least time counts. A phase ends
when it has taken its share of time, so a slow program is measured on fewer lines.
"""

import os
import platform
import random
import select
import shutil
import subprocess
import sys
import tempfile
import time

import page
from phases import KINDS, MANY_KEYS, MANY_PHASES, PHASES, Case, History

ROOT = os.path.dirname(os.path.dirname(os.path.abspath(__file__)))
SIZES = [1_024, 8_192, 65_536, 131_072]
PEERS = ["retro", "replay", "same", "best", "sqlite"]
RUNS = {"retro": 3, "replay": 1, "same": 3, "best": 2, "sqlite": 1}
SHARE = 0.15  # seconds of processor time after which a phase ends
LAST = b"refused syntax\n"  # what the line that ends a piece of a phase is answered
KNOWS = {"sqlite": {"end", "edit", "now", "first", "past", "forward", "mixed", "move", "burst"}}
MOST_ROWS = {"sqlite": 65_536}  # above, its rows take too long
QUESTIONS = 1_000_000


class Answered(Exception):
    """An answer that does not belong into a measurement."""


class Peer:
    """A program that is handed lines, and what it has used by now."""

    def __init__(self, words):
        self.process = subprocess.Popen(words, stdin=subprocess.PIPE, stdout=subprocess.PIPE)
        for stream in (self.process.stdin, self.process.stdout):
            os.set_blocking(stream.fileno(), False)

    def answers(self, lines):
        """The answers to these lines."""
        given = memoryview(("\n".join(lines) + "\n?\n").encode())
        to, source = self.process.stdin.fileno(), self.process.stdout.fileno()
        pieces, tail = [], b""
        while tail != LAST:
            readable, writable, _ = select.select([source], [to] if given else [], [], 120)
            if not readable and not writable:
                raise Answered("no answer within two minutes")
            if writable:
                given = given[os.write(to, given[:65_536]):]
            if readable:
                piece = os.read(source, 1 << 20)
                if not piece:
                    raise Answered("the program ended with status %s" % self.process.wait())
                pieces.append(piece)
                tail = (tail + piece)[-len(LAST):] if len(piece) < len(LAST) else piece[-len(LAST):]
        return b"".join(pieces)[:-len(LAST)]

    def seconds(self):
        with open("/proc/%d/schedstat" % self.process.pid) as counts:
            return int(counts.read().split()[0]) / 1e9

    def resident(self):
        with open("/proc/%d/statm" % self.process.pid) as counts:
            return int(counts.read().split()[1]) * os.sysconf("SC_PAGE_SIZE")

    def most(self):
        return peak(self.process.pid)

    def end(self):
        self.process.stdin.close()
        self.process.stdout.close()
        self.process.wait()


def without_refusals(answers, phase):
    if answers.startswith(b"refused") or b"\nrefused" in answers:
        first = answers[answers.index(b"refused"):].split(b"\n")[0]
        raise Answered("in the phase %s: %r" % (phase, first))
    return answers


class Run:
    """One run of a program over a history."""

    def __init__(self, words, history, phases, share):
        self.peer = Peer(words)
        self.history, self.kind, self.rows = history, history.kind, history.rows
        self.phases, self.share = phases, share
        self.times = {}  # microseconds for a line, by phase
        self.used = {}  # bytes
        self.kept = []  # lines of evidence
        self.counts = {}
        self.saved = b""

    def timed(self, lines, phase):
        before = self.peer.seconds()
        answers = without_refusals(self.peer.answers(lines), phase)
        self.kept += [line for line in answers.split(b"\n") if line.startswith(b"edit ")]
        return answers, self.peer.seconds() - before

    def piecewise(self, phase, most):
        """Pieces that grow, until the phase has taken its share."""
        done, took, size = 0, 0.0, 64 if phase == "burst" else 4
        whole = phase == "redo"
        while done < most and (whole or took < self.share):
            lines = self.history.lines(phase, min(size, most - done))
            took += self.timed(lines, phase)[1]
            done += len(lines)
            size *= 2
        self.counts[phase] = done
        if done:
            self.times[phase] = took / done * 1e6

    def go(self):
        try:
            self.peer.answers(["new g %s" % self.kind])
            start = self.peer.resident()
            for phase, most in self.phases:
                self.phase(phase, most)
                if phase == "end":
                    self.used["row"] = (self.peer.resident() - start) / self.history.next
                if phase == "past":
                    self.used["most"] = self.peer.most()
        finally:
            self.peer.end()
        return self

    def phase(self, phase, most):
        if phase == "end":
            lines = list(self.history.history())
            self.times[phase] = self.timed(lines, phase)[1] / len(lines) * 1e6
        elif phase == "save":
            self.timed(self.history.before(phase), phase)
            self.saved, took = self.timed(self.history.lines(phase, 1), phase)
            self.times[phase] = took / (self.saved.count(b"\n") - 2) * 1e6
        elif phase == "load":
            lines = self.saved.decode().replace("timeline g ", "timeline h ", 1).splitlines()
            if self.rows < 131_072 or self.kind != "dict":
                self.times[phase] = self.timed(lines, phase)[1] / (len(lines) - 2) * 1e6
        else:
            lines = self.history.before(phase)
            if lines:
                self.timed(lines, phase)
            bound = {"undo": "move", "redo": "undo"}.get(phase)
            self.piecewise(phase, most if bound is None else self.counts.get(bound, 0))


def phases_of(peer, kind):
    """The phases that a program knows: that the past was asked makes a difference to edits of a priority queue alone."""
    known = [pair for pair in PHASES if peer not in KNOWS or pair[0] in KNOWS[peer]]
    return [pair for pair in known if pair[0] != "later" or kind in ("pq", "pqf")]


def measured(words, kind, rows, peer, quick):
    """One run of a program."""
    return Run(words, History(kind, rows), phases_of(peer, kind), SHARE / 10 if quick else SHARE).go()


def many_keys(programs, rows, quick, times):
    """A dictionary with many keys, in each program without proofs and in retro: the least of what each phase took, and the bytes a row."""
    for turn in range(1 if quick else max(RUNS.values())):
        for peer in programs:
            if peer != "sqlite" and turn < RUNS[peer]:
                run = Run(programs[peer]("dict"), History("dict", rows, keys=MANY_KEYS), MANY_PHASES, SHARE / 10 if quick else SHARE).go()
                for phase, took in {**run.times, "row": run.used["row"]}.items():
                    spot = ("many keys", rows, phase, peer)
                    times[spot] = min(times.get(spot, took), took)


def side_by_side(programs, there, kind, rows, quick, times, used):
    """The runs of all programs in turn, of which the last of each is given."""
    last = {}
    for turn in range(1 if quick else max(RUNS.values())):
        for peer in there:
            if turn < RUNS[peer]:
                last[peer] = measured(programs[peer](kind), kind, rows, peer, quick)
                note(last[peer], kind, rows, peer, times, used)
    saved = last["retro"].saved
    used[kind, rows, "saved", "retro"] = len(saved) / max(saved.count(b"\n") - 2, 1)
    return last


def doubtful(kind, sizes, times):
    """The sizes at which retro took over four times as long for a line as at the next greater one: something else was going on."""
    return [
        rows for rows, more in zip(sizes, sizes[1:])
        if any(times.get((Case(kind, rows, phase), "retro"), 0) > 4 * times.get((Case(kind, more, phase), "retro"), float("inf")) for phase, _ in PHASES)
    ]


def note(run, kind, rows, peer, times, used):
    """Keeps the least of what each phase took."""
    for phase, took in run.times.items():
        spot = (Case(kind, rows, phase), peer)
        times[spot] = min(times.get(spot, took), took)
    for what, size in run.used.items():
        spot = (kind, rows, what, peer)
        used[spot] = min(used.get(spot, size), size)


def processor_seconds(words, given):
    """The processor time of a whole run whose input and output are files, with what it wrote and the most memory it had."""
    with tempfile.TemporaryFile() as source, tempfile.TemporaryFile() as taken:
        source.write(given)
        source.seek(0)
        process = subprocess.Popen(words, stdin=source, stdout=taken)
        _, status, used = os.wait4(process.pid, 0)
        process.returncode = os.waitstatus_to_exitcode(status)
        taken.seek(0)
        return used.ru_utime + used.ru_stime, taken.read(), used.ru_maxrss * 1024


def judged(program, lines, runs):
    """The time of `check` for a line of evidence, the least of some runs."""
    text = b"".join(line + b"\n" for line in lines)
    least = min(processor_seconds([program, "check"], text)[:2] for _ in range(runs))
    if least[1] != b"accepted %d\n" % len(lines):
        raise Answered("evidence is judged otherwise: %r" % least[1])
    return least[0] / len(lines) * 1e6


def evidence(program, rows, anywhere):
    """The evidence of so many rows of a priority queue, each after all others or at random times, as `run` writes it."""
    draw = random.Random("evidence %d %s" % (rows, anywhere))
    given = ["new p pq"]
    for index in range(rows):
        time = draw.randrange(1_000 * rows) if anywhere else 1_000 * (index + 1)
        given.append("p at %d %s" % (time, "ins %d" % draw.randrange(1_000_000) if draw.random() >= 0.375 else "delmin"))
    said = processor_seconds([program, "run"], ("\n".join(given) + "\n").encode())[1]
    return [line for line in said.split(b"\n") if line.startswith(b"edit ")]


def judging(program, lines, runs):
    """The time of `check` for a line of evidence, the least of some runs, and the memory that each line has cost."""
    process = subprocess.Popen([program, "check"], stdin=subprocess.PIPE, stdout=subprocess.PIPE)
    with process:
        time.sleep(0.2)
        before = peak(process.pid)
        process.stdin.write(b"".join(line + b"\n" for line in lines))
        process.stdin.flush()
        time.sleep(1)
        grown = peak(process.pid) - before
    return judged(program, lines, runs), grown / len(lines)


def peak(pid):
    """The most resident memory that a process has had, in bytes."""
    with open("/proc/%d/status" % pid) as status:
        return next(int(line.split()[1]) * 1024 for line in status if line.startswith("VmHWM"))


def asked(words, questions, runs):
    """The time of a question about a queue of two rows, reading and answering alone."""
    given = b"new q queue\nq at 10 enq 5\nq at 20 enq 7\n" + b"q ask front\n" * questions
    return min(processor_seconds(words, given)[0] for _ in range(runs)) / questions * 1e6


def agree(programs):
    """Hands every program the same lines about few rows, and compares their answers to questions, fates and `save`."""
    compared = 0
    for kind in KINDS:
        wanted = None
        for peer in PEERS:
            if peer not in programs or not programs[peer](kind):
                continue
            history = History(kind, 1_024)
            lines = list(history.history())
            for phase in ("edit", "past", "mixed", "forward", "burst", "now"):
                lines += history.lines(phase, 100)
            whole = Peer(programs[peer](kind))
            said = whole.answers(["new g " + kind] + lines)
            whole.end()
            said = [line for line in without_refusals(said, "all").split(b"\n") if line.startswith(b"= ")]
            wanted = wanted or said
            if said != wanted:
                raise Answered("%s answers otherwise than retro about a %s" % (peer, kind))
            compared += len(said)
    return compared


def found(program, quick):
    """The programs that can be measured, each as a function from a kind to its words or None, and what is left out."""
    programs, skipped = {}, []
    fused = subprocess.run([program, "run"], input=b"new p pqf\n", stdout=subprocess.PIPE).stdout == b"ok\n"
    if not fused:
        skipped.append("The kind `pqf`: this program refuses it.")
    programs["retro"] = lambda kind: [program, "run"] if kind != "pqf" or fused else None
    if shutil.which("rustc"):
        peers = os.path.join(ROOT, "build", "peers")
        source = os.path.join(ROOT, "bench", "peers", "main.rs")
        subprocess.run(["rustc", "--edition", "2024", "-O", "-o", peers, source], check=True)
        for name in ("replay", "same", "best"):
            programs[name] = lambda kind, name=name: [peers, name] if kind != "pqf" or fused else None
    else:
        skipped.append("The programs without proofs: there is no `rustc`.")
    try:
        import sqlite3

        programs["sqlite"] = lambda kind: [sys.executable, os.path.join(ROOT, "bench", "sqlite_peer.py")] if kind != "pqf" else None
        version = sqlite3.sqlite_version
    except ImportError:
        version = None
        skipped.append("SQLite: this Python has no module `sqlite3`.")
    if quick:
        skipped.append("Most rows and all runs but one: this was a quick run.")
    return programs, skipped, version


def main():
    words = sys.argv[1:]
    quick = "--quick" in words
    named = [word for word in words if not word.startswith("--")]
    program = os.path.abspath(named[0] if named else os.path.join(ROOT, "build", "retro"))
    if not os.path.exists("/proc/self/schedstat"):
        sys.exit("the measurements need the counts of Linux in /proc/PID/schedstat")
    os.makedirs(os.path.join(ROOT, "build"), exist_ok=True)
    began = time.time()
    programs, skipped, sqlite = found(program, quick)
    for line in skipped:
        print("Left out:", line)
    compared = agree(programs)
    print("%d answers of all programs are the same" % compared, flush=True)
    times, used = {}, {}
    sizes = SIZES[:2] if quick else SIZES
    for kind in KINDS:
        for rows in sizes:
            there = [peer for peer in PEERS if peer in programs and programs[peer](kind) and rows <= MOST_ROWS.get(peer, rows)]
            if there:
                last = side_by_side(programs, there, kind, rows, quick, times, used)
                if kind == "pq":
                    times[Case(kind, rows, "check"), "retro"] = judged(program, last["retro"].kept, 1 if quick else 3)
            for peer in there:
                shown = ["%s %.2f" % (phase, times[Case(kind, rows, phase), peer]) for phase in last[peer].times]
                print("%5.0f s  %s %d %s: %s" % (time.time() - began, kind, rows, peer, " ".join(shown)), flush=True)
        for rows in doubtful(kind, sizes, times):
            print("%5.0f s  %s %d is measured again: a phase took over four times as long as with more rows" % (time.time() - began, kind, rows), flush=True)
            note(measured(programs["retro"](kind), kind, rows, "retro", quick), kind, rows, "retro", times, used)
    for rows in sizes[-2:]:
        many_keys(programs, rows, quick, times)
        print("%5.0f s  a dictionary of many keys, %d rows" % (time.time() - began, rows), flush=True)
    for rows in sizes:
        for place in ("end", "anywhere"):
            lines = evidence(program, rows, place == "anywhere")
            times[rows, place, "judged"], used[rows, place, "judged"] = judging(program, lines, 1 if quick else 3)
            print("%5.0f s  check, %d rows, %s: %.2f" % (time.time() - began, rows, place, times[rows, place, "judged"]), flush=True)
    questions = QUESTIONS // 10 if quick else QUESTIONS
    for peer in ("retro", "replay"):
        if peer in programs:
            times["asked", peer] = asked(programs[peer]("queue"), questions, 1 if quick else 5)
    if shutil.which("wc"):
        times["asked", "wc"] = asked(["wc", "-l"], questions, 1 if quick else 5)
    made = page.Made(times=times, used=used, sizes=sizes, skipped=skipped, compared=compared, sqlite=sqlite, quick=quick,
                     minutes=(time.time() - began) / 60, machine="%s, %d processors" % (model(), os.cpu_count()),
                     system="%s %s" % (platform.system(), platform.machine()), date=time.strftime("%Y-%m-%d", time.gmtime()))
    folder = os.path.join(ROOT, "build" if quick else "docs")
    page.write(made, folder)
    print("%.1f minutes; the page is %s" % (made.minutes, os.path.relpath(os.path.join(folder, "MEASURED.md"), ROOT)))


def model():
    with open("/proc/cpuinfo") as lines:
        return next((line.split(":", 1)[1].strip() for line in lines if line.startswith("model name")), "a processor")


if __name__ == "__main__":
    main()
