#!/usr/bin/env python3
"""Lets the built program end with each of its statuses, and compares all that it wrote, byte for byte.

    python3 tests/statuses.py [PROGRAM]

PROGRAM is build/retro where none is named. No clause speaks of bytes before or behind a run, so each try reads standard output
whole, and standard error too, which has to be empty. An input of 2^30 bytes and one of a byte more come through a pipe; memory is
cut short by the limit that `ulimit -v` sets, and a file by that of `ulimit -f`. The last line is the number of tries; the exit
status is 0 where all passed.
"""

import os
import resource
import signal
import subprocess
import sys
import tempfile
import threading

LIMIT = 60  # seconds that a try may take
ROOT = os.path.dirname(os.path.dirname(os.path.abspath(__file__)))

SCRIPT = b"new q queue\nq at 10 enq 5\nq ask front\nq delete #1\nq ask size\n"
ANSWERS = b"ok\nok #1\n= 5\nok\n= 0\n"

MOST_BYTES = 2**30
COMMENTS = (b";" + b" a line that has no answer" * 150 + b"\n") * 256  # a piece of about a megabyte


class Wrong(Exception):
    """What a try met in place of what it waited for."""


def expect(what, wanted, met):
    if wanted != met:
        raise Wrong("%s: %.200r in place of %.200r" % (what, met, wanted))


def run(program, words, given=SCRIPT, **settings):
    """What the program wrote, and its status. It says nothing on standard error."""
    done = subprocess.run(
        [program] + words, input=given, stdout=subprocess.PIPE, stderr=subprocess.PIPE, timeout=LIMIT, **settings
    )
    expect("standard error", b"", done.stderr)
    return done.stdout, done.returncode


def write_so_many(to, script, size):
    """Writes the script, and after it lines without an answer, up to so many bytes."""
    to.write(script)
    left = size - len(script)
    while left > 0:
        to.write(COMMENTS[:left])
        left -= min(left, len(COMMENTS))
    to.close()


def run_long(program, words, script, size):
    """The same over a pipe, of an input of so many bytes."""
    running = subprocess.Popen(
        [program] + words, stdin=subprocess.PIPE, stdout=subprocess.PIPE, stderr=subprocess.PIPE
    )
    writer = threading.Thread(target=write_so_many, args=(running.stdin, script, size), daemon=True)
    writer.start()
    written = running.stdout.read()
    expect("standard error", b"", running.stderr.read())
    writer.join(LIMIT)
    return written, running.wait(LIMIT)


def done(program):
    expect("a script", (ANSWERS, 0), run(program, ["run"]))
    expect("a followed script", (ANSWERS + b"report 0 gains 0 losses 0 sum 0\n", 0), run(program, ["follow"]))
    expect("evidence", (b"accepted 0\n", 0), run(program, ["check"]))
    summary = b"lines 2 accepted 2 refused 0 rows 1 size 1\n"
    expect("a generated script", (summary, 0), run(program, ["gen", "queue", "1", "1"]))


def refused(program):
    expect("a script", (ANSWERS + b"refused syntax\n", 1), run(program, ["run"], SCRIPT + b"q frob\n"))
    expect("evidence", (b"refused line 2 syntax\n", 1), run(program, ["check"], b"ok\nedit \nok\n"))


def words_of_no_form(program):
    for words in [], ["now"], ["run", "now"], ["follow", "9x"], ["gen", "queue", "1"]:
        expect("the words %r" % words, (b"", 2), run(program, words))


def a_failed_read(program):
    """A directory is opened, and cannot be read."""
    for words in ["run"], ["follow"], ["check"]:
        at_root = os.open("/", os.O_RDONLY)
        done = subprocess.run([program] + words, stdin=at_root, stdout=subprocess.PIPE, stderr=subprocess.PIPE)
        os.close(at_root)
        expect("the words %r" % words, (b"", b"", 3), (done.stdout, done.stderr, done.returncode))


def a_failed_write(program):
    """The file that is written to may have a kilobyte and no more."""
    questions = b"new q queue\n" + b"q ask size\n" * 1_000

    def shorten():
        signal.signal(signal.SIGXFSZ, signal.SIG_IGN)
        resource.setrlimit(resource.RLIMIT_FSIZE, (1024, 1024))

    with tempfile.TemporaryFile() as answers:
        done = subprocess.run(
            [program, "run"],
            input=questions,
            stdout=answers,
            stderr=subprocess.PIPE,
            timeout=LIMIT,
            preexec_fn=shorten,
            restore_signals=False,
        )
        answers.seek(0)
        wanted = (b"ok\n" + b"= 0\n" * 1_000)[:1024]
        expect("what the file has", (wanted, b"", 4), (answers.read(), done.stderr, done.returncode))


def too_little_memory(program):
    """The whole answers to some first lines stand there. How much memory the system takes for a program differs, so the limit is lowered."""
    rows = 100_000
    script = b"new q queue\n" + b"".join(b"q at %d enq %d\n" % (i, i) for i in range(rows))
    wanted = b"ok\n" + b"".join(b"ok #%d\n" % (i + 1) for i in range(rows))
    expect("whether all of it is answered", True, run(program, ["run"], script) == (wanted, 0))
    some = False
    for megabytes in range(24, 2, -1):
        size = megabytes << 20
        written, status = run(
            program, ["run"], script, preexec_fn=lambda: resource.setrlimit(resource.RLIMIT_AS, (size, size))
        )
        if status == 0:
            continue
        expect("the status with %d megabytes" % megabytes, 5, status)
        whole = written == wanted[: len(written)] and (not written or written.endswith(b"\n"))
        expect("whether whole answers stand there with %d megabytes" % megabytes, True, whole)
        if some:
            return
        some = written != b""
    raise Wrong("no limit of memory cut a script short")


def too_long(program):
    """Of 2^30 bytes all is answered, and of one more as much as is among these."""
    expect("2^30 bytes", (ANSWERS, 0), run_long(program, ["run"], SCRIPT, MOST_BYTES))
    expect("one byte more", (ANSWERS, 6), run_long(program, ["run"], SCRIPT, MOST_BYTES + 1))
    expect("followed", (ANSWERS, 6), run_long(program, ["follow"], SCRIPT, MOST_BYTES + 1))
    expect("evidence", (b"", 6), run_long(program, ["check"], SCRIPT, MOST_BYTES + 1))


TRIES = [done, refused, words_of_no_form, a_failed_read, a_failed_write, too_little_memory, too_long]


def main():
    program = os.path.abspath(sys.argv[1] if len(sys.argv) > 1 else os.path.join(ROOT, "build", "retro"))
    failed = 0
    for one in TRIES:
        try:
            one(program)
        except (Wrong, subprocess.TimeoutExpired) as wrong:
            failed += 1
            print("%s: %s" % (one.__name__, wrong))
    print("statuses: %d tries, %d failed" % (len(TRIES), failed))
    sys.exit(1 if failed else 0)


if __name__ == "__main__":
    main()
