#!/usr/bin/env python3
"""Drives `retro run` line by line, and lets its streams fail: what no contract can say of the real streams.

    python3 tests/streams.py [PROGRAM]

PROGRAM is build/retro where none is named. Each try has to end within a few seconds; one that does not fails
with the line that was waited for. The last line is the number of tries; the exit status is 0 where all passed.
"""

import os
import pty
import random
import select
import socket
import struct
import subprocess
import sys
import tempfile
import threading
import tty

LIMIT = 10  # seconds that a try waits for an answer or for the end
ROOT = os.path.dirname(os.path.dirname(os.path.abspath(__file__)))

# A script with its answers, line by line.
TALK = [
    (b"new q queue", b"ok\n"),
    (b"; a line that has no answer", b""),
    (b"q at 10 enq 5", b"ok #1\n"),
    (b"q at 20 enq 7", b"ok #2\n"),
    (b"q ask front", b"= 5\n"),
    (b"q at 15 deq", b"ok #3\n"),
    (b"q ask front", b"= 7\n"),
    (b"q ask all", b"= 7\n"),
    (b"q frob", b"refused syntax\n"),
]
SCRIPT = b"".join(line + b"\n" for line, _ in TALK)
ANSWERS = b"".join(answer for _, answer in TALK)


# A script of which one line has an answer of some 250,000 bytes, several times what waits in the program at the most.
ROWS = 6_000
FIRST_TIME = 10**15
FIRST_VALUE = 10**18


def long_script():
    """The script, and its answers."""
    script = [b"new q queue"]
    answers = [b"ok"]
    saved = [b"timeline q queue next %d rows %d" % (ROWS + 1, ROWS)]
    for i in range(1, ROWS + 1):
        script.append(b"q at %d enq %d" % (FIRST_TIME + i, FIRST_VALUE + i))
        answers.append(b"ok #%d" % i)
        saved.append(b"#%d %d enq %d" % (i, FIRST_TIME + i, FIRST_VALUE + i))
    script += [b"save q", b"q ask size", b"save q", b"q ask front"]
    answers += saved + [b"end", b"= %d" % ROWS] + saved + [b"end", b"= %d" % (FIRST_VALUE + 1)]
    return b"".join(line + b"\n" for line in script), b"".join(line + b"\n" for line in answers)


class Wrong(Exception):
    """What a try met in place of what it waited for."""


def expect(what, wanted, met):
    if wanted != met:
        raise Wrong("%s: %r in place of %r" % (what, met, wanted))


def read_answer(stream, wanted, line):
    """The bytes of an answer, which have to come before anything else is sent."""
    got = b""
    while len(got) < len(wanted):
        if not select.select([stream], [], [], LIMIT)[0]:
            raise Wrong("no answer to %r within %d seconds" % (line, LIMIT))
        piece = os.read(stream, 65536)
        if not piece:
            raise Wrong("the program ended at %r" % line)
        got += piece.replace(b"\r\n", b"\n")
    expect("the answer to %r" % line, wanted, got)


def status_of(program):
    try:
        return program.wait(LIMIT)
    except subprocess.TimeoutExpired:
        program.kill()
        raise Wrong("no end within %d seconds" % LIMIT)


def talk(program, to, answers):
    """Sends each line only when the answer to the one before it is there."""
    for line, answer in TALK:
        os.write(to, line + b"\n")
        read_answer(answers, answer, line)


def a_pipe(name):
    program = subprocess.Popen([name, "run"], stdin=subprocess.PIPE, stdout=subprocess.PIPE)
    talk(program, program.stdin.fileno(), program.stdout.fileno())
    program.stdin.close()
    expect("the status", 1, status_of(program))


def a_terminal(name):
    ours, theirs = pty.openpty()
    tty.setraw(theirs)
    program = subprocess.Popen([name, "run"], stdin=theirs, stdout=theirs)
    os.close(theirs)
    talk(program, ours, ours)
    os.close(ours)
    expect("whether it ends", True, status_of(program) in (0, 1, 3, 4))


def lines_in_pieces(name):
    program = subprocess.Popen([name, "run"], stdin=subprocess.PIPE, stdout=subprocess.PIPE)
    to, answers = program.stdin.fileno(), program.stdout.fileno()
    os.write(to, b"new q queue\nq at 1 enq 5\nq ask fr")
    read_answer(answers, b"ok\nok #1\n", b"two lines and a half")
    os.write(to, b"ont\n")
    read_answer(answers, b"= 5\n", b"the rest of the third")
    program.stdin.close()
    expect("the status", 0, status_of(program))


def many_answers(name):
    script = b"new q queue\n" + b"q ask size\n" * 200_000
    done = subprocess.run([name, "run"], input=script, stdout=subprocess.PIPE, timeout=LIMIT)
    expect("the status", 0, done.returncode)
    expect("whether all answers came", True, done.stdout == b"ok\n" + b"= 0\n" * 200_000)


def expect_same(what, wanted, met):
    """The same for texts that are too long to be shown: the first byte that differs is named."""
    if wanted != met:
        at = next((i for i, pair in enumerate(zip(wanted, met)) if pair[0] != pair[1]), min(len(wanted), len(met)))
        raise Wrong("%s: %d bytes in place of %d, and byte %d differs" % (what, len(met), len(wanted), at))


def long_answers_from_a_file(name):
    script, wanted = long_script()
    with tempfile.TemporaryFile() as given, tempfile.TemporaryFile() as answers:
        given.write(script)
        given.seek(0)
        done = subprocess.run([name, "run"], stdin=given, stdout=answers, timeout=LIMIT)
        answers.seek(0)
        expect_same("the answers", wanted, answers.read())
    expect("the status", 0, done.returncode)


def long_answers_through_a_pipe(name):
    script, wanted = long_script()
    done = subprocess.run([name, "run"], input=script, stdout=subprocess.PIPE, timeout=LIMIT)
    expect_same("the answers", wanted, done.stdout)
    expect("the status", 0, done.returncode)


def write_in_pieces(to, script, draws):
    """Writes a script in pieces of sizes from one byte to some ten thousand."""
    at = 0
    while at < len(script):
        at += os.write(to.fileno(), script[at : at + draws.randrange(1, 2 ** draws.randrange(1, 15))])
    to.close()


def long_answers_in_pieces(name):
    script, wanted = long_script()
    for seed in range(5):
        program = subprocess.Popen([name, "run"], stdin=subprocess.PIPE, stdout=subprocess.PIPE)
        writer = threading.Thread(target=write_in_pieces, args=(program.stdin, script, random.Random(seed)), daemon=True)
        writer.start()
        expect_same("the answers to pieces from seed %d" % seed, wanted, program.stdout.read())
        writer.join(LIMIT)
        expect("the status", 0, status_of(program))


def a_long_answer_before_a_wait(name):
    script, wanted = long_script()
    program = subprocess.Popen([name, "run"], stdin=subprocess.PIPE, stdout=subprocess.PIPE)
    to, answers = program.stdin, program.stdout.fileno()
    writer = threading.Thread(target=lambda: os.write(to.fileno(), script), daemon=True)
    writer.start()
    read_answer(answers, wanted, b"a script with a long answer")
    writer.join(LIMIT)
    os.write(to.fileno(), b"q ask size\n")
    read_answer(answers, b"= %d\n" % ROWS, b"the next question")
    to.close()
    expect("the status", 0, status_of(program))


def a_full_disk(name):
    if not os.path.exists("/dev/full"):
        return
    with open("/dev/full", "wb") as full:
        done = subprocess.run([name, "run"], input=SCRIPT, stdout=full, timeout=LIMIT)
    expect("the status", 4, done.returncode)


def no_standard_output(name):
    done = subprocess.run(["sh", "-c", 'exec "$0" run >&-', name], input=SCRIPT, timeout=LIMIT)
    expect("the status", 4, done.returncode)


def a_reader_that_goes(name):
    program = subprocess.Popen([name, "run"], stdin=subprocess.PIPE, stdout=subprocess.PIPE, restore_signals=False)
    talk(program, program.stdin.fileno(), program.stdout.fileno())
    program.stdout.close()
    os.write(program.stdin.fileno(), b"q ask size\nq ask size\n")
    program.stdin.close()
    expect("the status", 4, status_of(program))


def a_directory_to_read(name):
    done = subprocess.run(["sh", "-c", 'exec "$0" run < /', name], stdout=subprocess.PIPE, timeout=LIMIT)
    expect("the status", 3, done.returncode)
    expect("the answers", b"", done.stdout)


def a_read_that_fails_later(name):
    with socket.create_server(("127.0.0.1", 0)) as server:
        ours = socket.create_connection(server.getsockname())
        theirs, _ = server.accept()
    program = subprocess.Popen([name, "run"], stdin=theirs, stdout=subprocess.PIPE)
    theirs.close()
    talk(program, ours.fileno(), program.stdout.fileno())
    # The connection is reset, and not closed, so that the read that is under way fails.
    ours.setsockopt(socket.SOL_SOCKET, socket.SO_LINGER, struct.pack("ii", 1, 0))
    ours.close()
    expect("the status", 3, status_of(program))
    expect("what comes after the answers", b"", program.stdout.read())


def a_file(name):
    with tempfile.TemporaryFile() as script, tempfile.TemporaryFile() as answers:
        script.write(SCRIPT)
        script.seek(0)
        done = subprocess.run([name, "run"], stdin=script, stdout=answers, timeout=LIMIT)
        answers.seek(0)
        expect("the answers", ANSWERS, answers.read())
    expect("the status", 1, done.returncode)


TRIES = [
    a_pipe,
    a_terminal,
    lines_in_pieces,
    many_answers,
    a_file,
    long_answers_from_a_file,
    long_answers_through_a_pipe,
    long_answers_in_pieces,
    a_long_answer_before_a_wait,
    a_full_disk,
    no_standard_output,
    a_reader_that_goes,
    a_directory_to_read,
    a_read_that_fails_later,
]


def main():
    name = os.path.abspath(sys.argv[1] if len(sys.argv) > 1 else os.path.join(ROOT, "build", "retro"))
    failed = 0
    for one in TRIES:
        try:
            one(name)
        except (Wrong, subprocess.TimeoutExpired) as wrong:
            failed += 1
            print("%s: %s" % (one.__name__, wrong))
    print("streams: %d tries, %d failed" % (len(TRIES), failed))
    sys.exit(1 if failed else 0)


if __name__ == "__main__":
    main()
