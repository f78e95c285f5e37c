"""A log that is divided among workers: where it is cut, that no answer depends on that, and how the workers end."""

import contextlib
import functools
import gc
import io
import os
import pathlib
import random
import re
import resource
import signal
import subprocess
import sys
import tempfile
import time
import unittest
from unittest import mock

from drawn import Drawn
from retro import Ended, answer, answer_divided, pool
from retro.__main__ import main
from retro.grammar import lines_of, opens

PROGRAM = os.environ["RETRO"]
BLOCK = b"timeline %s queue next 4 rows 2\n#1 10 enq 5\n; a comment\n\n#3 20 enq 7\nend\n"


def log_of(names):
    """Lines of all forms, of so many timelines and three more."""
    first = b"".join(b"new t%d queue\n" % n for n in range(names)) + b"; " + b"x" * 5000 + b"\nt1 ask " + b" " * 5000 + b"size\n"
    blocks = BLOCK % b"b" + b"end\nmute 0 x\nnew p pq\r\n" + BLOCK % b"t2" + BLOCK.replace(b"#3 20 enq 7", b"#3 1 deq") % b"bad"
    blocks += b"p at 5 ins 4\np move #1 at 7\r\n" + BLOCK.replace(b"; a comment\n", b"") % b"c" + BLOCK.replace(b"\nend", b"\nt2 ask all\n  end \r") % b"d"
    edits = b"".join(b"t%d at %d enq 7\n t%d  ask all\n" % (n % names, n, n % names) for n in range(40))
    return first + blocks + edits + b"save b\nsave p\nt2 ask all\np undo\nnew t\xc3\xa4 queue\nc at 1 deq\n"


class Divided(unittest.TestCase):
    def setUp(self):
        folder = tempfile.TemporaryDirectory()
        self.addCleanup(folder.cleanup)
        self.folder = folder.name
        small = mock.patch.object(pool, "LEAST", 1)  # logs are cut, however short they are
        small.start()
        self.addCleanup(small.stop)

    def file(self, name, data):
        place = os.path.join(self.folder, name)
        with open(place, "wb") as file:
            file.write(data)
        os.chmod(place, 0o755)
        return place

    def same(self, log, program=PROGRAM):
        """The answers to a log, which are the same however many processes give them."""
        lines, place = lines_of(log), self.file("log", log)
        alone = answer_divided(lines, program, 1)
        self.assertEqual([reply.line for reply in alone.replies], lines)
        for processes in (2, 3, 7):
            self.assertEqual(answer_divided(lines, program, processes), alone)
        text = [text + "\n" for reply in alone.replies for text in reply.answers] + [text + "\n" for text in alone.rest]
        for processes in ("1", "4"):
            with contextlib.redirect_stdout(io.StringIO()) as told, contextlib.redirect_stderr(io.StringIO()):
                status = main(["--program", program, "pool", place, "--processes", processes])
            self.assertEqual((told.getvalue(), status), ("".join(text), alone.status))
        return alone

    def test_lines_of_all_forms(self):
        log = log_of(12)
        for changed in (log, log[:-1], re.sub(b"\r?\n", b"\r\n", log)):
            self.assertEqual(self.same(changed)[1:], ([], 1))
        for behind in (BLOCK[:-4] % b"o", b"timeline o pq next 3"):
            self.assertEqual(self.same(log + behind)[1:], (["refused unfinished"], 1))

    def test_as_one_process_that_holds_all(self):
        log = log_of(4)
        for changed in (log, log[:-1], re.sub(b"\r?\n", b"\r\n", log), log + BLOCK[:-4] % b"o", log + BLOCK[:-4] % b"t1"):
            self.assertEqual(self.same(changed), answer(changed, PROGRAM))

    def test_short_logs(self):
        for log in (b"", b"\n", b"\n\n\n", b"; one\n", b"new q queue", b"new q queue\nq ask size\n", b"end\n", b"timeline q queue next 1\nend", b"timeline q queue next 1\n\n"):
            self.assertEqual(self.same(log), answer(log, PROGRAM))
        self.assertEqual(answer_divided([], "no-such-program"), ([], [], 0))

    def test_a_block_that_is_most_of_the_log(self):
        rows = b"".join(b"#%d %d enq 1\n" % (n, n) for n in range(1, 3000))
        log = b"new a queue\ntimeline q queue next 3000\n" + rows + b"timeline r queue next 3\nend\na ask size\nq ask size\n"
        told = self.same(log)
        self.assertEqual((told.replies[-3].answers, told.replies[-3].about), (("refused row 3000 syntax",), 3002))
        self.assertEqual(self.same(log.replace(b"timeline r queue next 3\n", b"")).replies[-1].answers, ("= 2999",))

    def test_a_log_that_is_no_file(self):
        log = log_of(12)
        self.file("log", log)
        wanted = "".join(text + "\n" for reply in answer_divided(log, PROGRAM).replies for text in reply.answers)
        for words in ("pool - < log", "pool log > answers; cat answers", "cat log | {} pool -", "cat log | {} pool /dev/stdin"):
            line = (words if "{}" in words else "{} " + words).format("%s -m retro" % sys.executable)
            done = subprocess.run(["sh", "-c", line], cwd=self.folder, stdout=subprocess.PIPE, encoding="ascii", check=False)
            self.assertEqual(done.stdout, wanted, line)

    def test_where_it_is_cut(self):
        for start in range(60):
            log = b"".join(line + b"\n" for line in Drawn(random.Random(start), 6).script(60))[: -1 - start % 2]
            for count in (1, 2, 3, 5, 200):
                with mock.patch.object(pool, "PIECE", random.Random(start).choice((1, 20, 200, 65536))):
                    places = pool.cut(log, count)
                self.assertEqual((places[0], places[-1], places), (0, len(log), sorted(set(places))))
                self.assertLessEqual(len(places), count + 1)
                for place in places[1:-1]:
                    self.assertFalse(opens(False, lines_of(log[:place])))
                    self.assertEqual(log[place - 1 : place], b"\n")
        self.assertEqual(pool.cut(b"a\nb\nc\nd\n", 4), [0, 2, 4, 6, 8])
        self.assertEqual(pool.cut(b"timeline a\n" + b"a\n" * 10, 2), [0, 15, 31])  # that line begins no block
        self.assertEqual(pool.cut(b"timeline q queue next 3\nend\n" + b"a\n" * 10, 2), [0, 28, 48])

    def test_a_program_that_is_words_and_a_path(self):
        told = answer_divided(["new q queue", "q ask size"], ["env", pathlib.Path(PROGRAM)])
        self.assertEqual([reply.answers for reply in told.replies], [("ok",), ("= 0",)])

    def test_a_program_that_is_not_there(self):
        with self.assertRaises(FileNotFoundError) as caught:
            answer_divided(["new q queue"] * 9, "no-such-program", 3)
        self.assertEqual(caught.exception.filename, "no-such-program")

    def test_a_program_that_ends_before_its_input(self):
        killed = self.file("killed", b"#!/bin/sh\necho ok\nkill -9 $$\n")
        self.assertEqual(self.same(b"new q queue\nq ask size\nq ask all\n", killed).status, 137)
        one_of_all = self.file("one", b"#!/bin/sh\nif grep -q 't0 '; then kill -9 $$; fi\n")
        for processes in (1, 2, 3):
            self.assertEqual(answer_divided(["new t%d queue" % n for n in range(30)], one_of_all, processes).status, 137)

    def test_a_script_that_has_no_room(self):
        log = self.file("log", b"new q queue\n" + b"q ask %s all\n" % (b" " * 4000) * 300)
        words = [sys.executable, "-m", "retro", "pool", log, "--processes", "4"]
        half = 600_000  # bytes, for which a range has room, and the script of the one timeline has none
        limit = functools.partial(resource.setrlimit, resource.RLIMIT_FSIZE, (half, half))
        done = subprocess.run(words, capture_output=True, check=False, preexec_fn=limit)
        self.assertEqual((done.stdout, done.returncode), (b"", 2), done.stderr)

    def test_a_caller_that_waits_for_no_process(self):
        self.addCleanup(signal.signal, signal.SIGCHLD, signal.signal(signal.SIGCHLD, signal.SIG_IGN))
        self.assertEqual(answer_divided(["new q queue"], PROGRAM).replies[0].answers, ("ok",))

    def test_a_worker_that_ends(self):
        late = os.path.join(self.folder, "late")
        with self.assertRaises(Ended) as caught:
            answer_divided(log_of(12), self.file("killer", b"#!/bin/sh\nkill -9 $PPID\nsleep 0.5\necho > %s\n" % late.encode()), 3)
        self.assertEqual(caught.exception.status, -signal.SIGKILL)
        time.sleep(1)
        self.assertFalse(os.path.exists(late), "what the worker ran goes on")

    def test_an_end_while_replies_are_made(self):
        with mock.patch.object(pool, "replies_of", side_effect=KeyboardInterrupt):
            self.assertRaises(KeyboardInterrupt, answer_divided, ["new q queue"], PROGRAM)
        self.assertTrue(gc.isenabled())

    def slow(self, how):
        """A program that notes its runs and then does so, where it notes them, and a log for many of them."""
        runs, self.temporary = os.path.join(self.folder, "runs"), os.path.join(self.folder, "temporary")
        os.mkdir(self.temporary)
        slow = self.file("slow", b"#!/bin/sh\nexec >> %s\necho\n%s\n" % (runs.encode(), how))
        return slow, runs, self.file("log", b"".join(b"new t%d queue\n" % n for n in range(20_000)))

    def check_end(self, runs):
        """No run begins any more, and nothing is left behind."""
        time.sleep(0.5)
        size = os.path.getsize(runs)
        time.sleep(0.7)
        self.assertEqual(os.path.getsize(runs), size)
        self.assertEqual(os.listdir(self.temporary), [])

    def test_workers_end_with_whoever_asked(self):
        slow, runs, log = self.slow(b"sleep 0.2")
        words = [sys.executable, "-m", "retro", "--program", slow, "pool", log, "--processes", "2"]
        with subprocess.Popen(words, env=dict(os.environ, TMPDIR=self.temporary)) as parent:
            while not os.path.exists(runs):
                time.sleep(0.05)
            parent.kill()
        self.check_end(runs)

    def test_workers_end_where_it_is_interrupted(self):
        slow, runs, log = self.slow(b"sleep 0.8; echo")

        def interrupt(*_):
            if os.path.exists(runs):
                signal.setitimer(signal.ITIMER_REAL, 0)
                raise KeyboardInterrupt

        self.addCleanup(signal.signal, signal.SIGALRM, signal.signal(signal.SIGALRM, interrupt))
        signal.setitimer(signal.ITIMER_REAL, 0.1, 0.1)
        with open(log, "rb") as file, mock.patch.object(tempfile, "tempdir", self.temporary):
            self.assertRaises(KeyboardInterrupt, answer_divided, file, slow, 2)
        self.check_end(runs)
