"""Journals: what they keep through kills, torn ends, disks that are full, two writers, and processes that have read too much."""

import contextlib
import gc
import importlib
import logging
import os
import pickle
import random
import re
import resource
import select
import signal
import subprocess
import tempfile
import threading
import time
import unittest
from unittest import mock

from retro import Busy, Differs, Edit, Ended, Full, Journal, NoJournal, Refused, TimedOut, Unwritten
from retro.journal_file import HEADING, JournalFile, entries_of
from retro.journal_file import write as write_all
from stopping import stopped

PROGRAM = os.environ["RETRO"]
KILLS = int(os.environ.get("KILLS", "100"))
logging.getLogger("retro").addHandler(logging.NullHandler())
OF_A_JOURNAL = 20  # kills of the writers of one journal
OPERATIONS = {"queue": ("enq %d", "enq %d", "deq"), "pq": ("ins %d", "ins %d", "delmin"), "pqf": ("ins %d", "delmin"), "dict": ("put %d 7", "del %d")}


@contextlib.contextmanager
def failing(name, error, behind):
    """The next call of a function fails, at once or `behind` all that it does."""
    module, call = name.rsplit(".", 1)
    works, calls = getattr(importlib.import_module(module), call), []

    def fails(*words):
        calls.append(words)
        done = works(*words) if behind or len(calls) > 1 else None
        if len(calls) == 1:
            raise error
        return done

    with mock.patch(name, fails):
        yield


class Journals(unittest.TestCase):
    def setUp(self):
        folder = tempfile.TemporaryDirectory()
        self.addCleanup(folder.cleanup)
        self.path = os.path.join(folder.name, "day.journal")

    def text(self):
        with open(self.path, "rb") as file:
            return file.read()

    def entries(self):
        with open(self.path, "rb") as file:
            return list(entries_of(file))


class Kept(Journals):
    def test_it_goes_on_where_it_was(self):
        with Journal(self.path, PROGRAM) as retro:
            jobs = retro.new("jobs", "queue")
            self.assertEqual([jobs.at(10, "enq 5").number, jobs.at(20, "deq").number], [1, 2])
            jobs.delete(2)
            self.assertRaises(Refused, jobs.at, 5, "deq")
            retro.new("orders", "pqf").at(10, "ins 4")
        with Journal(self.path, PROGRAM) as retro:
            self.assertEqual((retro.names, retro.cut), ({"jobs": "queue", "orders": "pqf"}, b""))
            jobs = retro.timeline("jobs")
            self.assertEqual((jobs.ask("all"), jobs.at(30, "enq 6").number), ([5], 3))
            jobs.undo()
            jobs.undo()
            self.assertEqual(jobs.ask("all"), [])
        with Journal(self.path, PROGRAM) as retro:
            retro.timeline("jobs").redo()
            self.assertEqual(retro.timeline("jobs").ask("all"), [5])

    def test_it_is_a_script(self):
        with Journal(self.path, PROGRAM) as retro:
            jobs = retro.new("jobs", "pq")
            jobs.at(10, "ins 4")
            jobs.ask("all")
            self.assertRaises(Refused, jobs.delete, 7)
            jobs.move(1, 20)
            retro.load("timeline q pq next 9 rows 1\n#3 5 ins 2\nend\n")
        script = [
            HEADING.decode().rstrip("\n"), "new jobs pq", "; ok",
            "jobs at 10 ins 4", "; edit jobs add 0 #1 ins 4 bridge 0 gain #1 4",
            "jobs move #1 at 20", "; edit jobs add 1 #2 ins 4 bridge 1 gain #2 4", "; edit jobs cut 0 #1 ins 4 bridge none lose #1 4",
            "timeline q pq next 9 rows 1", "#3 5 ins 2", "end", "; ok", "; edit q add 0 #3 ins 2 bridge 0 gain #3 2",
        ]
        self.assertEqual(self.text().decode().splitlines(), script)
        done = subprocess.run([PROGRAM, "run"], input=self.text(), stdout=subprocess.PIPE, check=True)
        self.assertEqual(done.stdout.decode().splitlines(), [line[2:] for line in script[1:] if line.startswith("; ")])

    def test_streams_and_blocks(self):
        with Journal(self.path, PROGRAM) as retro:
            lines = ["new q queue", "; a remark", "q ask size", "q at 5 enq 1", "what", "q at 1 deq", "timeline r queue next 3", "; within", "#2 7 enq 9"]
            told = [reply.answers for reply in retro.stream(lines)]
            self.assertEqual(told, [("ok",), (), ("= 0",), ("ok #1",), ("refused syntax",), ("refused at #2 1",), (), (), ()])
            self.assertNotIn(b"timeline", self.text())
            self.assertEqual(retro.line("end"), Edit(None))
            for line in ("timeline s queue next 3", "#2 7 deq", "end"):
                reply = retro.send(line)
            self.assertEqual(reply.answers, ("refused row 1 replay",))
        kept = [b"\n".join(entry.lines) for entry in self.entries()]
        self.assertEqual(kept, [b"new q queue", b"q at 5 enq 1", b"timeline r queue next 3\n#2 7 enq 9\nend"])
        with Journal(self.path, PROGRAM) as retro:
            self.assertEqual((retro.timeline("r").ask("all"), list(retro.names)), ([9], ["q", "r"]))

    def test_an_answer_comes_when_the_line_is_on_the_disk(self):
        synced = []

        def fsync(file):
            synced.append(os.fstat(file).st_size)

        with mock.patch("os.fsync", fsync):
            retro = Journal(self.path, PROGRAM)
            retro.line("new q queue")
            self.assertEqual(synced[-1], len(self.text()))
            synced.clear()
            list(retro.stream("q at %d enq 1" % time for time in range(2500)))
            self.assertEqual((len(synced), synced[-1]), (3, len(self.text())))
            synced.clear()
            with retro.group():
                for time in range(5):
                    retro.line("q at %d enq 2" % time)
                self.assertEqual(synced, [])
            self.assertEqual(synced, [len(self.text())])
            retro.line("q ask size")
            self.assertRaises(Refused, retro.line, "q delete #9999")
            retro.end()
            self.assertEqual(len(synced), 1)
            with Journal(self.path, PROGRAM, fsync=False) as retro:
                retro.line("q at 1 deq")
            self.assertEqual(len(synced), 1)

    def test_threads(self):
        with Journal(self.path, PROGRAM, fsync=False) as retro:
            retro.line("new q queue")

            def write(value):
                for _ in range(50):
                    retro.line("q at 5 enq %d" % value)

            threads = [threading.Thread(target=write, args=(value,)) for value in range(4)]
            for thread in threads:
                thread.start()
            for thread in threads:
                thread.join()
        with Journal(self.path, PROGRAM) as retro:
            values = retro.line("q ask all")
            self.assertEqual([values.count(value) for value in range(4)], [50] * 4)


class Refusals(Journals):
    def test_one_writer(self):
        with Journal(self.path, PROGRAM) as retro:
            retro.line("new q queue")
            self.assertRaises(Busy, Journal, self.path, PROGRAM)
            retro.compact()
            self.assertRaises(Busy, Journal, self.path, PROGRAM)
            retro.line("q at 5 enq 1")
        Journal(self.path, PROGRAM).end()

    def test_a_journal_that_is_renamed_while_it_is_opened(self):
        """A compaction puts a new file in the place of the one that was just opened: the new one counts."""
        for name in ("first", "second"):
            with Journal(self.path, PROGRAM) as retro:
                retro.line("new %s queue" % name)
            os.rename(self.path, self.path + "." + name)
        os.rename(self.path + ".first", self.path)
        looked = []

        def lock(file, path):
            looked.append(path)
            if len(looked) == 1:
                os.replace(self.path + ".second", self.path)

        with mock.patch("retro.journal_file._lock", lock), Journal(self.path, PROGRAM) as retro:
            self.assertEqual((list(retro.names), len(looked)), (["second"], 2))

    def test_answers_that_differ(self):
        with Journal(self.path, PROGRAM) as retro:
            list(retro.stream(["new q queue", "q at 5 enq 1", "q at 6 deq", "q at 7 enq 3"]))
        whole = self.text()
        for old, new, line, text in (
            (b"; ok #2", b"; ok #3", 6, "q at 6 deq"),
            (b"; ok #2\n", b"", 6, "q at 6 deq"),
            (b"enq 1", b"enq x", 4, "q at 5 enq x"),
            (b"q at 5 enq 1\n; ok #1\n", b"", 4, "q at 6 deq"),
            (b"; ok #3\n", b"; ok #3\n; ok #4\n", 8, "q at 7 enq 3"),
            (b"; ok #3\n", b"; ok #4\n", 8, "q at 7 enq 3"),
        ):
            changed = whole.replace(old, new)
            with open(self.path, "wb") as file:
                file.write(changed)
            with self.assertRaises(Differs) as caught:
                Journal(self.path, PROGRAM)
            self.assertEqual((caught.exception.line, caught.exception.text), (line, text))
            self.assertIn("line %d: %r was answered" % (line, text), str(pickle.loads(pickle.dumps(caught.exception))))
            self.assertEqual(self.text(), changed)

    def test_a_file_that_is_no_journal_stays_as_it_is(self):
        block = b"timeline q queue next 2 rows 1\n#1 5 enq 1\nend\n"
        with open(self.path, "wb") as file:
            file.write(block)
        self.assertRaises(NoJournal, Journal, self.path, PROGRAM)
        self.assertEqual(self.text(), block)
        self.assertRaises(OSError, Journal, os.path.dirname(self.path), PROGRAM)

    def test_every_torn_end(self):
        with Journal(self.path, PROGRAM) as retro:
            list(retro.stream(["new p pq", "p at 5 ins 12", "p move #1 at 7", "timeline q pq next 9 rows 1", "#3 5 ins 2", "end"]))
        whole, entries = self.text(), self.entries()
        for at in range(0, len(whole), 1 if KILLS >= 1000 else 5):
            with open(self.path, "wb") as file:
                file.write(whole[:at])
            kept = [entry for entry in entries if entry.end <= at]
            with Journal(self.path, PROGRAM) as retro:
                start = kept[-1].end if kept else len(HEADING)
                self.assertEqual(retro.cut, whole[start:at])
                self.assertEqual(self.text(), whole[:start])
                self.assertEqual(len(retro.names), sum(entry.lines[0].startswith((b"new", b"timeline")) for entry in kept))
                retro.line("new r stack")
            with Journal(self.path, PROGRAM) as retro:
                self.assertEqual((retro.cut, "r" in retro.names), (b"", True))

    def test_noughts_that_a_power_cut_leaves(self):
        with Journal(self.path, PROGRAM) as retro:
            retro.line("new q queue")
        whole = self.text()
        with open(self.path, "ab") as file:
            file.write(b"\x00" * 40)
        with self.assertLogs("retro", "WARNING"), Journal(self.path, PROGRAM) as retro:
            self.assertEqual((retro.cut, self.text()), (b"\x00" * 40, whole))

    def test_a_write_that_fails(self):
        for name in ("os.fsync", "retro.journal_file.write"):
            with self.subTest(name):
                retro = Journal(self.path, PROGRAM)
                if "q" not in retro.names:
                    retro.line("new q queue")
                retro.line("q at 5 enq 1")
                whole = self.text()
                with mock.patch(name, side_effect=OSError(28, "no space")), self.assertRaises(Unwritten):
                    retro.line("q at 6 enq 2")
                self.assertEqual(self.text(), whole)
                self.assertRaises(Unwritten, retro.line, "q ask size")
                self.assertRaises(Unwritten, list, retro.stream(["q ask size"]))
                Journal(self.path, PROGRAM).end()

    def test_a_compaction_that_fails(self):
        with Journal(self.path, PROGRAM) as retro:
            list(retro.stream(["new q queue", "q at 5 enq 1"]))
            whole = self.text()
            with mock.patch("os.replace", side_effect=OSError(28, "no space")):
                self.assertRaises(OSError, retro.compact)
            self.assertEqual((self.text(), os.listdir(os.path.dirname(self.path))), (whole, ["day.journal"]))
            retro.line("q undo")

    def test_a_compaction_whose_program_ends(self):
        """The program that is to answer the new journal is killed, or has no memory: what it did not answer is not left out."""
        with Journal(self.path, PROGRAM) as retro:
            list(retro.stream(["new q queue", "q at 5 enq 1", "new r queue"]))
            whole = self.text()
            for ends in ("exit 5", "head -n 1; kill -9 $$", "echo refused rows; exit 1"):
                retro._command = ["sh", "-c", ends]
                self.assertRaises(Ended, retro.compact)
                self.assertEqual(self.text(), whole)
            retro._command = PROGRAM
            retro.line("q at 6 enq 2")
        with Journal(self.path, PROGRAM) as retro:
            self.assertEqual((retro.line("q ask all"), list(retro.names)), ([1, 2], ["q", "r"]))

    def test_a_compaction_that_is_interrupted(self):
        """Wherever it is, whatever is answered then stands in the file that is found at the path."""
        number = 0
        for name in ("os.open", "os.fsync", "os.replace", "retro.journal_file.sync_folder"):
            for error in (KeyboardInterrupt(), OSError(28, "no space")):
                for behind in (False, True):
                    number += 1
                    with self.subTest(name, behind=behind), Journal(self.path, PROGRAM) as retro:
                        if "q" not in retro.names:
                            retro.line("new q queue")
                        with failing(name, error, behind), self.assertRaises(type(error)):
                            retro.compact()
                        retro.line("q at %d enq %d" % (number, number))
                    with Journal(self.path, PROGRAM) as retro:
                        self.assertEqual((retro.line("q ask back"), retro.line("q ask size")), (number, number))
                        retro.compact()
        self.assertEqual(os.listdir(os.path.dirname(self.path)), ["day.journal"])

    def test_one_that_is_dropped_or_does_not_end_can_be_opened_again(self):
        retro = Journal(self.path, PROGRAM)
        retro.line("new q queue")
        del retro
        gc.collect()
        retro = Journal(self.path, PROGRAM, timeout=5)
        os.kill(retro._process.pid, signal.SIGSTOP)
        retro.timeout = 0.1
        self.assertRaises(TimedOut, retro.end)
        Journal(self.path, PROGRAM).end()

    def test_no_file_stays_open_wherever_a_call_is_stopped(self):
        """Before every single step of the interpreter: whoever closes it then, or drops it, has let go all that it had open."""

        def begin(files):
            files.append(JournalFile(self.path))

        def read(files):
            with files[0].read(3) as there:
                there.read()

        def write_anew(files):
            try:
                files[0].replace(HEADING)
            finally:
                files[0].settle()

        def close(files):
            files[0].close()

        def lowest():
            free = os.dup(0)
            os.close(free)
            return free

        free = lowest()
        for call in (begin, close, read, write_anew):
            steps, goes_on = 0, True
            while goes_on:
                files = [] if call is begin else [JournalFile(self.path)]
                goes_on = stopped(steps, lambda: call(files), "opcode")
                for file in files:
                    file.close()
                self.assertEqual(lowest(), free, (call, steps))
                steps += 1
            self.assertGreater(steps, 10)

    def test_a_fork_does_not_keep_it(self):
        retro = Journal(self.path, PROGRAM)
        child = os.fork()
        if child == 0:
            time.sleep(60)
            os._exit(0)
        self.addCleanup(os.waitpid, child, 0)
        self.addCleanup(os.kill, child, signal.SIGKILL)
        retro.end()
        Journal(self.path, PROGRAM).end()

    def test_a_group_that_cannot_be_written(self):
        """None of its lines counts: neither where the disk is full at its second line nor where it is at its end."""
        with Journal(self.path, PROGRAM) as retro:
            retro.line("new q queue")
        whole = self.text()
        for name, call, more in (("retro.journal_file.write", write_all, 1), ("os.fsync", os.fsync, 0)):
            works = mock.Mock(wraps=call, side_effect=[mock.DEFAULT] * more + [OSError(28, "no space")] * 2)
            with self.subTest(name):
                retro = Journal(self.path, PROGRAM)
                with mock.patch(name, works), self.assertRaises(Unwritten) as caught, retro.group():
                    retro.line("new r queue")
                    retro.line("q at 5 enq 1")
                self.assertIn("no space", str(caught.exception))
                self.assertIs(caught.exception, retro._failed)
                self.assertEqual(self.text(), whole)

    def test_an_end_within_a_group(self):
        synced = []
        with mock.patch("os.fsync", lambda file: synced.append(os.fstat(file).st_size)):
            retro = Journal(self.path, PROGRAM)
            with retro.group():
                retro.line("new q queue")
                retro.end()
        self.assertEqual(synced[-1], len(self.text()))

class Processes(Journals):
    def test_a_program_that_was_killed(self):
        with Journal(self.path, PROGRAM) as retro:
            retro.line("new q queue")
            heard = []
            retro.listeners.append(heard.append)
            for count in range(1, 4):
                retro._process.kill()
                self.assertRaises(Ended, retro.line, "q at 5 enq 7")
                self.assertEqual(retro.line("q ask size"), count - 1)
                retro.line("q at 5 enq 1")
            self.assertEqual([reply.line for reply in heard][-2:], [b"q ask size", b"q at 5 enq 1"])

    def test_a_process_that_has_read_too_much(self):
        for way in ("send", "stream"):
            with self.subTest(way), Journal(self.path, PROGRAM, most=5_000) as retro:
                if not retro.names:
                    retro.line("new q queue")
                edit = retro.line("q at 5 enq 1")
                retro.line("q undo")
                self.reads(retro, way)
                retro.line("timeline %s queue next 3" % way)
                self.reads(retro, way)
                retro.line("#1 7 enq 9")
                retro.line("end")
                self.assertEqual(retro.line("%s ask all" % way), [9])
                retro.line("q redo")
                self.assertEqual(retro.line("q ask size"), edit.number)

    def reads(self, retro, way):
        """Sends what makes the input long, until it is another process."""
        first = retro._process.pid
        line = "" if retro._held else "q ask at 5 size"
        for _ in range(5_000):
            retro.send(line) if way == "send" else list(retro.stream([line] * 50))
            if retro._process.pid != first:
                return
        self.fail("it is the same process")

    def test_a_journal_that_is_full_and_compacted(self):
        with Journal(self.path, PROGRAM, most=4000) as retro:
            retro.line("new q queue")
            retro.line("new p pqf")
            with self.assertRaises(Full):
                while True:
                    retro.line("q at 5 enq 1")
                    retro.line("q delete #%d" % retro.timeline("q").rows()[-1].number)
            self.assertIsNone(retro.line("q ask front"))
            rows, before = retro.save("q").rows, len(self.text())
            lost = retro.compact()
            self.assertEqual((lost.before, lost.after, lost.as_pq), (before, len(self.text()), ("p",)))
            self.assertIn("%d of q; held as pq: p" % lost.steps["q"], lost.text)
            self.assertGreater(lost.steps["q"], 20)
            self.assertEqual(retro.save("q").rows, rows)
            self.assertRaises(Refused, retro.line, "q undo")
            number = retro.save("q").next
            self.assertEqual(retro.line("q at 7 enq 2").number, number)
        with Journal(self.path, PROGRAM) as retro:
            self.assertEqual((retro.names, retro.save("q").rows[:-1]), ({"q": "queue", "p": "pq"}, rows))

    def test_a_block_that_would_not_fit(self):
        """The lines of an open block count before they are written."""
        with Journal(self.path, PROGRAM, most=2000) as retro:
            retro.line("timeline q queue next 999")
            with self.assertRaises(Full):
                for number in range(1, 100):
                    retro.line("#%d %d enq 1" % (number, number))
            self.assertLess(number, 12)

    def test_a_compaction_says_how_many_steps_it_loses(self):
        with Journal(self.path, PROGRAM, fsync=False) as retro:
            list(retro.stream(["new q queue", *["q at 5 enq 1"] * 1030, "q undo"]))
            self.assertEqual(retro.compact().steps, {"q": 1024})
            retro.line("q at 5 enq 1")
        with Journal(self.path, PROGRAM) as retro:
            self.assertEqual(retro.compact().steps, {"q": 1})

    def test_interruptions(self):
        """Whatever an alarm interrupts, what was answered is there, and the answers stay those of the lines."""

        class Alarm(Exception):
            pass

        def ring(*_):
            raise Alarm

        answered, rung, draws = [], 0, random.Random(1)
        before = signal.signal(signal.SIGALRM, ring)
        try:
            with Journal(self.path, PROGRAM, fsync=False) as retro:
                retro.line("new q queue")
                # the faster the processor, the more lines are answered before an alarm rings
                for number in range(20_000):
                    if number >= 60 and rung > 5:
                        break
                    try:
                        signal.setitimer(signal.ITIMER_REAL, 0.00001 + draws.random() * 0.002)
                        retro.line("q at 5 enq %d" % number)
                        answered.append(number)
                        signal.setitimer(signal.ITIMER_REAL, 0)
                    except Alarm:
                        rung += 1
                signal.setitimer(signal.ITIMER_REAL, 0)
                there = retro.line("q ask all")
        finally:
            signal.setitimer(signal.ITIMER_REAL, 0)
            signal.signal(signal.SIGALRM, before)
        self.assertGreater(rung, 5)
        self.assertEqual(sorted(set(there) & set(answered)), answered)
        self.assertEqual(there, sorted(there))
        with Journal(self.path, PROGRAM) as retro:
            self.assertEqual((retro.line("q ask all"), retro.cut), (there, b""))

    def test_an_edit_that_was_interrupted_before_it_was_written(self):
        with Journal(self.path, PROGRAM) as retro:
            retro.line("new q queue")
            with mock.patch.object(retro, "_keep", side_effect=KeyboardInterrupt), self.assertRaises(KeyboardInterrupt):
                retro.line("q at 5 enq 1")
            self.assertEqual(retro.line("q at 6 enq 2"), Edit(1))
            self.assertEqual(retro.line("q ask all"), [2])

    def test_an_open_block_through_two_interruptions(self):
        """The second one while the lines of the block are sent to the new process: each of them counts."""
        with Journal(self.path, PROGRAM) as retro:
            for line in ("timeline q queue next 9", "#1 5 enq 1", "#2 6 enq 2", "#3 7 enq 3"):
                retro.line(line)
            retro._process.kill()
            self.assertRaises(Ended, retro.line, "end")
            keep, kept = retro._keep, []

            def interrupts(replies):
                kept.append(keep(replies))
                if len(kept) == 2:
                    raise KeyboardInterrupt

            with mock.patch.object(retro, "_keep", interrupts):
                self.assertRaises(KeyboardInterrupt, retro.line, "end")
            retro.line("end")
            self.assertEqual(retro.line("q ask all"), [1, 2, 3])

    def test_an_open_block(self):
        with Journal(self.path, PROGRAM) as retro:
            retro.line("timeline q queue next 2")
            self.assertRaises(ValueError, retro.compact)
            self.assertRaises(ValueError, retro.new, "r", "queue")
            retro.line("#1 5 enq 1")
            retro._process.kill()
            self.assertRaises(Ended, retro.line, "end")
            retro.line("end")
            self.assertEqual(retro.line("q ask all"), [1])
        self.assertEqual([entry.lines[1] for entry in self.entries()], [b"#1 5 enq 1"])


def edits(draws, name, kind):
    """A drawn line of a timeline."""
    time, number, draw = draws.randint(0, 20), draws.randint(1, 40), draws.random()
    form = draws.choice(OPERATIONS[kind])
    operation = form % draws.randint(0, 9) if "%d" in form else form
    if draw < 0.6:
        return "%s at %d %s" % (name, time, operation)
    return "%s %s" % (name, draws.choice(["delete #%d" % number, "move #%d at %d" % (number, time), "change #%d %s" % (number, operation), "undo", "redo"]))


def write(path, start, told):
    """Opens a journal and writes drawn lines until it is killed; what was answered goes into a pipe, a line each."""
    draws = random.Random(start)

    def say(*words):
        os.write(told, (" ".join(words) + "\n").encode())

    with Journal(path, PROGRAM) as retro:
        for name, kind in zip("abcd", OPERATIONS):
            if name not in retro.names:
                retro.line("new %s %s" % (name, kind))
                say("kept", "new %s %s" % (name, kind))
        while True:
            say("pid", str(retro._process.pid))
            names = [draws.choice(sorted(retro.names.items())) for _ in range(draws.choice([1, 1, 1, 6]))]
            lines = [edits(draws, name, kind) for name, kind in names]
            try:
                for reply in retro.stream(lines) if len(lines) > 1 else [retro.send(lines[0])]:
                    say("refused" if reply.refused else "kept", reply.line.decode())
            except Ended:
                say("ended")


NUMBER = re.compile(rb"^pid ([0-9]+)$", re.MULTILINE)  # the program that a writer has said it writes to, in a whole line


class Killed(Journals):
    def forked(self, work, *words):
        """Runs a call in a process of its own; gives its number and a pipe of what it says."""
        here, there = os.pipe()
        process = os.fork()
        if process == 0:
            try:
                os.close(here)
                work(*words, there)
            finally:
                os._exit(9)
        os.close(there)
        return process, here

    def killed(self, start, draws):
        """What a writer said that was killed, or whose program was killed before, at a drawn moment."""
        process, here = self.forked(write, self.path, start)
        said, wanted, program = b"", draws.randint(1, 25), draws.random() < 0.5
        while (said.count(b"\n") < wanted or not NUMBER.search(said)) and select.select([here], [], [], 60)[0]:
            said += os.read(here, 65536)
        time.sleep(draws.random() * 0.004)
        if program:
            os.kill(int(NUMBER.findall(said)[-1]), signal.SIGKILL)
            while b"ended" not in said and select.select([here], [], [], 60)[0]:
                said += os.read(here, 65536)
            time.sleep(draws.random() * 0.004)
        os.kill(process, signal.SIGKILL)
        os.waitpid(process, 0)
        with os.fdopen(here, "rb") as rest:
            return (said + rest.read()).decode().splitlines()

    def test_kills_at_drawn_moments(self):
        ended = torn = 0
        for start in range(KILLS):
            if start % OF_A_JOURNAL == 0 and os.path.exists(self.path):
                os.unlink(self.path)
            before = [b"\n".join(entry.lines).decode() for entry in self.entries()] if os.path.exists(self.path) else []
            said = self.killed(start, random.Random(start))
            kept = [line[5:] for line in said if line.startswith("kept ")]
            ended += "ended" in said
            with Journal(self.path, PROGRAM) as retro:
                torn += bool(retro.cut)
            lines = [entry.lines[0].decode() for entry in self.entries()]
            self.assertEqual(lines[: len(before)], before)
            self.assertTrue(all(answer[:2] == "ok" or answer[:5] == "edit " for entry in self.entries() for answer in entry.answers))
            self.contains(lines[len(before) :], kept, said)
        print("journal: %d kills of the writer, %d of the program before, %d torn ends" % (KILLS, ended, torn))

    def contains(self, lines, kept, said):
        """All that was answered is there, in its order; else only what was sent and not answered any more, of one call or two."""
        at = 0
        for line in lines:
            at += at < len(kept) and line == kept[at]
        self.assertEqual(at, len(kept), (lines, kept))
        self.assertLessEqual(len(lines) - len(kept), 6 * (1 + said.count("ended")))

    def test_a_disk_that_is_full(self):
        for most in range(200, 700, 100):
            if os.path.exists(self.path):
                os.unlink(self.path)
            process, here = self.forked(fill, self.path, most)
            os.waitpid(process, 0)
            with os.fdopen(here, "rb") as told:
                said = told.read().decode().splitlines()
            self.assertEqual(said[-2:], ["unwritten", "unwritten"])
            with Journal(self.path, PROGRAM) as retro:
                self.assertEqual(retro.cut, b"")
                retro.line("new more queue")
            self.assertEqual([entry.lines[0].decode() for entry in self.entries()], [*said[:-2], "new more queue"])
            self.assertLessEqual(len(self.text()), most + 30)


def fill(path, most, told):
    """Writes into a file that may not have over so many bytes, and says what was answered."""
    signal.signal(signal.SIGXFSZ, signal.SIG_IGN)
    resource.setrlimit(resource.RLIMIT_FSIZE, (most, most))
    retro, failed = Journal(path, PROGRAM), 0
    lines = iter(["new q queue"] + ["q at %d enq %d" % (number, number) for number in range(1000)])
    while failed < 2:
        line = next(lines)
        try:
            retro.line(line)
            os.write(told, line.encode() + b"\n")
        except Unwritten:
            failed += 1
            os.write(told, b"unwritten\n")
