"""Conversations with the program: values, refusals, streams, and how they end."""

import concurrent.futures
import copy
import io
import multiprocessing
import os
import pickle
import tempfile
import unittest

import retro
from retro import (
    Edit, Ended, OutOfStep, OutOfTurn, Refused, Retro, RetroError, Row, Saved, Taken, TimedOut, Unperformed, answer, answer_divided, evidence_of,
    value_of,
)
from retro.events import Unreadable

PROGRAM = os.environ["RETRO"]


class Conversation(unittest.TestCase):
    def setUp(self):
        self.retro = Retro(PROGRAM)
        self.addCleanup(self.retro.end)

    def refused(self, line):
        with self.assertRaises(Refused) as caught:
            self.retro.line(line)
        return caught.exception


class Values(Conversation):
    def test_edits_have_their_numbers(self):
        jobs = self.retro.new("jobs", "queue")
        self.assertEqual([jobs.at(10, "enq 5"), jobs.after(1, "enq 6"), jobs.before(1, "enq 4"), jobs.at(30, "deq")], [Edit(n) for n in (1, 2, 3, 4)])
        made = [jobs.move(4, 40), jobs.change(1, "enq 9"), jobs.delete(2), jobs.undo(), jobs.redo()]
        self.assertEqual([edit.number for edit in made], [5, 6, None, None, None])
        self.assertEqual(jobs.ask("all"), [9])

    def test_edits_of_a_priority_queue_have_evidence(self):
        orders = self.retro.new("orders", "pq")
        orders.at(10, "ins 4")
        orders.at(20, "delmin")
        late = orders.at(5, "ins 2")
        self.assertEqual(late.number, 3)
        self.assertEqual(late.evidence, (evidence_of("edit orders add 0 #3 ins 2 bridge 0 gain #1 4"),))
        self.assertEqual((late.evidence[0].change, late.evidence[0].entry, late.evidence[0].key), ("gain", 1, 4))
        moved = orders.move(3, 30)
        self.assertEqual((moved.number, [one.edit for one in moved.evidence]), (4, ["add", "cut"]))
        self.assertEqual([one.bridge for one in orders.undo().evidence], [0, None])
        taken = orders.move(2, 50)
        self.assertEqual((taken.number, [one.edit for one in taken.evidence]), (5, ["cut", "add"]))

    def test_questions(self):
        water = self.retro.new("water", "dict")
        self.assertEqual((water.ask("all"), water.ask("get 1"), water.ask("succ 0")), ([], None, None))
        water.at(1, "put 12 310")
        water.at(8, "put 17 -40")
        self.assertEqual((water.ask("all"), water.ask("get 17"), water.ask("succ 13")), ([(12, 310), (17, -40)], -40, (17, -40)))
        self.assertEqual((water.ask("sum 0 99"), water.ask("size", at=5), water.ask("size", before=1), water.ask("size", after=1)), (270, 1, 0, 1))
        self.assertRaises(ValueError, water.ask, "size", at=1, before=1)

    def test_fates(self):
        water = self.retro.new("water", "dict")
        water.at(1, "put 12 310")
        water.at(8, "put 12 325")
        self.assertEqual((water.fate(1), water.fate(2)), (Taken(2, 8), None))

    def test_a_save_is_a_timeline(self):
        self.retro.new("jobs", "queue").at(10, "enq 5")
        self.assertEqual(self.retro.line("save jobs"), Saved.read("timeline jobs queue next 2 rows 1\n#1 10 enq 5\nend\n"))

    def test_a_report(self):
        with Retro(PROGRAM, follow="p") as retro:
            retro.new("p", "pq").at(10, "ins 4")
            self.assertEqual(retro.line("mute 0"), "report 0 gains 1 losses 0 sum 4")
        self.assertEqual((retro.status, retro.reports), (0, ["report 1 mirror p 4"]))

    def test_evidence_is_handed_on(self):
        kept = []
        with Retro(PROGRAM, evidence=kept.append) as retro:
            retro.new("p", "pq").at(10, "ins 4")
            retro.load("timeline q pq next 2\n#1 5 ins 3\nend\n")
        self.assertEqual(kept, ["edit p add 0 #1 ins 4 bridge 0 gain #1 4", "edit q add 0 #1 ins 3 bridge 0 gain #1 3"])


class Refusals(Conversation):
    def test_causes(self):
        self.retro.new("jobs", "queue").at(10, "enq 5")
        for line, cause, number, time in (
            ("jobs at 5 deq", "at", 2, 5),
            ("jobs delete #9", "no row", 9, None),
            ("jobs fate #9", "no row", 9, None),
            ("jobs at 5 push 1", "kind", None, None),
            ("what", "syntax", None, None),
            ("x" * 5000, "long", None, None),
            ("other ask size", "no timeline", None, None),
            ("new jobs pq", "name taken", None, None),
            ("mute 3", "no follower", None, None),
            ("jobs redo", "nothing to redo", None, None),
        ):
            refused = self.refused(line)
            self.assertEqual((refused.cause, refused.number, refused.time, refused.text), (cause, number, time, line))
        self.assertEqual(refused.line, 12)

    def test_a_failing_row_is_another_one(self):
        jobs = self.retro.new("jobs", "queue")
        jobs.at(100, "enq 11")
        jobs.at(200, "deq")
        refused = self.refused("jobs at 150 deq")
        self.assertEqual((refused.cause, refused.number, refused.time, refused.line), ("at", 2, 200, 4))

    def test_nine_timelines(self):
        for name in "abcdefgh":
            self.retro.new(name, "queue")
        self.assertEqual(self.refused("new i queue").cause, "timelines")

    def test_the_bad_row_of_a_block(self):
        self.retro.line("; a comment")
        with self.assertRaises(Refused) as caught:
            self.retro.load("timeline jobs queue next 4 rows 3\n#1 10 enq 5\n#2 9 deq\n#3 9 deq\nend\n")
        refused = caught.exception
        self.assertEqual((refused.cause, refused.row, refused.why, refused.line, refused.text), ("row", 2, "time", 4, "#2 9 deq"))
        self.retro.confirm()


class Errors(unittest.TestCase):
    def test_each_is_pickled_whole(self):
        errors = (
            RetroError("the base"),
            Ended(5),
            Ended(-9),
            Refused("refused at #4 5", 7, "jobs at 5 deq"),
            TimedOut(0.5),
            OutOfTurn("a block is open"),
            OutOfStep("no answer"),
            Unperformed(Row(4, 5, "deq")),
            Unreadable(3, "no date"),
            retro.JournalError("the base of a journal's"),
            retro.Busy("day.journal"),
            retro.Differs("day.journal", 4, "q at 5 enq 1", ("ok #1",), ("ok #2",)),
            retro.NoJournal("day.journal"),
            retro.Unwritten("day.journal", "no space"),
            retro.Full("day.journal", 4000),
            retro.KeyAgain("a comes again"),
            retro.PageDiffers(3, "q ask all", "= 1", "= 2"),
        )
        self.assertEqual({type(error) for error in errors}, kinds_of(RetroError))
        for error in errors:
            for again in (pickle.loads(pickle.dumps(error)), copy.copy(error)):
                self.assertEqual((type(again), str(again), again.__dict__), (type(error), str(error), error.__dict__))

    def test_a_pool_of_processes_hands_them_on(self):
        with concurrent.futures.ProcessPoolExecutor(1, multiprocessing.get_context("spawn")) as pool:
            self.assertEqual(pool.submit(ends).exception(60).status, 0)

    def test_an_answer_of_another_program(self):
        with Retro(["sh", "-c", "while read line; do echo Welcome; done"]) as retro:
            self.assertRaises(OutOfStep, retro.line, "q ask size")
            self.assertRaises(OutOfStep, retro.confirm)
            self.assertRaises(OutOfStep, retro.new, "q", "queue")
        with self.assertRaises(OutOfStep):
            value_of(b"q ask size", ["= many"])

    def test_what_cannot_be_pickled_says_so(self):
        with Retro(PROGRAM) as retro:
            self.assertRaises(TypeError, pickle.dumps, retro)


def kinds_of(base):
    """All errors of the library under this one."""
    return {base}.union(*map(kinds_of, base.__subclasses__()))


def ends():
    Retro("true").line("new q queue")


class Arguments(Conversation):
    def test_a_number_is_whole(self):
        jobs = self.retro.new("jobs", "queue")
        for call in (
            lambda: jobs.at(10.9, "enq 5"),
            lambda: jobs.at(1764320400123456789.0, "enq 5"),
            lambda: jobs.at("10", "enq 5"),
            lambda: jobs.after(1.0, "enq 5"),
            lambda: jobs.before(None, "enq 5"),
            lambda: jobs.delete(1.0),
            lambda: jobs.move(1, 5.5),
            lambda: jobs.move(1.0, 5),
            lambda: jobs.change(1.0, "enq 5"),
            lambda: jobs.fate(1.0),
            lambda: jobs.ask("size", at=1.0),
            lambda: jobs.over("size", 0.5, 9),
            lambda: self.retro.send(5),
            lambda: list(self.retro.stream(["; a", 5])),
        ):
            self.assertRaises(TypeError, call)
        self.assertEqual((jobs.at(True, "enq 5").number, jobs.rows()), (1, [Row(1, 1, "enq 5")]))
        self.retro.confirm()

    def test_lines_of_a_text_and_of_a_file(self):
        script = "new q queue\n; gr\u00fc\u00df\nq at 1 enq 5\r\nq ask size\n"
        wanted = [("ok",), (), ("ok #1",), ("= 1",)]
        with tempfile.TemporaryDirectory() as folder:
            place = os.path.join(folder, "script")
            with open(place, "w", encoding="utf-8", newline="") as file:
                file.write(script)
            with open(place, encoding="utf-8") as text, open(place, "rb") as binary:
                for lines in (script, script.encode(), script[:-1], text, binary, io.StringIO(script), script.split("\n")[:-1]):
                    kept = lines.seek(0) if hasattr(lines, "seek") else 0
                    with Retro(PROGRAM) as retro:
                        self.assertEqual([reply.answers for reply in retro.stream(lines)], wanted)
                    if hasattr(lines, "seek"):
                        lines.seek(kept)
                    self.assertEqual([reply.answers for reply in answer(lines, PROGRAM).replies], wanted)

    def test_calls_within_an_open_block(self):
        jobs = self.retro.new("jobs", "queue")
        list(self.retro.stream(["timeline q queue next 3", "#1 5 enq 4"]))
        for call in (lambda: jobs.at(5, "enq 4"), jobs.undo, lambda: jobs.ask("size"), jobs.save, jobs.rows, self.retro.confirm, lambda: self.retro.new("r", "pq")):
            with self.assertRaises(OutOfTurn) as caught:
                call()
            self.assertIn("block", str(caught.exception))
        self.retro.line("end")
        self.assertEqual((jobs.ask("size"), self.retro.line("q ask size")), (0, 1))


class InStep(Conversation):
    """Each of these got a client out of step that goes by its language's idea of blanks, or by hope."""

    def test_lines_that_look_blank(self):
        for blank in ("\t", "\f", "\v", "\u00a0", "\u2003", "\x00", "\x1c", "\r\r"):
            self.assertEqual(self.retro.send(blank).answers, ("refused syntax",), repr(blank))
        for blank in ("", "   ", "\r", " \r"):
            self.assertEqual(self.retro.send(blank).answers, ())
        self.retro.confirm()

    def test_a_long_comment(self):
        self.assertEqual(self.retro.send(";" * 4096).answers, ())
        self.assertEqual(self.retro.send(";" * 4097).answers, ("refused long",))
        self.assertEqual(self.retro.send("; " + "\u00fc" * 2048).answers, ("refused long",))
        self.retro.confirm()

    def test_a_comment_in_any_language(self):
        self.assertEqual(self.retro.send("; gr\u00fc\u00df Gott, \u4f60\u597d \udcff").answers, ())
        self.assertEqual(self.retro.send("gr\u00fc\u00df Gott").answers, ("refused syntax",))
        self.retro.confirm()

    def test_a_line_feed_is_refused_before_it_is_sent(self):
        self.assertRaises(ValueError, self.retro.send, "; a\nnew q queue")
        self.assertRaises(ValueError, list, self.retro.stream(["; a", "new q queue\n"]))
        self.retro.confirm()

    def test_a_block_line_by_line(self):
        for line in ("timeline q queue next 3 rows 2", "; within", "  #1 10 enq 5", "#2 20 deq "):
            self.assertIsNone(self.retro.line(line))
        self.assertEqual(self.retro.line("end"), Edit(None))
        self.assertEqual(self.retro.line("q ask size"), 0)

    def test_a_text_that_is_no_block_is_not_sent(self):
        for text in (
            "; saved\nq queue next 1\nend\n",
            "timeline q heap next 1\nend\n",
            "timeline q queue next 3 rows 2\n#1 5 enq 3\nend\n",
            "timeline q queue next 3\n#1 5 enq 3",
        ):
            self.assertRaises(ValueError, self.retro.load, text)
        self.retro.confirm()

    def test_a_stream_that_is_left(self):
        self.retro.new("q", "queue")
        for reply in self.retro.stream("q at %d enq %d" % (time, time) for time in range(100_000)):
            if reply.number == 50:
                break
        self.retro.confirm()
        self.assertGreaterEqual(self.retro.line("q ask size"), 49)

    def test_a_stream_whose_lines_fail(self):
        def lines():
            yield "new q queue"
            yield "q at 1 enq 1"
            raise KeyError("no more")

        self.assertRaises(KeyError, list, self.retro.stream(lines()))
        self.assertEqual(self.retro.send("q ask size").number, 1)

    def test_no_line_within_a_stream(self):
        stream = self.retro.stream("; a" for _ in range(10_000))
        next(stream)
        self.assertRaises(ValueError, self.retro.send, "new q queue")
        self.assertRaises(ValueError, next, self.retro.stream(["; b"]))
        stream.close()
        self.retro.confirm()

    def test_answers_of_many_megabytes(self):
        self.retro.new("q", "queue")
        list(self.retro.stream("q at 1 enq %d" % -(2**63) for _ in range(2000)))
        wide = [reply.value for reply in self.retro.stream(["q ask all"] * 500)]
        self.assertEqual(set(map(len, wide)), {2000})


class Ends(unittest.TestCase):
    def test_the_status_of_a_run(self):
        for lines, status in ((["new q queue"], 0), (["; a"], 0), (["what"], 1), ([], 0)):
            retro = Retro(PROGRAM)
            list(retro.stream(lines))
            self.assertEqual((retro.end(), retro.end()), (status, status))

    def test_a_block_that_is_open_at_the_end(self):
        retro = Retro(PROGRAM)
        retro.line("timeline q queue next 3")
        self.assertEqual((retro.end(), retro.reports), (1, ["refused unfinished"]))

    def test_a_program_that_ends_before_its_input(self):
        for program in ("false", "true"):
            retro = Retro(program)
            self.assertRaises(Ended, retro.line, "new q queue")
            with self.assertRaises(Ended) as caught:
                list(retro.stream(["new q queue"] * 5000))
            self.assertEqual(caught.exception.status, int(program == "false"))
            self.assertEqual(retro.end(), caught.exception.status)

    def test_a_stream_to_a_program_that_ends(self):
        with tempfile.TemporaryDirectory() as folder:
            program = os.path.join(folder, "ends")
            with open(program, "w") as file:
                file.write("#!/bin/sh\necho ok\nexit 5\n")
            os.chmod(program, 0o755)
            retro = Retro(program)
            seen = []
            with self.assertRaises(Ended) as caught:
                for reply in retro.stream(["new q queue"] * 20_000):
                    seen.append(reply.answers)
            self.assertEqual((seen, caught.exception.status), ([("ok",)], 5))
            self.assertRaises(Ended, retro.line, "q ask size")
            self.assertEqual(retro.end(), 5)

    def test_a_save_that_the_program_does_not_end(self):
        """What it wrote of the answer is none, and stands behind none."""
        retro = Retro(["sh", "-c", "echo timeline q queue next 3 rows 2; echo '#1 5 enq 1'; exit 5"])
        self.assertRaises(Ended, retro.save, "q")
        self.assertEqual((retro.end(), retro.reports), (5, []))

    def test_a_log_whose_program_is_killed(self):
        told = answer_divided(["new q queue", "q ask size"], ["sh", "-c", "echo ok; kill -9 $$"], 1)
        self.assertEqual(([reply.answers for reply in told.replies], told.status), ([("ok",), ()], 137))

    def test_the_end_within_a_stream(self):
        retro = Retro(PROGRAM)
        stream = retro.stream("new q queue" for _ in range(100_000))
        self.assertEqual(next(stream).answers, ("ok",))
        self.assertEqual(retro.end(), 1)
        self.assertRaises(Ended, list, stream)
