"""Rows, lifetimes, files and merges."""

import os
import random
import stat
import tempfile
import unittest
from unittest import mock

from retro import Recovered, Refused, Retro, Row, Saved, Unperformed, lines_anew, load_as_pqf, load_file, merge, recover, save_file

PROGRAM = os.environ["RETRO"]
KINDS = {
    "queue": ["enq %d", "enq %d", "deq"],
    "stack": ["push %d", "push %d", "pop"],
    "deque": ["pushl %d", "pushr %d", "popl", "popr"],
    "dict": ["put %d 7", "put %d 8", "del %d"],
    "pq": ["ins %d", "ins %d", "delmin"],
}


def saved(kind, next_number, *rows):
    return Saved("q", kind, next_number, tuple(Row(*row) for row in rows))


def edits(draws, timeline):
    """A drawn edit of a timeline, of which some are refused."""
    number, time = draws.randint(1, 60), draws.randint(0, 30)
    form = draws.choice(KINDS[timeline.kind])
    operation = form % draws.randint(0, 5) if "%d" in form else form
    draw = draws.random()
    if draw < 0.5:
        timeline.at(time, operation)
    elif draw < 0.6:
        draws.choice([timeline.before, timeline.after])(number, operation)
    elif draw < 0.7:
        timeline.delete(number)
    elif draw < 0.8:
        timeline.move(number, time)
    elif draw < 0.9:
        timeline.change(number, operation)
    else:
        draws.choice([timeline.undo, timeline.redo])()


class Rows(unittest.TestCase):
    def test_the_table_follows_all_edits(self):
        with Retro(PROGRAM) as retro:
            for start, kind in enumerate(KINDS):
                draws, timeline = random.Random(start), retro.new(kind, kind)
                for _ in range(400):
                    timeline.rows()
                    try:
                        edits(draws, timeline)
                    except Refused:
                        continue
                    self.assertEqual(tuple(timeline.rows()), timeline.save().rows)
                fates = {row.number: timeline.fate(row.number) for row in timeline.rows() if row.puts}
                self.assertEqual({life.put.number: life.taken and (life.taken.number, life.taken.time) for life in timeline.lifetimes()}, fates)
                self.assertEqual(timeline.takes(), {fate.number: put for put, fate in fates.items() if fate})
                for time in [None, *range(0, 31, 3)]:
                    held = [row.numbers if kind == "dict" else row.numbers[0] for row in timeline.entries(time)]
                    self.assertEqual(held, timeline.ask("all", at=time))

    def test_rows_and_questions_over_a_span(self):
        with Retro(PROGRAM) as retro:
            jobs = retro.new("jobs", "queue")
            for time in (10, 20, 30):
                jobs.at(time, "enq %d" % time)
            jobs.at(25, "deq")
            self.assertEqual(jobs.row(4), Row(4, 25, "deq"))
            self.assertRaises(KeyError, jobs.row, 9)
            self.assertEqual([row.number for row in jobs.rows(20, 25)], [2, 4])
            self.assertEqual(jobs.over("size", 15, 30), [(15, 1), (20, 2), (25, 1), (30, 2)])
            self.assertEqual(jobs.over("front", 0, 24), [(0, None), (10, 10)])

    def test_numbers_are_spelled_as_a_save_spells_them(self):
        with Retro(PROGRAM) as retro:
            jobs = retro.new("jobs", "queue")
            jobs.rows()
            jobs.at(10, "enq  007")
            retro.line("jobs at 0010 enq -0")
            jobs.after(1, "enq -08")
            jobs.change(1, "enq 00")
            self.assertEqual(tuple(jobs.rows()), jobs.save().rows)
            self.assertEqual([row.operation for row in jobs.rows()], ["enq 0", "enq -8", "enq 0"])

    def test_who_took_what(self):
        with Retro(PROGRAM) as retro:
            jobs = retro.load("timeline jobs queue next 6\n#5 5 enq 100\n#1 10 enq 101\n#2 20 enq 102\n#3 30 deq\n#4 40 deq\nend\n")
            self.assertEqual(jobs.takes(), {3: 5, 4: 1})
            self.assertEqual(jobs.entries(), [Row(2, 20, "enq 102")])


def interrupt():
    raise KeyboardInterrupt


class Files(unittest.TestCase):
    def setUp(self):
        folder = tempfile.TemporaryDirectory()
        self.addCleanup(folder.cleanup)
        self.place = os.path.join(folder.name, "day.block")
        self.folder = folder.name

    def test_a_file_is_whole_or_not_at_all(self):
        monday = saved("queue", 2, (1, 10, "enq 5"))
        save_file(self.place, monday)
        os.chmod(self.place, 0o640)
        self.assertEqual(load_file(self.place), monday)
        with mock.patch("os.fsync", side_effect=OSError(28, "no space")):
            self.assertRaises(OSError, save_file, self.place, saved("queue", 3))
        self.assertEqual(load_file(self.place), monday)
        with mock.patch("os.replace") as renamed, self.assertRaises(KeyboardInterrupt):
            renamed.side_effect = lambda *places: (os.rename(*places), interrupt())
            save_file(self.place, saved("queue", 2))
        self.assertEqual(load_file(self.place), saved("queue", 2))
        save_file(self.place, saved("queue", 3))
        self.assertEqual((os.listdir(self.folder), stat.S_IMODE(os.stat(self.place).st_mode)), (["day.block"], 0o640))

    def test_each_cut_of_a_save_gives_the_rows_that_are_surely_whole(self):
        whole = saved("pq", 14, (1, 10, "ins 4"), (12, 20, "ins 45"), (13, 30, "delmin"))
        ends = [len(line) for line in whole.text.splitlines(keepends=True)]
        for cut in range(len(whole.text) + 1):
            text = whole.text[:cut]
            if cut < ends[0]:
                self.assertRaises(ValueError, recover, text)
                continue
            kept = max(count for count in range(4) if sum(ends[: count + 1]) <= cut)
            found = recover(text)
            self.assertEqual((found.saved.rows, found.missing), (whole.rows[:kept], 3 - kept))
            self.assertEqual(found.whole, cut >= len(whole.text) - 1)
            self.assertEqual(text, text[: sum(ends[: kept + 1])] + found.cut)

    def test_what_was_recovered_loads(self):
        text = "timeline q pq next 14 rows 3\n#1 10 ins 4\n#12 20 ins 45\n#13 3"
        with Retro(PROGRAM) as retro:
            self.assertEqual(retro.load(recover(text).saved).ask("all"), [4, 45])

    def test_what_stands_behind_a_bad_row_is_not_kept(self):
        high = "#2 20 ins 9223372036854775808"
        for bad in ("#2 20 ins", "#2 20 ins +1", "#2 20 ins 1_0", "+2 20 ins 1", "#2 20 enq 1", "#2 5 ins 1", "#1 20 ins 1", "#9 20 ins 1", high, "\u00b2", "#2 20 ins 1\t"):
            found = recover("timeline q pq next 9\n#1 10 ins 4\n%s\n#3 30 delmin\nend\n" % bad)
            self.assertEqual(found, Recovered(saved("pq", 9, (1, 10, "ins 4")), None, bad + "\n#3 30 delmin\nend\n"))

    def test_the_greatest_numbers(self):
        text = "timeline q pq next 16777216\n#16777215 18446744073709551615 ins %d\n" % -(2**63)
        whole = saved("pq", 16777216, (16777215, 2**64 - 1, "ins %d" % -(2**63)))
        self.assertEqual((Saved.read(text + "end\n"), recover(text).saved), (whole, whole))
        for last, greater in (("#16777215", "#16777216"), (" 18446744073709551615", " 18446744073709551616"), ("-9223372036854775808", "-9223372036854775809")):
            self.assertRaises(ValueError, Saved.read, text.replace(last, greater) + "end\n")

    def test_a_block_with_its_end_and_not_all_rows(self):
        found = recover("timeline q queue next 3 rows 2\n#1 10 enq 5\nend\n")
        self.assertEqual((found.saved.rows, found.missing, found.whole), ((Row(1, 10, "enq 5"),), 1, False))

    def test_a_file_with_carriage_returns(self):
        text = "timeline q queue next 2 rows 1\r\n#1 10 enq 5\r\nend\r\n"
        with open(self.place, "w", newline="") as file:
            file.write(text)
        whole = saved("queue", 2, (1, 10, "enq 5"))
        self.assertEqual((load_file(self.place), recover(text).saved, recover(text).whole), (whole, whole, True))
        self.assertEqual(recover(text[:-7]), Recovered(saved("queue", 2), 1, "#1 10 enq 5"))

    def test_a_block_with_comments(self):
        text = "; Monday\n\n timeline q  queue next 09 rows 2\n; the first\n  #01 10 enq 007\n\n#2 010  enq -0 \r\n;\nend \n; end\n"
        whole = saved("queue", 9, (1, 10, "enq 7"), (2, 10, "enq 0"))
        self.assertEqual((Saved.read(text), recover(text).saved, recover(text).whole), (whole, whole, True))
        with Retro(PROGRAM) as retro:
            self.assertEqual(retro.load(text).save(), whole)
        self.assertEqual(recover(text[:62]), Recovered(saved("queue", 9), 2, "; the first\n  #01 "))

    def test_a_text_that_is_not_one_block(self):
        for text in ("", " rows 1\nend\n", "\nend", "\n", "\nend\nend\n"):
            self.assertRaises(ValueError, Saved.read, "timeline q pq next 1" + text)


class Merges(unittest.TestCase):
    def test_two_days_that_began_alike(self):
        base = saved("queue", 4, (1, 10, "enq 5"), (2, 20, "enq 6"), (3, 30, "deq"))
        ours = saved("queue", 6, (1, 10, "enq 5"), (4, 15, "enq 7"), (2, 20, "enq 6"), (3, 30, "deq"), (5, 40, "deq"))
        theirs = saved("queue", 5, (1, 10, "enq 5"), (4, 15, "enq 8"), (3, 30, "deq"))
        merged = merge(ours, theirs, base)
        rows = ((1, 10, "enq 5"), (4, 15, "enq 7"), (6, 15, "enq 8"), (3, 30, "deq"), (5, 40, "deq"))
        self.assertEqual((merged.saved, merged.numbers), (saved("queue", 7, *rows), {4: 6}))
        self.assertEqual([row.number for row in merge(ours, theirs).saved.rows], [1, 4, 6, 2, 3, 5])

    def test_the_second_has_drawn_more_numbers(self):
        ours, theirs = saved("queue", 2, (1, 10, "enq 5")), saved("queue", 9, (1, 20, "enq 6"))
        self.assertEqual(merge(ours, theirs).saved, saved("queue", 10, (1, 10, "enq 5"), (9, 20, "enq 6")))

    def test_what_both_took(self):
        base = saved("queue", 2, (1, 10, "enq 5"))
        ours, theirs = (base._replace(next=3, rows=base.rows + (Row(2, time, "deq"),)) for time in (20, 30))
        with self.assertRaises(Unperformed) as caught:
            merge(ours, theirs, base)
        self.assertEqual(caught.exception.row, Row(3, 30, "deq"))

    def test_two_kinds(self):
        self.assertRaises(ValueError, merge, saved("queue", 1), saved("pq", 1))


class AsPqf(unittest.TestCase):
    def test_the_lines_of_ties(self):
        day = saved("pq", 9, (7, 5, "ins 4"), (2, 5, "ins 4"), (5, 5, "delmin"), (3, 5, "ins 4"))
        self.assertEqual(lines_anew(day), (["q at 5 ins 4", "q after #1 ins 4", "q before #1 ins 4", "q after #1 delmin"], {2: 1, 3: 2, 7: 3, 5: 4}))

    def test_each_answer_is_that_of_the_saved_timeline(self):
        for start in range(12):
            draws = random.Random(start)
            with Retro(PROGRAM) as retro:
                first = retro.new("first", "pq")
                for _ in range(120):
                    try:
                        edits(draws, first)
                    except Refused:
                        continue
                second, numbers = load_as_pqf(retro, first.save(), "second")
                self.assertEqual([(numbers[row.number], row.time, row.operation) for row in first.rows()], [tuple(row) for row in second.rows()])
                self.assertEqual({numbers[taker]: numbers[put] for taker, put in first.takes().items()}, second.takes())
                for row in first.rows():
                    self.assertEqual(first.ask("all", after=row.number), second.ask("all", after=numbers[row.number]))

    def test_a_queue_is_none(self):
        with Retro(PROGRAM) as retro:
            self.assertRaises(ValueError, load_as_pqf, retro, saved("queue", 1))
