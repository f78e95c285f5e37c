"""What a correction changed, and where two reports part: beside answers that a second reading of the language gives."""

import os
import random
import time
import unittest

import second_bench
from retro import Changed, Edited, Refused, Retro, Row, Saved, Take, compared, explain, read_source, same_rows
from retro.events import Names

PROGRAM = os.environ["RETRO"]
QUESTIONS = {
    "queue": ["front", "size", "all"],
    "stack": ["top", "nth 1"],
    "deque": ["left", "right"],
    "dict": ["get 1", "succ 2", "sum 0 5"],
    "pq": ["min", "all"],
}
OPERATIONS = {
    "queue": ["enq 1", "enq 2", "deq"],
    "stack": ["push 1", "push 2", "pop"],
    "deque": ["pushl 1", "pushr 2", "popl", "popr"],
    "dict": ["put 1 7", "put 2 8", "put 1 9", "del 1"],
    "pq": ["ins 3", "ins 1", "ins 2", "delmin"],
}


def block(kind, *rows):
    return Saved("q", kind, 100, tuple(Row(*row) for row in rows))


def answers_at(saved, question, time):
    """The answer at a time, by the second reading."""
    bench = second_bench.Bench()
    for line in saved.text.splitlines():
        bench.line(line.encode())
    return bench.line(b"%s ask at %d %s" % (saved.name.encode(), time, question.encode()))[0]


class Told(unittest.TestCase):
    def setUp(self):
        self.retro = Retro(PROGRAM)
        self.addCleanup(self.retro.end)

    def picks(self):
        picks = self.retro.new("picks", "queue")
        for time, operation in ((5, "enq 101"), (10, "enq 102"), (15, "deq"), (40, "enq 103"), (45, "deq")):
            picks.at(time, operation)
        return picks

    def test_what_a_correction_changed(self):
        picks = self.picks()
        with explain(picks, ["front", "size"]) as report:
            picks.delete(3)
        self.assertEqual(
            report.changes,
            [
                Changed("front", 15, 45, 102, 101),
                Changed("front", 45, None, 103, 102),
                Changed("size", 15, 40, 1, 2),
                Changed("size", 40, 45, 2, 3),
                Changed("size", 45, None, 1, 2),
            ],
        )
        enq, other, deq = Row(1, 5, "enq 101"), Row(2, 10, "enq 102"), Row(3, 15, "deq")
        self.assertEqual(report.takes, [Take(deq, enq, None), Take(Row(5, 45, "deq"), other, enq)])
        self.assertEqual(report.rows, [Edited(deq, None)])

    def test_the_sentences(self):
        picks = self.picks()
        with explain(picks, ["front"], names={101: "a lamp", 102: "a <b> book"}, calendar=True) as report:
            picks.delete(3)
            picks.move(4, 202603010805)
            picks.at(50, "deq")
        self.assertEqual(
            report.text().splitlines(),
            [
                "What has changed in picks.",
                "Rows",
                "  Row 3, deq at 15, was taken out.",
                "  Row 4, enq 103 at 40, was moved to 2026-03-01 08:05, and is row 6 now.",
                "  Row 7, deq at 50, was put in.",
                "The front",
                "  From 15 until 45 it was a <b> book, and is a lamp now.",
                "  From 45 until 50 it was 103, and is a <b> book now.",
                "  From 50 until 2026-03-01 08:05 it was 103, and is nothing now.",
                "Who takes what",
                "  Row 3, deq at 15, took a lamp of row 1, and is gone.",
                "  Row 5, deq at 45, took a <b> book of row 2, and takes a lamp of row 1 now.",
                "  Row 7, deq at 50, takes a <b> book of row 2 now.",
            ],
        )

    def test_a_new_row_that_takes_what_a_new_row_put_in(self):
        picks = self.retro.new("picks", "queue")
        with explain(picks, ["size"]) as report:
            picks.at(50, "enq 7")
            picks.at(60, "deq")
        self.assertEqual(report.takes, [Take(Row(2, 60, "deq"), None, Row(1, 50, "enq 7"))])

    def test_a_row_keeps_who_it_is(self):
        picks = self.picks()
        with explain(picks) as report:
            moved = picks.move(1, 7)
            picks.change(moved.number, "enq 111")
            picks.move(5, 46)
        self.assertEqual(report.rows, [Edited(Row(1, 5, "enq 101"), Row(7, 7, "enq 111")), Edited(Row(5, 45, "deq"), Row(8, 46, "deq"))])
        self.assertEqual(report.takes, [])

    def test_a_row_keeps_who_it_is_through_an_undo(self):
        picks = self.picks()
        picks.move(1, 7)
        with explain(picks) as report:
            picks.undo()
        self.assertEqual((report.rows, report.takes), ([Edited(Row(6, 7, "enq 101"), Row(1, 5, "enq 101"))], []))

    def test_nothing_and_a_refusal_within(self):
        picks = self.picks()
        with explain(picks) as report:
            picks.ask("all")
        self.assertEqual((report.rows, report.changes, report.takes), ([], [], []))
        self.assertEqual(report.text(), "Nothing is different: neither a row of picks nor an answer to front, size.\n")
        report = None
        with self.assertRaises(Refused):
            with explain(picks, ["size"]) as report:
                picks.delete(5)
                picks.at(0, "deq")
        self.assertEqual(report.changes, [Changed("size", 45, None, 1, 2)])
        self.assertEqual(self.retro.listeners, [])

    def test_a_question_of_another_kind_is_refused_at_the_beginning(self):
        picks = self.picks()
        with self.assertRaises(Refused):
            with explain(picks, ["top"]):
                picks.delete(5)
        self.assertEqual(len(picks.rows()), 5)
        self.assertEqual(self.retro.end(), 0)

    def test_a_dict_is_asked_for_the_keys_that_were_edited(self):
        water = self.retro.new("water", "dict")
        for time, operation in ((1, "put 12 310"), (8, "put 12 325"), (9, "put 17 40")):
            water.at(time, operation)
        with explain(water, names={12: "cellar"}) as report:
            water.change(2, "put 12 352")
        self.assertEqual(report.changes, [Changed("get 12", 8, None, 325, 352)])
        self.assertIn("  From 8 on it was 325, and is 352 now.\n", report.text())
        self.assertIn("put cellar 325 at 8, was changed to put cellar 352, and is row 4 now.", report.text())

    def test_who_replaces_whom_in_a_dict(self):
        water = self.retro.new("water", "dict")
        water.at(1, "put 12 310")
        water.at(8, "put 12 325")
        with explain(water) as report:
            water.at(5, "put 12 320")
        self.assertIn("Row 2, put 12 325 at 8, replaced 12 310 of row 1, and replaces 12 320 of row 3 now.", report.text())


    def test_a_report_of_many_takes(self):
        """The first enq of a long day was wrong: each row takes something else, and the first of them are told."""
        count = 3_000
        rows = [Row(number, number, "enq %d" % number if number <= count else "deq") for number in range(1, 2 * count)]
        was = Saved("q", "queue", 2 * count, tuple(rows))
        picks = self.retro.load(was)
        with explain(picks, ["size"]) as report:
            picks.delete(1)
        began = time.process_time()
        text = report.text()
        self.assertLess(time.process_time() - began, 0.5)
        self.assertEqual(len(report.takes), count - 1)
        self.assertIn("  Row 3001, deq at 3001, took 1 of row 1, and takes 2 of row 2 now.\n", text)
        self.assertIn("  And %d more rows.\n" % (count - 1 - 20), text)


class Compared(unittest.TestCase):
    def test_where_two_reports_part(self):
        was = block("pq", (1, 100, "ins 50"), (2, 200, "ins 95"), (3, 300, "ins 99"))
        now = block("pq", (1, 100, "ins 50"), (2, 200, "ins 95"), (3, 300, "ins 99"), (4, 900, "delmin"))
        text = compared(was, now, ["min"], program=PROGRAM).text()
        self.assertIn("Where two reports of q part.\n", text)
        self.assertIn("  min differs from 900 on: 50 against 95.\n", text)
        self.assertIn("Row 4, delmin at 900, stands in the second report alone.", text)
        self.assertIn("Row 4, delmin at 900, takes nothing in the first report and 50 of row 1 in the second.", text)
        self.assertRaises(ValueError, compared, was, now._replace(kind="queue", rows=()))

    def test_rows_of_two_histories(self):
        was = block("queue", (1, 5, "enq 1"), (2, 10, "enq 2"), (3, 20, "deq"), (4, 30, "deq"))
        now = block("queue", (1, 5, "enq 1"), (2, 7, "enq 9"), (3, 10, "enq 2"), (4, 21, "deq"), (5, 30, "deq"))
        self.assertEqual(same_rows(was, now), {1: 1, 3: 2, 5: 4, 4: 3})
        self.assertEqual(same_rows(was, now._replace(rows=now.rows[:1] + now.rows[3:])), {1: 1, 4: 3, 5: 4})
        changed = block("queue", (1, 5, "enq 1"), (7, 10, "enq 8"), (3, 20, "deq"), (4, 30, "deq"))
        self.assertEqual(same_rows(was, changed), {1: 1, 7: 2, 3: 3, 4: 4})

    def test_all_moments_beside_a_second_reading(self):
        for start in range(40):
            draws = random.Random(start)
            kind = draws.choice(sorted(QUESTIONS))
            with Retro(PROGRAM) as retro:
                q = retro.new("q", kind)
                self.draw(draws, q, 12)
                with explain(q, QUESTIONS[kind]) as report:
                    was = q.save()
                    self.draw(draws, q, 4)
                now = q.save()
            for question in QUESTIONS[kind]:
                for time in range(32):
                    told = [one for one in report.changes if one.question == question and one.start <= time and (one.end is None or time < one.end)]
                    differs = answers_at(was, question, time) != answers_at(now, question, time)
                    self.assertEqual(len(told), int(differs), (start, question, time, report.changes))
            ends = [(one.question, one.end) for one in report.changes if one.end is not None]
            self.assertEqual(len(ends), len(set(ends)))

    def draw(self, draws, timeline, count):
        for _ in range(count):
            draw = draws.random()
            try:
                if draw < 0.6:
                    timeline.at(draws.randint(0, 30), draws.choice(OPERATIONS[timeline.kind]))
                elif draw < 0.7:
                    timeline.delete(draws.randint(1, 16))
                elif draw < 0.8:
                    timeline.move(draws.randint(1, 16), draws.randint(0, 30))
                elif draw < 0.9:
                    timeline.change(draws.randint(1, 16), draws.choice(OPERATIONS[timeline.kind]))
                else:
                    timeline.undo()
            except Refused:
                continue

    def test_a_source_that_ends_within_a_block(self):
        script = b"new a queue\na at 5 enq 1\ntimeline b stack next 1\nend\ntimeline c queue next 3\n#1 5 enq 1"
        source = read_source(script, PROGRAM)
        self.assertEqual([saved.text.split()[:3] for saved in source.saves.values()], [["timeline", "a", "queue"], ["timeline", "b", "stack"]])

    def test_rows_of_one_time_in_another_order(self):
        put, gone = (1, 5, "put 1 10"), (2, 5, "del 1")
        was, now = block("dict", (3, 4, "put 1 7"), put, gone), block("dict", (3, 4, "put 1 7"), gone, put)
        self.assertEqual(
            compared(was, now, program=PROGRAM).changes, [Changed("get 1", 5, None, None, 10), Changed("size", 5, None, 0, 1)]
        )

    def test_names_of_a_table(self):
        was, now = block("queue", (1, 5, "enq 1")), block("queue", (1, 5, "enq 1"), (2, 6, "deq"))
        self.assertIn("front differs from 6 on: Anna against nothing.", compared(was, now, names=Names({1: "Anna"}), program=PROGRAM).text())
