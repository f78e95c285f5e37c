"""Tables of events with keys of any text, from tuples, a database and a file; divided by key; in constant memory."""

import io
import os
import random
import sqlite3
import subprocess
import sys
import unittest

import second_bench
from retro import Ended, KeyAgain, Refused, RefusedEvent, Told, answer_table, part_of, partition

PROGRAM = os.environ["RETRO"]
KEYS = ["hall 3, shelf \u00fc", "", "new", "end", ";", "a\nb", "x" * 5000, None, 7, ("north", 2), "-1", "t0"]
PICKS = [("north", 20, "deq", "a4"), ("south", 5, "enq 7", "a1"), ("north", 10, "enq 5", "a2"), ("north", 15, "deq", "a3"), ("south", 6, "enq 8", "a5")]


def table(*rows, **more):
    return list(answer_table(rows, program=PROGRAM, **more))


class Answers(unittest.TestCase):
    def test_answers_beside_their_keys_and_refusals_beside_their_events(self):
        told = table(*PICKS, ask=["all", "at 5 size"], id=3)
        self.assertEqual(told, [Told("north", ([], 0), (RefusedEvent("a4", "refused at #3 20"),)), Told("south", ([7, 8], 1), ())])

    def test_keys_of_any_kind(self):
        told = table(*[(key, place, "push %d" % place) for place, key in enumerate(KEYS)], ask=["top"])
        self.assertEqual(told, [Told(key, (place,), ()) for place, key in enumerate(KEYS)])

    def test_events_that_are_none(self):
        events = ((5, "enq 1"), ("5 enq 3", ""), (-1, "enq 1"), (10.5, "enq 1"), (None, "enq 1"), (6, "enq 1\na at 7 enq 2"),
                  (7, "push 1"), (8, "; enq 1"), (2**64, "enq 1"), ("9", "enq 2"), (6, "enq\n1"))
        (told,) = table(*(("a", *event) for event in events), ask=["all"])
        self.assertEqual(told.answers, ([1, 2],))
        wrong = {number: "refused syntax" for number in (2, 3, 4, 5, 6, 8, 9, 11)}
        self.assertEqual(dict(told.refused), {**wrong, 7: "refused kind"})

    def test_no_events_and_no_kind(self):
        self.assertEqual(table(ask=["size"]), [])
        self.assertEqual(table(("a", 5, "what"), ask=["size"]), [Told("a", (0,), (RefusedEvent(1, "refused syntax"),))])
        self.assertRaises(Refused, table, ("a", 5, "enq 1"), ask=["top"])
        self.assertRaises(ValueError, table, ("a", 5), ask=["size"])
        with self.assertRaises(Ended):
            list(answer_table(PICKS, program="false"))

    def test_in_order(self):
        rows = sorted(PICKS, key=lambda row: row[0])
        self.assertEqual(table(*rows, ask=["all"], in_order=True), table(*rows, ask=["all"]))
        self.assertRaises(KeyAgain, table, *PICKS, in_order=True)
        numbers = [(key, 5, "enq 1") for key in (-2, -1, 0, 2**61 - 1)]  # of which two and two have one hash
        self.assertEqual([one.key for one in table(*numbers, in_order=True)], [-2, -1, 0, 2**61 - 1])

    def test_drawn_tables_beside_a_second_reading(self):
        draws, rows, benches = random.Random(1), [], {}
        for number in range(600):
            rows.append((draws.randint(0, 20), draws.randint(0, 9), draws.choice(["ins 1", "ins 2", "ins 3", "delmin"]), number))
        for key, time, operation, number in sorted(rows, key=lambda row: row[1]):
            bench = benches.setdefault(key, (second_bench.Bench(), []))
            bench[0].line(b"new t pq")
            if bench[0].line(b"t at %d %s" % (time, operation.encode()))[0].startswith("refused"):
                bench[1].append(number)
        for one in table(*rows, ask=["all"], id=3):
            bench, refused = benches.pop(one.key)
            self.assertEqual("= " + (" ".join(map(str, one.answers[0])) or "empty"), bench.line(b"t ask all")[0])
            self.assertEqual([event.id for event in one.refused], refused)
        self.assertEqual(benches, {})


class Sources(unittest.TestCase):
    wanted = [Told("north", (None,), (RefusedEvent("a4", "refused at #3 20"),)), Told("south", (7,), ())]

    def test_a_database(self):
        base = sqlite3.connect(":memory:")
        base.execute("create table picks (shelf, minute, done, id)")
        base.executemany("insert into picks values (?, ?, ?, ?)", PICKS)
        for factory in (None, sqlite3.Row, lambda cursor, row: {one[0]: value for one, value in zip(cursor.description, row)}):
            base.row_factory = factory
            cursor = base.execute("select * from picks order by shelf, minute")
            self.assertEqual(list(answer_table(cursor, "shelf", "minute", "done", ["front"], "id", in_order=True, program=PROGRAM)), self.wanted)
        base.row_factory = None
        cursor = base.execute("select * from picks")
        self.assertRaisesRegex(ValueError, "no column 'hall'", list, answer_table(cursor, "hall", "minute", "done", program=PROGRAM))
        base.close()

    def test_a_file(self):
        text = io.StringIO("shelf,minute,done,id\n" + "".join("%s,%d,%s,%s\n" % row for row in PICKS))
        self.assertEqual(list(answer_table(text, "shelf", "minute", "done", ["front"], "id", program=PROGRAM)), self.wanted)

    def test_columns_that_are_worked_out(self):
        rows = [{"where": shelf, "when": str(minute), "done": done} for shelf, minute, done, _ in PICKS]
        told = answer_table(rows, lambda row: row["where"][0], lambda row: int(row["when"]) * 60, "done", ["at 300 size"], program=PROGRAM)
        self.assertEqual([(one.key, one.answers) for one in told], [("n", (0,)), ("s", (1,))])
        self.assertRaises(ValueError, list, answer_table(rows, "where", "whence", "done", program=PROGRAM))


class Parts(unittest.TestCase):
    def test_a_key_is_in_one_part(self):
        rows = [(key, time, "push 1") for time in range(3) for key in KEYS]
        parts = partition(rows, 4)
        self.assertEqual((len(parts), sorted(map(repr, sum(parts, []))) == sorted(map(repr, rows))), (4, True))
        for place, part in enumerate(parts):
            self.assertTrue(all(part_of(row[0], 4) == place for row in part))
            self.assertEqual([row[1] for row in part], sorted(row[1] for row in part))
        told = [one for part in parts for one in answer_table(part, ask=["size"], program=PROGRAM)]
        self.assertEqual(sorted(told, key=repr), sorted(answer_table(rows, ask=["size"], program=PROGRAM), key=repr))

    def test_the_same_part_in_every_run(self):
        """By the check sum of its text, of which the value for nine digits is well known."""
        self.assertEqual([part_of(key, 1000) for key in ("123456789", 123456789)], [0xCBF43926 % 1000] * 2)
        self.assertEqual(len(partition([("a name of a file \udcff", 1)], 3)), 3)

    def test_parts_are_alike_in_size(self):
        sizes = [len(part) for part in partition([("key %d" % number,) for number in range(8000)], 8)]
        self.assertTrue(all(850 < size < 1150 for size in sizes), sizes)

    def test_constant_memory_by_key(self):
        """Ten times as many rows, by key, take the same memory."""
        code = (
            "import resource, sys\n"
            "from retro import answer_table\n"
            "rows = ((key, time, 'enq %d' % time) for key in range(int(sys.argv[1])) for time in range(100))\n"
            "print(sum(one.answers[0] for one in answer_table(rows, ask=['size'], in_order=True)))\n"
            "print(resource.getrusage(resource.RUSAGE_SELF).ru_maxrss)\n"
        )
        taken = []
        for keys in (20, 200):
            done = subprocess.run([sys.executable, "-c", code, str(keys)], stdout=subprocess.PIPE, encoding="ascii", check=True)
            count, most = map(int, done.stdout.split())
            self.assertEqual(count, keys * 100)
            taken.append(most)
        self.assertLess(taken[1], taken[0] * 1.05 + 500)
