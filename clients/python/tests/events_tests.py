"""Tables of events with dates and names, there and back."""

import os
import time
import unittest

from retro import Edit, Names, Retro, Unreadable, arrive, date_of, script_of, table_of, time_of
from retro.events import name_within, words_of

PROGRAM = os.environ["RETRO"]
DATES = (
    ("2026-03-02", 202603020000),
    ("02.03.2026", 202603020000),
    ("2.3.2026 08:05", 202603020805),
    ("02.03.2026T08:05:07", 20260302080507),
    ("2026-03-02 08:05Z", 202603020805),
    ("2026-03-02T00:30:00+01:00", 20260301233000),
    ("2026-12-31T23:30-01:30", 202701010100),
)


class Events(unittest.TestCase):
    def test_a_queue_and_back(self):
        table = "time,event,item\n2026-03-01 08:05,came,Anna\n2026-03-01 08:40,came,Ben\n2026-03-01 09:00,taken,\n2026-03-02 00:00,came,Anna\n"
        names, said = Names(), {"came": "enq", "taken": "deq"}
        script = script_of(table, "jobs", names, said)
        rows = ["202603010805 enq 1", "202603010840 enq 2", "202603010900 deq", "202603020000 enq 1"]
        lines = ["new jobs queue"] + ["jobs at " + row for row in rows]
        self.assertEqual((script.kind, script.lines, names.names), ("queue", lines, {1: "Anna", 2: "Ben"}))
        with Retro(PROGRAM) as retro:
            list(retro.stream(script.lines))
            self.assertEqual(table_of(retro.save("jobs"), Names.read(names.text), said), table)

    def test_composite_keys(self):
        day = ["08:05,ins,2,Anna", "08:05,ins,2,Ben", "08:01,ins,2,Eva", "09:00,delmin,,"]
        table = "time,event,priority,item\n" + "".join("2026-03-01 %s\n" % event for event in day)
        names = Names()
        script = script_of(table, "er", names)
        rows = ["202603010801 ins 220260301080100", "202603010805 ins 220260301080500", "202603010805 ins 220260301080501"]
        self.assertEqual(script.lines[1:4], ["er at " + row for row in rows])
        with Retro(PROGRAM) as retro:
            list(retro.stream(script.lines))
            self.assertEqual([names.names[key] for key in retro.line("er ask all")], ["Anna", "Ben"])
            back = table_of(retro.save("er"), names)
            self.assertEqual(sorted(back.splitlines()), sorted(table.splitlines()))
        self.assertEqual(script_of(table, "er", names).lines, script.lines)

    def test_keys_of_one_minute_rise_as_the_rows_stand(self):
        table = "time,event,priority,item\n" + "".join("2026-03-01 08:05,ins,2,%s\n" % name for name in ("Anna", "Ben", "Anna", "Eva"))
        first = 220260301080500
        for known, wanted in (({}, [0, 1, 2, 3]), ({first: "Ben", first + 1: "Anna"}, [1, 2, 3, 4])):
            names = Names(known)
            keys = [int(line.split(" ")[-1]) - first for line in script_of(table, "er", names).lines[1:]]
            self.assertEqual(keys, wanted)
            self.assertEqual([names.name(first + key) for key in keys], ["Anna", "Ben", "Anna", "Eva"])

    def test_a_dictionary(self):
        table = "time,event,key,value\n2026-03-01 08:05,put,meter 12,310\n2026-03-09 08:05,del,meter 12,\n"
        names = Names({7: "meter 12"})
        script = script_of(table, "water", names)
        self.assertEqual(script.lines[1:], ["water at 202603010805 put 7 310", "water at 202603090805 del 7"])
        with Retro(PROGRAM) as retro:
            list(retro.stream(script.lines))
            self.assertEqual(table_of(retro.save("water"), names), table)

    def test_dates(self):
        self.assertEqual((time_of("2026-02-28T23:59"), date_of(202602282359)), (202602282359, "2026-02-28 23:59"))
        for date, time in DATES:
            self.assertEqual(time_of(date), time)
        self.assertEqual(date_of(20260302080507), "2026-03-02 08:05:07")
        self.assertEqual((time_of("02.03.2026", True), time_of("2026-03-02 08:05:07", True)), (20260302000000, 20260302080507))
        for bad in ("2026-02-29 10:00", "2026-1-01 10:00", "2026-01-01 24:00", "2026-01-01 10", "31.04.2026", "1.2.26", "0999-01-01", "2026-01-01 10:00:60", "\u0662026-01-01", ""):
            self.assertRaises(ValueError, time_of, bad)
        self.assertRaises(ValueError, date_of, 202602292359)

    def test_tables_that_say_nothing(self):
        for table, line in (
            ("time,event,item\n2026-03-01 08:05,enq,Anna\n2026-03-01 08:65,deq,\n", 3),
            ("time,event,item\n2026-03-01 08:05,enq,Anna\n2026-03-01 08:05,pop,\n", 3),
            ("time,event\n2026-03-01 08:05,enq\n", 2),
            ("time,event,priority,item\n2026-03-01 08:05,ins,high,Anna\n", 2),
            ("time,event,priority,item\n2026-03-01 08:05,ins,92001,Anna\n", 2),
            ("time,event,item\n", 1),
            ("", 1),
            ("time,event,item\n2026-03-01 08:05,enq,\n", 2),
            ("time,event,item\n2026-03-01 08:05,enq\n", 2),
            ("time,event,key,value\n2026-03-01 08:05,put,a,\n", 2),
            ("time,event,key,value\n2026-03-01 08:05,put,a,1.5\n", 2),
            ("time,event,item\n,deq,\n", 2),
            ("time,event,item\n2026-03-01 08:05,enq,Smith, John\n", 2),
        ):
            with self.assertRaises(Unreadable) as caught:
                script_of(table, "q", Names())
            self.assertEqual(caught.exception.line, line)

    def test_a_table_from_the_real_world(self):
        table = "\ufeffTime; Event ;Item\r\n02.03.2026 08:05:30;came; Anna \r\n\r\n1.3.2026;came;Ben\r\n2026-03-02T07:00:00Z;taken;\r\n"
        script = script_of(table, "jobs", Names(), {"came": "enq", "taken": "deq"})
        self.assertEqual(script.lines[1:], ["jobs at 20260301000000 enq 1", "jobs at 20260302070000 deq", "jobs at 20260302080530 enq 2"])
        self.assertEqual(script_of(table.replace(";", "\t"), "jobs", Names(), {"came": "enq", "taken": "deq"}), script)
        self.assertRaises(ValueError, script_of, table, "my jobs", Names())

    def test_empty_cells_behind_the_last_column(self):
        table = "time;event;item;;\n2026-03-01 08:05;enq;Anna;;;\n2026-03-01 08:06;enq;Ben\n"
        self.assertEqual(len(script_of(table, "jobs", Names()).lines), 3)

    def test_rows_in_any_order(self):
        rows = ["2026-03-01 09:00,deq,", "2026-03-01 08:05,enq,Anna", "2026-03-01 08:05,enq,Ben", "2026-02-28 10:00,enq,Eva"]
        script = script_of("time,event,item\n" + "\n".join(rows) + "\n", "jobs", names := Names())
        with Retro(PROGRAM) as retro:
            self.assertFalse([reply for reply in retro.stream(script.lines) if reply.refused])
            self.assertEqual(names.named(retro.line("jobs ask all")), ["Anna", "Ben"])

    def test_doubled_entries_are_told(self):
        table = "time,event,item\n2026-03-01 08:05,enq,Anna\n01.03.2026 08:05,enq,Anna\n2026-03-01 08:05,enq,Ben\n2026-03-01T08:05:00,enq,Anna\n"
        script = script_of(table, "jobs", Names())
        self.assertEqual((script.doubled, len(script.lines)), ([(2, 3), (2, 5)], 5))

    def test_many_names(self):
        began = time.process_time()
        names = Names()
        self.assertEqual([names.number("n%d" % at) for at in range(50_000)], list(range(1, 50_001)))
        self.assertEqual((names.number("n7"), Names.read(names.text).number("more")), (8, 50_001))
        self.assertLess(time.process_time() - began, 5)

    def test_answers_with_names(self):
        names = Names({1: "Anna", 2: "Ben"})
        self.assertEqual([names.named(answer) for answer in (None, 2, (1, 40), [2, 1], [(2, -5)], [])], [None, "Ben", ("Anna", 40), ["Ben", "Anna"], [("Ben", -5)], []])
        self.assertRaises(ValueError, names.named, 3)
        self.assertRaises(ValueError, names.named, Edit(3))

    def test_a_move_keeps_its_tie_by_arrival(self):
        table = "time,event,priority,item\n" + "".join("2026-03-01 %s\n" % event for event in ("08:05,ins,2,Anna", "08:20,ins,2,Ben", "08:40,ins,2,Eva"))
        names = Names()
        with Retro(PROGRAM) as retro:
            list(retro.stream(script_of(table, "er", names).lines))
            room = retro.timeline("er")
            arrive(room, 3, time_of("2026-03-01 08:01"), names)
            arrive(room, 2, time_of("2026-03-01 08:05"), names)
            self.assertEqual(names.named(room.ask("all")), ["Eva", "Anna", "Ben"])
            again = script_of(table_of(room.save(), names), "again", Names.read(names.text))
            list(retro.stream(again.lines))
            self.assertEqual(retro.line("again ask all"), room.ask("all"))

    def test_names_of_files(self):
        for text, name in (("my jobs", "my_jobs"), ("2026 jobs", "t2026_jobs"), ("new", "new_"), ("\u00fc", "table"), ("x" * 40, "x" * 32)):
            self.assertEqual(name_within(text), name)
        self.assertEqual(words_of(["a=b=enq"]), {"a=b": "enq"})
        for word in ("came", "=enq", "came=enqueue", "came="):
            with self.assertRaises(ValueError) as caught:
                words_of([word])
            self.assertIn("WORD=OPERATION", str(caught.exception))
