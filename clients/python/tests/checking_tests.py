"""Verdicts on evidence, beside `retro check` and a second reading that finds bridges by replay."""

import os
import random
import unittest

import second_bench
from retro import Ended, Retro, answer, check, evidence_of, times_of

PROGRAM = os.environ["RETRO"]
DAY = ["new p pq", "p at 10 ins 4", "p at 20 ins 2", "p at 30 delmin", "p at 40 delmin", "p at 50 ins 3", "p at 15 ins 1"]
TOLD = [
    "edit p add 0 #1 ins 4 bridge 0 gain #1 4",
    "edit p add 1 #2 ins 2 bridge 1 gain #2 2",
    "edit p add 2 #3 delmin bridge 2 lose #2 2",
    "edit p add 3 #4 delmin bridge 3 lose #1 4",
    "edit p add 4 #5 ins 3 bridge 4 gain #5 3",
    "edit p add 1 #6 ins 1 bridge 0 gain #1 4",
]


def drawn(start):
    """The evidence of a drawn script, by the second reading."""
    draws, bench, told = random.Random(start), second_bench.Bench(), []
    bench.line(b"new p pq")
    for _ in range(30):
        number = draws.randint(1, 20)
        time, key = draws.randint(0, 9), draws.randint(0, 5)
        forms = ("p at %d ins %d" % (time, key), "p at %d delmin" % time, "p delete #%d" % number, "p move #%d at %d" % (number, time), "p undo")
        line = draws.choice(forms)
        told += [text for text in bench.line(line.encode()) if text.startswith("edit ")]
    return told


class Verdicts(unittest.TestCase):
    def judged(self, lines):
        return [(one.accepted, one.cause) for one in check(lines, program=PROGRAM)]

    def refused(self, lines, **more):
        return [one for one in check(lines, program=PROGRAM, **more) if one.accepted is False][0]

    def test_what_is_true_is_accepted(self):
        self.assertEqual(self.judged(["ok", *TOLD[:3], "; a remark", *TOLD[3:]]), [(True, None)] * 6)
        self.assertEqual([one.line for one in check(["ok", *TOLD[:2], "", TOLD[2] + "\r"], program=PROGRAM)], [2, 3, 5])
        self.assertEqual(check([], program=PROGRAM), [])

    def test_the_bridge_that_would_have_been_true(self):
        one = self.refused([*TOLD[:5], TOLD[5].replace("bridge 0", "bridge 4")])
        self.assertEqual((one.line, one.cause, one.true), (6, "bridge", evidence_of(TOLD[5])))
        true = "true would have been bridge 0, and that the present has gained the entry of row 1, key 4"
        self.assertEqual(one.sentence, "     6  refused, bridge: " + true)

    def test_the_entry_that_would_have_been_true(self):
        lines = [*TOLD[:2], TOLD[2].replace("lose #2 2", "lose #1 4"), *TOLD[3:]]
        one = self.refused(lines)
        self.assertEqual((one.line, one.cause, one.true), (3, "entry", evidence_of(TOLD[2])))
        self.assertEqual(self.judged(lines), [(True, None)] * 2 + [(False, "entry")] + [(None, None)] * 3)

    def test_the_truth_of_each_kind_of_cut(self):
        """Over ins 4, ins 2 and a delmin: 4 survives, the sums are 0, 0, 1, 0, so the places 0, 1 and 3 are bridges."""
        for edit, stated, true in (
            ("cut 2 #3 delmin", "bridge 0 gain #2 2", "bridge 1 gain #2 2"),
            ("cut 1 #2 ins 2", "bridge 1 lose #1 4", "bridge 3 lose #1 4"),
            ("cut 0 #1 ins 4", "bridge 1 lose #1 4", "bridge none lose #1 4"),
            ("add 0 #4 delmin", "bridge 1 lose #1 4", None),
        ):
            one = self.refused([*TOLD[:3], "edit p %s %s" % (edit, stated)])
            self.assertEqual(one.true, evidence_of("edit p %s %s" % (edit, true)) if true else None)

    def test_the_time_of_the_row(self):
        block = ["timeline q pq next 3", "; within", "#1 7 ins 5", "#2 8 delmin", "end"]
        answered = answer([*DAY, "p move #5 at 60", "p before #4 ins 9", *block], PROGRAM)
        times = times_of(answered.replies)
        self.assertEqual(times, {"p": {1: 10, 2: 20, 3: 30, 4: 40, 5: 50, 6: 15, 7: 60, 8: 40}, "q": {1: 7, 2: 8}})
        one = self.refused([*TOLD[:5], TOLD[5].replace("#1 4", "#2 2")], times=times)
        self.assertEqual(one.time, 15)
        self.assertTrue(one.sentence.endswith(" (its row stands at 15)"))

    def test_other_causes_have_their_reasons(self):
        for lines, cause, reason in (
            ([TOLD[1]], "place", "0 rows stand before it"),
            ([TOLD[0], TOLD[0]], "number", "row 1 stands there already"),
            ([TOLD[0], "edit p cut 0 #2 ins 4 bridge none lose #2 4"], "number", "at place 0 stands row 1, ins 4"),
            ([TOLD[0], "edit p cut 0 #1 ins 5 bridge none lose #1 5"], "row", "at place 0 stands row 1, ins 4"),
            (["edit p add 0 #1 delmin bridge 0 lose #1 4"], "replay", "row 1, delmin, would find nothing"),
            (["edit p add 0 #01 ins 4"], "syntax", "it is no line of evidence"),
        ):
            one = self.refused(lines)
            self.assertEqual((one.cause, one.reason, one.true), (cause, reason, None))

    def test_every_drawn_line_that_is_forged_is_told_as_it_was(self):
        forged = 0
        for start in range(12):
            told, draws = drawn(start), random.Random(start)
            at = draws.randrange(len(told))
            said = evidence_of(told[at])
            edit = told[at].split(" bridge ")[0]
            stated = [(bridge, change) for bridge in ("none", "0", "3") for change in ("gain", "lose") if (bridge, change) != ("none", "gain")]
            for line in ("%s bridge %s %s #%d %d" % (edit, *one, entry, said.key) for one in stated for entry in (1, said.entry)):
                one = [one for one in check([*told[:at], line, *told[at + 1:]], program=PROGRAM) if one.accepted is not True][:1]
                if line != told[at]:
                    self.assertEqual((one[0].line, one[0].true), (at + 1, said))
                    forged += 1
        self.assertGreater(forged, 100)

    def test_a_program_that_ends(self):
        self.assertRaises(Ended, check, TOLD, program="false")


class Heard(unittest.TestCase):
    def test_a_listener_hears_every_line(self):
        heard = []
        with Retro(PROGRAM) as retro:
            retro.listeners.append(heard.append)
            retro.line("new q queue")
            list(retro.stream(["q at 5 enq 1", "; a", "what"]))
        self.assertEqual([(reply.number, reply.answers) for reply in heard], [(1, ("ok",)), (2, ("ok #1",)), (3, ()), (4, ("refused syntax",))])
