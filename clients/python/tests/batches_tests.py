"""Batches of lines, counted by one search or line by line, beside a second reading of the language: no process is needed."""

import random
import unittest

import second_bench
from retro.conversation import Conversation, joined
from retro.grammar import Reader, State, plain, reader_of
from retro.rows import Row, Saved, Table
from stopping import stopped

PLAIN = [b"p at %d ins 4", b"p at %d ins 4", b"q at %d enq 7", b"p ask at %d all", b"q ask size", b"p at %d delmin", b"p delete #%d", b"q at %d pop", b"p  at %d  ins 3 "]
RARE = [
    [b""], [b"   "], [b"\r"], [b" \r"], [b"; a"], [b"  ; a"], [b"q ask size ; a"], [b"; " + b"x" * 4095], [b"z" * 4096], [b"z" * 4097], [b" " * 5000],
    [b"q ask size" + b" " * 4087], [b"save p"], [b"save save"], [b" save q"], [b"mute 0"], [b"p undo"], [b" p  undo "], [b"p redo"], [b"p move #%d at 3"],
    [b"p change #%d ins 9"], [b"q undo"], [b"q move #1 at 5"], [b"new r pq"], [b"new undo pqf"], [b"undo at 5 ins 3"], [b"undo undo"], [b"new s pqf\r"],
    [b"timeline t pq next 3", b"#1 5 ins 3", b"; a", b"end"], [b"timeline t queue next 3", b"#1 5 deq", b"end"], [b"timeline t heap next 3", b"end"],
    [b" timeline u pq next 9", b"  ", b"save p", b" end "], [b"q at 5 enq 7\r"], [b"\t"], [b"end"], [b"t undo"], [b"u at 1 ins 1"],
]


def drawn(draws):
    """A script that is mostly plain."""
    lines = [b"new p pq", b"new q queue"]
    for _ in range(draws.randint(5, 40)):
        lines += [draws.choice(PLAIN)] if draws.random() < 0.85 else draws.choice(RARE)
    return [line % draws.randint(1, 9) if b"%d" in line else line for line in lines]


def in_batches(draws, script, written):
    """What a conversation gives each line, which is sent in batches, and reads what was written in pieces of any size."""
    talk, told, at = Conversation(), [], 0
    while at < len(script):
        size = draws.choice([1, 1, 2, 3, 5, 9, 40])
        lines = script[at : at + size]
        talk.note(lines, joined(lines))
        at += size
    sent, start = list(talk.owed), 0
    while start < len(written):
        size = draws.choice([1, 7, 60, 400, 5000])
        talk.chunks.append(written[start : start + size])
        start += size
        talk.settle()
    talk.settle()
    for one in sent:
        assert one.is_done, one.lines
        told += one.replies()
    return [(reply.line, reply.answers) for reply in told], [reply.number for reply in told], talk.rest()


class Stopped(unittest.TestCase):
    """An interruption before every single line of the library."""

    SCRIPT = [b"new p pq", b"; a", b"p at 5 ins 3", b"p move #1 at 7", b"p undo", b"save p", b"timeline q queue next 2", b"#1 5 deq", b"end", b"p ask size"]

    def conversation(self, batches, told):
        talk, bench, written = Conversation(told.append), second_bench.Bench(), ""
        wanted = []
        for line in self.SCRIPT:
            wanted.append((line, tuple(bench.line(line))))
            written += "".join(answer + "\n" for answer in wanted[-1][1])
        talk.tables["p"] = Table(Saved("p", "pq", 1, ()))
        size = len(self.SCRIPT) // batches
        sent = [talk.note(lines, joined(lines)) for lines in (self.SCRIPT[at : at + size] for at in range(0, len(self.SCRIPT), size))]
        half = len(written) * 2 // 3
        return talk, sent, [written[:half].encode(), written[half:].encode()], wanted

    def test_before_each_line(self):
        for batches in (1, 2, 10):
            steps, goes_on = 0, True
            while goes_on:
                told = []
                talk, sent, pieces, wanted = self.conversation(batches, told)
                goes_on = False
                for piece in pieces:
                    talk.chunks.append(piece)
                    goes_on = stopped(steps, talk.settle) or goes_on
                    talk.settle()
                goes_on = stopped(steps, talk.hand_on) or goes_on
                talk.hand_on()
                self.assertEqual([(reply.line, reply.answers) for one in sent for reply in one.replies()], wanted, steps)
                self.assertEqual((list(talk.owed), talk.rest(), talk.line), ([], [], len(self.SCRIPT)))
                table = talk.tables.get("p")
                self.assertTrue(table is None or table.rows == [Row(1, 5, "ins 3")], steps)
                evidence = [answer for _, answers in wanted for answer in answers if answer.startswith("edit ")]
                self.assertEqual(told, evidence, steps)
                steps += 1
            self.assertGreater(steps, 100)


class Batches(unittest.TestCase):
    def test_each_line_has_its_own_answers(self):
        for start in range(2500):
            draws, bench = random.Random(start), second_bench.Bench()
            script = drawn(draws)
            wanted = [(line, tuple(bench.line(line[:-1] if line.endswith(b"\r") else line))) for line in script]
            written = "".join(answer + "\n" for _, answers in wanted for answer in answers)
            told, numbers, rest = in_batches(draws, script, written.encode())
            self.assertEqual((told, numbers, rest), (wanted, list(range(1, len(script) + 1)), []), start)
            reader, read = Reader(), reader_of(written.encode())
            self.assertEqual([(line, tuple(reader.answers(line, read))) for line in script], wanted)

    def test_which_batches_are_plain(self):
        lines = [b"q at %d enq 7" % time for time in range(300)]
        self.assertTrue(plain(State(), lines, joined(lines)))
        for rare in (b"", b" ", b"\r", b";", b" q ask size", b"save q", b"mute 0", b"timeline", b"z" * 4097):
            for place in (0, 150, 300):
                batch = lines[:place] + [rare] + lines[place:]
                self.assertFalse(plain(State(), batch, joined(batch)), (rare[:9], place))
        for two in (b"p undo", b"p redo", b"p move #1 at 5", b"p change #1 ins 5"):
            self.assertFalse(plain(State(queues=True), lines + [two], joined(lines + [two])))
            self.assertTrue(plain(State(), lines + [two], joined(lines + [two])))
            batch = [b"new p pqf", *lines, two]
            self.assertFalse(plain(State(), batch, joined(batch)))
        batch = lines + [b"z" * 4096]
        self.assertTrue(plain(State(), batch, joined(batch)))


class OneByOne(unittest.TestCase):
    def test_one_line_that_surely_has_an_answer(self):
        """What is asked by one write and one read; a line without an answer among them would be waited for."""
        quick = 0
        for start in range(600):
            draws, bench, talk = random.Random(start), second_bench.Bench(), Conversation()
            for line in drawn(draws):
                answers = bench.line(line[:-1] if line.endswith(b"\r") else line)
                written = "".join(answer + "\n" for answer in answers).encode()
                sent = talk.note_one(line)
                if sent is not None:
                    self.assertGreater(len(answers), 0, line)
                    quick += 1
                    talk.chunks.append(written)
                    reply = talk.settle_one(sent)
                else:
                    sent, reply = talk.note([line], line + b"\n"), None
                    talk.chunks.append(written)
                if reply is None:
                    talk.settle()
                self.assertTrue(sent.is_done, line)
                self.assertEqual((sent.last().line, sent.last().answers), (line, tuple(answers)))
            self.assertEqual((talk.rest(), list(talk.owed)), ([], []))
        self.assertGreater(quick, 5000)
