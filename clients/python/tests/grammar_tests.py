"""Which lines have answers, and how many, by docs/SCRIPT.md."""

import unittest

from retro.grammar import Reader, is_header, is_long, owner, reader_of, words


def answered(script, written):
    """What a reader gives each line of a script, of all that a program wrote; and what is left of that."""
    reader, read = Reader(), reader_of(written.encode())
    told = [reader.answers(line, read) for line in script]
    left = reader.end(read)
    try:
        read()
    except EOFError:
        return told, left
    raise AssertionError("more was written than was read")


class Words(unittest.TestCase):
    def test_only_byte_32_divides_words(self):
        self.assertEqual(words(b"  q  ask size "), [b"q", b"ask", b"size"])
        for blank in (b"\t", b"\f", b"\v", b"\xa0", b"\x00", b"\r \r"):
            self.assertEqual(len(words(blank)), 1, blank)

    def test_one_carriage_return_at_the_end_is_no_part_of_a_line(self):
        self.assertEqual(words(b"end\r"), [b"end"])
        self.assertEqual(words(b"end\r\r"), [b"end\r"])
        self.assertEqual(words(b"\r"), [])
        self.assertFalse(is_long(b"a" * 4096 + b"\r"))
        self.assertTrue(is_long(b"a" * 4096 + b"\r\r"))
        self.assertTrue(is_long(b"a" * 4097))

    def test_what_begins_a_block(self):
        for good in (
            b"timeline q queue next 1",
            b"timeline q pq next 16777216 rows 131072",
            b"  timeline at dict next 0003 rows 000 ",
            b"timeline q stack next " + b"0" * 4000 + b"1",
        ):
            self.assertTrue(is_header(words(good)), good)
        for bad in (
            b"timeline q queue next 0",
            b"timeline q queue next 16777217",
            b"timeline q pqf next 1",
            b"timeline q queue next 1 rows",
            b"timeline q queue next 1 rows 131073",
            b"timeline q queue next 1 rows 1 2",
            b"timeline end queue next 1",
            b"timeline 1q queue next 1",
            b"timeline " + b"q" * 33 + b" queue next 1",
            b"timeline q queue next +1",
            b"timeline q queue next -1",
            b"timeline q queue next \xb2",
            b"timeline q\n queue next 1",
            b"timeline",
            b"Timeline q queue next 1",
        ):
            self.assertFalse(is_header(words(bad)), bad)

    def test_whose_a_line_is(self):
        for line, name in ((b"new q pq", b"q"), (b"save q", b"q"), (b"timeline q pq next 1", b"q"), (b"q ask size", b"q"), (b"at at 5 enq 1", b"at")):
            self.assertEqual(owner(words(line)), name)
        for line in (b"mute 0", b"", b"new", b"9 ask size", b"edit q add"):
            self.assertIsNone(owner(words(line)), line)


class Answers(unittest.TestCase):
    def test_lines_without_words_and_comments_have_none_unless_they_are_long(self):
        told, _ = answered([b"", b"   ", b"\r", b"; a", b"  ;a", b";" * 4096, b";" * 4097, b"\t", b"\f"], "refused long\nrefused syntax\nrefused syntax\n")
        self.assertEqual(told, [[]] * 6 + [["refused long"], ["refused syntax"], ["refused syntax"]])

    def test_a_save_is_answered_up_to_its_end(self):
        told, _ = answered([b"save q", b"save r"], "timeline q pq next 2 rows 1\n#1 5 ins 3\nend\nrefused no timeline r\n")
        self.assertEqual([len(answers) for answers in told], [3, 1])

    def test_a_block_answers_at_its_end(self):
        block = [b"timeline q pq next 3", b"; a comment", b"", b"#1 5 ins 3", b"#2 6 delmin", b" end "]
        evidence = "edit q add 0 #1 ins 3 bridge 0 gain #1 3\nedit q add 1 #2 delmin bridge 1 lose #1 3\n"
        told, _ = answered(block, "ok\n" + evidence)
        self.assertEqual([len(answers) for answers in told], [0, 0, 0, 0, 0, 3])

    def test_a_comment_before_a_block_and_indented_rows(self):
        told, _ = answered([b"; saved on Monday", b"  timeline q queue next 2", b"   #1 5 enq 3", b"end", b"q ask size"], "ok\n= 1\n")
        self.assertEqual(told, [[], [], [], ["ok"], ["= 1"]])

    def test_a_bad_header_begins_no_block(self):
        told, _ = answered([b"timeline q heap next 2", b"#1 5 enq 3", b"end"], "refused syntax\nrefused syntax\nrefused syntax\n")
        self.assertEqual([len(answers) for answers in told], [1, 1, 1])

    def test_a_block_whose_input_ends(self):
        told, left = answered([b"timeline q queue next 2", b"q ask size", b"end end", b"e" * 5000], "refused row 1 syntax\n")
        self.assertEqual((told, left), ([[]] * 4, ["refused row 1 syntax"]))

    def test_a_long_line_of_a_block_does_not_end_it(self):
        told, _ = answered([b"timeline q queue next 2", b" " * 5000 + b"end", b"end"], "refused row 1 syntax\n")
        self.assertEqual(told, [[], [], ["refused row 1 syntax"]])

    def test_which_line_a_refused_block_speaks_of(self):
        reader, read = Reader(), reader_of(b"refused row 2 time\n")
        for line in (b"; a", b"timeline q queue next 3", b"#1 10 enq 5", b"; b", b"#2 9 deq", b"end"):
            reader.answers(line, read)
        self.assertEqual((reader.line, reader.about), (6, 5))

    def test_an_undo_has_as_many_lines_as_its_step(self):
        script = [b"p at 5 ins 2", b"p move #1 at 9", b"p undo", b"p undo", b"p redo", b"p redo", b"p delete #2", b"p redo", b"p undo", b"p undo"]
        counts = [1, 2, 2, 1, 1, 2, 1, 1, 1, 2]
        written = "".join("refused nothing to redo\n" if at == 7 else "edit p\n" * count for at, count in enumerate(counts))
        told, _ = answered(script, written)
        self.assertEqual([len(answers) for answers in told], counts)

    def test_the_oldest_of_1024_steps_is_forgotten(self):
        script = [b"p move #1 at 9"] + [b"p at 5 ins 2"] * 1024 + [b"p undo"] * 1024 + [b"p undo"]
        written = "edit p\n" * 2 + "edit p\n" * 2048 + "refused nothing to undo\n"
        told, _ = answered(script, written)
        self.assertEqual(told[-1], ["refused nothing to undo"])
