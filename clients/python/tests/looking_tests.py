"""The commands `explain`, `check` and `page`."""

import os
import subprocess
import sys
import tempfile
import unittest


class Looking(unittest.TestCase):
    def setUp(self):
        folder = tempfile.TemporaryDirectory()
        self.addCleanup(folder.cleanup)
        self.folder = folder.name

    def file(self, name, text):
        with open(os.path.join(self.folder, name), "w", encoding="utf-8", newline="") as file:
            file.write(text)

    def retro(self, *words, status=0):
        command, pipe = [sys.executable, "-m", "retro", *words], subprocess.PIPE
        done = subprocess.run(command, cwd=self.folder, stdout=pipe, stderr=pipe, encoding="utf-8", check=False)
        self.assertEqual(done.returncode, status, done.stderr)
        return done.stdout

    def test_explain(self):
        self.file("a.script", "new q queue\nq at 5 enq 1\nq at 9 enq 2\nnew r queue\nq move #1 at 10\n")
        self.file("b.block", "timeline q queue next 3 rows 2\n#1 5 enq 1\n#2 9 enq 2\nend\n")
        self.file("names", "number,name\n1,Anna\n")
        moved = "  Row 1, enq Anna at 5, was moved to 10, and is row 3 now.\n"
        self.assertIn(moved, self.retro("explain", "a.script", "5", "--names", "names", "--timeline", "q"))
        text = self.retro("explain", "b.block", "a.script", "--ask", "front")
        self.assertIn("  front differs from 5 until 9: 1 against nothing.\n  front differs from 9 on: 1 against 2.\n", text)
        self.assertIn("r stands in the second alone.\n", text)
        self.retro("explain", "a.script", "9", status=2)
        self.retro("explain", "a.script", "b.block", "--timeline", "r", status=2)

    def test_check(self):
        self.file("p.evidence", "ok\nedit p add 0 #1 ins 4 bridge 0 gain #1 4\nedit p add 1 #2 delmin bridge 0 lose #1 4\n")
        self.file("p.block", "timeline p pq next 3 rows 2\n#1 10 ins 4\n#2 20 delmin\nend\n")
        lines = [
            "     2  accepted (its row stands at 10)",
            "     3  refused, bridge: true would have been bridge 1, and that the present has lost the entry of row 1, key 4 (its row stands at 20)",
        ]
        self.assertEqual(self.retro("check", "p.evidence", "--rows", "p.block", status=1).splitlines(), lines)

    def test_page(self):
        self.file("a.script", "new q queue\nq at 202603010805 enq 1\n")
        self.file("names", "number,name\n1,<b>\n")
        text = self.retro("page", "a.script", "--names", "names", "--calendar")
        self.assertTrue(text.startswith("<!doctype html>") and text.endswith("</html>\n"))
        self.assertIn('"title":"a.script","calendar":true,"names":{"1":"\\u003cb>"}', text)
        self.file("none.script", "; nothing\n")
        self.retro("page", "none.script", status=2)
