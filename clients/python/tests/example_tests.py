"""Each example prints what stands beside it, and is short."""

import os
import subprocess
import sys
import tempfile
import unittest

EXAMPLES = os.path.join(os.path.dirname(os.path.dirname(os.path.abspath(__file__))), "examples")


class Examples(unittest.TestCase):
    def test_each_prints_what_stands_beside_it(self):
        scripts = sorted(name for name in os.listdir(EXAMPLES) if name.endswith(".py"))
        self.assertEqual(len(scripts), 6)
        for name in scripts:
            place = os.path.join(EXAMPLES, name)
            with self.subTest(name), open(place[:-3] + ".printed", encoding="utf-8") as file, tempfile.TemporaryDirectory() as folder:
                done = subprocess.run([sys.executable, place], cwd=folder, stdout=subprocess.PIPE, encoding="utf-8", check=True)
                self.assertEqual(done.stdout, file.read())

    def test_each_is_under_forty_lines(self):
        for name in os.listdir(EXAMPLES):
            if name.endswith(".py"):
                with open(os.path.join(EXAMPLES, name), encoding="utf-8") as file:
                    self.assertLess(len(file.readlines()), 40, name)
