"""The typed kinds, what the page says, and what a checker of types says."""

import doctest
import inspect
import os
import re
import shutil
import subprocess
import tempfile
import unittest

import retro
from retro import Deque, Dict, PriorityQueue, Queue, Retro, Stack, Timeline

PROGRAM = os.environ["RETRO"]
HERE = os.path.dirname(os.path.dirname(os.path.abspath(__file__)))
MYPY = shutil.which("mypy")


def page():
    """The examples of README as one text."""
    with open(os.path.join(HERE, "README.md"), encoding="utf-8") as file:
        return "\n".join(re.findall(r"^```python\n(.*?)^```$", file.read(), flags=re.M | re.S))


class Kinds(unittest.TestCase):
    def setUp(self):
        self.retro = Retro(PROGRAM)
        self.addCleanup(self.retro.end)

    def test_a_queue(self):
        jobs = self.retro.new("jobs", "queue")
        made = [jobs.enq(5, at=10), jobs.enq(7, at=20), jobs.deq(at=15), jobs.enq(4, before=1), jobs.enq(6, after=1), jobs.deq(after=3)]
        self.assertEqual([edit.number for edit in made], [1, 2, 3, 4, 5, 6])
        self.assertEqual((jobs.front(), jobs.back(), jobs.size(), jobs.all(), jobs.nth(1), jobs.nth(2)), (6, 7, 2, [6, 7], 7, None))
        self.assertEqual((jobs.front(at=10), jobs.back(before=1), jobs.size(after=3), jobs.all(at=9), jobs.front(at=9)), (4, 4, 2, [], None))

    def test_a_stack(self):
        text = self.retro.new("text", "stack")
        text.push(1, at=1), text.push(2, at=2), text.pop(at=3), text.push(3, after=1)
        self.assertEqual((text.top(), text.all(at=2), text.nth(0, at=1), text.size(before=2)), (3, [2, 3, 1], 3, 2))

    def test_a_deque(self):
        yard = self.retro.new("yard", "deque")
        yard.pushl(1, at=1), yard.pushr(2, at=1), yard.pushl(3, at=1), yard.popl(at=2), yard.popr(at=3)
        self.assertEqual((yard.left(at=1), yard.right(at=1), yard.all(at=1), yard.all(), yard.left(at=0), yard.right(at=2), yard.nth(2, at=1)), (3, 2, [3, 1, 2], [1], None, 2, 2))

    def test_a_dict(self):
        water = self.retro.new("water", "dict")
        water.put(12, 310, at=1), water.put(17, -40, at=2), water.remove(12, at=9)
        self.assertEqual((water.get(12), water.get(12, at=8), water.all(), water.all(at=8)), (None, 310, [(17, -40)], [(12, 310), (17, -40)]))
        self.assertEqual((water.succ(0, at=8), water.succ(18), water.pred(99), water.pred(0)), ((12, 310), None, (17, -40), None))
        self.assertEqual((water.count(0, 99, at=8), water.sum(0, 99, at=8), water.sum(5, 1), water.size()), (2, 270, 0, 1))

    def test_a_priority_queue(self):
        for name, kind in (("p", "pq"), ("q", "pqf")):
            orders = self.retro.new(name, kind)
            self.assertEqual(orders.ins(4, at=1).evidence[0].key, 4)
            orders.ins(2, at=1), orders.delmin(at=5)
            self.assertEqual((orders.min(), orders.min(at=1), orders.all(at=1), orders.nth(1, at=1), orders.min(at=0), orders.size()), (4, 2, [2, 4], 4, None, 1))

    def test_the_type_of_a_timeline(self):
        for name, kind, made in (("a", "queue", Queue), ("b", "stack", Stack), ("c", "deque", Deque), ("d", "dict", Dict), ("e", "pq", PriorityQueue), ("f", "pqf", PriorityQueue)):
            for timeline in (self.retro.new(name, kind), self.retro.timeline(name), made.of(self.retro.timeline(name))):
                self.assertIs(type(timeline), made)
        self.assertIs(type(self.retro.load(self.retro.save("a"), "g")), Queue)
        self.assertRaises(TypeError, Stack.of, self.retro.timeline("a"))
        self.assertEqual(repr(self.retro.timeline("a")), "<Queue: queue a>")
        self.assertIsInstance(Timeline(self.retro, "a", "queue"), Timeline)

    def test_an_operation_names_one_moment(self):
        jobs = self.retro.new("jobs", "queue")
        self.assertRaises(ValueError, jobs.enq, 5)
        self.assertRaises(ValueError, jobs.enq, 5, at=1, after=1)
        for wrong in (lambda: jobs.enq(5.0, at=1), lambda: jobs.enq(5, at=1.0), lambda: jobs.front(before=1.0), lambda: jobs.nth(1.0), lambda: jobs.enq("5", at=1)):
            self.assertRaises(TypeError, wrong)
        self.assertEqual(jobs.size(), 0)

    def test_what_is_shown_and_told(self):
        with self.assertLogs("retro", "INFO") as told:
            with Retro(PROGRAM) as other:
                self.assertRegex(repr(other), r"<Retro: process \d+, 0 lines answered>")
                other.confirm()
            self.assertEqual(repr(other), "<Retro: ended with status 1, 1 lines answered>")
        self.assertEqual([line.split(" ", 2)[2] for line in told.output], ["%s run" % PROGRAM, "ended with status 1"] if " " not in PROGRAM else told.output)
        self.assertRegex(retro.__version__, r"\A\d+\.\d+\Z")

    def test_each_public_name_says_what_it_is(self):
        for name in retro.__all__:
            self.assertTrue(inspect.getdoc(getattr(retro, name)), name)
            for call, function in inspect.getmembers(getattr(retro, name), inspect.isfunction):
                if not call.startswith("_") and function.__module__.startswith("retro"):
                    self.assertTrue(inspect.getdoc(function), "%s.%s" % (name, call))


class Page(unittest.TestCase):
    def test_the_examples_of_the_page(self):
        found = doctest.DocTestParser().get_doctest(page(), {}, "README.md", "README.md", 0)
        self.assertGreater(len(found.examples), 20)
        folder = tempfile.TemporaryDirectory()
        self.addCleanup(folder.cleanup)
        self.addCleanup(os.chdir, os.getcwd())
        os.chdir(folder.name)
        told = []
        doctest.DocTestRunner().run(found, out=told.append)
        self.assertEqual("".join(told), "")

    @unittest.skipUnless(MYPY, "no mypy here: types are not checked")
    def test_types(self):
        with tempfile.TemporaryDirectory() as folder:
            place = os.path.join(folder, "readme.py")
            with open(place, "w", encoding="utf-8") as file:
                file.write(doctest.script_from_examples(page()))
            examples = [os.path.join(HERE, "examples", name) for name in os.listdir(os.path.join(HERE, "examples")) if name.endswith(".py")]
            for checked in (["-p", "retro"], [place, *examples]):
                words = [MYPY, "--strict", "--no-error-summary", "--cache-dir", os.path.join(folder, "cache"), *checked]
                done = subprocess.run(words, cwd=HERE, env=dict(os.environ, MYPYPATH=HERE), stdout=subprocess.PIPE, stderr=subprocess.STDOUT, encoding="utf-8", check=False)
                self.assertEqual((done.returncode, done.stdout), (0, ""))
